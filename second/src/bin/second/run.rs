//! A run: makes calls, holds each against the rules, counts them, and stops at the first difference.

use olavinthu::Refusal;
use second::generator::Generator;
use std::collections::BTreeMap;
use std::fmt::Debug;

/// A call that can be made of the archive and held against the rules.
pub trait Call {
    /// What is asked for.
    fn name(&self) -> &'static str;

    /// Makes the call in lists full of rubbish. The number answered, 0 for acceptance, or what the
    /// archive does otherwise than the rules.
    fn compare(&self, generator: &mut Generator) -> Result<u32, String>;

    /// What a number other than 0 did to the call.
    fn outcome(&self) -> &'static str {
        "refused"
    }

    /// The whole call for a reader, with its board.
    fn drawn(&self) -> String;
}

/// Holds an answer against that of the rules; if they are the same, its number.
pub fn agreed<T: PartialEq + Debug>(
    answered: Result<T, Refusal>,
    expected: Result<T, u32>,
) -> Result<u32, String> {
    let answered = answered.map_err(Refusal::number);
    if answered != expected {
        return Err(format!("answered {answered:?}, not {expected:?}"));
    }
    Ok(answered.err().unwrap_or(0))
}

/// How often each number was answered to one group of calls, and what it did to them.
struct Tally {
    name: &'static str,
    group: &'static str,
    answers: BTreeMap<(u32, &'static str), u64>,
}

impl Tally {
    fn calls(&self) -> u64 {
        self.answers.values().sum()
    }
}

pub struct Run {
    pub generator: Generator,
    seed: u64,
    tallies: Vec<Tally>,
}

impl Run {
    pub fn new(seed: u64) -> Run {
        Run { generator: Generator::new(seed), seed, tallies: vec![] }
    }

    /// Makes one call and counts it.
    pub fn hold(&mut self, group: &'static str, call: &impl Call) {
        match call.compare(&mut self.generator) {
            Ok(number) => self.count(call, group, number),
            Err(fault) => {
                println!("{}, {group}: {fault}", call.name());
                println!("{}", call.drawn());
                println!("seed {}", self.seed);
                std::process::exit(1);
            }
        }
    }

    fn count(&mut self, call: &impl Call, group: &'static str, number: u32) {
        let name = call.name();
        let same = |tally: &Tally| tally.name == name && tally.group == group;
        let at = self.tallies.iter().position(same).unwrap_or_else(|| {
            self.tallies.push(Tally { name, group, answers: BTreeMap::new() });
            self.tallies.len() - 1
        });
        let answer = (number, call.outcome());
        *self.tallies[at].answers.entry(answer).or_insert(0) += 1;
    }

    /// Prints how many calls of each group were made, and how many of them were refused with what, or
    /// stopped.
    pub fn report(&self) {
        println!("seed {}", self.seed);
        for tally in &self.tallies {
            let numbers: String = tally
                .answers
                .iter()
                .filter(|((number, _), _)| *number != 0)
                .map(|((number, outcome), times)| format!("   {outcome} {number}: {times}"))
                .collect();
            println!("{:<12}{:<40}{:>8}{numbers}", tally.name, tally.group, tally.calls());
        }
        let calls: u64 = self.tallies.iter().map(Tally::calls).sum();
        println!("{calls} calls, no difference");
    }
}
