//! How programs are timed against each other.

use std::array::from_fn;
use std::hint::black_box;
use std::slice::from_ref;
use std::time::{Duration, Instant};

/// How long the rounds of a pass go on, at the least.
const LEAST: Duration = Duration::from_millis(60);

/// The archive, where it stands against a plain program.
pub const OURS: usize = 0;

/// Nanoseconds a cell, or of a call where there is no board, in the best turn of each program; or
/// else the number of the input on which two of them differ.
pub type Timed<const PROGRAMS: usize> = Result<[f64; PROGRAMS], usize>;

/// Programs, known by their numbers, that answer the same inputs. Their memory is made before the
/// first call, and filled with something else than 0: the system hands out pages of zeros when they
/// are first written to, and at a side of 2,048 the first turn may be the only one of its pass.
pub trait Contest<const PROGRAMS: usize> {
    type Input;

    fn answer(&mut self, program: usize, input: &Self::Input);

    /// Whether the program that came last has left the answer of the first one, in every cell. It
    /// need not stay there.
    fn same(&mut self) -> bool;
}

/// Times a contest on inputs of so many cells each. The answers of the first round are compared. It
/// counts only where there is one input: of several, each is answered by one program right after
/// the other, and where these share code, the processor has just learned the input by heart.
pub fn times<const PROGRAMS: usize, C: Contest<PROGRAMS>>(
    contest: &mut C,
    inputs: &[C::Input],
    cells: usize,
) -> Timed<PROGRAMS> {
    let start = Instant::now();
    let first = compared(contest, inputs)?;
    let counted = (inputs.len() == 1).then_some(first);
    let best = best_turns(start, counted, || {
        from_fn(|program| turn(inputs, |input| contest.answer(program, input)))
    });
    Ok(best.map(|turn| nanos(turn, inputs.len() * cells)))
}

/// The first round: each input is answered by one program after the other, and the answers are
/// compared.
fn compared<const PROGRAMS: usize, C: Contest<PROGRAMS>>(
    contest: &mut C,
    inputs: &[C::Input],
) -> Result<[Duration; PROGRAMS], usize> {
    let mut round = [Duration::ZERO; PROGRAMS];
    for (at, input) in inputs.iter().enumerate() {
        for (program, time) in round.iter_mut().enumerate() {
            *time += turn(from_ref(input), |input| contest.answer(program, input));
            if program > 0 && !contest.same() {
                return Err(at);
            }
        }
    }
    Ok(round)
}

/// The best turn of each program, over the first round, if there was one that counts, and as many
/// more as there is time for since the start. The programs take turns in a round, so that a change
/// of the machine's pace meets all.
pub fn best_turns<const PROGRAMS: usize>(
    start: Instant,
    first: Option<[Duration; PROGRAMS]>,
    mut round: impl FnMut() -> [Duration; PROGRAMS],
) -> [Duration; PROGRAMS] {
    let mut best = first.unwrap_or_else(&mut round);
    while start.elapsed() < LEAST {
        let turns = round();
        best = from_fn(|program| best[program].min(turns[program]));
    }
    best
}

/// How long it takes to answer all the inputs.
pub fn turn<I>(inputs: &[I], mut answer: impl FnMut(&I)) -> Duration {
    let start = Instant::now();
    for input in inputs {
        answer(black_box(input));
    }
    start.elapsed()
}

/// What one of so many cells takes, in nanoseconds.
pub fn nanos(turn: Duration, cells: usize) -> f64 {
    turn.as_secs_f64() * 1e9 / cells as f64
}
