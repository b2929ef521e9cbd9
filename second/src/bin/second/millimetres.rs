//! Millimetres on the screen: values, and their texts.
//!
//! Each call is made twice: by the bare function, with an out-word that is watched like a list, and by
//! the wrapper.

use crate::bare;
use crate::damage::spoiled;
use crate::knob::{drawn_value, good, listed_and_strange, near_good, next_to};
use crate::lent::{rubbish, Lent};
use crate::run::{agreed, Call, Run};
use second::generator::Generator;
use second::rules::limits::{KNOB, TEXT};
use second::rules::{good_word, MillimetresCall, TextCall};

impl Call for MillimetresCall {
    fn name(&self) -> &'static str {
        "millimetres"
    }

    fn compare(&self, generator: &mut Generator) -> Result<u32, String> {
        let expected = self.answer();
        let mut out = Lent::filled(1, || out_word(generator));
        agreed(bare::millimetres(self, &mut out.list_mut()[0]), self.refusal())?;
        // A refusal writes nothing.
        out.holds("out", &Vec::from_iter(expected))?;
        let answered = olavinthu::millimetres(self.d, self.pitch);
        agreed(answered.map(f64::to_bits), expected)
    }

    fn drawn(&self) -> String {
        format!("d {}, pitch {}", self.d, drawn_value(self.pitch))
    }
}

/// A word for an f64 to be written over: any, or that of some NaN, whose bits a refusal keeps too.
fn out_word(generator: &mut Generator) -> u64 {
    let any = u64::from(rubbish(generator)) << 32 | u64::from(rubbish(generator));
    generator.pick(&[any, any | 0x7ff << 52])
}

impl Call for TextCall {
    fn name(&self) -> &'static str {
        "text"
    }

    fn compare(&self, generator: &mut Generator) -> Result<u32, String> {
        // A refusal writes nothing.
        let expected = self.answer().unwrap_or_default();
        let length = self.refusal().map(|()| expected.len());
        let mut out = Lent::filled(1, || rubbish(generator));
        let [mut text, mut again] =
            [(); 2].map(|()| Lent::filled(self.lent, || generator.word() as u8));
        let (value, out_word) = (&self.value, &mut out.list_mut()[0]);
        agreed(bare::millimetres_text(value, text.list_mut(), out_word), self.refusal())?;
        text.holds("text", &expected)?;
        out.holds("length", &Vec::from_iter(length.map(|length| length as u32)))?;
        let answered = olavinthu::millimetres_text(value.d, value.pitch, again.list_mut());
        again.holds("text", &expected)?;
        agreed(answered, length)
    }

    fn drawn(&self) -> String {
        format!("{}, {} bytes lent", self.value.drawn(), self.lent)
    }
}

pub fn compare(run: &mut Run) {
    small_distances(run);
    powers_of_two(run);
    squares(run);
    short_of_squares(run);
    good_pitches(run);
    bad_pitches(run);
    random(run);
    digits(run);
    lent_bytes(run);
    damaged(run);
}

/// Holds a value, and its text in the fewest bytes or a few more.
fn both(run: &mut Run, group: &'static str, d: u32, pitch: f32) {
    let value = MillimetresCall { d, pitch };
    run.hold(group, &value);
    let lent = TEXT + run.generator.below(4) as usize;
    run.hold(group, &TextCall { value, lent });
}

/// The good pitch of a whole number.
fn pitch(k: u32) -> f32 {
    f32::from_bits(good_word(k))
}

/// A squared distance of any number of bits.
fn distance(generator: &mut Generator) -> u32 {
    generator.word() >> generator.below(32)
}

fn small_distances(run: &mut Run) {
    for d in 0..3_000 {
        let any = good(&mut run.generator);
        for pitch in [pitch(1), 1.0, pitch(KNOB), any] {
            both(run, "every d below 3,000", d, pitch);
        }
    }
}

fn powers_of_two(run: &mut Run) {
    for power in (0..=32).map(|bits| 1u64 << bits) {
        for d in [power - 1, power, power + 1].into_iter().flat_map(u32::try_from) {
            for k in [1, 2, 3, 64, KNOB - 1, KNOB] {
                both(run, "d next to powers of two", d, pitch(k));
            }
        }
    }
}

/// Squares, which have a whole root, and what is next to them.
fn squares(run: &mut Run) {
    let any: Vec<u32> = (0..500).map(|_| 1 + run.generator.below((1 << 16) - 1)).collect();
    for root in (1..=500).chain((1 << 16) - 500..1 << 16).chain(any) {
        for d in [root * root - 1, root * root, root * root + 1] {
            let pitch = good(&mut run.generator);
            both(run, "d next to squares", d, pitch);
        }
    }
}

/// For d = 4·a²·j² ± j the bound 16·d·a² is one short of a square, that of 8·a²·j ± 1. Its root is all
/// but whole, and the nearest f64 is whole where N is great.
fn short_of_squares(run: &mut Run) {
    for a in 1..=KNOB {
        let most = (1 << 15) / u64::from(a);
        let any = 1 + u64::from(run.generator.below(most as u32));
        let square = |j: u64| (2 * u64::from(a) * j).pow(2);
        for d in [square(most) - most, square(any) + any].into_iter().flat_map(u32::try_from) {
            both(run, "16·d·a² one short of a square", d, pitch(a));
        }
    }
}

fn good_pitches(run: &mut Run) {
    for k in 1..=KNOB {
        let any = distance(&mut run.generator);
        for d in [any, u32::MAX] {
            both(run, "every good pitch", d, pitch(k));
        }
    }
}

/// Half of a good pitch and double are mostly good as well, all else is bad.
fn bad_pitches(run: &mut Run) {
    for k in 1..=KNOB {
        for word in next_to(good_word(k)) {
            let d = distance(&mut run.generator);
            both(run, "next to each good pitch", d, f32::from_bits(word));
        }
    }
    for word in listed_and_strange() {
        for d in [0, 1, 2, u32::MAX] {
            both(run, "the listed and the strange pitches", d, f32::from_bits(word));
        }
    }
}

fn random(run: &mut Run) {
    for _ in 0..10_000 {
        let (d, pitch) = (distance(&mut run.generator), good(&mut run.generator));
        both(run, "random", d, pitch);
    }
    for _ in 0..5_000 {
        let (d, near) = (distance(&mut run.generator), near_good(&mut run.generator));
        both(run, "random pitches near good ones", d, f32::from_bits(near));
    }
}

/// The last whole part of every number of digits and the first of the next, and the greatest, each
/// with every rest that there is, but for N below 8, which the small distances have.
fn digits(run: &mut Run) {
    let powers = (0..=6).map(|zeros| 10u32.pow(zeros));
    let wholes = powers.flat_map(|power| [power - 1, power]).chain([4_194_303]);
    for n in wholes.flat_map(|whole| 256 * whole..256 * whole + 256).filter(|&n| n >= 8) {
        let MillimetresCall { d, pitch } = MillimetresCall::reaching(n);
        both(run, "whole parts of 1 to 7 digits, all rests", d, pitch);
    }
}

/// Bytes around the fewest, and any number of them, with good and with bad pitches.
fn lent_bytes(run: &mut Run) {
    for _ in 0..50 {
        let generator = &mut run.generator;
        let value = MillimetresCall { d: distance(generator), pitch: good(generator) };
        let any = generator.below(1_000) as usize;
        for lent in [0, 1, TEXT - 1, TEXT, TEXT + 1, 2 * TEXT, any] {
            for pitch in [value.pitch, pitch(KNOB), 0.01] {
                let value = MillimetresCall { pitch, ..value };
                run.hold("lengths", &TextCall { value, lent });
            }
        }
    }
}

fn damaged(run: &mut Run) {
    let damages: &[fn(&mut TextCall)] = &[
        |call| call.lent = 0,
        |call| call.lent = 1,
        |call| call.lent = TEXT - 1,
        |call| call.value.pitch = 0.0,
        |call| call.value.pitch = 64.015625,
        |call| call.value.pitch = -call.value.pitch,
        |call| call.value.pitch = f32::NAN,
    ];
    for _ in 0..50 {
        let generator = &mut run.generator;
        let value = MillimetresCall { d: distance(generator), pitch: good(generator) };
        let sound = TextCall { value, lent: TEXT };
        for call in spoiled(&sound, damages, |damage, call| damage(call)) {
            run.hold("one damage or two", &call);
        }
    }
}
