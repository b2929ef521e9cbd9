//! Openings of settings, and clear maps.

use crate::bare;
use crate::lent::{rubbish, unchanged, Lent};
use crate::run::{agreed, Call, Run};
use olavinthu::Setting;
use second::generator::Generator;
use second::rules::limits::{CLEAR, KNOB, SIDE};
use second::rules::{good_word, opened, ClearCall};

/// The opening of a setting.
struct Opening(Setting);

impl Call for Opening {
    fn name(&self) -> &'static str {
        "open"
    }

    fn compare(&self, generator: &mut Generator) -> Result<u32, String> {
        let number = agreed(olavinthu::open(self.0), opened(self.0))?;
        if number != 0 {
            bare::silent_opening(self.0, generator)?;
        }
        Ok(number)
    }

    fn drawn(&self) -> String {
        drawn(self.0)
    }
}

impl Call for ClearCall {
    fn name(&self) -> &'static str {
        "clear"
    }

    fn compare(&self, generator: &mut Generator) -> Result<u32, String> {
        let before = self.squares.clone();
        let mut clear = Lent::filled(self.clear, || generator.word() as u8);
        let answered = olavinthu::clear(self.setting, &self.squares, clear.list_mut());
        unchanged("squares", &before, &self.squares)?;
        let number = agreed(answered, self.refusal())?;
        match self.answer() {
            Ok(bytes) => clear.holds("clear", &bytes)?,
            Err(_) => clear.untouched("clear")?,
        }
        Ok(number)
    }

    fn drawn(&self) -> String {
        let (squares, clear) = (self.squares.len(), self.clear);
        let first: Vec<_> = self.squares.iter().take(32).collect();
        let setting = drawn(self.setting);
        format!("{setting}, {squares} squares and {clear} bytes, squares from {first:?}")
    }
}

fn drawn(setting: Setting) -> String {
    format!("pitch {}, radius {}", drawn_value(setting.pitch), drawn_value(setting.radius))
}

pub fn drawn_value(value: f32) -> String {
    format!("{value} (word {:#010x})", value.to_bits())
}

pub fn compare(run: &mut Run) {
    good_values(run);
    listed_values(run);
    random_values(run);
    clear_maps(run);
    clear_lengths(run);
}

/// A good value, now and then one at the edges.
pub fn good(generator: &mut Generator) -> f32 {
    let any = 1 + generator.below(KNOB);
    let k = generator.pick(&[any, any, any, any, 1, 2, KNOB - 1, KNOB]);
    f32::from_bits(good_word(k))
}

/// Opens a value as the pitch and as the radius, beside a good one.
fn both_ways(run: &mut Run, group: &'static str, value: f32) {
    let beside = good(&mut run.generator);
    for (pitch, radius) in [(value, beside), (beside, value)] {
        run.hold(group, &Opening(Setting { pitch, radius }));
    }
}

fn good_values(run: &mut Run) {
    for k in 1..=KNOB {
        let word = good_word(k);
        both_ways(run, "every good value", f32::from_bits(word));
        for next in next_to(word) {
            both_ways(run, "next to each good value", f32::from_bits(next));
        }
    }
}

/// Below a word, above it, half and double, and negative.
pub fn next_to(word: u32) -> [u32; 5] {
    [word - 1, word + 1, word - (1 << 23), word + (1 << 23), word | 1 << 31]
}

/// The words of the values that document 01 lists, and of those that are not ordinary numbers.
pub fn listed_and_strange() -> impl Iterator<Item = u32> {
    let listed = [0.015625, 64.0, 64.015625, 0.01, 0.0, -1.0];
    let strange = [-0.0, f32::INFINITY, f32::NEG_INFINITY, f32::MIN_POSITIVE, f32::MAX];
    let values = listed.into_iter().chain(strange).map(f32::to_bits);
    // NaNs that are quiet and that signal, of both signs, and the least and greatest subnormal.
    let words = [0x7fc0_0000, 0x7f80_0001, 0x7fff_ffff, 0xffc0_0000, 0xff80_0001, 1, 0x7f_ffff];
    values.chain(words)
}

fn listed_values(run: &mut Run) {
    for word in listed_and_strange() {
        both_ways(run, "the listed and the strange values", f32::from_bits(word));
    }
}

/// Words of any pattern, and words near good ones.
fn random_values(run: &mut Run) {
    for _ in 0..100_000 {
        let any = run.generator.word();
        both_ways(run, "random words", f32::from_bits(any));
        let near = near_good(&mut run.generator);
        both_ways(run, "random words near good ones", f32::from_bits(near));
    }
}

/// A word with the exponent of a good value; some of them have few digits and so are good themselves.
pub fn near_good(generator: &mut Generator) -> u32 {
    let exponent = 121 + generator.below(13);
    let digits = generator.pick(&[6, 12, 23]);
    let mantissa = generator.below(1 << digits) << (23 - digits);
    exponent << 23 | mantissa
}

/// The greatest squared distance on a board.
const FARTHEST: u32 = 2 * (SIDE - 1).pow(2);

/// Squared distances of every size, and those next to b² / a², from where on a cell is clear.
fn squares(setting: Setting, count: usize, generator: &mut Generator) -> Vec<u32> {
    let bound = (f64::from(setting.radius) / f64::from(setting.pitch)).powi(2) as u32;
    let mut square = |_| match generator.below(4) {
        0 => rubbish(generator),
        1 => generator.below(FARTHEST + 1),
        _ => (bound + generator.below(5)).saturating_sub(2),
    };
    (0..count).map(&mut square).collect()
}

fn clear_maps(run: &mut Run) {
    for _ in 0..20_000 {
        let generator = &mut run.generator;
        let setting = Setting { pitch: good(generator), radius: good(generator) };
        let count = 1 + generator.below(40) as usize;
        let squares = squares(setting, count, generator);
        run.hold("random", &ClearCall { setting, squares, clear: count });
    }
}

/// Lengths that are equal or not, around 0 and around the limit, with good and with bad settings.
fn clear_lengths(run: &mut Run) {
    let lengths = [0, 1, 2, CLEAR - 1, CLEAR, CLEAR + 1];
    let pitches = [1.0, 0.01];
    for count in lengths {
        let setting = Setting { pitch: 1.0, radius: 2.0 };
        let squares = squares(setting, count, &mut run.generator);
        let mut call = ClearCall { setting, squares, clear: 0 };
        for clear in lengths {
            for pitch in pitches {
                (call.setting.pitch, call.clear) = (pitch, clear);
                run.hold("lengths", &call);
            }
        }
    }
}
