//! The knob: settings opened by the paper's formula over whole numbers, and the clear map.

use super::limits::{CLEAR, KNOB};
use super::refusals::tested;
use olavinthu::{Opened, Setting};
use std::sync::LazyLock;

/// "The good value for k is the f32 whose IEEE 754 word is
/// (m + 121)·2^23 + (k − 2^m)·2^(23−m), with 2^m the greatest power of two not above k."
pub fn good_word(k: u32) -> u32 {
    let m = k.ilog2();
    (m + 121) * (1 << 23) + (k - (1 << m)) * (1 << (23 - m))
}

/// The good words of k = 1, 2, .., in rising order.
static GOOD_WORDS: LazyLock<Vec<u32>> = LazyLock::new(|| (1..=KNOB).map(good_word).collect());

/// The whole number that a value is good for, if it is good.
pub(super) fn whole(value: f32) -> Option<u32> {
    let at = GOOD_WORDS.binary_search(&value.to_bits()).ok()?;
    Some(at as u32 + 1)
}

/// "Opening a setting gives those two whole numbers a (pitch) and b (radius), or refusal 8."
pub fn opened(setting: Setting) -> Result<Opened, u32> {
    let (a, b) = (whole(setting.pitch), whole(setting.radius));
    a.zip(b).map(|(a, b)| Opened { a, b }).ok_or(8)
}

/// All that decides a clear map: the setting, the squared distances and the length of the byte slice.
#[derive(Clone)]
pub struct ClearCall {
    pub setting: Setting,
    pub squares: Vec<u32>,
    pub clear: usize,
}

impl ClearCall {
    /// Row 4: "clear-map slices unequal, empty or over" the greatest length.
    fn bad_slices(&self) -> bool {
        let length = self.squares.len();
        length != self.clear || length == 0 || length > CLEAR
    }

    pub fn refusal(&self) -> Result<(), u32> {
        tested(&[(4, self.bad_slices()), (8, opened(self.setting).is_err())])
    }

    pub fn answer(&self) -> Result<Vec<u8>, u32> {
        self.refusal()?;
        let Opened { a, b } = opened(self.setting)?;
        let [a, b] = [a, b].map(u128::from);
        // "1 where d·a² ≥ b², else 0."
        let clear = |&d: &u32| u8::from(u128::from(d) * a * a >= b * b);
        Ok(self.squares.iter().map(clear).collect())
    }
}

#[cfg(test)]
mod tests {
    use super::*;

    fn setting(pitch: f32, radius: f32) -> Setting {
        Setting { pitch, radius }
    }

    #[test]
    fn a_good_word_is_a_64th_of_its_number() {
        for k in 1..=KNOB {
            let value = f32::from_bits(good_word(k));
            assert_eq!(value, k as f32 / 64.0);
            assert_eq!(whole(value), Some(k));
        }
    }

    #[test]
    fn the_listed_values() {
        assert_eq!(whole(0.015625), Some(1));
        assert_eq!(whole(64.0), Some(4_096));
        let bad = [64.015625, 0.01, 0.0, -0.0, -1.0, f32::INFINITY, f32::NAN];
        for value in bad {
            assert_eq!(whole(value), None, "{value}");
        }
    }

    #[test]
    fn both_values_must_be_good() {
        assert_eq!(opened(setting(0.5, 2.0)), Ok(Opened { a: 32, b: 128 }));
        assert_eq!(opened(setting(0.01, 2.0)), Err(8));
        assert_eq!(opened(setting(0.5, 0.01)), Err(8));
    }

    #[test]
    fn clear_from_16_on() {
        let call =
            ClearCall { setting: setting(0.5, 2.0), squares: vec![15, 16, u32::MAX], clear: 3 };
        assert_eq!(call.answer(), Ok(vec![0, 1, 1]));
    }

    #[test]
    fn lengths_are_tested_before_the_setting() {
        let mut call = ClearCall { setting: setting(0.01, 2.0), squares: vec![0; 2], clear: 1 };
        assert_eq!(call.answer(), Err(4));
        call.clear = 2;
        assert_eq!(call.answer(), Err(8));
        (call.squares, call.clear) = (vec![], 0);
        assert_eq!(call.answer(), Err(4));
    }

    #[test]
    fn the_longest_clear_map() {
        let refusal = |length| {
            let squares = vec![0; length];
            ClearCall { setting: setting(0.5, 2.0), squares, clear: length }.refusal()
        };
        assert_eq!(refusal(4_194_304), Ok(()));
        assert_eq!(refusal(4_194_305), Err(4));
    }
}
