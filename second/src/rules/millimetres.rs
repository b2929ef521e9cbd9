//! Millimetres on the screen: the value by the formula of 02 over whole numbers, and the eight digits of
//! its text by long division.

use super::knob::{good_word, whole};
use super::limits::TEXT;
use super::refusals::tested;

/// All that decides a value in millimetres: a squared distance and the pitch.
#[derive(Clone, Copy)]
pub struct MillimetresCall {
    pub d: u32,
    pub pitch: f32,
}

/// "The greatest whole number such that N² ≤ 16·d·a²": the root of floats is near, and from there it is
/// looked for by steps of one.
fn greatest(d: u32, a: u32) -> u128 {
    let bound = 16 * u128::from(d) * u128::from(a).pow(2);
    let mut n = (bound as f64).sqrt() as u128;
    while n * n > bound {
        n -= 1;
    }
    while (n + 1) * (n + 1) <= bound {
        n += 1;
    }
    n
}

/// "For 0 the positive zero, else the f64 whose IEEE 754 word is
/// (m + 1,015)·2^52 + (N − 2^m)·2^(52−m), with 2^m the greatest power of two not above N."
fn word(n: u128) -> u128 {
    if n == 0 {
        return 0;
    }
    let m = n.ilog2();
    (u128::from(m) + 1_015) * (1 << 52) + (n - (1 << m)) * (1 << (52 - m))
}

/// Eight digits of the rest of a division by 256, which come out even: 256 divides 10^8.
fn eight_digits(mut rest: u128) -> Vec<u8> {
    let mut digits = vec![];
    for _ in 0..8 {
        digits.push(b'0' + (10 * rest / 256) as u8);
        rest = 10 * rest % 256;
    }
    digits
}

impl MillimetresCall {
    /// A call whose N is this one, from 8 to 2^30 − 1.
    pub fn reaching(n: u32) -> MillimetresCall {
        // 16·a² is small enough to meet the gap between two squares, and with the greatest d large
        // enough to come to N².
        let a = (n >> 18) + 1;
        let d = u64::from(n).pow(2).div_ceil(16 * u64::from(a).pow(2));
        MillimetresCall { d: d as u32, pitch: f32::from_bits(good_word(a)) }
    }

    pub fn refusal(&self) -> Result<(), u32> {
        tested(&[(8, whole(self.pitch).is_none())])
    }

    /// N, or the refusal.
    fn n(&self) -> Result<u128, u32> {
        whole(self.pitch).map(|a| greatest(self.d, a)).ok_or(8)
    }

    /// The word of the f64.
    pub fn answer(&self) -> Result<u64, u32> {
        self.n().map(|n| word(n) as u64)
    }
}

/// All that decides a text: the value, and how many bytes are lent.
#[derive(Clone, Copy)]
pub struct TextCall {
    pub value: MillimetresCall,
    pub lent: usize,
}

impl TextCall {
    /// "Refusal 8 for the pitch; 4, before it, if the buffer is under 20 bytes."
    pub fn refusal(&self) -> Result<(), u32> {
        tested(&[(4, self.lent < TEXT), (8, whole(self.value.pitch).is_none())])
    }

    /// "Whole digits (no needless leading zero, `0` for none), a point and eight digits".
    pub fn answer(&self) -> Result<Vec<u8>, u32> {
        self.refusal()?;
        let n = self.value.n()?;
        let whole = (n / 256).to_string().into_bytes();
        Ok([whole, vec![b'.'], eight_digits(n % 256)].concat())
    }
}

#[cfg(test)]
mod tests {
    use super::*;
    use crate::generator::Generator;
    use crate::rules::limits::KNOB;

    /// N, the value and the text of a call.
    fn shown(d: u32, pitch: f32) -> (u128, f64, String) {
        let value = MillimetresCall { d, pitch };
        let text = TextCall { value, lent: TEXT }.answer().unwrap();
        let word = value.answer().unwrap();
        (value.n().unwrap(), f64::from_bits(word), String::from_utf8(text).unwrap())
    }

    #[test]
    fn the_sample() {
        assert_eq!(shown(2, 1.0), (362, 1.4140625, "1.41406250".into()));
    }

    #[test]
    fn the_edges() {
        assert_eq!(shown(0, 64.0), (0, 0.0, "0.00000000".into()));
        assert_eq!(MillimetresCall { d: 0, pitch: 64.0 }.answer(), Ok(0));
        assert_eq!(shown(1, 0.015625), (4, 0.015625, "0.01562500".into()));
        let greatest = shown(u32::MAX, 64.0);
        assert_eq!(greatest, ((1 << 30) - 1, 4194303.99609375, "4194303.99609375".into()));
        assert_eq!(shown(400_000_000, 50.0), (256_000_000, 1e6, "1000000.00000000".into()));
    }

    #[test]
    fn bytes_are_tested_before_the_pitch() {
        let asked = |pitch, lent| {
            TextCall { value: MillimetresCall { d: 2, pitch }, lent }
                .answer()
                .map(|text| text.len())
        };
        assert_eq!(asked(1.0, 20), Ok(10));
        assert_eq!(asked(1.0, 19), Err(4));
        assert_eq!(asked(0.01, 19), Err(4));
        assert_eq!(asked(0.01, 20), Err(8));
        assert_eq!(MillimetresCall { d: 2, pitch: 64.015625 }.answer(), Err(8));
    }

    /// Values of every size, as floats have and print them: N/256 is exact, and so are its eight
    /// digits.
    #[test]
    fn a_value_is_a_256th_of_its_number() {
        let mut generator = Generator::new(1);
        for _ in 0..5_000 {
            let d = generator.word() >> generator.below(32);
            let pitch = f32::from_bits(good_word(1 + generator.below(KNOB)));
            let (n, value, text) = shown(d, pitch);
            assert_eq!(value, n as f64 / 256.0);
            assert_eq!(text, format!("{value:.8}"));
        }
    }

    #[test]
    fn the_greatest_number_holds_and_the_next_does_not() {
        for d in (0..1_000).chain([u32::MAX - 1, u32::MAX]) {
            for a in [1, 3, 64, KNOB - 1, KNOB] {
                let (n, bound) = (greatest(d, a), 16 * u128::from(d) * u128::from(a * a));
                assert!(n * n <= bound && bound < (n + 1) * (n + 1));
            }
        }
    }

    #[test]
    fn every_number_from_8_on_has_a_call() {
        let mut generator = Generator::new(1);
        let mut reached = |n: u32| assert_eq!(MillimetresCall::reaching(n).n(), Ok(u128::from(n)));
        (8..5_000).chain((1 << 30) - 5_000..1 << 30).for_each(&mut reached);
        for _ in 0..5_000 {
            reached(8 + generator.below((1 << 30) - 8));
        }
    }
}
