//! The changeover: the floor of (u² − i² + b − a) / (2(u − i)).

use super::limits::{COLUMN, VALUE};
use super::refusals::tested;
use crate::generator::Generator;

/// All that decides a changeover.
#[derive(Clone, Copy)]
pub struct ChangeoverCall {
    pub i: u32,
    pub u: u32,
    pub a: u32,
    pub b: u32,
}

impl ChangeoverCall {
    /// A call on random columns with values below `reach`. It is accepted if those are.
    pub fn random(reach: u32, generator: &mut Generator) -> ChangeoverCall {
        let u = 1 + generator.below(COLUMN);
        let i = generator.below(u);
        ChangeoverCall { i, u, a: generator.below(reach), b: generator.below(reach) }
    }

    pub fn refusal(&self) -> Result<(), u32> {
        let over = self.a > VALUE || self.b > VALUE;
        tested(&[(9, self.i >= self.u || self.u > COLUMN || over)])
    }

    pub fn answer(&self) -> Result<i128, u32> {
        self.refusal()?;
        let [i, u, a, b] = [self.i, self.u, self.a, self.b].map(i128::from);
        // The divisor is positive, so the Euclidean quotient is the floor.
        Ok((u * u - i * i + b - a).div_euclid(2 * (u - i)))
    }
}

#[cfg(test)]
mod tests {
    use super::*;

    fn asked(i: u32, u: u32, a: u32, b: u32) -> Result<i128, u32> {
        ChangeoverCall { i, u, a, b }.answer()
    }

    #[test]
    fn the_samples() {
        assert_eq!(asked(0, 1, 2_000_000, 0), Ok(-1_000_000));
        assert_eq!(asked(510, 511, 0, 2_000_000), Ok(1_000_510));
        assert_eq!(asked(0, 1, 17_000_000, 0), Ok(-8_500_000));
    }

    #[test]
    fn a_negative_numerator_goes_down() {
        // (1 − 0 + 0 − 2) / 2 is −1/2: not 0 but −1.
        assert_eq!(asked(0, 1, 2, 0), Ok(-1));
    }

    #[test]
    fn what_is_refused() {
        assert_eq!(asked(5, 5, 0, 0), Err(9));
        assert_eq!(asked(6, 5, 0, 0), Err(9));
        assert_eq!(asked(2_046, 2_047, 0, 0), Ok(2_046));
        assert_eq!(asked(2_046, 2_048, 0, 0), Err(9));
        assert_eq!(asked(0, 1, 0, 17_000_000), Ok(8_500_000));
        assert_eq!(asked(0, 1, 0, 17_000_001), Err(9));
        assert_eq!(asked(0, 1, 17_000_001, 0), Err(9));
    }

    /// "The greatest whole p with (p − i)² + a ≤ (p − u)² + b."
    #[test]
    fn the_floor_is_the_greatest_that_holds() {
        let mut generator = Generator::new(1);
        for _ in 0..10_000 {
            let call = ChangeoverCall::random(VALUE + 1, &mut generator);
            let p = call.answer().unwrap();
            let [i, u, a, b] = [call.i, call.u, call.a, call.b].map(i128::from);
            let holds = |p: i128| (p - i) * (p - i) + a <= (p - u) * (p - u) + b;
            assert!(holds(p) && !holds(p + 1));
        }
    }
}
