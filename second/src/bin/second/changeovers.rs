//! Changeovers.

use crate::bare;
use crate::run::{agreed, Call, Run};
use second::generator::Generator;
use second::rules::limits::{COLUMN, VALUE};
use second::rules::ChangeoverCall;

impl Call for ChangeoverCall {
    fn name(&self) -> &'static str {
        "changeover"
    }

    fn compare(&self, generator: &mut Generator) -> Result<u32, String> {
        let answered = olavinthu::changeover(self.i, self.u, self.a, self.b);
        let number = agreed(answered.map(i128::from), self.answer())?;
        if number != 0 {
            bare::silent_changeover(self, generator)?;
        }
        Ok(number)
    }

    fn drawn(&self) -> String {
        let ChangeoverCall { i, u, a, b } = self;
        format!("columns {i} and {u}, values {a} and {b}")
    }
}

pub fn compare(run: &mut Run) {
    at_the_edges(run);
    small_values(run);
    random(run);
}

/// Columns and values at, next to and far over their limits.
fn at_the_edges(run: &mut Run) {
    let columns = [0, 1, 2, 255, 256, COLUMN - 1, COLUMN, COLUMN + 1, COLUMN + 2, u32::MAX];
    let values = [0, 1, 2, VALUE - 1, VALUE, VALUE + 1, 1 << 31, u32::MAX];
    for i in columns {
        for u in columns {
            for a in values {
                for b in values {
                    run.hold("edges", &ChangeoverCall { i, u, a, b });
                }
            }
        }
    }
}

/// Small values, so that numerators lie on both sides of 0 and of every multiple of the divisor.
fn small_values(run: &mut Run) {
    for u in 1..6 {
        for i in 0..u {
            for a in 0..40 {
                for b in 0..40 {
                    run.hold("small columns and values", &ChangeoverCall { i, u, a, b });
                }
            }
        }
    }
}

fn random(run: &mut Run) {
    for _ in 0..200_000 {
        let generator = &mut run.generator;
        let reach = generator.pick(&[10, 1_000, 300_000, VALUE + 1]);
        let call = ChangeoverCall::random(reach, generator);
        run.hold("random", &call);
    }
}
