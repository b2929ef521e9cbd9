//! The contests that have no board: openings, changeovers and millimetres.

use crate::contest::{Contest, OURS};
use crate::plain;
use olavinthu::{Opened, Setting, TEXT_BYTES};
use second::generator::Generator;
use second::rules::limits::{KNOB, VALUE};
use second::rules::{ChangeoverCall, MillimetresCall};

/// Openings of good settings.
#[derive(Default)]
pub struct Openings {
    ours: Option<Opened>,
    plain: Option<Opened>,
}

impl Openings {
    pub fn inputs(count: usize) -> Vec<Setting> {
        let mut generator = Generator::new(1);
        let mut value = || (1 + generator.below(KNOB)) as f32 / 64.0;
        (0..count).map(|_| Setting { pitch: value(), radius: value() }).collect()
    }
}

impl Contest<2> for Openings {
    type Input = Setting;

    fn answer(&mut self, program: usize, setting: &Setting) {
        match program {
            OURS => self.ours = olavinthu::open(*setting).ok(),
            _ => self.plain = plain::open(*setting),
        }
    }

    fn same(&mut self) -> bool {
        self.ours == self.plain
    }
}

/// Changeovers of columns and values that are accepted.
#[derive(Default)]
pub struct Changeovers {
    ours: Option<i32>,
    plain: i64,
}

impl Changeovers {
    pub fn inputs(count: usize) -> Vec<ChangeoverCall> {
        let mut generator = Generator::new(1);
        let random = |_| ChangeoverCall::random(VALUE + 1, &mut generator);
        (0..count).map(random).collect()
    }
}

impl Contest<2> for Changeovers {
    type Input = ChangeoverCall;

    fn answer(&mut self, program: usize, call: &ChangeoverCall) {
        match program {
            OURS => self.ours = olavinthu::changeover(call.i, call.u, call.a, call.b).ok(),
            _ => {
                let [i, u, a, b] = [call.i, call.u, call.a, call.b].map(i64::from);
                self.plain = plain::changeover(i, u, a, b);
            }
        }
    }

    fn same(&mut self) -> bool {
        self.ours.map(i64::from) == Some(self.plain)
    }
}

/// Calls for millimetres that are accepted: squared distances of any number of bits, good pitches.
pub fn millimetres(count: usize) -> Vec<MillimetresCall> {
    let mut generator = Generator::new(1);
    let random = |_| MillimetresCall {
        d: generator.word() >> generator.below(32),
        pitch: (1 + generator.below(KNOB)) as f32 / 64.0,
    };
    (0..count).map(random).collect()
}

/// Values in millimetres.
#[derive(Default)]
pub struct Values {
    ours: Option<f64>,
    plain: f64,
}

impl Contest<2> for Values {
    type Input = MillimetresCall;

    fn answer(&mut self, program: usize, call: &MillimetresCall) {
        match program {
            OURS => self.ours = olavinthu::millimetres(call.d, call.pitch).ok(),
            _ => self.plain = plain::millimetres(call.d, call.pitch),
        }
    }

    fn same(&mut self) -> bool {
        self.ours.map(f64::to_bits) == Some(self.plain.to_bits())
    }
}

/// Texts of millimetres: the bytes lent and the length of the text, for each program.
pub struct Texts([([u8; TEXT_BYTES], usize); 2]);

impl Texts {
    pub fn new() -> Texts {
        Texts([([1; TEXT_BYTES], 0); 2])
    }
}

impl Contest<2> for Texts {
    type Input = MillimetresCall;

    fn answer(&mut self, program: usize, call: &MillimetresCall) {
        let MillimetresCall { d, pitch } = *call;
        let (text, length) = &mut self.0[program];
        *length = match program {
            OURS => olavinthu::millimetres_text(d, pitch, text).expect("the call is good"),
            _ => plain::millimetres_text(d, pitch, text),
        };
    }

    fn same(&mut self) -> bool {
        let [(ours, our_length), (plain, plain_length)] = &self.0;
        ours[..*our_length] == plain[..*plain_length]
    }
}
