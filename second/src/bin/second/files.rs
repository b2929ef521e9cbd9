//! Bench files. The bench program itself is run: it gets each file in pieces, and what it prints is
//! held against the text of the rules.

use crate::run::{Call, Run};
use second::generator::Generator;
use second::rules::limits::{BENCH_SIDE, FILE};
use second::rules::BenchFile;
use std::io::{self, Write};
use std::process::{Command, Stdio};

/// Where `rt` puts the program.
const PROGRAM: &str = concat!(env!("CARGO_MANIFEST_DIR"), "/../crates/bench/out/bench");

impl Call for BenchFile {
    fn name(&self) -> &'static str {
        "bench file"
    }

    fn compare(&self, generator: &mut Generator) -> Result<u32, String> {
        let output = fed(&self.bytes, generator).map_err(|fault| format!("{PROGRAM}: {fault}"))?;
        let expected = self.text();
        if output != expected.as_bytes() {
            return Err(format!(
                "printed {:?}, not {expected:?}",
                String::from_utf8_lossy(&output)
            ));
        }
        Ok(self.answer().err().unwrap_or(0))
    }

    fn drawn(&self) -> String {
        format!("{} bytes, the records {:?}", self.bytes.len(), self.records())
    }
}

/// What the program prints on bytes that come in pieces.
fn fed(bytes: &[u8], generator: &mut Generator) -> io::Result<Vec<u8>> {
    let mut program = Command::new(PROGRAM).stdin(Stdio::piped()).stdout(Stdio::piped()).spawn()?;
    if let Some(mut input) = program.stdin.take() {
        let mut rest = bytes;
        while !rest.is_empty() {
            let most = rest.len().min(generator.pick(&[1, 3, 100, 5_000])) as u32;
            let (piece, after) = rest.split_at(1 + generator.below(most) as usize);
            // A program that has seen too much stops reading, and the pipe breaks.
            if input.write_all(piece).is_err() {
                break;
            }
            rest = after;
        }
    }
    Ok(program.wait_with_output()?.stdout)
}

pub fn compare(run: &mut Run) {
    sound(run);
    damaged(run);
    lengths(run);
}

/// The bytes of random records, each coordinate below the bound.
fn records(count: u32, bound: u32, generator: &mut Generator) -> Vec<u8> {
    let mut coordinate = || (generator.below(bound) as u16).to_le_bytes();
    (0..2 * count).flat_map(|_| coordinate()).collect()
}

/// Files of few bores and of many, on the whole board or crowded in a corner, so that records repeat.
fn sound(run: &mut Run) {
    for _ in 0..300 {
        let generator = &mut run.generator;
        let count = generator.pick(&[0, 1, 2, 3, 10, 100, 1_000]);
        let bound = generator.pick(&[1, 2, 5, 33, BENCH_SIDE]);
        let bytes = records(count, bound, generator);
        run.hold("sound", &BenchFile { bytes });
    }
}

/// One byte of a sound file changed, or some bytes cut off its end.
fn damaged(run: &mut Run) {
    for _ in 0..200 {
        let generator = &mut run.generator;
        let count = generator.pick(&[1, 2, 20]);
        let mut bytes = records(count, BENCH_SIDE, generator);
        let at = generator.below(bytes.len() as u32) as usize;
        bytes[at] = generator.pick(&[0, 1, 63, 64, 65, 255]);
        bytes.truncate(bytes.len() - generator.pick(&[0, 0, 1, 2, 3]));
        run.hold("damaged", &BenchFile { bytes });
    }
}

/// Lengths next to the longest that is let in.
fn lengths(run: &mut Run) {
    for length in [FILE - 4, FILE - 1, FILE, FILE + 1, FILE + 4, 3 * FILE] {
        let mut bytes = records(3 * FILE as u32 / 4, BENCH_SIDE, &mut run.generator);
        bytes.truncate(length);
        run.hold("the longest", &BenchFile { bytes });
    }
}
