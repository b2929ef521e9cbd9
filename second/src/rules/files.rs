//! "The bench file": what its records bore, the three numbers, and the text of the answer.

use super::limits::{BENCH_SIDE, FILE};
use super::refusals::tested;
use std::collections::BTreeSet;

/// The bytes that the bench program is given.
pub struct BenchFile {
    pub bytes: Vec<u8>,
}

impl BenchFile {
    /// "Records of 4 bytes, no header, x then y as little-endian u16."
    pub fn records(&self) -> Vec<(u32, u32)> {
        let number = |low, high| u32::from(u16::from_le_bytes([low, high]));
        self.bytes.chunks_exact(4).map(|r| (number(r[0], r[1]), number(r[2], r[3]))).collect()
    }

    /// How many cells are bored, the greatest kind 0 word, and the first cell that has it; or the
    /// refusal.
    pub fn answer(&self) -> Result<[u32; 3], u32> {
        let length = self.bytes.len();
        let bores: BTreeSet<_> = self.records().into_iter().collect();
        tested(&[
            (10, length % 4 != 0 || length > FILE),
            (11, bores.iter().any(|&(x, y)| x >= BENCH_SIDE || y >= BENCH_SIDE)),
            (6, bores.is_empty()),
        ])?;
        let word = |cell: u32| {
            let (x, y) = (cell % BENCH_SIDE, cell / BENCH_SIDE);
            let apart = |&(i, j): &(u32, u32)| x.abs_diff(i).pow(2) + y.abs_diff(j).pow(2);
            bores.iter().map(apart).min().unwrap_or(0)
        };
        let words: Vec<u32> = (0..BENCH_SIDE * BENCH_SIDE).map(word).collect();
        let farthest = words.iter().copied().max().unwrap_or(0);
        let cell = words.iter().take_while(|&&word| word < farthest).count();
        Ok([bores.len() as u32, farthest, cell as u32])
    }

    /// What the program prints.
    pub fn text(&self) -> String {
        match self.answer() {
            Ok([sites, farthest, cell]) => {
                format!("sites {sites}\nfarthest {farthest}\ncell {cell}\n")
            }
            Err(number) => format!("refused {number}\n"),
        }
    }
}

#[cfg(test)]
mod tests {
    use super::*;

    #[test]
    fn the_paper_s_files() {
        let corner = BenchFile { bytes: vec![0; 4] };
        assert_eq!(corner.text(), "sites 1\nfarthest 7938\ncell 4095\n");
        assert_eq!(BenchFile { bytes: vec![] }.text(), "refused 6\n");
    }

    #[test]
    fn a_repeated_record_counts_once() {
        let twice = BenchFile { bytes: vec![0; 8] };
        assert_eq!(twice.answer(), Ok([1, 7938, 4095]));
    }

    #[test]
    fn ten_goes_before_eleven_and_eleven_before_six() {
        assert_eq!(BenchFile { bytes: vec![64, 0, 0, 0, 0] }.answer(), Err(10));
        assert_eq!(BenchFile { bytes: vec![64, 0, 0, 0] }.answer(), Err(11));
        assert_eq!(BenchFile { bytes: vec![0; 16_388] }.answer(), Err(10));
    }
}
