//! Document 02, E1: a map in slices, line by line. In a column each cell is held against every bore
//! of it, in a row against every cell that the row's words name.

use super::limits::SLICE_KIND;
use super::loan::{BoardCall, Lengths};
use super::maps::distance;
use super::refusals::tested;
use olavinthu::{Measure, MARK};

/// What stands in the buffers, which a slice reads as well as writes.
#[derive(Clone)]
pub struct Words {
    pub distances: Vec<u32>,
    pub sites: Vec<u32>,
    pub scratch: Vec<u32>,
}

impl Words {
    /// Buffers of these lengths, filled with words.
    pub fn filled(lengths: Lengths, mut word: impl FnMut() -> u32) -> Words {
        let mut list = |length| (0..length).map(|_| word()).collect();
        Words {
            distances: list(lengths.distances),
            sites: list(lengths.sites),
            scratch: list(lengths.scratch),
        }
    }
}

/// "a call with a line number and a budget", and what stands in the buffers before it. A buffer that
/// is lent shorter has the first of its words only.
#[derive(Clone)]
pub struct SliceAsked {
    pub kind: u32,
    pub line: u32,
    pub budget: u32,
    pub before: Words,
}

/// What a call answers that passes the start: the number that it stopped with, 0 for none, "how many
/// lines it finished and the next line number".
#[derive(Clone, Copy, Debug, PartialEq, Eq)]
pub struct SliceAnswer {
    pub number: u32,
    pub finished: u32,
    pub next: u32,
}

/// A call for some lines of the map of a picture.
pub type SliceCall = BoardCall<u8, SliceAsked>;

impl SliceCall {
    /// "At the start, changing nothing: 1, 2 (kind above 2, also in later editions), 4, and 12 for a
    /// line number above W+H."
    pub fn refusal(&self) -> Result<(), u32> {
        // The sum of two sides that row 1 refuses may be more than a word holds.
        let lines = u64::from(self.board.width) + u64::from(self.board.height);
        tested(&[
            (1, self.bad_sides()),
            (2, self.asked.kind > SLICE_KIND),
            (4, self.bad_lengths()),
            (12, u64::from(self.asked.line) > lines),
        ])
    }

    /// The answer and what stands in the buffers after it, or the refusal of the start.
    pub fn answer(&self) -> Result<(SliceAnswer, Words), u32> {
        self.refusal()?;
        let lines = self.board.width + self.board.height;
        let mut words = self.asked.before.clone();
        let mut answer = SliceAnswer { number: 0, finished: 0, next: self.asked.line };
        // "Budget 0 or line W+H finishes 0 lines. A line is looked at only while budget is left."
        while answer.finished < self.asked.budget && answer.next < lines {
            // "One that can't be done isn't begun, and the call stops there, answering its number with
            // the lines finished and that line as next"
            if let Err(number) = self.stop(answer.next, &words) {
                answer.number = number;
                break;
            }
            self.finish(answer.next, &mut words);
            answer.finished += 1;
            answer.next += 1;
        }
        // "The 2W+2H scratch words after the first W·H are zero after each call that passes the start
        // tests."
        words.scratch[self.board.cells()..self.board.scratch_words()].fill(0);
        Ok((answer, words))
    }

    /// The number of the cell in this column and row.
    fn cell(&self, x: u32, y: u32) -> usize {
        (y * self.board.width + x) as usize
    }

    /// The words of a row, column by column.
    fn row<'a>(&'a self, y: u32, words: &'a Words) -> impl Iterator<Item = u32> + 'a {
        (0..self.board.width).map(move |x| words.scratch[self.cell(x, y)])
    }

    /// "5 if that column has a bad byte, 13 if that row's scratch has a word neither below H nor the
    /// mark, 6 if all are marks"
    fn stop(&self, line: u32, words: &Words) -> Result<(), u32> {
        let bad_word = |word| word >= self.board.height && word != MARK;
        match line.checked_sub(self.board.width) {
            None => {
                let mut column = (0..self.board.height).map(|y| self.picture[self.cell(line, y)]);
                tested(&[(5, column.any(|byte| byte > 1))])
            }
            Some(y) => tested(&[
                (13, self.row(y, words).any(bad_word)),
                (6, self.row(y, words).all(|word| word == MARK)),
            ]),
        }
    }

    /// "Lines are W columns from the left, then H rows from the top."
    fn finish(&self, line: u32, words: &mut Words) {
        match line.checked_sub(self.board.width) {
            None => self.finish_column(line, words),
            Some(y) => self.finish_row(y, words),
        }
    }

    /// "After a column line the scratch words with its cells' numbers hold the row of the nearest bore
    /// in the column (upper one on a tie) or the mark."
    fn finish_column(&self, x: u32, words: &mut Words) {
        let rows = 0..self.board.height;
        let bores: Vec<u32> =
            rows.clone().filter(|&row| self.picture[self.cell(x, row)] == 1).collect();
        for y in rows {
            let nearest = bores.iter().map(|&row| (y.abs_diff(row), row)).min();
            words.scratch[self.cell(x, y)] = nearest.map_or(MARK, |(_, row)| row);
        }
    }

    /// "that row's map words become the least by kind over the cells so named in its unmarked columns,
    /// least column on a tie"
    fn finish_row(&self, y: u32, words: &mut Words) {
        let measure = Measure { kind: self.asked.kind, d1: 0, d2: 0 };
        let columns = (0..self.board.width).zip(self.row(y, words));
        let named: Vec<(u32, u32)> = columns.filter(|&(_, word)| word != MARK).collect();
        for x in 0..self.board.width {
            let away =
                |&(i, j): &(u32, u32)| (distance(measure, x.abs_diff(i), y.abs_diff(j)), i, j);
            let (least, i, j) = named.iter().map(away).min().expect("6 has seen a cell named");
            words.distances[self.cell(x, y)] = least;
            words.sites[self.cell(x, y)] = self.cell(i, j) as u32;
        }
    }
}

#[cfg(test)]
mod tests {
    use super::*;
    use crate::rules::{MapRule, PictureCall};
    use olavinthu::Board;

    const BOARD: Board = Board { width: 3, height: 3 };

    /// A call on buffers full of sevens.
    fn call(kind: u32, line: u32, budget: u32, picture: &[u8]) -> SliceCall {
        let before = Words::filled(Lengths::least(BOARD), || 7);
        BoardCall::new(BOARD, picture.to_vec(), SliceAsked { kind, line, budget, before })
    }

    fn answer(number: u32, finished: u32, next: u32) -> SliceAnswer {
        SliceAnswer { number, finished, next }
    }

    /// Two bores in the first column, none in the second, one in the last.
    const PICTURE: [u8; 9] = [1, 0, 0, 0, 0, 0, 1, 0, 1];

    #[test]
    fn columns_name_the_nearest_row_and_the_upper_one_on_a_tie() {
        let (done, words) = call(0, 0, 2, &PICTURE).answer().unwrap();
        assert_eq!(done, answer(0, 2, 2));
        assert_eq!(words.scratch[..9], [0, MARK, 7, 0, MARK, 7, 2, MARK, 7]);
        assert_eq!(words.scratch[9..], [0; 12]);
        assert_eq!(words.distances, [7; 9]);
        assert_eq!(words.sites, [7; 9]);
    }

    #[test]
    fn a_row_believes_its_words_whatever_the_picture_has() {
        let mut row = call(0, 4, 1, &[9; 9]);
        row.asked.before.scratch[3..6].copy_from_slice(&[0, MARK, 2]);
        let (done, words) = row.answer().unwrap();
        assert_eq!(done, answer(0, 1, 5));
        assert_eq!(words.distances, [7, 7, 7, 1, 2, 1, 7, 7, 7]);
        assert_eq!(words.sites, [7, 7, 7, 0, 0, 8, 7, 7, 7]);
        assert_eq!(words.scratch[..9], [7, 7, 7, 0, MARK, 2, 7, 7, 7]);
    }

    #[test]
    fn budgets_of_any_size_make_the_map() {
        for kind in 0..=2 {
            let measure = Measure { kind, d1: 0, d2: 0 };
            let map = PictureCall::new(BOARD, PICTURE.to_vec(), measure).answer().unwrap();
            for budget in [1, 2, 4, 6, u32::MAX] {
                let mut slice = call(kind, 0, budget, &PICTURE);
                while slice.asked.line < 6 {
                    let (done, words) = slice.answer().unwrap();
                    assert_eq!(done.number, 0);
                    assert_eq!(done.finished, budget.min(6 - slice.asked.line));
                    (slice.asked.line, slice.asked.before) = (done.next, words);
                }
                assert_eq!(slice.asked.before.distances, map.distances);
                assert_eq!(slice.asked.before.sites, map.sites);
            }
        }
    }

    #[test]
    fn a_line_stops_by_its_own_bytes_or_words() {
        let mut byte = PICTURE;
        byte[7] = 2;
        assert_eq!(call(0, 0, 6, &byte).answer().unwrap().0, answer(5, 1, 1));
        assert_eq!(call(0, 1, 6, &byte).answer().unwrap().0, answer(5, 0, 1));
        assert_eq!(call(0, 2, 1, &byte).answer().unwrap().0, answer(0, 1, 3));
        for (word, number) in [(3, 13), (MARK - 1, 13), (MARK, 6), (2, 0)] {
            let mut row = call(0, 3, 2, &PICTURE);
            row.asked.before.scratch[..9].copy_from_slice(&[0, MARK, 1, MARK, word, MARK, 7, 7, 7]);
            let finished = if number == 0 { 2 } else { 1 };
            assert_eq!(row.answer().unwrap().0, answer(number, finished, 3 + finished));
        }
    }

    #[test]
    fn a_line_is_looked_at_only_while_budget_is_left() {
        let bad = [2; 9];
        assert_eq!(call(0, 0, 0, &bad).answer().unwrap().0, answer(0, 0, 0));
        assert_eq!(call(0, 3, 0, &bad).answer().unwrap().0, answer(0, 0, 3));
        assert_eq!(call(0, 6, 9, &bad).answer().unwrap().0, answer(0, 0, 6));
        let (_, words) = call(0, 6, 9, &bad).answer().unwrap();
        assert_eq!(words.scratch, [[7; 9].to_vec(), vec![0; 12]].concat());
    }

    #[test]
    fn rows_of_the_start_are_tested_in_rising_order() {
        let mut call = call(2, 6, 1, &[2; 9]);
        assert_eq!(call.refusal(), Ok(()));
        call.asked.line = 7;
        assert_eq!(call.refusal(), Err(12));
        call.lent.scratch -= 1;
        assert_eq!(call.refusal(), Err(4));
        call.asked.kind = 3;
        assert_eq!(call.refusal(), Err(2));
        call.board.height = u32::MAX;
        assert_eq!(call.refusal(), Err(1));
    }
}
