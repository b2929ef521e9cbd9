//! Picture maps: "a map word is the least distance over all bored cells", and the tie rule.

use super::limits::{KIND, WEIGHT};
use super::loan::{cells, BoardCall};
use super::refusals::tested;
use olavinthu::{Board, Measure, MARK};

/// A whole map: a distance and a site for each cell.
pub struct Map {
    pub distances: Vec<u32>,
    pub sites: Vec<u32>,
}

/// A call for a map: what it refuses, and what it puts at each cell.
pub trait MapRule {
    fn board(&self) -> Board;

    /// The number of the first row that holds.
    fn refusal(&self) -> Result<(), u32>;

    /// The rule for one cell, by column and row: its map word and its site word. It is asked only
    /// where nothing is refused.
    fn nearest(&self) -> impl Fn(u32, u32) -> (u32, u32);

    /// The whole map, or the refusal.
    fn answer(&self) -> Result<Map, u32> {
        self.refusal()?;
        let nearest = self.nearest();
        let (distances, sites) = cells(self.board()).map(|(x, y)| nearest(x, y)).unzip();
        Ok(Map { distances, sites })
    }
}

/// The table of measures. It is asked of each cell with each bore, so it had better be inlined.
#[inline]
pub fn distance(measure: Measure, dx: u32, dy: u32) -> u32 {
    let (less, more) = (dx.min(dy), dx.max(dy));
    match measure.kind {
        0 => dx * dx + dy * dy,
        1 => dx + dy,
        2 => more,
        3 => measure.d2 * less + measure.d1 * (more - less),
        kind => unreachable!("row 2 refuses kind {kind}"),
    }
}

/// Row 3: "kind 3 and the weights break the rule".
fn bad_weights(measure: Measure) -> bool {
    // 2·d1 may be more than a word holds.
    let (d1, d2) = (u64::from(measure.d1), u64::from(measure.d2));
    let good = 1 <= d1 && d1 <= u64::from(WEIGHT) && d1 <= d2 && d2 <= 2 * d1;
    measure.kind == 3 && !good
}

/// A call for the map of a picture.
pub type PictureCall = BoardCall<u8, Measure>;

impl MapRule for PictureCall {
    fn board(&self) -> Board {
        self.board
    }

    fn refusal(&self) -> Result<(), u32> {
        tested(&[
            (1, self.bad_sides()),
            (2, self.asked.kind > KIND),
            (3, bad_weights(self.asked)),
            (4, self.bad_lengths()),
            (5, self.bad_bytes()),
            (6, self.no_bore()),
        ])
    }

    fn nearest(&self) -> impl Fn(u32, u32) -> (u32, u32) {
        let bored = cells(self.board).zip(&self.picture).filter(|(_, &byte)| byte == 1);
        let bores: Vec<(u32, u32)> = bored.map(|(cell, _)| cell).collect();
        move |x, y| {
            let words = bores.iter().map(|&(i, j)| {
                let (dx, dy) = (x.abs_diff(i), y.abs_diff(j));
                // The order is the tie rule: the least, then the least column, in it the least dy,
                // then the least row.
                (distance(self.asked, dx, dy), i, dy, j)
            });
            let (least, i, _, j) = words.min().expect("row 6 has seen a bore");
            let site = match self.asked.kind {
                3 => MARK,
                _ => j * self.board.width + i,
            };
            (least, site)
        }
    }
}

#[cfg(test)]
mod tests {
    use super::*;
    use crate::pictures::bored_at;

    fn board(width: u32, height: u32) -> Board {
        Board { width, height }
    }

    fn map(board: Board, measure: Measure, bores: &[(u32, u32)]) -> Map {
        let call = PictureCall::new(board, bored_at(board, bores), measure);
        call.answer().unwrap()
    }

    fn word_and_site(map: &Map, cell: usize) -> (u32, u32) {
        (map.distances[cell], map.sites[cell])
    }

    #[test]
    fn one_cell() {
        let only = map(board(1, 1), Measure::EUCLID, &[(0, 0)]);
        assert_eq!(word_and_site(&only, 0), (0, 0));
    }

    #[test]
    fn a_tie_goes_to_the_least_column_and_to_the_least_row() {
        let row = map(board(3, 1), Measure::EUCLID, &[(0, 0), (2, 0)]);
        assert_eq!(word_and_site(&row, 1), (1, 0));
        let column = map(board(1, 3), Measure::EUCLID, &[(0, 0), (0, 2)]);
        assert_eq!(word_and_site(&column, 1), (1, 0));
    }

    #[test]
    fn in_its_column_the_least_dy_comes_before_the_least_row() {
        let both = map(board(3, 2), Measure::CHESSBOARD, &[(2, 0), (2, 1)]);
        assert_eq!(word_and_site(&both, 3), (2, 5));
    }

    #[test]
    fn boards_that_neighbours_get_wrong() {
        let small = map(board(4, 4), Measure::EUCLID, &[(3, 0), (0, 3), (2, 2)]);
        assert_eq!(word_and_site(&small, 0), (8, 10));
        let large = map(board(14, 8), Measure::EUCLID, &[(13, 1), (12, 5), (11, 7)]);
        assert_eq!(word_and_site(&large, 0), (169, 82));
    }

    #[test]
    fn the_picture_of_003() {
        let chamfer = map(board(4, 6), Measure::chamfer(3, 4), &[(2, 1), (1, 4)]);
        let rows =
            [[7, 4, 3, 4], [6, 3, 0, 3], [7, 4, 3, 4], [4, 3, 4, 7], [3, 0, 3, 6], [4, 3, 4, 7]];
        assert_eq!(chamfer.distances, rows.concat());
        assert_eq!(chamfer.sites, [MARK; 24]);
    }

    #[test]
    fn the_farthest_cell() {
        let middle = map(board(512, 512), Measure::EUCLID, &[(0, 0)]);
        assert_eq!(middle.distances[262_143], 522_242);
        let largest = map(board(2_048, 2_048), Measure::EUCLID, &[(0, 0)]);
        assert_eq!(largest.distances[4_194_303], 8_380_418);
    }

    #[test]
    fn sides() {
        let refusal = |board: Board| {
            PictureCall::new(board, vec![1; board.cells()], Measure::EUCLID).refusal()
        };
        for right in [board(2_048, 1), board(1, 2_048)] {
            assert_eq!(refusal(right), Ok(()));
        }
        for wrong in [board(2_049, 1), board(1, 2_049), board(0, 1), board(1, 0)] {
            assert_eq!(refusal(wrong), Err(1));
        }
    }

    #[test]
    fn weights_are_read_for_kind_3_only() {
        let refusal = |measure| PictureCall::new(board(1, 1), vec![1], measure).refusal();
        assert_eq!(refusal(Measure::chamfer(3, 6)), Ok(()));
        assert_eq!(refusal(Measure::chamfer(3, 7)), Err(3));
        assert_eq!(refusal(Measure::chamfer(0, 0)), Err(3));
        assert_eq!(refusal(Measure::EUCLID), Ok(()));
        let no_kind = Measure { kind: 4, d1: 3, d2: 4 };
        assert_eq!(refusal(no_kind), Err(2));
    }

    #[test]
    fn rows_are_tested_in_rising_order() {
        let sound = PictureCall::new(board(2, 2), vec![0, 0, 1, 0], Measure::EUCLID);
        assert_eq!(sound.refusal(), Ok(()));
        let mut call = sound.clone();
        call.picture = vec![0; 4];
        assert_eq!(call.refusal(), Err(6));
        call.picture[3] = 2;
        assert_eq!(call.refusal(), Err(5));
        call.lent.scratch -= 1;
        assert_eq!(call.refusal(), Err(4));
        call.asked = Measure::chamfer(0, 0);
        assert_eq!(call.refusal(), Err(3));
        call.asked.kind = 4;
        assert_eq!(call.refusal(), Err(2));
        call.board.width = 0;
        assert_eq!(call.refusal(), Err(1));
    }
}
