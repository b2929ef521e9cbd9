//! Cost maps: "the least of distance + cost over all unmarked cells".

use super::limits::{COST, COST_KIND};
use super::loan::{cells, BoardCall};
use super::maps::{distance, MapRule};
use super::refusals::tested;
use olavinthu::{Board, Measure, MARK};

/// The kind of a cost map.
#[derive(Clone, Copy)]
pub struct CostKind(pub u32);

/// A call for the map of a cost picture.
pub type CostCall = BoardCall<u32, CostKind>;

impl CostCall {
    /// Row 5 for costs: "a cost is neither ≤ 1,000,000 nor the mark".
    fn bad_costs(&self) -> bool {
        self.picture.iter().any(|&cost| cost > COST && cost != MARK)
    }

    /// Row 6 for costs: "no unmarked cell".
    fn all_marked(&self) -> bool {
        self.picture.iter().all(|&cost| cost == MARK)
    }
}

impl MapRule for CostCall {
    fn board(&self) -> Board {
        self.board
    }

    fn refusal(&self) -> Result<(), u32> {
        tested(&[
            (1, self.bad_sides()),
            (2, self.asked.0 > COST_KIND),
            (4, self.bad_lengths()),
            (5, self.bad_costs()),
            (6, self.all_marked()),
        ])
    }

    fn nearest(&self) -> impl Fn(u32, u32) -> (u32, u32) {
        let measure = Measure { kind: self.asked.0, d1: 0, d2: 0 };
        let all = cells(self.board).zip(&self.picture);
        let unmarked: Vec<_> = all.filter(|(_, &cost)| cost != MARK).collect();
        move |x, y| {
            let words = unmarked.iter().map(|&((i, j), cost)| {
                let away = distance(measure, x.abs_diff(i), y.abs_diff(j));
                // The order is the tie rule: the least, then the least column, then the least row.
                (away + cost, i, j)
            });
            let (least, i, j) = words.min().expect("row 6 has seen a cost");
            (least, j * self.board.width + i)
        }
    }
}

#[cfg(test)]
mod tests {
    use super::*;

    fn row_of(kind: u32, costs: &[u32]) -> CostCall {
        let board = Board { width: costs.len() as u32, height: 1 };
        CostCall::new(board, costs.to_vec(), CostKind(kind))
    }

    #[test]
    fn one_cheap_cell() {
        let costs = [9, 0, 9, 9, 9];
        let euclid = row_of(0, &costs).answer().unwrap();
        assert_eq!(euclid.distances, [1, 0, 1, 4, 9]);
        assert_eq!(euclid.sites, [1; 5]);
        let manhattan = row_of(1, &costs).answer().unwrap();
        assert_eq!(manhattan.distances, [1, 0, 1, 2, 3]);
    }

    #[test]
    fn the_input_of_001() {
        let map = row_of(1, &[4, 2, 8, 6, 1]).answer().unwrap();
        assert_eq!(map.distances, [3, 2, 3, 2, 1]);
    }

    #[test]
    fn the_least_column_comes_before_the_least_row() {
        let board = Board { width: 2, height: 2 };
        let call = CostCall::new(board, vec![MARK, 0, 0, 1], CostKind(0));
        let map = call.answer().unwrap();
        assert_eq!((map.distances[0], map.sites[0]), (1, 2));
        assert_eq!((map.distances[3], map.sites[3]), (1, 2));
    }

    #[test]
    fn rows_are_tested_in_rising_order() {
        let mut call = row_of(1, &[MARK, MARK]);
        assert_eq!(call.refusal(), Err(6));
        call.picture[1] = 1_000_000;
        assert_eq!(call.refusal(), Ok(()));
        call.picture[1] = 1_000_001;
        assert_eq!(call.refusal(), Err(5));
        call.lent.sites = 1;
        assert_eq!(call.refusal(), Err(4));
        call.asked.0 = 2;
        assert_eq!(call.refusal(), Err(2));
        call.board.height = 2_049;
        assert_eq!(call.refusal(), Err(1));
    }
}
