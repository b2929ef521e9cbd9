//! The lane: "widest, then fewest cells, then the first where lists are compared cell by cell".
//!
//! The width is found as a bottleneck: cells join in falling order of their words, and the word of
//! the cell that first brings the two ends together is the width. Among the cells of at least that
//! word, steps are counted from the far end; the lane goes one step nearer each time, by the cell of
//! the least number.

use super::loan::BoardCall;
use super::maps::{Map, MapRule, PictureCall};
use super::refusals::tested;
use olavinthu::{Board, Measure};
use std::cmp::Reverse;
use std::collections::VecDeque;

/// "Neighbours share an edge." In rising order of their numbers.
fn neighbours(board: Board, cell: u32) -> impl Iterator<Item = u32> {
    let (width, x, y) = (board.width, cell % board.width, cell / board.width);
    let above = (y > 0).then(|| cell - width);
    let left = (x > 0).then(|| cell - 1);
    let right = (x + 1 < width).then(|| cell + 1);
    let below = (y + 1 < board.height).then(|| cell + width);
    [above, left, right, below].into_iter().flatten()
}

/// Groups of cells that are joined so far; each cell points towards its group's head.
struct Groups {
    towards: Vec<u32>,
}

impl Groups {
    fn of_single_cells(count: u32) -> Groups {
        Groups { towards: (0..count).collect() }
    }

    fn head(&mut self, mut cell: u32) -> u32 {
        while self.towards[cell as usize] != cell {
            // Halving the way as it is walked keeps it short.
            let next = self.towards[cell as usize];
            self.towards[cell as usize] = self.towards[next as usize];
            cell = next;
        }
        cell
    }

    fn join(&mut self, one: u32, other: u32) {
        let (one, other) = (self.head(one), self.head(other));
        self.towards[one as usize] = other;
    }

    fn together(&mut self, one: u32, other: u32) -> bool {
        self.head(one) == self.head(other)
    }
}

/// The width of the widest lane between two cells.
fn widest(board: Board, words: &[u32], from: u32, to: u32) -> u32 {
    let count = words.len() as u32;
    let mut falling: Vec<u32> = (0..count).collect();
    falling.sort_by_key(|&cell| Reverse(words[cell as usize]));
    let mut groups = Groups::of_single_cells(count);
    let mut present = vec![false; words.len()];
    for cell in falling {
        present[cell as usize] = true;
        for next in neighbours(board, cell).filter(|&next| present[next as usize]) {
            groups.join(cell, next);
        }
        // Of two ends that are one cell, it must be present; two others meet only when both are.
        if present[from as usize] && groups.together(from, to) {
            return words[cell as usize];
        }
    }
    unreachable!("all cells of a board hang together")
}

/// The fewest steps from each cell to `to`, through cells of at least the width.
fn steps(board: Board, words: &[u32], width: u32, to: u32) -> Vec<Option<u32>> {
    let mut steps = vec![None; words.len()];
    steps[to as usize] = Some(0);
    let mut queue = VecDeque::from([(to, 0)]);
    while let Some((cell, far)) = queue.pop_front() {
        for next in neighbours(board, cell) {
            let next_steps = &mut steps[next as usize];
            if next_steps.is_none() && words[next as usize] >= width {
                *next_steps = Some(far + 1);
                queue.push_back((next, far + 1));
            }
        }
    }
    steps
}

/// The best lane: its width and its cells.
pub struct BestLane {
    pub width: u32,
    pub cells: Vec<u32>,
}

impl BestLane {
    pub fn between(board: Board, words: &[u32], from: u32, to: u32) -> BestLane {
        let width = widest(board, words, from, to);
        let steps = steps(board, words, width, to);
        let mut cells = vec![from];
        let mut cell = from;
        while let Some(far @ 1..) = steps[cell as usize] {
            cell = neighbours(board, cell)
                .find(|&next| steps[next as usize] == Some(far - 1))
                .expect("a cell that is some steps away has a neighbour one step nearer");
            cells.push(cell);
        }
        BestLane { width, cells }
    }
}

/// What a lane is asked besides its board: the two ends, and the length of the path buffer.
#[derive(Clone, Copy, Debug)]
pub struct LaneAsked {
    pub from: u32,
    pub to: u32,
    pub path: usize,
}

/// A call for a lane.
pub type LaneCall = BoardCall<u8, LaneAsked>;

impl LaneCall {
    /// The call with buffers of the minimum lengths.
    pub fn between(board: Board, picture: Vec<u8>, from: u32, to: u32) -> LaneCall {
        LaneCall::new(board, picture, LaneAsked { from, to, path: board.cells() })
    }

    /// Row 7: "a lane end ≥ W·H".
    fn off_board(&self) -> bool {
        [self.asked.from, self.asked.to].iter().any(|&end| end as usize >= self.board.cells())
    }

    pub fn refusal(&self) -> Result<(), u32> {
        tested(&[
            (1, self.bad_sides()),
            (4, self.bad_lengths() || self.asked.path < self.board.cells()),
            (5, self.bad_bytes()),
            (6, self.no_bore()),
            (7, self.off_board()),
        ])
    }

    /// The kind 0 map that the call leaves, and the lane.
    pub fn answer(&self) -> Result<(Map, BestLane), u32> {
        self.refusal()?;
        let map = PictureCall::new(self.board, self.picture.clone(), Measure::EUCLID).answer()?;
        let LaneAsked { from, to, .. } = self.asked;
        let lane = BestLane::between(self.board, &map.distances, from, to);
        Ok((map, lane))
    }
}

#[cfg(test)]
mod tests {
    use super::*;
    use crate::generator::Generator;
    use crate::pictures::bored_at;

    fn asked(board: Board, bores: &[(u32, u32)], from: u32, to: u32) -> BestLane {
        let call = LaneCall::between(board, bored_at(board, bores), from, to);
        call.answer().unwrap().1
    }

    #[test]
    fn around_a_bore() {
        let board = Board { width: 3, height: 3 };
        let around = asked(board, &[(1, 1)], 0, 8);
        assert_eq!((around.width, around.cells), (1, vec![0, 1, 2, 5, 8]));
        let still = asked(board, &[(1, 1)], 0, 0);
        assert_eq!((still.width, still.cells), (2, vec![0]));
    }

    #[test]
    fn across_a_bore() {
        let board = Board { width: 5, height: 1 };
        let across = asked(board, &[(2, 0)], 0, 4);
        assert_eq!((across.width, across.cells), (0, vec![0, 1, 2, 3, 4]));
    }

    #[test]
    fn rows_are_tested_in_rising_order() {
        let board = Board { width: 2, height: 2 };
        let mut call = LaneCall::between(board, vec![1, 0, 0, 0], 0, 3);
        assert_eq!(call.refusal(), Ok(()));
        call.asked.to = 4;
        assert_eq!(call.refusal(), Err(7));
        (call.asked.from, call.asked.to) = (4, 0);
        assert_eq!(call.refusal(), Err(7));
        call.picture[0] = 0;
        assert_eq!(call.refusal(), Err(6));
        call.picture[0] = 255;
        assert_eq!(call.refusal(), Err(5));
        call.asked.path = 3;
        assert_eq!(call.refusal(), Err(4));
        call.board.height = 0;
        assert_eq!(call.refusal(), Err(1));
    }

    /// Every lane to `to` that goes on from this one and visits no cell twice. A lane that visits a
    /// cell twice has a shorter one of no less width.
    fn all_lanes(board: Board, so_far: &mut Vec<u32>, to: u32, lanes: &mut Vec<Vec<u32>>) {
        let last = so_far[so_far.len() - 1];
        if last == to {
            lanes.push(so_far.clone());
            return;
        }
        for next in neighbours(board, last) {
            if !so_far.contains(&next) {
                so_far.push(next);
                all_lanes(board, so_far, to, lanes);
                so_far.pop();
            }
        }
    }

    /// The best of all lanes, by the paper's own words.
    fn best_of_all(board: Board, words: &[u32], from: u32, to: u32) -> (u32, Vec<u32>) {
        let mut lanes = vec![];
        all_lanes(board, &mut vec![from], to, &mut lanes);
        let width = |lane: &[u32]| lane.iter().map(|&cell| words[cell as usize]).min().unwrap();
        let order = |lane: &Vec<u32>| (Reverse(width(lane)), lane.len(), lane.clone());
        let best = lanes.into_iter().min_by_key(order).unwrap();
        (width(&best), best)
    }

    #[test]
    fn no_lane_is_better() {
        let mut generator = Generator::new(1);
        for (width, height) in [(1, 5), (5, 1), (2, 4), (3, 3), (4, 3), (4, 4)] {
            let board = Board { width, height };
            for _ in 0..60 {
                // Any words will do: the lane's rule does not ask where they come from.
                let high = generator.pick(&[2, 3, 9]);
                let words: Vec<u32> = (0..board.cells()).map(|_| generator.below(high)).collect();
                let [from, to] = [(); 2].map(|()| generator.below(width * height));
                let lane = BestLane::between(board, &words, from, to);
                let best = best_of_all(board, &words, from, to);
                assert_eq!((lane.width, lane.cells), best);
            }
        }
    }
}
