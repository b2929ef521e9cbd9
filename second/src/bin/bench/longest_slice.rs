//! How long a host waits for a slice at the most: the longest call of a map in slices.

use crate::boards::{square, Drawing};
use crate::slices::{Kind, Slicer, KINDS};
use crate::table::{head, number, print_head, print_row, Report};
use olavinthu::Board;
use std::time::{Duration, Instant};

/// The sides that are timed, and how often a map is made in each pass. The best time of a call
/// counts, so that a moment in which the machine has other work does not make a call long.
const SIDES: [(u32, usize); 2] = [(512, 5), (2_048, 1)];

/// The budgets that are timed. None has a call that begins at a column and ends at a row.
const BUDGETS: [u32; 2] = [1, 64];

/// The calls of one map.
struct Calls {
    drawing: Drawing,
    /// The best time of each.
    best: Vec<Duration>,
}

/// A row of the table.
struct Longest {
    kind: Kind,
    board: Board,
    maps: usize,
    budget: u32,
    calls: Vec<Calls>,
}

impl Longest {
    fn new(kind: Kind, (side, maps): (u32, usize), budget: u32) -> Longest {
        let best = vec![Duration::MAX; (2 * side).div_ceil(budget) as usize];
        let calls = Drawing::ALL.map(|drawing| Calls { drawing, best: best.clone() });
        Longest { kind, board: square(side), maps, budget, calls: calls.into() }
    }

    fn pass(&mut self) {
        for calls in &mut self.calls {
            let picture = &calls.drawing.pictures(self.board)[0];
            let mut slicer = Slicer::new(self.board, self.kind.1);
            for _ in 0..self.maps {
                let mut line = 0;
                for best in &mut calls.best {
                    let start = Instant::now();
                    line = slicer.slice(line, self.budget, picture);
                    *best = start.elapsed().min(*best);
                }
            }
        }
    }

    /// The longest call on columns, and the longest on rows, in microseconds.
    fn text(&self, calls: &Calls) -> String {
        let (columns, rows) = calls.best.split_at(self.board.width.div_ceil(self.budget) as usize);
        let longest = |calls: &[Duration]| calls.iter().max().map_or(0.0, Duration::as_secs_f64);
        [columns, rows].map(|calls| number(longest(calls) * 1e6)).join(", ")
    }
}

/// The longest calls, by kind, side, budget and drawing.
pub struct LongestTable {
    rows: Vec<Longest>,
}

pub fn table() -> LongestTable {
    let mut rows = vec![];
    for kind in KINDS {
        for side in SIDES {
            rows.extend(BUDGETS.map(|budget| Longest::new(kind, side, budget)));
        }
    }
    LongestTable { rows }
}

impl Report for LongestTable {
    fn pass(&mut self) -> Result<(), String> {
        self.rows.iter_mut().for_each(Longest::pass);
        Ok(())
    }

    fn print(&self) {
        let first = ["`olv_slice`", "side", "budget"];
        print_head(
            "Microseconds of the longest call of a map in slices, on columns, on rows:",
            &head(&first, &Drawing::ALL),
        );
        for row in &self.rows {
            let names = [row.kind.0.into(), row.board.width.to_string(), row.budget.to_string()];
            print_row(names.into_iter().chain(row.calls.iter().map(|calls| row.text(calls))));
        }
    }
}
