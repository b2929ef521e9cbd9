//! The maps of pictures and of costs: columns one by one, then rows. Added to what is printed is
//! only what a site needs: beside each value of a column the row that gives it.

use super::chamfer::Framed;
use super::line::Line;
use super::metric::{Chessboard, Euclid, Manhattan, Metric, Parabola};
use olavinthu::{Board, CostKind, Measure, MARK};

/// What a marked cell costs: more than any word of a map, and small enough to add a distance to.
const FAR: i32 = 100_000_000;

pub struct PlainMap {
    m: usize,
    n: usize,
    /// The first phase: G of each cell, or the least sum in its column, and the row that gives it.
    values: Vec<i32>,
    rows: Vec<i32>,
    /// One column of costs.
    column: Vec<i32>,
    line: Line,
    framed: Framed,
    pub distances: Vec<u32>,
    pub sites: Vec<u32>,
}

impl PlainMap {
    pub fn new(board: Board) -> PlainMap {
        let (m, n) = (board.width as usize, board.height as usize);
        PlainMap {
            m,
            n,
            values: vec![1; m * n],
            rows: vec![1; m * n],
            column: vec![0; n],
            line: Line::new(m.max(n)),
            framed: Framed::new(m, n),
            distances: vec![1; m * n],
            sites: vec![1; m * n],
        }
    }

    /// The map of a picture, by kind; kind 3 with the weights that 003 prefers.
    pub fn map(&mut self, measure: Measure, picture: &[u8]) {
        match measure.kind {
            0 => self.two_phases::<Euclid>(picture),
            1 => self.two_phases::<Manhattan>(picture),
            2 => self.two_phases::<Chessboard>(picture),
            _ => {
                self.framed.map(picture, 3, 4, &mut self.distances);
                self.sites.fill(MARK);
            }
        }
    }

    /// The map of a cost picture: 001's transform of each column, then of each row.
    pub fn cost_map(&mut self, kind: CostKind, costs: &[u32]) {
        match kind {
            CostKind::Euclid => self.two_transforms::<Parabola>(costs),
            CostKind::Manhattan => self.two_transforms::<Manhattan>(costs),
        }
    }

    fn two_phases<M: Metric>(&mut self, picture: &[u8]) {
        for x in 0..self.m {
            self.scan_1(x, picture);
            self.scan_2(x);
        }
        self.second_phase::<M>();
    }

    fn two_transforms<M: Metric>(&mut self, costs: &[u32]) {
        let m = self.m;
        for x in 0..m {
            for (value, &cost) in self.column.iter_mut().zip(costs[x..].iter().step_by(m)) {
                *value = if cost == MARK { FAR } else { cost as i32 };
            }
            self.line.lowest::<M>(&self.column, |y, j, sum| {
                (self.values[y * m + x], self.rows[y * m + x]) = (sum, j as i32);
            });
        }
        self.second_phase::<M>();
    }

    fn scan_1(&mut self, x: usize, picture: &[u8]) {
        let m = self.m;
        for y in 0..self.n {
            let at = y * m + x;
            (self.values[at], self.rows[at]) = if picture[at] == 1 {
                (0, y as i32)
            } else if y == 0 {
                // 002: "it is convenient to replace ∞ by m + n".
                ((m + self.n) as i32, 0)
            } else {
                (1 + self.values[at - m], self.rows[at - m])
            };
        }
    }

    fn scan_2(&mut self, x: usize) {
        let m = self.m;
        for y in (0..self.n - 1).rev() {
            let at = y * m + x;
            // 002 prints g[y + 1] < g[y], which gives the same g; of two bores as near as each other
            // this test keeps the upper one.
            if 1 + self.values[at + m] < self.values[at] {
                self.values[at] = 1 + self.values[at + m];
                self.rows[at] = self.rows[at + m];
            }
        }
    }

    fn second_phase<M: Metric>(&mut self) {
        for y in 0..self.n {
            let row = y * self.m..(y + 1) * self.m;
            let (values, rows) = (&self.values[row.clone()], &self.rows[row.clone()]);
            let (distances, sites) = (&mut self.distances[row.clone()], &mut self.sites[row]);
            self.line.lowest::<M>(values, |x, i, word| {
                distances[x] = word as u32;
                sites[x] = rows[i] as u32 * self.m as u32 + i as u32;
            });
        }
    }
}
