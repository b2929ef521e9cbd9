//! A lane over the plain map, by thresholds with a queue: floods from the far end over the cells of at
//! least some word, the word halved in until it is the width; then a walk down the steps of a last
//! flood.

use super::maps::PlainMap;
use olavinthu::{Board, Measure};

/// The word of the frame around the board, which no lane enters.
const FRAME: i32 = -1;

/// The steps of a cell that the flood has not reached.
const UNREACHED: u32 = u32::MAX;

pub struct PlainLane {
    pub map: PlainMap,
    board_width: usize,
    /// How far one row is from the next in the lists with a frame, which are the next two.
    wide: usize,
    words: Vec<i32>,
    steps: Vec<u32>,
    queue: Vec<usize>,
    pub width: u32,
    pub path: Vec<u32>,
}

impl PlainLane {
    pub fn new(board: Board) -> PlainLane {
        let wide = board.width as usize + 2;
        let framed = wide * (board.height as usize + 2);
        PlainLane {
            map: PlainMap::new(board),
            board_width: board.width as usize,
            wide,
            words: vec![FRAME; framed],
            steps: vec![UNREACHED; framed],
            queue: vec![1; framed],
            width: 0,
            path: Vec::with_capacity(framed),
        }
    }

    pub fn lane(&mut self, picture: &[u8], from: u32, to: u32) {
        self.map.map(Measure::EUCLID, picture);
        for (row, y) in self.map.distances.chunks(self.board_width).zip(1..) {
            let framed = &mut self.words[y * self.wide + 1..][..self.board_width];
            for (word, &distance) in framed.iter_mut().zip(row) {
                *word = distance as i32;
            }
        }
        let (from, to) = (self.framed(from), self.framed(to));
        let width = self.widest(from, to);
        self.flood(width, to);
        self.walk(from);
        self.width = width as u32;
    }

    /// Where a cell stands in the lists with a frame.
    fn framed(&self, cell: u32) -> usize {
        let (x, y) = (cell as usize % self.board_width, cell as usize / self.board_width);
        (y + 1) * self.wide + x + 1
    }

    /// And back.
    fn cell(&self, at: usize) -> u32 {
        let (x, y) = (at % self.wide - 1, at / self.wide - 1);
        (y * self.board_width + x) as u32
    }

    /// The four neighbours, in rising order of their numbers.
    fn neighbours(&self, at: usize) -> [usize; 4] {
        [at - self.wide, at - 1, at + 1, at + self.wide]
    }

    fn widest(&mut self, from: usize, to: usize) -> i32 {
        let (mut low, mut high) = (0, self.words[from].min(self.words[to]));
        while low < high {
            let middle = low + (high - low + 1) / 2;
            self.flood(middle, to);
            match self.steps[from] {
                UNREACHED => high = middle - 1,
                _ => low = middle,
            }
        }
        low
    }

    /// The fewest steps to `to`, through cells of at least the width.
    fn flood(&mut self, width: i32, to: usize) {
        self.steps.fill(UNREACHED);
        self.steps[to] = 0;
        self.queue.clear();
        self.queue.push(to);
        let mut head = 0;
        while head < self.queue.len() {
            let at = self.queue[head];
            head += 1;
            for next in self.neighbours(at) {
                if self.steps[next] == UNREACHED && self.words[next] >= width {
                    self.steps[next] = self.steps[at] + 1;
                    self.queue.push(next);
                }
            }
        }
    }

    /// One step nearer each time, by the neighbour of the least number.
    fn walk(&mut self, from: usize) {
        self.path.clear();
        self.path.push(self.cell(from));
        let mut at = from;
        while self.steps[at] != 0 {
            let nearer = self.steps[at] - 1;
            let next = self.neighbours(at).into_iter().find(|&next| self.steps[next] == nearer);
            at = next.expect("the flood came to this cell from a neighbour");
            self.path.push(self.cell(at));
        }
    }
}
