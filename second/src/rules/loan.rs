//! What every call on a board is lent, and the rows that every such call tests.

use super::limits::SIDE;
use olavinthu::Board;

/// The cells of a board as columns and rows, in the order of their numbers.
pub fn cells(board: Board) -> impl Iterator<Item = (u32, u32)> {
    (0..board.height).flat_map(move |y| (0..board.width).map(move |x| (x, y)))
}

/// How many words a map's buffers have.
#[derive(Clone, Copy, Debug)]
pub struct Lengths {
    pub distances: usize,
    pub sites: usize,
    pub scratch: usize,
}

impl Lengths {
    /// The minimum lengths on a board.
    pub fn least(board: Board) -> Lengths {
        Lengths { distances: board.cells(), sites: board.cells(), scratch: board.scratch_words() }
    }
}

/// All that decides the answer of a call on a board: the sides, a picture of bytes or of costs, the
/// lengths of the buffers, and what the call is asked besides.
#[derive(Clone)]
pub struct BoardCall<P, A> {
    pub board: Board,
    pub picture: Vec<P>,
    pub lent: Lengths,
    pub asked: A,
}

impl<P, A> BoardCall<P, A> {
    /// The call with buffers of the minimum lengths.
    pub fn new(board: Board, picture: Vec<P>, asked: A) -> BoardCall<P, A> {
        BoardCall { board, picture, lent: Lengths::least(board), asked }
    }

    /// Row 1: "W or H is 0 or above" the longest side.
    pub fn bad_sides(&self) -> bool {
        let bad = |side| side == 0 || side > SIDE;
        bad(self.board.width) || bad(self.board.height)
    }

    /// Row 4: "a picture of another length, a buffer below its minimum".
    pub fn bad_lengths(&self) -> bool {
        let least = Lengths::least(self.board);
        self.picture.len() != self.board.cells()
            || self.lent.distances < least.distances
            || self.lent.sites < least.sites
            || self.lent.scratch < least.scratch
    }
}

impl<A> BoardCall<u8, A> {
    /// Row 5 for pictures: "a picture byte is neither 0 nor 1".
    pub fn bad_bytes(&self) -> bool {
        self.picture.iter().any(|&byte| byte > 1)
    }

    /// Row 6 for pictures: "no bored cell".
    pub fn no_bore(&self) -> bool {
        !self.picture.contains(&1)
    }
}
