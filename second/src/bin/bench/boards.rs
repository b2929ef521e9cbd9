//! The boards that are timed.

use olavinthu::{Board, MARK};
use second::generator::Generator;
use second::pictures;
use second::rules::limits::COST;

/// The sides that are timed.
pub const SIDES: [u32; 3] = [64, 512, 2_048];

/// How many cells the boards of a turn have together, and how many calls a turn has where there is
/// no board. A turn has as many boards as come to it, so that turns at the smaller sides do the
/// same work; a greater board is a turn by itself.
pub const TURN: usize = 262_144;

pub fn square(side: u32) -> Board {
    Board { width: side, height: side }
}

#[derive(Clone, Copy)]
pub enum Drawing {
    /// One bore, or one cost, in the middle.
    One,
    Chequerboard,
    Diagonal,
    /// One cell in 50 bored; costs in all cells. The random boards of a turn are all different, so
    /// that the processor cannot learn one by heart.
    Random,
    /// All of the middle row, but for a gap of an eighth of it. The gap lies to the left of where
    /// the straight way from the first cell to the last meets the row.
    Wall,
}

impl Drawing {
    /// What all entries are timed on.
    pub const ALL: [Drawing; 4] =
        [Drawing::One, Drawing::Chequerboard, Drawing::Diagonal, Drawing::Random];

    /// What lanes are timed on.
    pub const OF_LANES: [Drawing; 5] =
        [Drawing::One, Drawing::Chequerboard, Drawing::Diagonal, Drawing::Random, Drawing::Wall];

    pub fn name(self) -> &'static str {
        match self {
            Drawing::One => "one bore or cost",
            Drawing::Chequerboard => "chequerboard",
            Drawing::Diagonal => "diagonal",
            Drawing::Random => "random",
            Drawing::Wall => "wall with a gap",
        }
    }

    /// The pictures of a turn.
    pub fn pictures(self, board: Board) -> Vec<Vec<u8>> {
        self.turn(board, |generator| self.picture(board, generator))
    }

    /// The cost pictures of a turn: on the drawn boards one cost throughout, and marks.
    pub fn costs(self, board: Board) -> Vec<Vec<u32>> {
        self.turn(board, |generator| match self {
            Drawing::Random => (0..board.cells()).map(|_| generator.below(COST + 1)).collect(),
            _ => {
                let bytes = self.picture(board, generator).into_iter();
                bytes.map(|byte| if byte == 1 { 100 } else { MARK }).collect()
            }
        })
    }

    fn turn<T>(self, board: Board, mut drawn: impl FnMut(&mut Generator) -> T) -> Vec<T> {
        let mut generator = Generator::new(1);
        let boards = (TURN / board.cells()).max(1);
        (0..boards).map(|_| drawn(&mut generator)).collect()
    }

    fn picture(self, board: Board, generator: &mut Generator) -> Vec<u8> {
        match self {
            Drawing::One => pictures::bored_at(board, &[(board.width / 2, board.height / 2)]),
            Drawing::Chequerboard => pictures::chequerboard(board),
            Drawing::Diagonal => pictures::diagonal(board),
            Drawing::Random => pictures::random(board, 50, generator),
            Drawing::Wall => {
                let gap = board.width / 8..board.width / 4;
                pictures::bored_where(board, |x, y| y == board.height / 2 && !gap.contains(&x))
            }
        }
    }
}
