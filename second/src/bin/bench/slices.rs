//! Maps in slices, against the same maps in one go.

use crate::boards::{square, Drawing, SIDES};
use crate::contest::{times, Contest, Timed};
use crate::on_boards::Lent;
use crate::table::{head, to_the_first, Row, Table};
use olavinthu::{Board, Measure, SliceKind, MARK};

/// A kind that there are slices of: its name, and how either way asks for it.
pub type Kind = (&'static str, SliceKind, Measure);

pub const EUCLID: Kind = ("0 Euclid", SliceKind::Euclid, Measure::EUCLID);

pub const KINDS: [Kind; 3] = [
    EUCLID,
    ("1 Manhattan", SliceKind::Manhattan, Measure::MANHATTAN),
    ("2 chessboard", SliceKind::Chessboard, Measure::CHESSBOARD),
];

/// Makes maps in slices.
pub struct Slicer {
    kind: SliceKind,
    lent: Lent,
}

impl Slicer {
    pub fn new(board: Board, kind: SliceKind) -> Slicer {
        Slicer { kind, lent: Lent::new(board) }
    }

    /// One call. Answers the next line.
    pub fn slice(&mut self, line: u32, budget: u32, picture: &[u8]) -> u32 {
        let (board, buffers) = (self.lent.board, self.lent.buffers());
        let made = olavinthu::slice(board, self.kind, line, budget, picture, buffers);
        let slice = made.expect("the call is good");
        assert!(slice.stopped.is_none(), "the picture is good");
        slice.next
    }

    /// A whole map.
    fn map(&mut self, budget: u32, picture: &[u8]) {
        let Board { width, height } = self.lent.board;
        let mut line = 0;
        while line < width + height {
            line = self.slice(line, budget, picture);
        }
    }
}

/// Makes maps of one kind: in one go, and then in slices of each budget.
struct Maker {
    measure: Measure,
    in_one_go: Lent,
    budgets: &'static [u32],
    in_slices: Slicer,
}

impl<const WAYS: usize> Contest<WAYS> for Maker {
    type Input = Vec<u8>;

    fn answer(&mut self, way: usize, picture: &Vec<u8>) {
        match way {
            0 => self.in_one_go.map(self.measure, picture),
            _ => self.in_slices.map(self.budgets[way - 1], picture),
        }
    }

    fn same(&mut self) -> bool {
        let (one, other) = (&self.in_one_go, &mut self.in_slices.lent);
        let same = one.distances == other.distances && one.sites == other.sites;
        // What one way of slicing has left may not count for the next.
        other.distances.fill(MARK);
        other.sites.fill(MARK);
        same
    }
}

/// The ratio of each budget to one go, by kind, side and drawing.
fn table<const WAYS: usize>(
    title: &'static str,
    budgets: &'static [u32],
    sides: [u32; 3],
) -> Table<WAYS> {
    let rows = KINDS.into_iter().flat_map(|kind| sides.map(|side| (kind, side)));
    let row = |((name, kind, measure), side): (Kind, u32)| {
        let timed = move |board: Board, drawing: Drawing| -> Timed<WAYS> {
            let (in_one_go, in_slices) = (Lent::new(board), Slicer::new(board, kind));
            let mut maker = Maker { measure, in_one_go, budgets, in_slices };
            times(&mut maker, &drawing.pictures(board), board.cells())
        };
        let names = vec![name.to_string(), side.to_string()];
        Row::of_drawings(names, square(side), &Drawing::ALL, timed)
    };
    let head = head(&["`olv_slice`", "side"], &Drawing::ALL);
    Table { title, head, rows: rows.map(row).collect(), text: to_the_first }
}

/// In calls of all lines and of 64.
pub fn long_calls() -> Table<3> {
    let title = "Maps in slices: the time of a whole map to that of `olv_map`, in one call of all \
        lines, in calls of 64 lines:";
    table(title, &[u32::MAX, 64], SIDES)
}

/// In calls of a single line. 508 stands beside 512 for being no power of two; at 2,048 such maps
/// would take longer than all these together.
pub fn short_calls() -> Table<2> {
    table("The same in calls of a single line:", &[1], [64, 508, 512])
}
