//! The contests on a board: maps, cost maps, lanes and clear maps.

use crate::contest::{Contest, OURS};
use crate::plain::{self, PlainLane, PlainMap};
use olavinthu::{Board, Buffers, CostKind, Lane, Measure, Refusal, Setting, MARK};

/// The lists that the archive is lent for a map.
pub struct Lent {
    pub board: Board,
    pub distances: Vec<u32>,
    pub sites: Vec<u32>,
    scratch: Vec<u32>,
}

impl Lent {
    pub fn new(board: Board) -> Lent {
        Lent {
            board,
            distances: vec![MARK; board.cells()],
            sites: vec![MARK; board.cells()],
            scratch: vec![MARK; board.scratch_words()],
        }
    }

    pub fn buffers(&mut self) -> Buffers<'_> {
        Buffers {
            distances: &mut self.distances,
            sites: &mut self.sites,
            scratch: &mut self.scratch,
        }
    }

    /// The map of a picture in one go.
    pub fn map(&mut self, measure: Measure, picture: &[u8]) {
        let made = olavinthu::map(self.board, measure, picture, self.buffers());
        made.expect("the picture is good");
    }

    fn holds(&self, map: &PlainMap) -> bool {
        self.distances == map.distances && self.sites == map.sites
    }
}

/// Maps of pictures by a measure, or of costs by a kind.
pub struct Maps<P, A> {
    asked: A,
    lent: Lent,
    plain: PlainMap,
    our_map: fn(Board, A, &[P], Buffers) -> Result<(), Refusal>,
    plain_map: fn(&mut PlainMap, A, &[P]),
}

impl Maps<u8, Measure> {
    pub fn of_pictures(board: Board, measure: Measure) -> Maps<u8, Measure> {
        Maps {
            asked: measure,
            lent: Lent::new(board),
            plain: PlainMap::new(board),
            our_map: olavinthu::map,
            plain_map: PlainMap::map,
        }
    }
}

impl Maps<u32, CostKind> {
    pub fn of_costs(board: Board, kind: CostKind) -> Maps<u32, CostKind> {
        Maps {
            asked: kind,
            lent: Lent::new(board),
            plain: PlainMap::new(board),
            our_map: olavinthu::cost_map,
            plain_map: PlainMap::cost_map,
        }
    }
}

impl<P, A: Copy> Contest<2> for Maps<P, A> {
    type Input = Vec<P>;

    fn answer(&mut self, program: usize, picture: &Vec<P>) {
        match program {
            OURS => {
                let (board, buffers) = (self.lent.board, self.lent.buffers());
                let made = (self.our_map)(board, self.asked, picture, buffers);
                made.expect("the picture is good");
            }
            _ => (self.plain_map)(&mut self.plain, self.asked, picture),
        }
    }

    fn same(&mut self) -> bool {
        self.lent.holds(&self.plain)
    }
}

/// Lanes from the first cell to the last.
pub struct Lanes {
    last: u32,
    lent: Lent,
    path: Vec<u32>,
    found: Lane,
    plain: PlainLane,
}

impl Lanes {
    pub fn new(board: Board) -> Lanes {
        Lanes {
            last: board.cells() as u32 - 1,
            lent: Lent::new(board),
            path: vec![MARK; board.cells()],
            found: Lane { width: 0, cells: 0 },
            plain: PlainLane::new(board),
        }
    }
}

impl Contest<2> for Lanes {
    type Input = Vec<u8>;

    fn answer(&mut self, program: usize, picture: &Vec<u8>) {
        match program {
            OURS => {
                let (board, buffers) = (self.lent.board, self.lent.buffers());
                let found = olavinthu::lane(board, picture, 0, self.last, buffers, &mut self.path);
                self.found = found.expect("the picture is good");
            }
            _ => self.plain.lane(picture, 0, self.last),
        }
    }

    fn same(&mut self) -> bool {
        let Lane { width, cells } = self.found;
        let lane = &self.path[..cells as usize];
        self.lent.holds(&self.plain.map) && width == self.plain.width && lane == self.plain.path
    }
}

/// Clear maps, of a setting that is clear from the squared distance 16 on.
pub struct ClearMaps {
    ours: Vec<u8>,
    plain: Vec<u8>,
}

impl ClearMaps {
    const SETTING: Setting = Setting { pitch: 0.5, radius: 2.0 };

    pub fn new(board: Board) -> ClearMaps {
        ClearMaps { ours: vec![2; board.cells()], plain: vec![2; board.cells()] }
    }

    /// The squared distances that are asked about.
    pub fn squares(board: Board, picture: &[u8]) -> Vec<u32> {
        let mut lent = Lent::new(board);
        lent.map(Measure::EUCLID, picture);
        lent.distances
    }
}

impl Contest<2> for ClearMaps {
    type Input = Vec<u32>;

    fn answer(&mut self, program: usize, squares: &Vec<u32>) {
        match program {
            OURS => {
                let made = olavinthu::clear(Self::SETTING, squares, &mut self.ours);
                made.expect("the setting is good");
            }
            _ => plain::clear(Self::SETTING, squares, &mut self.plain),
        }
    }

    fn same(&mut self) -> bool {
        self.ours == self.plain
    }
}
