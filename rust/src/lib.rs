//! Exact distance maps with nearest sites, in one go or in slices, widest lanes, and distances in
//! millimetres, from the proved archive `libolavinthu.a`, safe to call.
//!
//! Every function takes lists of any length and numbers of any size; the archive tests them all.
//! What it does not accept comes back as a [`Refusal`], and then no lent word has changed. Words
//! beyond the least lengths are untouched.
//!
//! ```
//! use olavinthu::{map, Board, Buffers, Measure};
//!
//! // Three cells in a row, the outer two bored.
//! let board = Board { width: 3, height: 1 };
//! let mut distances = vec![0; board.cells()];
//! let mut sites = vec![0; board.cells()];
//! let mut scratch = vec![0; board.scratch_words()];
//! let buffers = Buffers {
//!     distances: &mut distances,
//!     sites: &mut sites,
//!     scratch: &mut scratch,
//! };
//! map(board, Measure::EUCLID, &[1, 0, 1], buffers)?;
//! assert_eq!(distances, [0, 1, 0]);
//! assert_eq!(sites, [0, 0, 2]);
//! # Ok::<(), olavinthu::Refusal>(())
//! ```

mod limits;
mod millimetres;
mod on_board;
pub mod raw;
mod refusal;
mod slices;

pub use limits::*;
pub use millimetres::{millimetres, millimetres_text};
pub use refusal::Refusal;
pub use slices::{slice, Slice, SliceKind};

use on_board::on_board;

/// The word that stands for "none": a cost that is no feature, a site that is not named, a path word
/// past the lane, a scratch word of a column without a bore.
pub const MARK: u32 = u32::MAX;

/// The sides of a board. Cell (x, y) has the number y · width + x.
#[derive(Clone, Copy, Debug, PartialEq, Eq)]
pub struct Board {
    pub width: u32,
    pub height: u32,
}

impl Board {
    /// How many cells the board has: the length of a picture, and the least length of the
    /// distances, the sites and the path.
    pub fn cells(self) -> usize {
        (self.width as usize).saturating_mul(self.height as usize)
    }

    /// The least length of the scratch.
    pub fn scratch_words(self) -> usize {
        let edges = (self.width as usize).saturating_add(self.height as usize);
        self.cells().saturating_add(edges.saturating_mul(2))
    }
}

/// How a map measures: its kind, and the weights, which only kind 3 reads.
#[derive(Clone, Copy, Debug, PartialEq, Eq)]
pub struct Measure {
    pub kind: u32,
    pub d1: u32,
    pub d2: u32,
}

impl Measure {
    /// dx² + dy², never rooted.
    pub const EUCLID: Measure = Measure::without_weights(0);
    /// dx + dy.
    pub const MANHATTAN: Measure = Measure::without_weights(1);
    /// The larger of dx and dy.
    pub const CHESSBOARD: Measure = Measure::without_weights(2);

    /// d1 for a step along an edge, d2 for a slanted one.
    pub const fn chamfer(d1: u32, d2: u32) -> Measure {
        Measure { kind: 3, d1, d2 }
    }

    const fn without_weights(kind: u32) -> Measure {
        Measure { kind, d1: 0, d2: 0 }
    }
}

/// How a cost map measures. There is no other way: the archive takes these two kinds.
#[derive(Clone, Copy, Debug, PartialEq, Eq)]
pub enum CostKind {
    /// dx² + dy², never rooted.
    Euclid = 0,
    /// dx + dy.
    Manhattan = 1,
}

/// The lists that a map is made in.
pub struct Buffers<'a> {
    /// At least [`Board::cells`] words; holds the map's words afterwards.
    pub distances: &'a mut [u32],
    /// At least [`Board::cells`] words; names the nearest cell of each cell afterwards.
    pub sites: &'a mut [u32],
    /// At least [`Board::scratch_words`] words; zero afterwards, but for a [`slice`](fn@slice), whose
    /// columns leave words there for its rows.
    pub scratch: &'a mut [u32],
}

impl Buffers<'_> {
    /// The same lists, lent for one call of several.
    pub fn lend(&mut self) -> Buffers<'_> {
        Buffers { distances: self.distances, sites: self.sites, scratch: self.scratch }
    }
}

/// Two values in millimetres.
#[repr(C)]
#[derive(Clone, Copy, Debug, PartialEq)]
pub struct Setting {
    pub pitch: f32,
    pub radius: f32,
}

/// A setting in whole numbers of 1/64 mm: the pitch `a` and the radius `b`.
#[derive(Clone, Copy, Debug, PartialEq, Eq)]
pub struct Opened {
    pub a: u32,
    pub b: u32,
}

/// What is known of the best lane besides its cells.
#[derive(Clone, Copy, Debug, PartialEq, Eq)]
pub struct Lane {
    /// The least squared distance on it.
    pub width: u32,
    /// How many cells it has: that many path words hold it.
    pub cells: u32,
}

/// Makes the map of a picture, one byte a cell, 1 bored and 0 sound.
pub fn map(
    board: Board,
    measure: Measure,
    picture: &[u8],
    buffers: Buffers,
) -> Result<(), Refusal> {
    on_board!(olv_map: board, measure.kind, measure.d1, measure.d2; picture; buffers)
}

/// Makes the map of a cost picture: each word a cost up to [`COST_LIMIT`], or [`MARK`] for no feature.
pub fn cost_map(
    board: Board,
    kind: CostKind,
    costs: &[u32],
    buffers: Buffers,
) -> Result<(), Refusal> {
    on_board!(olv_cost_map: board, kind as u32; costs; buffers)
}

/// The greatest whole p with (p − i)² + a ≤ (p − u)² + b.
pub fn changeover(i: u32, u: u32, a: u32, b: u32) -> Result<i32, Refusal> {
    let mut p = 0;
    // SAFETY: the out-word is a local of its own.
    let answer = unsafe { raw::olv_changeover(i, u, a, b, &mut p) };
    Refusal::of(answer).map(|()| p)
}

/// Opens a setting to its two whole numbers.
pub fn open(setting: Setting) -> Result<Opened, Refusal> {
    let (mut a, mut b) = (0, 0);
    // SAFETY: the out-words are two locals.
    let answer = unsafe { raw::olv_open(setting, &mut a, &mut b) };
    Refusal::of(answer).map(|()| Opened { a, b })
}

/// Fills a clear map: each byte 1 where its squared distance leaves the radius clear, else 0.
pub fn clear(setting: Setting, squares: &[u32], clear: &mut [u8]) -> Result<(), Refusal> {
    // SAFETY: each pointer stands with its own slice's length; exclusive slices never overlap.
    let answer = unsafe {
        raw::olv_clear(setting, squares.as_ptr(), squares.len(), clear.as_mut_ptr(), clear.len())
    };
    Refusal::of(answer)
}

/// Finds the best lane between two cells: widest, then fewest cells, then first. The path takes its
/// cells, then marks; the buffers are left as by a [`map`] of [`Measure::EUCLID`].
pub fn lane(
    board: Board,
    picture: &[u8],
    from: u32,
    to: u32,
    buffers: Buffers,
    path: &mut [u32],
) -> Result<Lane, Refusal> {
    let (mut width, mut cells) = (0, 0);
    on_board!(olv_lane: board; picture, from, to; buffers, path; &mut width, &mut cells)?;
    Ok(Lane { width, cells })
}
