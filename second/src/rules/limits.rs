//! The limits of documents 01 and 02, each in one place.

/// The longest side of a board.
pub const SIDE: u32 = 2_048;
/// The greatest kind of a picture map.
pub const KIND: u32 = 3;
/// The greatest kind of a map in slices, in later editions too.
pub const SLICE_KIND: u32 = 2;
/// The greatest kind of a cost map.
pub const COST_KIND: u32 = 1;
/// The greatest weight d1.
pub const WEIGHT: u32 = 255;
/// The greatest cost.
pub const COST: u32 = 1_000_000;
/// The greatest whole number that a setting's value opens to.
pub const KNOB: u32 = 4_096;
/// The longest clear map.
pub const CLEAR: usize = 4_194_304;
/// The fewest bytes that a text of millimetres may be lent.
pub const TEXT: usize = 20;
/// The last column that a changeover may be asked of.
pub const COLUMN: u32 = 2_047;
/// The greatest value that a changeover may be asked with.
pub const VALUE: u32 = 17_000_000;
/// The side of the bench file's board.
pub const BENCH_SIDE: u32 = 64;
/// The longest bench file.
pub const FILE: usize = 16_384;
