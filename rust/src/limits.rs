//! The limits of the archive's calls, by the names of the header. A number past one is refused, not
//! cut down to it.

/// The greatest width and the greatest height of a board; the least is 1.
pub const SIDE_LIMIT: u32 = 2_048;
/// The greatest cost; the least is 0.
pub const COST_LIMIT: u32 = 1_000_000;
/// The greatest weight d1; d2 goes from d1 to 2 · d1.
pub const WEIGHT_LIMIT: u32 = 255;
/// The last column that a changeover may be asked of.
pub const COLUMN_LIMIT: u32 = 2_047;
/// The greatest value that a changeover may be asked with.
pub const VALUE_LIMIT: u32 = 17_000_000;
/// The greatest whole number of 1/64 mm that a pitch or a radius opens to; the least is 1.
pub const KNOB_LIMIT: u32 = 4_096;
/// The most cells of a clear map; the fewest are 1.
pub const CLEAR_LIMIT: usize = 4_194_304;
/// The fewest bytes that a text of millimetres may be lent.
pub const TEXT_BYTES: usize = 20;
