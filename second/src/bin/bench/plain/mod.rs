//! Plain programs for the work of each entry, the maps as documents 001 to 003 print them. They
//! test nothing that they are given and zero nothing afterwards. All their memory is made and
//! filled before the first run.

mod calls;
mod chamfer;
mod lane;
mod line;
mod maps;
mod metric;

pub use calls::{changeover, clear, millimetres, millimetres_text, open};
pub use lane::PlainLane;
pub use maps::PlainMap;
