//! Document 01 by the plainest methods, and what document 02 adds. Speed is no aim here: each cell of
//! a map is held against every bore or cost, a setting against the paper's word for each whole number,
//! a lane is found by joining cells from the widest down, a root by steps of one, digits by division;
//! so that a reader can hold the two side by side.

mod changeover;
mod costs;
mod files;
mod knob;
mod lane;
pub mod limits;
mod loan;
mod maps;
mod millimetres;
mod refusals;
mod slices;

pub use changeover::ChangeoverCall;
pub use costs::{CostCall, CostKind};
pub use files::BenchFile;
pub use knob::{good_word, opened, ClearCall};
pub use lane::{BestLane, LaneAsked, LaneCall};
pub use loan::{cells, BoardCall, Lengths};
pub use maps::{Map, MapRule, PictureCall};
pub use millimetres::{MillimetresCall, TextCall};
pub use slices::{SliceAnswer, SliceAsked, SliceCall, Words};
