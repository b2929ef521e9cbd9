//! The second program's own parts: document 01 by the plainest methods, and boards to try it on.
//!
//! `rules` shares nothing with the proved crates but the paper. It takes from the wrapper only the
//! types that a call is asked with, and the lengths that they name.

#![forbid(unsafe_code)]

pub mod generator;
pub mod pictures;
pub mod rules;
