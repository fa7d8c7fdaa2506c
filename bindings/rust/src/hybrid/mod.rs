//! Lazy DFAs, and regexes built from two of them.
pub mod dfa;
mod pieces;
pub mod regex;
mod walk;

pub use crate::error::{BuildError, BuildErrorKind};
