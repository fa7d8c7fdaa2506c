//! NFAs.
pub mod thompson;
