//! IDs of states and patterns, look-around assertions, inputs, matches and their groups, and the syntax of patterns.
pub mod captures;
pub mod look;
pub mod primitives;
pub mod replace;
pub mod search;
pub mod start;
pub mod syntax;
