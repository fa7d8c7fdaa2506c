//! A proved lazy DFA, with the names of regex-automata's `hybrid` module.
//!
//! Before the library below this crate is built, each of its functions is proved to be safe, to terminate,
//! and to return what its contract says. This crate is a layer over it, which is tested: its types ensure
//! what the library requires of a program, so that misuse does not compile.
//!
//! ```
//! use lazydfa::hybrid::regex::Regex;
//!
//! let regex = Regex::new("[a-z]+")?;
//! let mut cache = regex.create_cache();
//! let spans: Vec<_> = regex.find_iter(&mut cache, "foo 12 bar").map(|found| found.range()).collect();
//! assert_eq!(spans, [0..3, 7..10]);
//! # Ok::<(), lazydfa::BuildError>(())
//! ```
//!
//! - [`hybrid::regex::Regex`] finds matches and their groups, replaces them, and splits a text into tokens;
//! - [`hybrid::dfa::DFA`] finds one end of a match, and which of many patterns match;
//! - [`PooledRegex`] is a regex that searches without a cache;
//! - [`nfa::thompson::Builder`] builds an NFA state by state, for an engine with its own parser.
#![deny(missing_docs, unsafe_op_in_unsafe_fn, clippy::undocumented_unsafe_blocks)]

mod engine;
mod error;
mod groups;
mod handle;
pub mod hybrid;
mod iter;
#[cfg(doctest)]
mod misuse;
pub mod nfa;
mod pooled;
mod raw;
pub mod util;

pub use engine::Cache;
pub use error::{BuildError, BuildErrorKind, MatchError, MatchErrorKind};
pub use pooled::{PoolGuard, PooledMatches, PooledRegex};
pub use util::captures::{Captures, Group, Haystack};
pub use util::primitives::PatternID;
pub use util::replace::{NoExpand, Replacer};
pub use util::search::{Anchored, HalfMatch, Input, Match, MatchKind, PatternSet, Span};

/// The programs in the documentation of this crate.
#[cfg(doctest)]
#[doc = include_str!("../README.md")]
struct Document;
