//! What the tests of searches and of walks in pieces share.
use lazydfa::hybrid::dfa::{Config, DFA};
use lazydfa::util::syntax;
use lazydfa::BuildError;
use std::error::Error;

pub type Tested = Result<(), Box<dyn Error>>;

/// Returns the DFA of patterns whose matches may be any bytes, so that empty matches are not skipped.
pub fn bytes_dfa(patterns: &[&str], config: Config) -> Result<DFA, BuildError> {
    let syntax = syntax::Config::new().unicode(false).utf8(false);
    DFA::builder().syntax(syntax).configure(config).build_many(patterns)
}

/// Pseudo-random numbers (xorshift).
pub struct Numbers(pub u32);

impl Numbers {
    /// Returns a number below `n`.
    pub fn below(&mut self, n: usize) -> usize {
        self.0 ^= self.0 << 13;
        self.0 ^= self.0 >> 17;
        self.0 ^= self.0 << 5;
        self.0 as usize % n
    }
}
