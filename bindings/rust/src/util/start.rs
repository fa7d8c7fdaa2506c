//! The start configuration of a search without an input.
use crate::Anchored;

/// The byte before the first piece of a haystack, if there is one, and the anchored mode.
#[derive(Clone, Copy, Debug)]
pub struct Config {
    look_behind: Option<u8>,
    anchored: Anchored,
}

impl Default for Config {
    fn default() -> Config {
        Config { look_behind: None, anchored: Anchored::No }
    }
}

impl Config {
    /// Returns a configuration without a byte before the first piece, and not anchored.
    pub fn new() -> Config {
        Config::default()
    }

    /// Sets the byte before the first piece, which assertions such as `^` and `\b` see.
    pub fn look_behind(mut self, byte: Option<u8>) -> Config {
        self.look_behind = byte;
        self
    }

    /// Sets the anchored mode.
    pub fn anchored(mut self, mode: Anchored) -> Config {
        self.anchored = mode;
        self
    }

    /// Returns the byte before the first piece, if there is one.
    pub fn get_look_behind(&self) -> Option<u8> {
        self.look_behind
    }

    /// Returns the anchored mode.
    pub fn get_anchored(&self) -> Anchored {
        self.anchored
    }
}
