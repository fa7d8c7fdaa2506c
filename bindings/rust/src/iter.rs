//! An iteration over matches that does not own a cache.
use crate::{raw, Anchored, Cache, Input, Match, MatchError};
use std::fmt;

/// How many matches are requested from the library at a time, except for the first.
const ROOM: usize = 32;

/// The matches of an input. The library is asked for one match first, since many callers need only one, and
/// then for as many as there is room for.
pub struct Matches<'h> {
    haystack: &'h [u8],
    mode: Anchored,
    at: raw::Iteration,
    buffer: [raw::Match; ROOM],
    taken: usize,
    length: usize,
    room: usize,
    // What comes after the matches in the buffer: more, nothing, or an error.
    after: Result<bool, MatchError>,
}

impl<'h> Matches<'h> {
    /// Returns an iteration over the matches of an input.
    pub fn new(input: Input<'h>) -> Matches<'h> {
        Matches {
            haystack: input.haystack(),
            mode: input.get_anchored(),
            at: raw::Iteration { left: input.raw(), ..raw::Iteration::default() },
            buffer: [raw::Match::default(); ROOM],
            taken: 0,
            length: 0,
            room: 1,
            after: Ok(true),
        }
    }

    /// Returns the next match, or the error after the last one. Each call must be given the same cache.
    pub fn next(&mut self, cache: &mut Cache) -> Option<Result<Match, MatchError>> {
        if self.taken == self.length && self.after == Ok(true) {
            let room = &mut self.buffer[..self.room];
            (self.length, self.after) = cache.next_all(self.haystack, self.mode, &mut self.at, room);
            (self.taken, self.room) = (0, ROOM);
        }
        if self.taken < self.length {
            self.taken += 1;
            return Some(Ok(self.buffer[self.taken - 1].into()));
        }
        std::mem::replace(&mut self.after, Ok(false)).err().map(Err)
    }
}

impl fmt::Debug for Matches<'_> {
    fn fmt(&self, f: &mut fmt::Formatter<'_>) -> fmt::Result {
        f.debug_struct("Matches").field("left", &self.at.left).finish_non_exhaustive()
    }
}
