//! Walks over haystacks that arrive in pieces.
use crate::raw::Stop;
use crate::{BuildError, Cache, HalfMatch, MatchError};
use std::borrow::BorrowMut;
use std::iter::FusedIterator;

/// A walk over a haystack that arrives in pieces: it reports the ends of all overlapping matches, and so
/// which patterns match.
///
/// [`DFA::begin_walk`](crate::hybrid::dfa::DFA::begin_walk) begins it. What [`Walk::read`] reports for each
/// piece, and [`Walk::end`] after the last one, is what
/// [`DFA::try_all_ends`](crate::hybrid::dfa::DFA::try_all_ends) lists for the whole haystack, in the same
/// order. Offsets are counted in bytes from the first byte of the first piece. Between two pieces it keeps no
/// piece, only the state after the last byte. To cancel it, drop it: the cache can serve other searches.
///
/// It has exclusive use of its cache, as a reference or by value, as [`Pieces`](crate::hybrid::dfa::Pieces)
/// has.
///
/// ```
/// use lazydfa::hybrid::dfa::DFA;
/// use lazydfa::util::start;
/// use lazydfa::{HalfMatch, MatchKind, PatternSet};
///
/// let config = DFA::config().match_kind(MatchKind::All);
/// let dfa = DFA::builder().configure(config).build_many(&["fo+", "o[0-9]", "bar"])?;
/// let mut walk = dfa.begin_walk(dfa.create_cache(), &start::Config::new())?;
/// let mut ends = Vec::new();
/// for piece in ["12 fo", "o", "7"] {
///     for half in walk.read(piece.as_bytes()) {
///         ends.push(half?);
///     }
/// }
/// ends.extend(walk.end(None)?);
/// assert_eq!(ends, [HalfMatch::must(0, 5), HalfMatch::must(0, 6), HalfMatch::must(1, 7)]);
///
/// let mut set = PatternSet::new(dfa.pattern_len());
/// for half in ends {
///     set.insert(half.pattern());
/// }
/// assert_eq!(set.iter().map(|pattern| pattern.as_usize()).collect::<Vec<_>>(), [0, 1]);
/// # Ok::<(), Box<dyn std::error::Error>>(())
/// ```
#[derive(Debug)]
pub struct Walk<C> {
    cache: C,
}

impl<C: BorrowMut<Cache>> Walk<C> {
    /// Returns the walk that was begun over the cache.
    pub(super) fn begun(cache: C) -> Walk<C> {
        Walk { cache }
    }

    /// Reads the next piece, of any length, while the returned iterator is advanced. Matches are delayed by
    /// one byte: a match that ends with the piece is reported with the next piece, or by [`Walk::end`].
    pub fn read<'h>(&mut self, piece: &'h [u8]) -> Ends<'_, 'h> {
        Ends { cache: self.cache.borrow_mut(), rest: piece, stop: Stop::default(), taken: 0, failed: false }
    }

    /// Returns the matches that end where the pieces so far end, if this byte follows them, or, with `None`,
    /// if the haystack ends there. More pieces may be read afterwards.
    ///
    /// # Errors
    ///
    /// If the byte is a quit byte, if the walk gives up, or if an allocation fails. More pieces may be read
    /// then too.
    pub fn end(
        &mut self,
        look_ahead: Option<u8>,
    ) -> Result<impl Iterator<Item = HalfMatch> + '_, MatchError> {
        let cache = self.cache.borrow_mut();
        let stop = cache.end_walk(look_ahead)?;
        Ok((0..stop.patterns).map(move |index| cache.walk_match(&stop, index)))
    }

    /// Resets the cache to a fresh one of the same regex; the walk continues where it was. If an allocation
    /// fails, this returns an error, and the cache is unchanged.
    pub fn try_reset_cache(&mut self) -> Result<(), BuildError> {
        self.cache.borrow_mut().try_reset()
    }

    /// Ends the walk, and returns the cache.
    pub fn into_cache(self) -> C {
        self.cache
    }
}

/// The ends of matches that a [`Walk`] finds in a piece, in increasing order of their offsets: at each offset
/// the patterns that match up to it, each once.
///
/// The iterator reads the piece only as far as it is advanced. If it is dropped before it has returned
/// `None`, pass [`Ends::rest`] to the walk next; other patterns at the last offset are then not reported.
///
/// # Errors
///
/// If the walk reads a quit byte or gives up, or if an allocation fails. The error is the last item, and no
/// match is lost: the walk is where it was after the last match, and [`Ends::rest`] may be passed to it
/// again, after [`Walk::try_reset_cache`], for example, if it gave up. The rule by which a search gives up
/// counts what is read between two offsets where patterns match as a search of its own.
///
/// ```
/// use lazydfa::hybrid::dfa::DFA;
/// use lazydfa::util::start;
/// use lazydfa::{HalfMatch, MatchError, MatchKind};
///
/// let config = DFA::config().match_kind(MatchKind::All).quit(b';', true);
/// let dfa = DFA::builder().configure(config).build("ab*")?;
/// let mut walk = dfa.begin_walk(dfa.create_cache(), &start::Config::new())?;
/// let mut ends = walk.read(b"ab;a");
/// assert_eq!(ends.next(), Some(Ok(HalfMatch::must(0, 1))));
/// assert_eq!(ends.next(), Some(Err(MatchError::quit(b';', 2))));
/// assert_eq!(ends.next(), None);
/// assert_eq!(ends.rest(), b";a");
/// # Ok::<(), Box<dyn std::error::Error>>(())
/// ```
#[derive(Debug)]
#[must_use = "the piece is read as far as the iterator is advanced"]
pub struct Ends<'c, 'h> {
    cache: &'c mut Cache,
    rest: &'h [u8],
    stop: Stop,
    // How many of the matches at the walk's position were returned.
    taken: usize,
    failed: bool,
}

impl<'h> Ends<'_, 'h> {
    /// Returns the part of the piece that the walk has not read. It has read the byte after the last match
    /// that was returned, or the whole piece if the iterator has returned `None` without an error before.
    pub fn rest(&self) -> &'h [u8] {
        self.rest
    }

    /// Advances to the next offset where patterns match, or to the end of the piece.
    fn advance(&mut self) -> Result<(), MatchError> {
        self.stop = self.cache.read_walk(self.rest)?;
        (self.rest, self.taken) = (&self.rest[self.stop.read..], 0);
        Ok(())
    }
}

impl Iterator for Ends<'_, '_> {
    type Item = Result<HalfMatch, MatchError>;

    fn next(&mut self) -> Option<Result<HalfMatch, MatchError>> {
        if self.taken == self.stop.patterns && !self.rest.is_empty() && !self.failed {
            if let Err(error) = self.advance() {
                self.failed = true;
                return Some(Err(error));
            }
        }
        if self.taken == self.stop.patterns {
            return None;
        }
        self.taken += 1;
        Some(Ok(self.cache.walk_match(&self.stop, self.taken - 1)))
    }
}

impl FusedIterator for Ends<'_, '_> {}
