//! Searches in haystacks that arrive in pieces.
use crate::{BuildError, Cache, HalfMatch, MatchError};
use std::borrow::BorrowMut;

/// A search for the end of the first match in a haystack that arrives in pieces, as from a file or a socket.
///
/// [`DFA::begin_pieces`](crate::hybrid::dfa::DFA::begin_pieces) begins it, and it returns what
/// [`DFA::try_search_fwd`](crate::hybrid::dfa::DFA::try_search_fwd) returns for the whole haystack. Offsets
/// are counted in bytes from the first byte of the first piece. Between two pieces it keeps no piece, only
/// the state after the last byte. To cancel it, drop it: the cache can serve other searches.
///
/// It has exclusive use of its cache. Pass a reference, `Pieces<&mut Cache>`, or the cache itself,
/// `Pieces<Cache>`: that borrows nothing, so it may be stored in a struct and sent to another thread between
/// two pieces.
///
/// ```
/// use lazydfa::hybrid::dfa::DFA;
/// use lazydfa::util::start;
/// use lazydfa::HalfMatch;
///
/// let dfa = DFA::new("foo[0-9]+")?;
/// let mut cache = dfa.create_cache();
/// let mut pieces = dfa.begin_pieces(&mut cache, &start::Config::new(), false)?;
/// pieces.read(b"12 fo")?;
/// assert_eq!(pieces.end(None)?, None);
/// pieces.read(b"o12")?;
/// assert_eq!(pieces.end(None)?, Some(HalfMatch::must(0, 8)));
/// pieces.read(b"345 foo")?;
/// assert!(pieces.is_done());
/// assert_eq!(pieces.end(None)?, Some(HalfMatch::must(0, 11)));
/// # Ok::<(), Box<dyn std::error::Error>>(())
/// ```
#[derive(Debug)]
pub struct Pieces<C> {
    cache: C,
    is_done: bool,
}

impl<C: BorrowMut<Cache>> Pieces<C> {
    /// Returns the search that was begun over the cache.
    pub(super) fn begun(cache: C) -> Result<Pieces<C>, MatchError> {
        let mut pieces = Pieces { cache, is_done: false };
        // The library reports after each piece, even an empty one, whether the result is final.
        pieces.read(&[])?;
        Ok(pieces)
    }

    /// Reads the next piece, of any length. Once the result is final, it reads nothing.
    ///
    /// # Errors
    ///
    /// If the search reads a quit byte or gives up, or if an allocation fails. The search is then unchanged,
    /// and the piece may be read again: after [`Pieces::try_reset_cache`], for example, if it gave up. The
    /// rule by which a search gives up counts each piece as a search of its own.
    pub fn read(&mut self, piece: &[u8]) -> Result<(), MatchError> {
        self.cache.borrow_mut().read_piece(piece, &mut self.is_done)
    }

    /// Whether the result is final, whatever follows: [`Pieces::end`] returns it. An earliest search is done
    /// at the first match that it sees.
    pub fn is_done(&self) -> bool {
        self.is_done
    }

    /// Returns where the first match in the pieces so far ends, if this byte follows them, or, with `None`,
    /// if the haystack ends there. More pieces may be read afterwards.
    ///
    /// # Errors
    ///
    /// If the byte is a quit byte, if the search gives up, or if an allocation fails. More pieces may be read
    /// then too.
    pub fn end(&mut self, look_ahead: Option<u8>) -> Result<Option<HalfMatch>, MatchError> {
        self.cache.borrow_mut().end_pieces(look_ahead)
    }

    /// Resets the cache to a fresh one of the same regex; the search continues where it was. If an allocation
    /// fails, this returns an error, and the cache is unchanged.
    pub fn try_reset_cache(&mut self) -> Result<(), BuildError> {
        self.cache.borrow_mut().try_reset()
    }

    /// Ends the search, and returns the cache.
    pub fn into_cache(self) -> C {
        self.cache
    }
}
