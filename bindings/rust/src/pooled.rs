//! Searches to which no cache is passed.
use crate::hybrid::regex::{CaptureMatches, Regex, Split, SplitN};
use crate::iter::Matches;
use crate::util::captures::{CaptureNames, Captures, Haystack};
use crate::util::replace::Replacer;
use crate::{BuildError, Cache, Input, Match, MatchError};
use std::borrow::{Borrow, BorrowMut, Cow};
use std::fmt;
use std::iter::FusedIterator;
use std::sync::{Mutex, MutexGuard, PoisonError};

/// A regex with a pool of caches: a search takes a cache from the pool, or creates one if all are in use, and
/// puts it back.
///
/// It is meant for threads that share a regex and have no place for a cache, as with a `static`. Each search
/// takes a lock twice, for a few instructions; a thread that searches a lot is faster with its own cache,
/// which [`PooledRegex::regex`] can create.
///
/// ```
/// use lazydfa::PooledRegex;
/// use std::sync::LazyLock;
///
/// static WORD: LazyLock<PooledRegex> = LazyLock::new(|| PooledRegex::new(r"\pL+").unwrap());
///
/// assert!(WORD.is_match("12 foo"));
/// assert_eq!(WORD.find("12 foo").unwrap().range(), 3..6);
/// assert_eq!(WORD.find_iter("foo bar").count(), 2);
/// ```
pub struct PooledRegex {
    regex: Regex,
    caches: Mutex<Vec<Cache>>,
}

impl PooledRegex {
    /// Builds the regex of a pattern, with the default settings.
    pub fn new(pattern: &str) -> Result<PooledRegex, BuildError> {
        Regex::new(pattern).map(PooledRegex::from)
    }

    /// Builds the regex of several patterns, each numbered by its index in the list.
    pub fn new_many<P: AsRef<str>>(patterns: &[P]) -> Result<PooledRegex, BuildError> {
        Regex::new_many(patterns).map(PooledRegex::from)
    }

    /// Returns the regex itself, whose searches are passed a cache.
    pub fn regex(&self) -> &Regex {
        &self.regex
    }

    /// Whether there is a match.
    ///
    /// # Panics
    ///
    /// If the search fails.
    pub fn is_match<'h, I: Into<Input<'h>>>(&self, input: I) -> bool {
        self.regex.is_match(self.lend().cache(), input)
    }

    /// Searches for the first match.
    ///
    /// # Panics
    ///
    /// If the search fails.
    pub fn find<'h, I: Into<Input<'h>>>(&self, input: I) -> Option<Match> {
        self.regex.find(self.lend().cache(), input)
    }

    /// Searches for the first match. It fails as [`Regex::try_search`] does.
    pub fn try_search(&self, input: &Input<'_>) -> Result<Option<Match>, MatchError> {
        self.regex.try_search(self.lend().cache(), input)
    }

    /// Returns an iterator over the matches of an input. The iterator keeps one cache until it is dropped.
    ///
    /// # Panics
    ///
    /// The iterator panics if a search fails.
    pub fn find_iter<'h, I: Into<Input<'h>>>(&self, input: I) -> PooledMatches<'_, 'h> {
        PooledMatches { lent: self.lend(), matches: Matches::new(input.into()) }
    }

    /// Returns the number of groups of the first pattern, as [`Regex::captures_len`] does.
    pub fn captures_len(&self) -> usize {
        self.regex.captures_len()
    }

    /// Returns the names of the groups of the first pattern, as [`Regex::capture_names`] does.
    pub fn capture_names(&self) -> CaptureNames<'_> {
        self.regex.capture_names()
    }

    /// Searches for the first match, and returns its groups. It panics as [`Regex::captures`] does.
    pub fn captures<'h, H: Haystack<'h>>(&self, haystack: H) -> Option<Captures<'h, H::Text>> {
        self.regex.captures(self.lend().cache(), haystack)
    }

    /// Searches for the first match, and returns its groups. It fails as [`Regex::try_captures`] does.
    pub fn try_captures<'h, H: Haystack<'h>>(
        &self,
        haystack: H,
    ) -> Result<Option<Captures<'h, H::Text>>, MatchError> {
        self.regex.try_captures(self.lend().cache(), haystack)
    }

    /// Returns an iterator over the groups of matches. The iterator keeps one cache until it is dropped, and panics as
    /// that of [`Regex::captures_iter`] does.
    pub fn captures_iter<'h, H: Haystack<'h>>(
        &self,
        haystack: H,
    ) -> CaptureMatches<'h, PoolGuard<'_>, H::Text> {
        self.regex.captures_iter(self.lend(), haystack)
    }

    /// Replaces the first match. It panics as [`Regex::replace`] does.
    pub fn replace<'h, H: Haystack<'h>, R: Replacer<H::Text>>(
        &self,
        haystack: H,
        rep: R,
    ) -> Cow<'h, H::Text> {
        self.regex.replace(self.lend().cache(), haystack, rep)
    }

    /// Replaces all matches that do not overlap. It panics as [`Regex::replace`] does.
    pub fn replace_all<'h, H: Haystack<'h>, R: Replacer<H::Text>>(
        &self,
        haystack: H,
        rep: R,
    ) -> Cow<'h, H::Text> {
        self.regex.replace_all(self.lend().cache(), haystack, rep)
    }

    /// Replaces as many matches as the limit says; all of them if it is 0. It panics as [`Regex::replace`] does.
    pub fn replacen<'h, H: Haystack<'h>, R: Replacer<H::Text>>(
        &self,
        haystack: H,
        limit: usize,
        rep: R,
    ) -> Cow<'h, H::Text> {
        self.regex.replacen(self.lend().cache(), haystack, limit, rep)
    }

    /// Returns an iterator over the parts of a haystack between matches, which keeps one cache until it is dropped. It
    /// panics if a search fails.
    pub fn split<'h, H: Haystack<'h>>(&self, haystack: H) -> Split<'h, PoolGuard<'_>, H::Text> {
        self.regex.split(self.lend(), haystack)
    }

    /// Returns an iterator over at most `limit` parts of a haystack, the last of which is the rest. It panics if a
    /// search fails.
    pub fn splitn<'h, H: Haystack<'h>>(
        &self,
        haystack: H,
        limit: usize,
    ) -> SplitN<'h, PoolGuard<'_>, H::Text> {
        self.regex.splitn(self.lend(), haystack, limit)
    }

    /// Takes a cache from the pool, or creates one.
    fn lend(&self) -> PoolGuard<'_> {
        let kept = lock(&self.caches).pop();
        let cache = kept.unwrap_or_else(|| self.regex.create_cache());
        PoolGuard { cache: Some(cache), pool: &self.caches }
    }
}

impl From<Regex> for PooledRegex {
    fn from(regex: Regex) -> PooledRegex {
        PooledRegex { regex, caches: Mutex::default() }
    }
}

/// A clone shares the regex, and has its own pool.
impl Clone for PooledRegex {
    fn clone(&self) -> PooledRegex {
        self.regex.clone().into()
    }
}

impl fmt::Debug for PooledRegex {
    fn fmt(&self, f: &mut fmt::Formatter<'_>) -> fmt::Result {
        let caches = lock(&self.caches).len();
        f.debug_struct("PooledRegex").field("regex", &self.regex).field("caches", &caches).finish()
    }
}

/// Locks the caches that are not in use. Nothing panics while it holds the lock, so a poisoned lock can be
/// used.
fn lock(pool: &Mutex<Vec<Cache>>) -> MutexGuard<'_, Vec<Cache>> {
    pool.lock().unwrap_or_else(PoisonError::into_inner)
}

/// A cache of a pool that is in use. Dropping this puts the cache back, also after a panic: after a search that fails,
/// the cache can serve other searches.
#[derive(Debug)]
pub struct PoolGuard<'p> {
    cache: Option<Cache>,
    pool: &'p Mutex<Vec<Cache>>,
}

impl PoolGuard<'_> {
    fn cache(&mut self) -> &mut Cache {
        self.cache.as_mut().expect("it is given back when this is dropped")
    }
}

impl Borrow<Cache> for PoolGuard<'_> {
    fn borrow(&self) -> &Cache {
        self.cache.as_ref().expect("it is given back when this is dropped")
    }
}

impl BorrowMut<Cache> for PoolGuard<'_> {
    fn borrow_mut(&mut self) -> &mut Cache {
        self.cache()
    }
}

impl Drop for PoolGuard<'_> {
    fn drop(&mut self) {
        lock(self.pool).extend(self.cache.take());
    }
}

/// An iterator over the matches of an input, with a cache of a pool.
#[derive(Debug)]
pub struct PooledMatches<'p, 'h> {
    lent: PoolGuard<'p>,
    matches: Matches<'h>,
}

impl Iterator for PooledMatches<'_, '_> {
    type Item = Match;

    fn next(&mut self) -> Option<Match> {
        Some(self.matches.next(self.lent.cache())?.expect("a search"))
    }
}

impl FusedIterator for PooledMatches<'_, '_> {}
