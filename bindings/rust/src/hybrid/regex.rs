//! Regexes built from two lazy DFAs.
use super::dfa::{self, Direction, DFA};
use crate::engine::Engine;
use crate::iter::Matches;
use crate::nfa::thompson::{self, NFA};
use crate::util::syntax;
use crate::{raw, BuildError, Input, Match, MatchError};
use std::iter::FusedIterator;
use std::sync::Arc;

pub use crate::engine::Cache;
pub use groups::{CaptureMatches, Split, SplitN, TryCaptureMatches};

mod groups;

/// A builder of regexes. It holds the settings of their DFAs, and how the texts of patterns are parsed.
///
/// ```
/// use lazydfa::hybrid::{dfa, regex::Regex};
/// use lazydfa::util::syntax;
///
/// let regex = Regex::builder()
///     .syntax(syntax::Config::new().case_insensitive(true))
///     .dfa(dfa::Config::new().cache_capacity(1 << 20))
///     .build("foo|bar")?;
/// assert_eq!(regex.find_iter(&mut regex.create_cache(), "Foo BAR").count(), 2);
/// # Ok::<(), lazydfa::BuildError>(())
/// ```
#[derive(Clone, Debug, Default)]
pub struct Builder {
    config: dfa::Config,
    syntax: syntax::Config,
    thompson: thompson::Config,
}

impl Builder {
    /// Returns a builder with the default settings.
    pub fn new() -> Builder {
        Builder::default()
    }

    /// Sets the settings of both DFAs.
    pub fn dfa(&mut self, config: dfa::Config) -> &mut Builder {
        self.config = config;
        self
    }

    /// Sets how the texts of patterns are parsed.
    pub fn syntax(&mut self, config: syntax::Config) -> &mut Builder {
        self.syntax = config;
        self
    }

    /// Sets how the NFA is built from the texts of patterns.
    pub fn thompson(&mut self, config: thompson::Config) -> &mut Builder {
        self.thompson = config;
        self
    }

    /// Builds the regex of a pattern.
    pub fn build(&self, pattern: &str) -> Result<Regex, BuildError> {
        self.build_many(&[pattern])
    }

    /// Builds the regex of several patterns, each numbered by its index in the list. If several match at one
    /// offset, the first is preferred.
    pub fn build_many<P: AsRef<str>>(&self, patterns: &[P]) -> Result<Regex, BuildError> {
        let engine = Engine::of_texts(patterns, &self.syntax, &self.thompson, &self.config, false)?;
        Ok(Regex::new_of(engine))
    }

    /// Builds the regex of one NFA, whose matches are those of the NFA's ordered paths.
    pub fn build_from_nfa(&self, nfa: &NFA) -> Result<Regex, BuildError> {
        Ok(Regex::new_of(Engine::of_nfa(nfa, &self.config)?))
    }

    /// Builds the regex of two NFAs, the second of which reads backward what the first reads forward. This is
    /// not checked: if it does not, a search may report a wrong start, or that there is no start. One NFA
    /// given twice is an error.
    pub fn build_from_nfas(&self, forward: &NFA, reverse: &NFA) -> Result<Regex, BuildError> {
        Ok(Regex::new_of(Engine::of_nfas(forward, reverse, &self.config)?))
    }
}

/// A regex: two lazy DFAs, one that finds where matches end, and one that finds where they start.
///
/// A search is passed a cache, in which it builds the states that it needs. A clone shares the regex's data,
/// and threads may share a regex, each with its own cache.
///
/// ```
/// use lazydfa::hybrid::regex::Regex;
///
/// let regex = Regex::new(r"[0-9]{4}-[0-9]{2}-[0-9]{2}")?;
/// let mut cache = regex.create_cache();
/// assert!(regex.is_match(&mut cache, "on 2024-03-14"));
/// assert_eq!(regex.find(&mut cache, "on 2024-03-14").unwrap().range(), 3..13);
/// let days: Vec<_> = regex.find_iter(&mut cache, "2024-03-14 2024-10-12").map(|it| it.range()).collect();
/// assert_eq!(days, [0..10, 11..21]);
/// # Ok::<(), lazydfa::BuildError>(())
/// ```
#[derive(Clone, Debug)]
pub struct Regex {
    forward: DFA,
    reverse: DFA,
}

impl Regex {
    /// Builds the regex of a pattern, with the default settings.
    pub fn new(pattern: &str) -> Result<Regex, BuildError> {
        Builder::new().build(pattern)
    }

    /// Builds the regex of several patterns, each numbered by its index in the list.
    pub fn new_many<P: AsRef<str>>(patterns: &[P]) -> Result<Regex, BuildError> {
        Builder::new().build_many(patterns)
    }

    /// Returns a builder of regexes, with the default settings.
    pub fn builder() -> Builder {
        Builder::new()
    }

    /// Returns the regex of an engine.
    fn new_of(engine: Arc<Engine>) -> Regex {
        let forward = DFA::new_of(Arc::clone(&engine), Direction::Forward);
        Regex { forward, reverse: DFA::new_of(engine, Direction::Reverse) }
    }

    /// Creates a fresh cache for searches with this regex.
    ///
    /// # Panics
    ///
    /// If an allocation fails.
    pub fn create_cache(&self) -> Cache {
        self.forward.create_cache()
    }

    /// Creates a fresh cache for searches with this regex. It returns an error if an allocation fails.
    pub fn try_create_cache(&self) -> Result<Cache, BuildError> {
        self.forward.engine().create_cache()
    }

    /// Resets a cache, of any regex, to a fresh one of this regex.
    ///
    /// # Panics
    ///
    /// If an allocation fails.
    pub fn reset_cache(&self, cache: &mut Cache) {
        self.forward.reset_cache(cache);
    }

    /// Returns the DFA that finds where matches end.
    pub fn forward(&self) -> &DFA {
        &self.forward
    }

    /// Returns the DFA that finds where matches start.
    pub fn reverse(&self) -> &DFA {
        &self.reverse
    }

    /// Returns the number of patterns of the regex.
    pub fn pattern_len(&self) -> usize {
        self.forward.pattern_len()
    }

    /// Whether there is a match.
    ///
    /// # Panics
    ///
    /// If the search fails, or the cache belongs to another regex.
    pub fn is_match<'h, I: Into<Input<'h>>>(&self, cache: &mut Cache, input: I) -> bool {
        self.try_is_match(cache, &input.into()).expect("a search")
    }

    /// Searches for the first match.
    ///
    /// # Panics
    ///
    /// If the search fails, or the cache belongs to another regex.
    pub fn find<'h, I: Into<Input<'h>>>(&self, cache: &mut Cache, input: I) -> Option<Match> {
        self.try_search(cache, &input.into()).expect("a search")
    }

    /// Returns an iterator over the matches of an input, none of which overlaps another.
    ///
    /// # Panics
    ///
    /// If the cache belongs to another regex. The iterator panics if a search fails.
    pub fn find_iter<'c, 'h, I: Into<Input<'h>>>(
        &self,
        cache: &'c mut Cache,
        input: I,
    ) -> FindMatches<'c, 'h> {
        FindMatches(self.try_find_iter(cache, input))
    }

    /// Whether there is a match.
    ///
    /// # Errors
    ///
    /// If the search quits or gives up, if the anchored mode is not supported, or if an allocation fails.
    ///
    /// # Panics
    ///
    /// If the cache belongs to another regex.
    pub fn try_is_match(&self, cache: &mut Cache, input: &Input<'_>) -> Result<bool, MatchError> {
        cache.check(self.forward.engine());
        cache.is_match(input)
    }

    /// Searches for the first match.
    ///
    /// # Errors
    ///
    /// As for [`Regex::try_is_match`]; with two NFAs that do not belong together, also if the second finds no
    /// start.
    ///
    /// # Panics
    ///
    /// If the cache belongs to another regex.
    pub fn try_search(&self, cache: &mut Cache, input: &Input<'_>) -> Result<Option<Match>, MatchError> {
        cache.check(self.forward.engine());
        cache.find(input)
    }

    /// Returns an iterator over the matches of an input. The error of a search is the last item.
    ///
    /// # Panics
    ///
    /// If the cache belongs to another regex.
    pub fn try_find_iter<'c, 'h, I: Into<Input<'h>>>(
        &self,
        cache: &'c mut Cache,
        input: I,
    ) -> TryFindMatches<'c, 'h> {
        cache.check(self.forward.engine());
        TryFindMatches { cache, matches: Matches::new(input.into()) }
    }

    /// Returns an iterator over the tokens of an input: each begins where the previous one ended, and none is
    /// empty. The iteration ends at the end of the span, or with an error, which says why it ended or where
    /// no token begins. The anchored mode and the earliest flag are ignored.
    ///
    /// # Panics
    ///
    /// If the cache belongs to another regex.
    ///
    /// ```
    /// use lazydfa::hybrid::regex::Regex;
    ///
    /// let regex = Regex::new_many(&["[a-z]+", "[0-9]+", " +"])?;
    /// let mut cache = regex.create_cache();
    /// let tokens: Result<Vec<_>, _> = regex.tokens(&mut cache, "foo 12").collect();
    /// let kinds: Vec<_> = tokens?.iter().map(|token| token.pattern().as_usize()).collect();
    /// assert_eq!(kinds, [0, 2, 1]);
    /// let error = regex.tokens(&mut cache, "foo?").last().unwrap().unwrap_err();
    /// assert_eq!(error.to_string(), "no token at offset 3");
    /// # Ok::<(), Box<dyn std::error::Error>>(())
    /// ```
    pub fn tokens<'c, 'h, I: Into<Input<'h>>>(&self, cache: &'c mut Cache, input: I) -> Tokens<'c, 'h> {
        cache.check(self.forward.engine());
        let input = input.into();
        Tokens { cache, haystack: input.haystack(), left: input.raw(), ended: false }
    }
}

/// An iterator over the matches of an input, which panics if a search fails.
#[derive(Debug)]
pub struct FindMatches<'c, 'h>(TryFindMatches<'c, 'h>);

impl Iterator for FindMatches<'_, '_> {
    type Item = Match;

    fn next(&mut self) -> Option<Match> {
        Some(self.0.next()?.expect("a search"))
    }
}

impl FusedIterator for FindMatches<'_, '_> {}

/// An iterator over the matches of an input. After an error, or after the last match, it returns `None`.
#[derive(Debug)]
pub struct TryFindMatches<'c, 'h> {
    cache: &'c mut Cache,
    matches: Matches<'h>,
}

impl Iterator for TryFindMatches<'_, '_> {
    type Item = Result<Match, MatchError>;

    fn next(&mut self) -> Option<Result<Match, MatchError>> {
        self.matches.next(self.cache)
    }
}

impl FusedIterator for TryFindMatches<'_, '_> {}

/// An iterator over the tokens of an input. After an error, or after the last token, it returns `None`.
#[derive(Debug)]
pub struct Tokens<'c, 'h> {
    cache: &'c mut Cache,
    haystack: &'h [u8],
    left: raw::Input,
    ended: bool,
}

impl Iterator for Tokens<'_, '_> {
    type Item = Result<Match, MatchError>;

    fn next(&mut self) -> Option<Result<Match, MatchError>> {
        if self.ended {
            return None;
        }
        let token = self.cache.token(self.haystack, &mut self.left).transpose();
        self.ended = !matches!(token, Some(Ok(_)));
        token
    }
}

impl FusedIterator for Tokens<'_, '_> {}
