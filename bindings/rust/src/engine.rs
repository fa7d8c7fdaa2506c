//! The library's objects that regexes, DFAs and caches own.
use crate::error::{BuildError, BuildErrorKind, MatchError};
use crate::groups::{Groups, Source};
use crate::handle::Handle;
use crate::hybrid::dfa;
use crate::hybrid::regex::Regex;
use crate::nfa::thompson::{self, NFA};
use crate::raw::{self, Half, Status, Stop};
use crate::util::{start, syntax};
use crate::{Anchored, HalfMatch, Input, Match, PatternID, PatternSet};
use std::fmt;
use std::sync::{Arc, Mutex, MutexGuard, OnceLock, PoisonError};

/// The two lazy DFAs of a regex, and what finds groups, once it is needed. The lock serializes the calls that use its
/// handle, which create caches, and those that build what finds groups.
pub struct Engine {
    regex: Mutex<Handle>,
    pattern_len: usize,
    source: Option<Source>,
    groups: OnceLock<Groups>,
}

impl Engine {
    /// Builds the DFAs from the texts of patterns. With `forward_only`, the reverse DFA finds nothing.
    pub fn of_texts<P: AsRef<str>>(
        patterns: &[P],
        syntax: &syntax::Config,
        thompson: &thompson::Config,
        config: &dfa::Config,
        forward_only: bool,
    ) -> Result<Arc<Engine>, BuildError> {
        let (mut settings, mut options) = (config.settings, syntax.options);
        options.forward_only = u32::from(forward_only);
        options.bytes |= u32::from(thompson.bytes);
        if let Some(limit) = thompson.size_limit {
            options.size_limit = limit.unwrap_or(usize::MAX);
            settings.set_zero(raw::ZERO_SIZE_LIMIT, true);
        }
        let regex = open(patterns, &raw::Options::of(&settings, &config.quits, &options))?;
        let source = (!forward_only).then(|| Source::of(patterns, settings, options));
        Ok(Engine::new(regex, patterns.len(), source))
    }

    /// Builds the DFAs from one NFA: the second from the reversed NFA.
    pub fn of_nfa(nfa: &NFA, config: &dfa::Config) -> Result<Arc<Engine>, BuildError> {
        let mut regex = Handle::closed();
        nfa.open(&mut regex, &config.options())?;
        Ok(Engine::new(regex, nfa.pattern_len(), None))
    }

    /// Builds the DFAs from two NFAs, the second of which reads backward.
    pub fn of_nfas(forward: &NFA, reverse: &NFA, config: &dfa::Config) -> Result<Arc<Engine>, BuildError> {
        let mut regex = Handle::closed();
        forward.open_pair(reverse, &mut regex, &config.options())?;
        Ok(Engine::new(regex, forward.pattern_len(), None))
    }

    fn new(regex: Handle, pattern_len: usize, source: Option<Source>) -> Arc<Engine> {
        Arc::new(Engine { regex: Mutex::new(regex), pattern_len, source, groups: OnceLock::new() })
    }

    /// Returns the number of patterns.
    pub fn pattern_len(&self) -> usize {
        self.pattern_len
    }

    /// Locks the handle of the regex. No call panics while it holds the lock, so a poisoned lock can be used.
    fn lock(&self) -> MutexGuard<'_, Handle> {
        self.regex.lock().unwrap_or_else(PoisonError::into_inner)
    }

    /// Creates a fresh cache for searches with these DFAs.
    pub fn create_cache(self: &Arc<Engine>) -> Result<Cache, BuildError> {
        let mut cache = Handle::closed();
        raw::lazydfa_cache_new(&mut cache, &mut self.lock()).built()?;
        Ok(Cache { handle: Mutex::new(cache), groups: Mutex::new(None), engine: Arc::clone(self) })
    }

    /// Returns what finds groups, which the first call builds. After an error the next call tries again.
    pub fn groups(&self) -> Result<&Groups, BuildError> {
        if let Some(groups) = self.groups.get() {
            return Ok(groups);
        }
        let source = self.source.as_ref().ok_or(BuildErrorKind::NoGroups)?;
        let _one_builds = self.lock();
        if let Some(groups) = self.groups.get() {
            return Ok(groups);
        }
        let built = source.build()?;
        Ok(self.groups.get_or_init(|| built))
    }
}

/// Opens a handle on the regex of the texts of patterns.
pub fn open<P: AsRef<str>>(patterns: &[P], options: &raw::Options) -> Result<Handle, BuildError> {
    let texts: Vec<raw::Text> = patterns.iter().map(|pattern| raw::Text::of(pattern.as_ref())).collect();
    let (mut regex, mut error) = (Handle::closed(), raw::Error::new());
    let status = raw::regex_any_of(&mut regex, &texts, options, &mut error);
    let span = error.start..error.end;
    status.built().map_err(|built| built.of_text(error.pattern, span, error.message()))?;
    Ok(regex)
}

/// A cache of a regex: the states of its two DFAs that searches have built so far.
///
/// It belongs to the regex that created it and to that regex's clones; a search by another regex with it
/// panics. It is passed to each search, so a struct may own both a regex and its cache, and it may be sent to
/// another thread. Each thread that searches needs its own cache.
///
/// ```
/// use lazydfa::hybrid::regex::{Cache, Regex};
///
/// struct Words {
///     regex: Regex,
///     cache: Cache,
/// }
///
/// let regex = Regex::new(r"\pL+")?;
/// let mut words = Words { cache: regex.create_cache(), regex };
/// let count = std::thread::spawn(move || words.regex.find_iter(&mut words.cache, "foo 12 bar").count());
/// assert_eq!(count.join().unwrap(), 2);
/// # Ok::<(), lazydfa::BuildError>(())
/// ```
pub struct Cache {
    handle: Mutex<Handle>,
    // A cache for groups, once they were asked for.
    groups: Mutex<Option<Handle>>,
    engine: Arc<Engine>,
}

impl Cache {
    /// Creates a fresh cache for searches with this regex, as [`Regex::create_cache`] does.
    ///
    /// # Panics
    ///
    /// If an allocation fails.
    pub fn new(regex: &Regex) -> Cache {
        regex.create_cache()
    }

    /// Resets the cache to a fresh one of this regex, as [`Regex::reset_cache`] does.
    ///
    /// # Panics
    ///
    /// If an allocation fails.
    pub fn reset(&mut self, regex: &Regex) {
        regex.reset_cache(self);
    }

    /// Returns how many bytes both parts of the cache account for together. The capacity bounds them.
    pub fn memory_usage(&self) -> usize {
        self.usage().memory
    }

    /// Returns how many bytes leaps take: tables with which a search over a long text reads a few bytes per
    /// step. They are built if there is room beside the accounted bytes: both together are within the
    /// capacities of the two parts.
    pub fn leap_usage(&self) -> usize {
        self.usage().leaps
    }

    /// Returns how many bytes the cache holds from the allocator, including its leaps, and its memory for
    /// groups if they were asked for. An allocation of n bytes counts as n + 8, rounded up to a multiple of
    /// 16, and at least as 32, which is what glibc's `malloc` takes.
    pub fn heap_usage(&self) -> usize {
        let mut groups = raw::Usage::default();
        if let Some(handle) = self.groups.lock().unwrap_or_else(PoisonError::into_inner).as_mut() {
            raw::lazydfa_cache_usage(handle, &mut groups);
        }
        self.usage().held + groups.held
    }

    /// Returns how often the two parts of the cache were cleared: the part of the DFA that searches forward,
    /// and the part of the DFA that searches backward.
    pub fn clear_counts(&self) -> (usize, usize) {
        let usage = self.usage();
        (usage.forward_clears, usage.reverse_clears)
    }

    /// Returns what the library reports about the cache.
    fn usage(&self) -> raw::Usage {
        let mut usage = raw::Usage::default();
        let mut handle = self.handle.lock().unwrap_or_else(PoisonError::into_inner);
        raw::lazydfa_cache_usage(&mut handle, &mut usage);
        usage
    }

    /// Resets the cache to a fresh one of the same regex. If an allocation fails, it returns an error, and
    /// the cache is unchanged.
    pub fn try_reset(&mut self) -> Result<(), BuildError> {
        raw::lazydfa_cache_reset(self.handle()).built()?;
        *self.groups.get_mut().unwrap_or_else(PoisonError::into_inner) = None;
        Ok(())
    }

    /// Whether the cache belongs to these DFAs.
    pub(crate) fn is_of(&self, engine: &Arc<Engine>) -> bool {
        Arc::ptr_eq(&self.engine, engine)
    }

    /// Panics unless the cache belongs to these DFAs: with another regex's cache, the matches of that regex
    /// would be reported.
    pub(crate) fn check(&self, engine: &Arc<Engine>) {
        assert!(self.is_of(engine), "the cache is of another regex: create one by this regex");
    }

    /// Returns the handle. A search has exclusive use of the cache, so it takes no lock.
    fn handle(&mut self) -> &mut Handle {
        self.handle.get_mut().unwrap_or_else(PoisonError::into_inner)
    }

    /// Whether there is a match.
    pub(crate) fn is_match(&mut self, input: &Input<'_>) -> Result<bool, MatchError> {
        let status = raw::is_match(self.handle(), input.haystack(), &input.raw());
        status.found(input.get_anchored())
    }

    /// Searches for the first match.
    pub(crate) fn find(&mut self, input: &Input<'_>) -> Result<Option<Match>, MatchError> {
        let mut found = raw::Match::default();
        let status = raw::find(self.handle(), input.haystack(), &input.raw(), &mut found);
        Ok(status.found(input.get_anchored())?.then(|| found.into()))
    }

    /// Searches for the end of the first match.
    pub(crate) fn find_end(&mut self, input: &Input<'_>) -> Result<Option<HalfMatch>, MatchError> {
        self.half(input, raw::find_end)
    }

    /// Searches for the start of a match that ends where the span ends.
    pub(crate) fn find_start(&mut self, input: &Input<'_>) -> Result<Option<HalfMatch>, MatchError> {
        self.half(input, raw::find_start)
    }

    /// Runs a search of the library that writes a half match.
    fn half(
        &mut self,
        input: &Input<'_>,
        search: fn(&mut Handle, &[u8], &raw::Input, &mut Half) -> Status,
    ) -> Result<Option<HalfMatch>, MatchError> {
        let mut found = Half::default();
        let status = search(self.handle(), input.haystack(), &input.raw(), &mut found);
        Ok(status.found(input.get_anchored())?.then(|| found.into()))
    }

    /// Appends the ends of all overlapping matches; after an error, those found before it.
    pub(crate) fn all_ends(
        &mut self,
        input: &Input<'_>,
        ends: &mut Vec<HalfMatch>,
    ) -> Result<(), MatchError> {
        self.all(input, ends, raw::all_ends)
    }

    /// Appends the starts of all overlapping matches that end where the span ends; after an error, those
    /// found before it.
    pub(crate) fn all_starts(
        &mut self,
        input: &Input<'_>,
        starts: &mut Vec<HalfMatch>,
    ) -> Result<(), MatchError> {
        self.all(input, starts, raw::all_starts)
    }

    /// Runs a search of the library that writes all overlapping matches, and repeats it with room for as many
    /// as it counted, until there is room for all.
    fn all(
        &mut self,
        input: &Input<'_>,
        found: &mut Vec<HalfMatch>,
        search: fn(&mut Handle, &[u8], &raw::Input, &mut [Half], &mut usize) -> Status,
    ) -> Result<(), MatchError> {
        let mut halves = vec![Half::default(); 64];
        loop {
            let mut count = 0;
            let status = search(self.handle(), input.haystack(), &input.raw(), &mut halves, &mut count);
            if count <= halves.len() {
                found.extend(halves[..count].iter().map(|half| HalfMatch::from(*half)));
                return status.found(input.get_anchored()).map(|_| ());
            }
            halves.resize(count, Half::default());
        }
    }

    /// Inserts the patterns that match; after an error, those found before it. Patterns that are not below
    /// the set's capacity are left out.
    pub(crate) fn which(&mut self, input: &Input<'_>, set: &mut PatternSet) -> Result<(), MatchError> {
        let mut patterns = vec![0; set.capacity()];
        let mut count = 0;
        let status = raw::which(self.handle(), input.haystack(), &input.raw(), &mut patterns, &mut count);
        for pattern in &patterns[..count] {
            set.insert(PatternID(*pattern));
        }
        status.found(input.get_anchored()).map(|_| ())
    }

    /// Writes the next matches of an iteration, as many as there is room for. Returns how many there are, and
    /// what comes after them: more, nothing, or an error.
    pub(crate) fn next_all(
        &mut self,
        haystack: &[u8],
        mode: Anchored,
        at: &mut raw::Iteration,
        room: &mut [raw::Match],
    ) -> (usize, Result<bool, MatchError>) {
        let mut count = 0;
        let status = raw::next_all(self.handle(), haystack, at, room, &mut count);
        (count, status.found(mode))
    }

    /// Writes the spans of the groups of a match that a search with this cache found in this haystack.
    pub(crate) fn groups(
        &mut self,
        haystack: &[u8],
        found: &Match,
        spans: &mut [raw::Span],
    ) -> Result<(), MatchError> {
        let groups = self.groups.get_mut().unwrap_or_else(PoisonError::into_inner);
        let cache = match groups {
            Some(cache) => cache,
            None => groups.insert(self.engine.groups()?.create_cache()?),
        };
        let mut count = 0;
        raw::groups(cache, haystack, &found.raw(), spans, &mut count).found(Anchored::No).map(|_| ())
    }

    /// Returns the token at the start of the remaining span, which then starts where the token ends.
    pub(crate) fn token(
        &mut self,
        haystack: &[u8],
        left: &mut raw::Input,
    ) -> Result<Option<Match>, MatchError> {
        let mut found = raw::Match::default();
        let status = raw::token(self.handle(), haystack, left, &mut found);
        Ok(status.found(Anchored::Yes)?.then(|| found.into()))
    }

    /// Begins a search in pieces, which replaces the previous one.
    pub(crate) fn begin_pieces(&mut self, config: &start::Config, earliest: bool) -> Result<(), MatchError> {
        let mode = config.get_anchored();
        let ((anchored, pattern), behind) = (mode.raw(), raw::beside(config.get_look_behind()));
        let begin = raw::lazydfa_pieces_begin;
        begin(self.handle(), anchored, pattern, behind, earliest.into()).found(mode).map(|_| ())
    }

    /// Reads the next piece of the search that was begun, and writes whether its result is final.
    pub(crate) fn read_piece(&mut self, piece: &[u8], is_done: &mut bool) -> Result<(), MatchError> {
        let mut done = 0;
        let status = raw::pieces_read(self.handle(), piece, &mut done);
        *is_done = done != 0;
        status.found(Anchored::No).map(|_| ())
    }

    /// Returns the end of the match in the pieces so far, where `look_ahead` is the byte that follows them,
    /// if any.
    pub(crate) fn end_pieces(&mut self, look_ahead: Option<u8>) -> Result<Option<HalfMatch>, MatchError> {
        let mut found = Half::default();
        let status = raw::lazydfa_pieces_end(self.handle(), raw::beside(look_ahead), &mut found);
        Ok(status.found(Anchored::No)?.then(|| found.into()))
    }

    /// Begins a walk, which replaces the previous one.
    pub(crate) fn begin_walk(&mut self, config: &start::Config) -> Result<(), MatchError> {
        let mode = config.get_anchored();
        let ((anchored, pattern), behind) = (mode.raw(), raw::beside(config.get_look_behind()));
        raw::lazydfa_walk_begin(self.handle(), anchored, pattern, behind).found(mode).map(|_| ())
    }

    /// Reads a piece up to the next offset where patterns match, and returns the walk's position.
    pub(crate) fn read_walk(&mut self, piece: &[u8]) -> Result<Stop, MatchError> {
        let mut stop = Stop::default();
        raw::walk_read(self.handle(), piece, &mut stop).found(Anchored::No).map(|_| stop)
    }

    /// Returns the walk's position at the end of the pieces so far, where `look_ahead` is the byte that
    /// follows them, if any.
    pub(crate) fn end_walk(&mut self, look_ahead: Option<u8>) -> Result<Stop, MatchError> {
        let mut stop = Stop::default();
        let status = raw::lazydfa_walk_end(self.handle(), raw::beside(look_ahead), &mut stop);
        status.found(Anchored::No).map(|_| stop)
    }

    /// Returns one of the matches at the walk's position, which the last call returned.
    pub(crate) fn walk_match(&mut self, stop: &Stop, index: usize) -> HalfMatch {
        let mut pattern = 0;
        let status = raw::lazydfa_walk_pattern(self.handle(), index, &mut pattern);
        debug_assert_eq!(status.code, 0, "the walk has no pattern {index} of {}", stop.patterns);
        HalfMatch::new(PatternID(pattern), stop.offset)
    }
}

impl fmt::Debug for Cache {
    fn fmt(&self, f: &mut fmt::Formatter<'_>) -> fmt::Result {
        f.debug_struct("Cache")
            .field("memory_usage", &self.memory_usage())
            .field("clear_counts", &self.clear_counts())
            .finish_non_exhaustive()
    }
}
