//! Inputs of searches, and matches.
use crate::raw;
use crate::PatternID;
use std::fmt;
use std::ops::{Bound, Range, RangeBounds};

/// Where a match may begin.
#[derive(Clone, Copy, Debug, PartialEq, Eq)]
pub enum Anchored {
    /// Anywhere in the span.
    No,
    /// Where the span begins.
    Yes,
    /// Where the span begins, for this pattern alone. The regex must be built with
    /// [`starts_for_each_pattern`](crate::hybrid::dfa::Config::starts_for_each_pattern).
    Pattern(PatternID),
}

impl Anchored {
    /// Returns the mode and its pattern, as the library takes them.
    pub(crate) fn raw(self) -> (u32, u32) {
        match self {
            Anchored::No => (0, 0),
            Anchored::Yes => (1, 0),
            Anchored::Pattern(pattern) => (2, pattern.0),
        }
    }
}

/// Which matches a search reports.
#[derive(Clone, Copy, Debug, Default, PartialEq, Eq)]
#[non_exhaustive]
pub enum MatchKind {
    /// The preferred match, as a backtracking matcher finds it.
    #[default]
    LeftmostFirst,
    /// All matches: for overlapping searches and for sets of patterns.
    All,
}

/// A part of a haystack, by its offsets in bytes.
#[derive(Clone, Copy, Debug, PartialEq, Eq, Hash)]
pub struct Span {
    /// The offset of its first byte.
    pub start: usize,
    /// The offset after its last byte.
    pub end: usize,
}

impl Span {
    /// Returns the same offsets as a range, with which a haystack can be indexed.
    pub fn range(&self) -> Range<usize> {
        self.start..self.end
    }

    /// Returns the length in bytes.
    pub fn len(&self) -> usize {
        self.end.saturating_sub(self.start)
    }

    /// Whether the span is empty.
    pub fn is_empty(&self) -> bool {
        self.start >= self.end
    }
}

impl From<Range<usize>> for Span {
    fn from(range: Range<usize>) -> Span {
        Span { start: range.start, end: range.end }
    }
}

/// The input of a search: a haystack, a span of it, an anchored mode, and whether the search may stop at the
/// first match that it sees.
///
/// A `&str`, a `&[u8]` or a reference to anything else that is bytes converts to an input for the whole
/// haystack, neither anchored nor earliest:
///
/// ```
/// use lazydfa::hybrid::regex::Regex;
/// use lazydfa::{Anchored, Input};
///
/// let regex = Regex::new("[a-z]+")?;
/// let mut cache = regex.create_cache();
/// assert!(regex.is_match(&mut cache, "12 foo"));
/// assert!(!regex.is_match(&mut cache, Input::new("12 foo").anchored(Anchored::Yes)));
/// assert_eq!(regex.find(&mut cache, Input::new("12 foo").range(..5)).unwrap().range(), 3..5);
/// # Ok::<(), lazydfa::BuildError>(())
/// ```
#[derive(Clone, Copy)]
pub struct Input<'h> {
    haystack: &'h [u8],
    span: Span,
    anchored: Anchored,
    earliest: bool,
}

impl<'h> Input<'h> {
    /// Returns an input for the whole haystack, neither anchored nor earliest.
    pub fn new<H: ?Sized + AsRef<[u8]>>(haystack: &'h H) -> Input<'h> {
        let haystack = haystack.as_ref();
        let span = Span { start: 0, end: haystack.len() };
        Input { haystack, span, anchored: Anchored::No, earliest: false }
    }

    /// Sets the span. Look-around assertions see the bytes before and after it.
    ///
    /// # Panics
    ///
    /// If the span does not lie in the haystack, or starts more than one after its end.
    pub fn span<S: Into<Span>>(mut self, span: S) -> Input<'h> {
        self.set_span(span);
        self
    }

    /// Sets the span to any range of offsets. It panics as [`Input::span`] does.
    pub fn range<R: RangeBounds<usize>>(mut self, range: R) -> Input<'h> {
        self.set_range(range);
        self
    }

    /// Sets the anchored mode.
    pub fn anchored(mut self, mode: Anchored) -> Input<'h> {
        self.set_anchored(mode);
        self
    }

    /// Sets whether the search may stop at the first match that it sees.
    pub fn earliest(mut self, yes: bool) -> Input<'h> {
        self.set_earliest(yes);
        self
    }

    /// Sets the span, as [`Input::span`] does.
    pub fn set_span<S: Into<Span>>(&mut self, span: S) {
        let (span, length) = (span.into(), self.haystack.len());
        assert!(
            span.end <= length && span.start <= span.end + 1,
            "invalid span {:?} for haystack of length {length}",
            span.range(),
        );
        self.span = span;
    }

    /// Sets the span, as [`Input::range`] does.
    pub fn set_range<R: RangeBounds<usize>>(&mut self, range: R) {
        let after = |offset: usize| offset.checked_add(1).expect("the bound of a range is too large");
        let start = match range.start_bound() {
            Bound::Included(start) => *start,
            Bound::Excluded(before) => after(*before),
            Bound::Unbounded => 0,
        };
        let end = match range.end_bound() {
            Bound::Included(last) => after(*last),
            Bound::Excluded(end) => *end,
            Bound::Unbounded => self.haystack.len(),
        };
        self.set_span(Span { start, end });
    }

    /// Sets the anchored mode.
    pub fn set_anchored(&mut self, mode: Anchored) {
        self.anchored = mode;
    }

    /// Sets whether the search may stop at the first match that it sees.
    pub fn set_earliest(&mut self, yes: bool) {
        self.earliest = yes;
    }

    /// Returns the whole haystack, not just the span.
    pub fn haystack(&self) -> &'h [u8] {
        self.haystack
    }

    /// Returns the offset, in bytes, where the span starts.
    pub fn start(&self) -> usize {
        self.span.start
    }

    /// Returns the offset, in bytes, where the span ends.
    pub fn end(&self) -> usize {
        self.span.end
    }

    /// Returns the span.
    pub fn get_span(&self) -> Span {
        self.span
    }

    /// Returns the span as a range.
    pub fn get_range(&self) -> Range<usize> {
        self.span.range()
    }

    /// Returns the anchored mode.
    pub fn get_anchored(&self) -> Anchored {
        self.anchored
    }

    /// Whether the search may stop at the first match that it sees.
    pub fn get_earliest(&self) -> bool {
        self.earliest
    }

    /// Whether the span starts after its end, so that nothing matches in it, not even the empty string.
    pub fn is_done(&self) -> bool {
        self.span.start > self.span.end
    }

    /// Returns the span, the anchored mode and the earliest flag, as the library takes them.
    pub(crate) fn raw(&self) -> raw::Input {
        let (anchored, pattern) = self.anchored.raw();
        let (Span { start, end }, earliest) = (self.span, self.earliest.into());
        raw::Input { start, end, anchored, pattern, earliest, reserved: 0 }
    }
}

impl fmt::Debug for Input<'_> {
    fn fmt(&self, f: &mut fmt::Formatter<'_>) -> fmt::Result {
        f.debug_struct("Input")
            .field("haystack", &String::from_utf8_lossy(self.haystack))
            .field("span", &self.span)
            .field("anchored", &self.anchored)
            .field("earliest", &self.earliest)
            .finish()
    }
}

impl<'h, H: ?Sized + AsRef<[u8]>> From<&'h H> for Input<'h> {
    fn from(haystack: &'h H) -> Input<'h> {
        Input::new(haystack)
    }
}

/// A match: its pattern and its span.
#[derive(Clone, Copy, Debug, PartialEq, Eq, Hash)]
pub struct Match {
    pattern: PatternID,
    span: Span,
}

impl Match {
    /// Creates the match of a pattern at a span.
    ///
    /// # Panics
    ///
    /// If the span starts after its end.
    pub fn new<S: Into<Span>>(pattern: PatternID, span: S) -> Match {
        let span = span.into();
        assert!(span.start <= span.end, "invalid match span {:?}", span.range());
        Match { pattern, span }
    }

    /// Creates the match of the pattern with this number at a span. It panics as [`PatternID::must`] and
    /// [`Match::new`] do.
    pub fn must<S: Into<Span>>(pattern: usize, span: S) -> Match {
        Match::new(PatternID::must(pattern), span)
    }

    /// Returns the pattern that matched.
    pub fn pattern(&self) -> PatternID {
        self.pattern
    }

    /// Returns the offset of the match's first byte in the haystack.
    pub fn start(&self) -> usize {
        self.span.start
    }

    /// Returns the offset after the match's last byte in the haystack.
    pub fn end(&self) -> usize {
        self.span.end
    }

    /// Returns the span of the match, in bytes, as a range with which the haystack can be indexed.
    pub fn range(&self) -> Range<usize> {
        self.span.range()
    }

    /// Returns the span of the match, in bytes.
    pub fn span(&self) -> Span {
        self.span
    }

    /// Returns the length of the match, in bytes.
    pub fn len(&self) -> usize {
        self.span.len()
    }

    /// Whether the match is empty.
    pub fn is_empty(&self) -> bool {
        self.span.is_empty()
    }

    /// Returns the match as the library takes it.
    pub(crate) fn raw(&self) -> raw::Match {
        let Span { start, end } = self.span;
        raw::Match { start, end, pattern: self.pattern.0, reserved: 0 }
    }
}

impl From<raw::Match> for Match {
    fn from(raw: raw::Match) -> Match {
        Match { pattern: PatternID(raw.pattern), span: Span { start: raw.start, end: raw.end } }
    }
}

/// The pattern and one end of a match.
#[derive(Clone, Copy, Debug, PartialEq, Eq, Hash)]
pub struct HalfMatch {
    pattern: PatternID,
    offset: usize,
}

impl HalfMatch {
    /// Creates the half match of a pattern at an offset.
    pub fn new(pattern: PatternID, offset: usize) -> HalfMatch {
        HalfMatch { pattern, offset }
    }

    /// Creates the half match of the pattern with this number at an offset. It panics as [`PatternID::must`]
    /// does.
    pub fn must(pattern: usize, offset: usize) -> HalfMatch {
        HalfMatch::new(PatternID::must(pattern), offset)
    }

    /// Returns the pattern that matched.
    pub fn pattern(&self) -> PatternID {
        self.pattern
    }

    /// Returns the offset in the haystack, in bytes, where the match ends, or, for a reverse search, where it
    /// starts.
    pub fn offset(&self) -> usize {
        self.offset
    }
}

impl From<raw::Half> for HalfMatch {
    fn from(raw: raw::Half) -> HalfMatch {
        HalfMatch { pattern: PatternID(raw.pattern), offset: raw.offset }
    }
}

/// A set of the patterns below a capacity.
#[derive(Clone, Debug, PartialEq, Eq)]
pub struct PatternSet {
    which: Vec<bool>,
}

impl PatternSet {
    /// Creates an empty set with room for the patterns below this number.
    pub fn new(capacity: usize) -> PatternSet {
        PatternSet { which: vec![false; capacity] }
    }

    /// Returns the capacity: the set has room for the patterns below it.
    pub fn capacity(&self) -> usize {
        self.which.len()
    }

    /// Inserts a pattern, and returns whether it was not in the set before.
    ///
    /// # Panics
    ///
    /// If the pattern is not below the capacity.
    pub fn insert(&mut self, pattern: PatternID) -> bool {
        !std::mem::replace(&mut self.which[pattern.as_usize()], true)
    }

    /// Removes a pattern, and returns whether it was in the set.
    ///
    /// # Panics
    ///
    /// If the pattern is not below the capacity.
    pub fn remove(&mut self, pattern: PatternID) -> bool {
        std::mem::replace(&mut self.which[pattern.as_usize()], false)
    }

    /// Whether a pattern is in the set. A pattern that is not below the capacity never is.
    pub fn contains(&self, pattern: PatternID) -> bool {
        self.which.get(pattern.as_usize()).copied().unwrap_or(false)
    }

    /// Removes all patterns. The capacity is unchanged.
    pub fn clear(&mut self) {
        self.which.fill(false);
    }

    /// Returns the number of patterns in the set.
    pub fn len(&self) -> usize {
        self.iter().count()
    }

    /// Whether the set is empty.
    pub fn is_empty(&self) -> bool {
        !self.which.contains(&true)
    }

    /// Whether the set contains all patterns below the capacity.
    pub fn is_full(&self) -> bool {
        !self.which.contains(&false)
    }

    /// Returns an iterator over the members, in increasing order.
    pub fn iter(&self) -> impl Iterator<Item = PatternID> + '_ {
        let members = self.which.iter().enumerate().filter(|(_, is_in)| **is_in);
        members.map(|(pattern, _)| PatternID(pattern as u32))
    }
}
