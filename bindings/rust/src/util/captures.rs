//! Groups of matches, and their names.
use crate::{raw, Input, Match, PatternID, Span};
use std::borrow::Cow;
use std::collections::HashMap;
use std::fmt;
use std::iter::FusedIterator;
use std::ops::{Index, Range};
use std::slice;
use std::sync::Arc;

/// The names and numbers of the groups of patterns.
///
/// Group 0 of a pattern is the whole match, and its groups have the numbers 1, 2 and so on, in the order in which they
/// are opened.
#[derive(Debug)]
pub struct GroupInfo {
    names: Vec<Vec<Option<String>>>,
    numbers: Vec<HashMap<String, usize>>,
}

impl GroupInfo {
    /// Returns the groups of patterns with these names.
    pub(crate) fn new(names: Vec<Vec<Option<String>>>) -> GroupInfo {
        let number = |(number, name): (usize, &Option<String>)| Some((name.clone()?, number));
        let numbers =
            names.iter().map(|names| names.iter().enumerate().filter_map(number).collect()).collect();
        GroupInfo { names, numbers }
    }

    /// Returns the number of patterns.
    pub fn pattern_len(&self) -> usize {
        self.names.len()
    }

    /// Returns the number of groups of a pattern, group 0 included; 0 if there is no such pattern.
    pub fn group_len(&self, pattern: PatternID) -> usize {
        self.names.get(pattern.as_usize()).map_or(0, Vec::len)
    }

    /// Returns the number of the group of a pattern that has this name.
    pub fn to_index(&self, pattern: PatternID, name: &str) -> Option<usize> {
        self.numbers.get(pattern.as_usize())?.get(name).copied()
    }

    /// Returns the name of a group of a pattern, if it has one.
    pub fn to_name(&self, pattern: PatternID, group: usize) -> Option<&str> {
        self.names.get(pattern.as_usize())?.get(group)?.as_deref()
    }

    /// Returns an iterator over the names of the groups of a pattern, from group 0 on, which has none.
    pub fn pattern_names(&self, pattern: PatternID) -> CaptureNames<'_> {
        CaptureNames(self.names.get(pattern.as_usize()).map_or(&[][..], Vec::as_slice).iter())
    }
}

/// An iterator over the names of the groups of a pattern, from group 0 on.
#[derive(Clone, Debug)]
pub struct CaptureNames<'r>(slice::Iter<'r, Option<String>>);

impl<'r> Iterator for CaptureNames<'r> {
    type Item = Option<&'r str>;

    fn next(&mut self) -> Option<Option<&'r str>> {
        self.0.next().map(Option::as_deref)
    }

    fn size_hint(&self) -> (usize, Option<usize>) {
        self.0.size_hint()
    }
}

impl ExactSizeIterator for CaptureNames<'_> {}
impl FusedIterator for CaptureNames<'_> {}

mod sealed {
    pub trait Sealed {}
    impl Sealed for str {}
    impl Sealed for [u8] {}
}

/// What is searched for groups: a text (`str`) or bytes (`[u8]`).
pub trait Text: ToOwned<Owned: Default> + sealed::Sealed {
    /// Returns the bytes.
    fn raw_bytes(&self) -> &[u8];

    /// Returns a part of it. It panics as indexing does, also if the range splits a character of a text.
    fn part(&self, range: Range<usize>) -> &Self;

    /// Appends it to an owned text.
    fn append_to(&self, owned: &mut Self::Owned);
}

impl Text for str {
    fn raw_bytes(&self) -> &[u8] {
        self.as_bytes()
    }

    fn part(&self, range: Range<usize>) -> &str {
        &self[range]
    }

    fn append_to(&self, owned: &mut String) {
        owned.push_str(self);
    }
}

impl Text for [u8] {
    fn raw_bytes(&self) -> &[u8] {
        self
    }

    fn part(&self, range: Range<usize>) -> &[u8] {
        &self[range]
    }

    fn append_to(&self, owned: &mut Vec<u8>) {
        owned.extend_from_slice(self);
    }
}

/// A reference to what is searched for groups: to a text, whose groups are texts, or to bytes, whose groups are bytes;
/// or an [`Input`], whose groups are bytes. Pass bytes if the regex is one of bytes: to take a part of a text that splits
/// a character is a panic.
pub trait Haystack<'h>: Into<Input<'h>> {
    /// What the groups are.
    type Text: ?Sized + Text;

    /// Returns the whole haystack.
    fn text(&self) -> &'h Self::Text;
}

macro_rules! haystacks {
    ($($type:ty: $text:ty),*) => {
        $(impl<'h> Haystack<'h> for &'h $type {
            type Text = $text;

            fn text(&self) -> &'h $text {
                self
            }
        })*
    };
}

haystacks! { str: str, String: str, [u8]: [u8], Vec<u8>: [u8] }

impl<'h, const N: usize> Haystack<'h> for &'h [u8; N] {
    type Text = [u8];

    fn text(&self) -> &'h [u8] {
        *self
    }
}

impl<'h> Haystack<'h> for Input<'h> {
    type Text = [u8];

    fn text(&self) -> &'h [u8] {
        self.haystack()
    }
}

/// What a group captured: a part of a haystack.
pub struct Group<'h, T: ?Sized = str> {
    text: &'h T,
    span: Span,
}

impl<'h, T: ?Sized + Text> Group<'h, T> {
    /// Returns the offset of its first byte in the haystack.
    pub fn start(&self) -> usize {
        self.span.start
    }

    /// Returns the offset after its last byte in the haystack.
    pub fn end(&self) -> usize {
        self.span.end
    }

    /// Returns its span in the haystack, in bytes, as a range.
    pub fn range(&self) -> Range<usize> {
        self.span.range()
    }

    /// Returns its span in the haystack, in bytes.
    pub fn span(&self) -> Span {
        self.span
    }

    /// Returns its length, in bytes.
    pub fn len(&self) -> usize {
        self.span.len()
    }

    /// Whether it is empty.
    pub fn is_empty(&self) -> bool {
        self.span.is_empty()
    }

    /// Returns the bytes that it captured.
    pub fn as_bytes(&self) -> &'h [u8] {
        &self.text.raw_bytes()[self.range()]
    }

    /// Returns what it captured, as the haystack is given.
    pub(crate) fn part(&self) -> &'h T {
        self.text.part(self.range())
    }
}

impl<'h> Group<'h, str> {
    /// Returns the text that it captured.
    ///
    /// # Panics
    ///
    /// If the regex is one of bytes, and the group splits a character.
    pub fn as_str(&self) -> &'h str {
        self.part()
    }
}

impl<T: ?Sized> Clone for Group<'_, T> {
    fn clone(&self) -> Self {
        *self
    }
}

impl<T: ?Sized> Copy for Group<'_, T> {}

impl<T: ?Sized + Text> fmt::Debug for Group<'_, T> {
    fn fmt(&self, f: &mut fmt::Formatter<'_>) -> fmt::Result {
        write!(f, "{:?} at {:?}", String::from_utf8_lossy(self.as_bytes()), self.range())
    }
}

/// The groups of a match.
///
/// ```
/// use lazydfa::hybrid::regex::Regex;
///
/// let regex = Regex::new(r"(?P<year>[0-9]{4})-(?P<month>[0-9]{2})(-[0-9]{2})?")?;
/// let mut cache = regex.create_cache();
/// let caps = regex.captures(&mut cache, "since 2024-03").unwrap();
/// assert_eq!((&caps[0], &caps[1], &caps["month"]), ("2024-03", "2024", "03"));
/// assert_eq!(caps.name("year").unwrap().range(), 6..10);
/// assert!(caps.get(3).is_none());
/// # Ok::<(), lazydfa::BuildError>(())
/// ```
pub struct Captures<'h, T: ?Sized = str> {
    text: &'h T,
    pattern: PatternID,
    spans: Vec<raw::Span>,
    info: Arc<GroupInfo>,
}

impl<'h, T: ?Sized + Text> Captures<'h, T> {
    /// Returns groups of a match of a pattern, none of which took part in it, with room for all their spans.
    pub(crate) fn empty(text: &'h T, found: &Match, info: &Arc<GroupInfo>) -> Captures<'h, T> {
        let (pattern, info) = (found.pattern(), Arc::clone(info));
        let spans = vec![raw::Span { start: usize::MAX, end: usize::MAX }; info.group_len(pattern)];
        Captures { text, pattern, spans, info }
    }

    /// Returns the spans, to be written.
    pub(crate) fn spans(&mut self) -> &mut [raw::Span] {
        &mut self.spans
    }

    /// Returns the pattern that matched.
    pub fn pattern(&self) -> PatternID {
        self.pattern
    }

    /// Returns what the group of this number captured, or `None` if it took no part in the match, or there is no such
    /// group. Group 0 is the whole match. A group in a repetition has what it captured last.
    pub fn get(&self, group: usize) -> Option<Group<'h, T>> {
        let &raw::Span { start, end } = self.spans.get(group)?;
        (start != usize::MAX).then_some(Group { text: self.text, span: Span { start, end } })
    }

    /// Returns what the group of this name captured, or `None` if it took no part in the match, or the pattern that
    /// matched has no such group.
    pub fn name(&self, name: &str) -> Option<Group<'h, T>> {
        self.get(self.info.to_index(self.pattern, name)?)
    }

    /// Returns the number of groups, group 0 included, whether or not they took part in the match.
    #[allow(clippy::len_without_is_empty)] // there always is group 0
    pub fn len(&self) -> usize {
        self.spans.len()
    }

    /// Returns an iterator over the groups, from group 0 on.
    pub fn iter(&self) -> SubCaptureMatches<'_, 'h, T> {
        SubCaptureMatches { caps: self, group: 0 }
    }

    /// Returns the whole match, and what groups 1 to `N` captured.
    ///
    /// # Panics
    ///
    /// If there are not exactly `N` groups beside group 0, or one of them took no part in the match.
    pub fn extract<const N: usize>(&self) -> (&'h T, [&'h T; N]) {
        let count = self.len() - 1;
        assert_eq!(N, count, "{count} groups cannot be extracted as {N}");
        let part = |group| self.get(group).expect("a group that took part in the match").part();
        (part(0), std::array::from_fn(|at| part(at + 1)))
    }

    /// Appends a text in which `$1`, `$name` and `${name}` stand for groups, and `$$` for a dollar sign. The longest
    /// name is taken: `$1a` is the group `1a`, and `${1}a` is group 1 before an `a`. A group that took no part, or that
    /// there is not, is the empty text.
    pub fn expand(&self, replacement: &T, dst: &mut T::Owned) {
        super::replace::expand(self, replacement, dst);
    }
}

impl<T: ?Sized + Text> fmt::Debug for Captures<'_, T> {
    fn fmt(&self, f: &mut fmt::Formatter<'_>) -> fmt::Result {
        let names = self.info.pattern_names(self.pattern).enumerate();
        let name = |(group, name): (usize, Option<&str>)| name.map_or(group.to_string(), str::to_owned);
        f.write_str("Captures")?;
        f.debug_map().entries(names.map(name).zip(self.iter())).finish()
    }
}

/// Returns what a group captured. It panics if the group took no part in the match, or there is no such group.
impl<T: ?Sized + Text> Index<usize> for Captures<'_, T> {
    type Output = T;

    fn index(&self, group: usize) -> &T {
        self.get(group).unwrap_or_else(|| panic!("no group {group} took part in the match")).part()
    }
}

/// Returns what a group captured. It panics if the group took no part in the match, or there is no such group.
impl<T: ?Sized + Text> Index<&str> for Captures<'_, T> {
    type Output = T;

    fn index(&self, name: &str) -> &T {
        self.name(name).unwrap_or_else(|| panic!("no group `{name}` took part in the match")).part()
    }
}

/// An iterator over the groups of a match, from group 0 on.
pub struct SubCaptureMatches<'c, 'h, T: ?Sized = str> {
    caps: &'c Captures<'h, T>,
    group: usize,
}

impl<'h, T: ?Sized + Text> Iterator for SubCaptureMatches<'_, 'h, T> {
    type Item = Option<Group<'h, T>>;

    fn next(&mut self) -> Option<Option<Group<'h, T>>> {
        if self.group == self.caps.len() {
            return None;
        }
        self.group += 1;
        Some(self.caps.get(self.group - 1))
    }

    fn size_hint(&self) -> (usize, Option<usize>) {
        let left = self.caps.len() - self.group;
        (left, Some(left))
    }
}

impl<T: ?Sized + Text> ExactSizeIterator for SubCaptureMatches<'_, '_, T> {}
impl<T: ?Sized + Text> FusedIterator for SubCaptureMatches<'_, '_, T> {}

impl<T: ?Sized + Text> fmt::Debug for SubCaptureMatches<'_, '_, T> {
    fn fmt(&self, f: &mut fmt::Formatter<'_>) -> fmt::Result {
        f.debug_struct("SubCaptureMatches").field("caps", &self.caps).field("group", &self.group).finish()
    }
}

/// The parts of a haystack around matches, as they are replaced.
pub(crate) struct Replaced<'h, T: ?Sized + Text> {
    text: &'h T,
    copied: usize,
    made: Option<T::Owned>,
}

impl<'h, T: ?Sized + Text> Replaced<'h, T> {
    /// Returns a haystack, of which nothing is replaced yet.
    pub fn new(text: &'h T) -> Replaced<'h, T> {
        Replaced { text, copied: 0, made: None }
    }

    /// Copies what is before a match, and returns the text to which the replacement is appended.
    pub fn replace(&mut self, found: Range<usize>) -> &mut T::Owned {
        let made = self.made.get_or_insert_with(T::Owned::default);
        self.text.part(self.copied..found.start).append_to(made);
        self.copied = found.end;
        made
    }

    /// Copies what is after the last match. A haystack without a match is borrowed.
    pub fn finish(self) -> Cow<'h, T> {
        let Some(mut made) = self.made else {
            return Cow::Borrowed(self.text);
        };
        self.text.part(self.copied..self.text.raw_bytes().len()).append_to(&mut made);
        Cow::Owned(made)
    }
}
