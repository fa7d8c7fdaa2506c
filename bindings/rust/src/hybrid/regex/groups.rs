//! Searches that report groups, and what is made of them: replacements, and the parts between matches.
use super::Regex;
use crate::iter::Matches;
use crate::util::captures::{CaptureNames, Captures, GroupInfo, Haystack, Replaced, Text};
use crate::util::replace::Replacer;
use crate::{BuildError, Cache, Match, MatchError, PatternID};
use std::borrow::{BorrowMut, Cow};
use std::fmt;
use std::iter::FusedIterator;
use std::sync::Arc;

/// # Groups
///
/// The first call that reports groups builds what finds them: a second regex of the same texts, and memory for it in
/// each cache that is used. Searches that report no groups cost what they cost without it. The groups are those of the
/// preferred match: build the regex without [`MatchKind::All`](crate::MatchKind), and search without
/// [`earliest`](crate::Input::earliest), or groups other than 0 are merely some spans within the match.
impl Regex {
    /// Returns the names and numbers of groups.
    ///
    /// # Panics
    ///
    /// If [`Regex::try_group_info`] returns an error.
    pub fn group_info(&self) -> &GroupInfo {
        self.try_group_info().expect("what finds groups")
    }

    /// Returns the names and numbers of groups, and builds what finds groups, unless it is built.
    ///
    /// # Errors
    ///
    /// If the regex was built from NFAs, if a limit of the settings is exceeded, or if an allocation fails.
    pub fn try_group_info(&self) -> Result<&GroupInfo, BuildError> {
        Ok(self.forward.engine().groups()?.info())
    }

    /// Returns the number of groups of the first pattern, group 0 included. It panics as [`Regex::group_info`] does.
    pub fn captures_len(&self) -> usize {
        self.group_info().group_len(PatternID::ZERO)
    }

    /// Returns an iterator over the names of the groups of the first pattern, from group 0 on, which has none. It
    /// panics as [`Regex::group_info`] does.
    pub fn capture_names(&self) -> CaptureNames<'_> {
        self.group_info().pattern_names(PatternID::ZERO)
    }

    /// Searches for the first match, and returns its groups.
    ///
    /// # Panics
    ///
    /// If the search fails, the regex was built from NFAs, or the cache belongs to another regex.
    pub fn captures<'h, H: Haystack<'h>>(
        &self,
        cache: &mut Cache,
        haystack: H,
    ) -> Option<Captures<'h, H::Text>> {
        self.try_captures(cache, haystack).expect("a search for groups")
    }

    /// Searches for the first match, and returns its groups.
    ///
    /// # Errors
    ///
    /// As for [`Regex::try_search`], and if what finds groups cannot be built.
    ///
    /// # Panics
    ///
    /// If the cache belongs to another regex.
    pub fn try_captures<'h, H: Haystack<'h>>(
        &self,
        cache: &mut Cache,
        haystack: H,
    ) -> Result<Option<Captures<'h, H::Text>>, MatchError> {
        let (info, text) = (self.forward.engine().groups()?.info(), haystack.text());
        let found = self.try_search(cache, &haystack.into())?;
        found.map(|found| groups_of(cache, info, text, &found)).transpose()
    }

    /// Returns an iterator over the groups of matches, none of which overlaps another, with a cache or a `&mut` to one.
    ///
    /// # Panics
    ///
    /// If the cache belongs to another regex. The iterator panics if a search fails, or the regex was built from NFAs.
    pub fn captures_iter<'h, C: BorrowMut<Cache>, H: Haystack<'h>>(
        &self,
        cache: C,
        haystack: H,
    ) -> CaptureMatches<'h, C, H::Text> {
        CaptureMatches(self.try_captures_iter(cache, haystack))
    }

    /// Returns an iterator over the groups of matches, with a cache or a `&mut` to one. The error of a search is the
    /// last item.
    ///
    /// # Panics
    ///
    /// If the cache belongs to another regex.
    pub fn try_captures_iter<'h, C: BorrowMut<Cache>, H: Haystack<'h>>(
        &self,
        mut cache: C,
        haystack: H,
    ) -> TryCaptureMatches<'h, C, H::Text> {
        cache.borrow_mut().check(self.forward.engine());
        let (info, failed) = match self.forward.engine().groups() {
            Ok(groups) => (Some(Arc::clone(groups.info())), None),
            Err(error) => (None, Some(error.into())),
        };
        let text = haystack.text();
        TryCaptureMatches { cache, info, failed, text, matches: Matches::new(haystack.into()) }
    }

    /// Replaces the first match. Without a match the haystack is returned as it is.
    ///
    /// # Panics
    ///
    /// As for [`Regex::captures`]; for a replacement without groups, the regex may have been built from NFAs.
    pub fn replace<'h, H: Haystack<'h>, R: Replacer<H::Text>>(
        &self,
        cache: &mut Cache,
        haystack: H,
        rep: R,
    ) -> Cow<'h, H::Text> {
        self.replacen(cache, haystack, 1, rep)
    }

    /// Replaces all matches that do not overlap. It panics as [`Regex::replace`] does.
    pub fn replace_all<'h, H: Haystack<'h>, R: Replacer<H::Text>>(
        &self,
        cache: &mut Cache,
        haystack: H,
        rep: R,
    ) -> Cow<'h, H::Text> {
        self.replacen(cache, haystack, 0, rep)
    }

    /// Replaces as many matches as the limit says, from the first one on; all of them if it is 0. It panics as
    /// [`Regex::replace`] does.
    pub fn replacen<'h, H: Haystack<'h>, R: Replacer<H::Text>>(
        &self,
        cache: &mut Cache,
        haystack: H,
        limit: usize,
        rep: R,
    ) -> Cow<'h, H::Text> {
        self.try_replacen(cache, haystack, limit, rep).expect("a search for matches to be replaced")
    }

    /// Replaces as many matches as the limit says, from the first one on; all of them if it is 0.
    ///
    /// # Errors
    ///
    /// As for [`Regex::try_captures`].
    ///
    /// # Panics
    ///
    /// If the cache belongs to another regex.
    pub fn try_replacen<'h, H: Haystack<'h>, R: Replacer<H::Text>>(
        &self,
        cache: &mut Cache,
        haystack: H,
        limit: usize,
        mut rep: R,
    ) -> Result<Cow<'h, H::Text>, MatchError> {
        let mut replaced = Replaced::new(haystack.text());
        let most = if limit == 0 { usize::MAX } else { limit };
        if let Some(text) = rep.no_expansion() {
            for found in self.try_find_iter(cache, haystack).take(most) {
                text.append_to(replaced.replace(found?.range()));
            }
        } else {
            for caps in self.try_captures_iter(cache, haystack).take(most) {
                let caps = caps?;
                let found = caps.get(0).expect("group 0 is the match");
                rep.replace_append(&caps, replaced.replace(found.range()));
            }
        }
        Ok(replaced.finish())
    }

    /// Returns an iterator over the parts of a haystack between matches that do not overlap, with a cache or a `&mut`
    /// to one. Without a match the haystack is the only part.
    ///
    /// # Panics
    ///
    /// If the cache belongs to another regex. The iterator panics if a search fails.
    ///
    /// ```
    /// use lazydfa::hybrid::regex::Regex;
    ///
    /// let regex = Regex::new(r"\s*,\s*")?;
    /// let mut cache = regex.create_cache();
    /// assert_eq!(regex.split(&mut cache, "a , b,,c").collect::<Vec<_>>(), ["a", "b", "", "c"]);
    /// assert_eq!(regex.splitn(&mut cache, "a , b,,c", 2).collect::<Vec<_>>(), ["a", "b,,c"]);
    /// # Ok::<(), lazydfa::BuildError>(())
    /// ```
    pub fn split<'h, C: BorrowMut<Cache>, H: Haystack<'h>>(
        &self,
        mut cache: C,
        haystack: H,
    ) -> Split<'h, C, H::Text> {
        cache.borrow_mut().check(self.forward.engine());
        let text = haystack.text();
        Split { cache, text, matches: Matches::new(haystack.into()), rest: Some(0) }
    }

    /// Returns an iterator over at most `limit` parts of a haystack, the last of which is the rest, with a cache or a
    /// `&mut` to one. It panics as [`Regex::split`] does.
    pub fn splitn<'h, C: BorrowMut<Cache>, H: Haystack<'h>>(
        &self,
        cache: C,
        haystack: H,
        limit: usize,
    ) -> SplitN<'h, C, H::Text> {
        SplitN { parts: self.split(cache, haystack), left: limit }
    }
}

/// Returns the groups of a match that a search with this cache found in this haystack.
fn groups_of<'h, T: ?Sized + Text>(
    cache: &mut Cache,
    info: &Arc<GroupInfo>,
    text: &'h T,
    found: &Match,
) -> Result<Captures<'h, T>, MatchError> {
    let mut caps = Captures::empty(text, found, info);
    cache.groups(text.raw_bytes(), found, caps.spans())?;
    Ok(caps)
}

/// An iterator over the groups of matches, which panics if a search fails.
#[derive(Debug)]
pub struct CaptureMatches<'h, C, T: ?Sized = str>(TryCaptureMatches<'h, C, T>);

impl<'h, C: BorrowMut<Cache>, T: ?Sized + Text> Iterator for CaptureMatches<'h, C, T> {
    type Item = Captures<'h, T>;

    fn next(&mut self) -> Option<Captures<'h, T>> {
        Some(self.0.next()?.expect("a search for groups"))
    }
}

impl<C: BorrowMut<Cache>, T: ?Sized + Text> FusedIterator for CaptureMatches<'_, C, T> {}

/// An iterator over the groups of matches. After an error, or after the last match, it returns `None`.
pub struct TryCaptureMatches<'h, C, T: ?Sized = str> {
    cache: C,
    // There is none before an error that is still to be returned, and after an error.
    info: Option<Arc<GroupInfo>>,
    failed: Option<MatchError>,
    text: &'h T,
    matches: Matches<'h>,
}

impl<'h, C: BorrowMut<Cache>, T: ?Sized + Text> Iterator for TryCaptureMatches<'h, C, T> {
    type Item = Result<Captures<'h, T>, MatchError>;

    fn next(&mut self) -> Option<Self::Item> {
        let Some(info) = &self.info else {
            return self.failed.take().map(Err);
        };
        let cache = self.cache.borrow_mut();
        let found = self.matches.next(cache)?;
        let caps = found.and_then(|found| groups_of(cache, info, self.text, &found));
        if caps.is_err() {
            self.info = None;
        }
        Some(caps)
    }
}

impl<C: BorrowMut<Cache>, T: ?Sized + Text> FusedIterator for TryCaptureMatches<'_, C, T> {}

impl<C: fmt::Debug, T: ?Sized> fmt::Debug for TryCaptureMatches<'_, C, T> {
    fn fmt(&self, f: &mut fmt::Formatter<'_>) -> fmt::Result {
        let mut shown = f.debug_struct("TryCaptureMatches");
        shown.field("cache", &self.cache).field("matches", &self.matches).finish_non_exhaustive()
    }
}

/// An iterator over the parts of a haystack between matches.
pub struct Split<'h, C, T: ?Sized = str> {
    cache: C,
    text: &'h T,
    matches: Matches<'h>,
    // Where the next part begins, unless the last one was returned.
    rest: Option<usize>,
}

impl<'h, C, T: ?Sized + Text> Split<'h, C, T> {
    /// Returns what is left of the haystack, after which there is no part.
    fn take_rest(&mut self) -> Option<&'h T> {
        Some(self.text.part(self.rest.take()?..self.text.raw_bytes().len()))
    }
}

impl<'h, C: BorrowMut<Cache>, T: ?Sized + Text> Iterator for Split<'h, C, T> {
    type Item = &'h T;

    fn next(&mut self) -> Option<&'h T> {
        let start = self.rest?;
        let Some(found) = self.matches.next(self.cache.borrow_mut()) else {
            return self.take_rest();
        };
        let found = found.expect("a search for the ends of parts");
        self.rest = Some(found.end());
        Some(self.text.part(start..found.start()))
    }
}

impl<C: BorrowMut<Cache>, T: ?Sized + Text> FusedIterator for Split<'_, C, T> {}

impl<C: fmt::Debug, T: ?Sized> fmt::Debug for Split<'_, C, T> {
    fn fmt(&self, f: &mut fmt::Formatter<'_>) -> fmt::Result {
        let mut shown = f.debug_struct("Split");
        shown.field("cache", &self.cache).field("rest", &self.rest).finish_non_exhaustive()
    }
}

/// An iterator over a limited number of parts of a haystack, the last of which is the rest.
#[derive(Debug)]
pub struct SplitN<'h, C, T: ?Sized = str> {
    parts: Split<'h, C, T>,
    left: usize,
}

impl<'h, C: BorrowMut<Cache>, T: ?Sized + Text> Iterator for SplitN<'h, C, T> {
    type Item = &'h T;

    fn next(&mut self) -> Option<&'h T> {
        self.left = self.left.checked_sub(1)?;
        if self.left == 0 {
            self.parts.take_rest()
        } else {
            self.parts.next()
        }
    }
}

impl<C: BorrowMut<Cache>, T: ?Sized + Text> FusedIterator for SplitN<'_, C, T> {}
