//! Searches, whose loops read the table and the haystack without checks. They keep no progress, and know no quit bytes
//! and no modes but the anchored one.

use crate::cache::{Cache, DEAD, MATCH, MAX_UNTAGGED, UNKNOWN};
use crate::dfa::Dfa;

/// The byte that is read after so many others, forward or backward.
///
/// # Safety
///
/// The haystack has so many bytes from the offset on, or before it.
#[inline(always)]
unsafe fn byte<const BACK: bool>(hay: &[u8], from: usize, read: usize) -> u8 {
    unsafe { *hay.get_unchecked(if BACK { from - 1 - read } else { from + read }) }
}

impl Dfa {
    /// # Safety
    ///
    /// The ID is one of this cache, and has no tag.
    #[inline(always)]
    unsafe fn entry(&self, cache: &Cache, id: u32, byte: u8) -> u32 {
        let class = self.classes[byte as usize] as usize;
        unsafe { *cache.trans.get_unchecked(id as usize + class) }
    }

    #[inline(always)]
    fn next(&self, cache: &mut Cache, id: u32, unit: Option<u8>) -> u32 {
        let class = unit.map_or(self.end, |byte| self.classes[byte as usize] as usize);
        // SAFETY: an ID in a cache is the offset of a row, and a class is less than the stride.
        let next = unsafe { *cache.trans.get_unchecked((id & MAX_UNTAGGED) as usize + class) };
        if next & UNKNOWN == 0 { next } else { self.make_next(cache, id, unit) }
    }

    fn pattern_of(&self, cache: &Cache, id: u32) -> u32 {
        if self.nfa.patterns == 1 { 0 } else { cache.states[self.row(id)][4] }
    }

    /// Follows transitions, four at a time, up to a tagged ID or the last byte. It returns the ID before the last one,
    /// the last one, and how many bytes were read before it.
    ///
    /// # Safety
    ///
    /// The ID is one of this cache and has no tag; there is a byte to read, and the haystack has `count` of them.
    #[inline(always)]
    unsafe fn follow<const BACK: bool>(
        &self,
        cache: &Cache,
        (hay, from, count): (&[u8], usize, usize),
        mut id: u32,
        mut at: usize,
    ) -> (u32, u32, usize) {
        unsafe {
            loop {
                let one = self.entry(cache, id, byte::<BACK>(hay, from, at));
                if one > MAX_UNTAGGED || at + 4 > count {
                    return (id, one, at);
                }
                let two = self.entry(cache, one, byte::<BACK>(hay, from, at + 1));
                if two > MAX_UNTAGGED {
                    return (one, two, at + 1);
                }
                let three = self.entry(cache, two, byte::<BACK>(hay, from, at + 2));
                if three > MAX_UNTAGGED {
                    return (two, three, at + 2);
                }
                let four = self.entry(cache, three, byte::<BACK>(hay, from, at + 3));
                if four > MAX_UNTAGGED || at + 4 == count {
                    return (three, four, at + 3);
                }
                id = four;
                at += 4;
            }
        }
    }

    /// The last match's pattern, and how many bytes it has read.
    #[inline(always)]
    fn find<const BACK: bool>(
        &self,
        cache: &mut Cache,
        (hay, from, count): (&[u8], usize, usize),
        start: u32,
        after: Option<u8>,
    ) -> Option<(u32, usize)> {
        let (mut id, mut at, mut found) = (start, 0, None);
        while at < count {
            if id <= MAX_UNTAGGED {
                // SAFETY: the ID is one of this cache, and `at` is less than the number of bytes.
                let (before, next, read) = unsafe { self.follow::<BACK>(cache, (hay, from, count), id, at) };
                (id, at) = (next, read);
                if id & UNKNOWN != 0 {
                    // SAFETY: as above.
                    id = self.make_next(cache, before, Some(unsafe { byte::<BACK>(hay, from, at) }));
                }
            } else {
                // A run of one match state is followed at once.
                // SAFETY: as above.
                unsafe {
                    while at < count && self.entry(cache, id & MAX_UNTAGGED, byte::<BACK>(hay, from, at)) == id {
                        at += 1;
                    }
                    if let Some((_, end)) = &mut found {
                        *end = at - 1;
                    }
                    if at == count {
                        break;
                    }
                    id = self.next(cache, id, Some(byte::<BACK>(hay, from, at)));
                }
            }
            if id & MATCH != 0 {
                found = Some((self.pattern_of(cache, id), at));
            } else if id & DEAD != 0 {
                return found;
            }
            at += 1;
        }
        id = self.next(cache, id, after);
        if id & MATCH != 0 { Some((self.pattern_of(cache, id), count)) } else { found }
    }

    /// The pattern and the end of the leftmost match that starts at an offset or later.
    #[inline(never)]
    pub(crate) fn find_fwd(&self, cache: &mut Cache, hay: &[u8], from: usize) -> Option<(u32, usize)> {
        let count = hay.len().checked_sub(from)?;
        let start = self.start(cache, from.checked_sub(1).map(|before| hay[before]), false);
        let (pattern, read) = self.find::<false>(cache, (hay, from, count), start, None)?;
        Some((pattern, from + read))
    }

    /// The start of the longest match that is read backward from an offset, down to another one.
    #[inline(never)]
    pub(crate) fn find_rev(
        &self,
        cache: &mut Cache,
        hay: &[u8],
        least: usize,
        from: usize,
        anchored: bool,
    ) -> Option<usize> {
        let hay_before = &hay[..from];
        let count = from.checked_sub(least)?;
        let start = self.start(cache, hay.get(from).copied(), anchored);
        let after = least.checked_sub(1).map(|before| hay_before[before]);
        let (_, read) = self.find::<true>(cache, (hay_before, from, count), start, after)?;
        Some(from - read)
    }

    /// Marks each pattern that matches somewhere in the haystack.
    #[inline(never)]
    pub(crate) fn which(&self, cache: &mut Cache, hay: &[u8], marks: &mut [bool]) {
        let (mut id, mut at) = (self.start(cache, None, false), 0);
        while at < hay.len() {
            if id <= MAX_UNTAGGED {
                // SAFETY: the ID is one of this cache, and `at` is less than the number of bytes.
                let (before, next, read) = unsafe { self.follow::<false>(cache, (hay, 0, hay.len()), id, at) };
                (id, at) = (next, read);
                if id & UNKNOWN != 0 {
                    id = self.make_next(cache, before, Some(hay[at]));
                }
            } else {
                id = self.next(cache, id, Some(hay[at]));
            }
            if id & MATCH != 0 {
                self.mark(cache, id, marks);
            } else if id & DEAD != 0 {
                return;
            }
            at += 1;
        }
        id = self.next(cache, id, None);
        if id & MATCH != 0 {
            self.mark(cache, id, marks);
        }
    }

    #[inline(always)]
    fn mark(&self, cache: &Cache, id: u32, marks: &mut [bool]) {
        let state = &cache.states[self.row(id)];
        state[4..4 + state[3] as usize].iter().for_each(|pattern| marks[*pattern as usize] = true);
    }
}
