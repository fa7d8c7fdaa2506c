//! The types and calls of `lazydfa.h` and `lazydfa_automata.h`.
//!
//! A call that takes only references is safe: the library keeps no pointer after a call, and requires nothing
//! but what a reference guarantees. A call that takes a slice takes it as a pointer and a length; below the
//! calls there is a function for it that takes the slice.
use crate::handle::Handle;
use std::ffi::CStr;
use std::marker::PhantomData;
use std::mem::size_of;

/// A code's number, the quit byte if there is one, and an offset or a capacity, in bytes.
#[repr(C)]
#[derive(Clone, Copy)]
pub struct Status {
    pub code: u32,
    pub byte: u32,
    pub offset: usize,
}

/// A span by its offsets in bytes, an anchored mode (0 no, 1 yes, 2 this pattern), and whether the search may
/// stop at the first match that it sees.
#[repr(C)]
#[derive(Clone, Copy, Debug, Default)]
pub struct Input {
    pub start: usize,
    pub end: usize,
    pub anchored: u32,
    pub pattern: u32,
    pub earliest: u32,
    pub reserved: u32,
}

/// A match: its span, by its offsets in bytes, and its pattern.
#[repr(C)]
#[derive(Clone, Copy, Debug, Default)]
pub struct Match {
    pub start: usize,
    pub end: usize,
    pub pattern: u32,
    pub reserved: u32,
}

/// The pattern and one end of a match, by its offset in bytes.
#[repr(C)]
#[derive(Clone, Copy, Debug, Default)]
pub struct Half {
    pub offset: usize,
    pub pattern: u32,
    pub reserved: u32,
}

/// The span of a group, by its offsets in bytes. Both are `usize::MAX` if the group took no part in the match.
#[repr(C)]
#[derive(Clone, Copy, Debug, Default)]
pub struct Span {
    pub start: usize,
    pub end: usize,
}

/// The position of a walk: how many bytes of the piece the call has read, and how many patterns match at the
/// offset, in bytes, which is meaningful only if there are some.
#[repr(C)]
#[derive(Clone, Copy, Debug, Default)]
pub struct Stop {
    pub read: usize,
    pub offset: usize,
    pub patterns: usize,
}

/// An iteration: the input that remains to be searched, the offset, in bytes, where the last match ended if
/// there was one, and whether the iteration has ended.
#[repr(C)]
#[derive(Clone, Copy, Debug, Default)]
pub struct Iteration {
    pub left: Input,
    pub last: usize,
    pub has_last: u32,
    pub ended: u32,
}

/// A range of bytes, both ends included, and the number of the state that it leads to.
#[repr(C)]
#[derive(Clone, Copy)]
pub struct Edge {
    pub lo: u8,
    pub hi: u8,
    pub reserved: u16,
    pub next: u32,
}

/// The numbers of the states in which searches start.
#[repr(C)]
#[derive(Clone, Copy)]
pub struct Starts {
    pub anchored: u32,
    pub unanchored: u32,
}

/// The options of every regex. Capacities are in bytes. Each member of 0 is the default, unless the flag of a
/// number is set in `zeros`.
#[repr(C)]
#[derive(Clone, Copy, Debug, Default)]
pub struct Settings {
    pub cache_capacity: usize,
    pub cache_limit: usize,
    pub minimum_cache_clear_count: usize,
    pub minimum_bytes_per_state: usize,
    pub zeros: u32,
    pub match_kind: u32,
    pub starts_for_each_pattern: u32,
    pub no_byte_classes: u32,
    pub unicode_word_boundary: u32,
    pub specialize_start_states: u32,
    pub skip_cache_capacity_check: u32,
    pub always_anchored: u32,
}

/// Flags of `zeros`, for the numbers that this crate sets.
pub const ZERO_CACHE_CAPACITY: u32 = 1;
pub const ZERO_CACHE_LIMIT: u32 = 2;
pub const ZERO_CLEAR_COUNT: u32 = 4;
pub const ZERO_BYTES_PER_STATE: u32 = 8;
pub const ZERO_SIZE_LIMIT: u32 = 16;

impl Settings {
    /// Sets that a number's 0 is not its default, or that it is.
    pub fn set_zero(&mut self, flag: u32, yes: bool) {
        self.zeros = if yes { self.zeros | flag } else { self.zeros & !flag };
    }
}

/// The options of a regex of texts. The limits on size and on text are in bytes. Each member of 0 is the default.
#[repr(C)]
#[derive(Clone, Copy, Debug, Default)]
pub struct TextOptions {
    pub size_limit: usize,
    pub text_limit: usize,
    pub class_limit: usize,
    pub nest_limit: u32,
    pub no_unicode: u32,
    pub case_insensitive: u32,
    pub multi_line: u32,
    pub dot_matches_new_line: u32,
    pub crlf: u32,
    pub swap_greed: u32,
    pub ignore_whitespace: u32,
    pub octal: u32,
    pub bytes: u32,
    pub forward_only: u32,
    pub groups: u32,
}

/// All options, and the quit bytes.
#[repr(C)]
pub struct Options<'q> {
    struct_size: usize,
    settings: Settings,
    quits: *const u8,
    quit_count: usize,
    texts: TextOptions,
    lifetime: PhantomData<&'q [u8]>,
}

impl<'q> Options<'q> {
    /// Returns the options that consist of these.
    pub fn of(settings: &Settings, quits: &'q [u8], texts: &TextOptions) -> Options<'q> {
        Options {
            struct_size: size_of::<Options>(),
            settings: *settings,
            quits: quits.as_ptr(),
            quit_count: quits.len(),
            texts: *texts,
            lifetime: PhantomData,
        }
    }
}

/// The text of a pattern.
#[repr(C)]
pub struct Text<'t> {
    text: *const u8,
    length: usize,
    lifetime: PhantomData<&'t str>,
}

impl<'t> Text<'t> {
    /// Returns this text.
    pub fn of(text: &'t str) -> Text<'t> {
        Text { text: text.as_ptr(), length: text.len(), lifetime: PhantomData }
    }
}

/// What a call that builds a regex from texts returned; the index of the pattern that has an error, the span of its
/// text that the error is about, and the length of the whole message about it, in bytes, 0 if there is none.
#[repr(C)]
pub struct Error {
    struct_size: usize,
    pub status: Status,
    pub pattern: usize,
    pub start: usize,
    pub end: usize,
    pub length: usize,
    message: [u8; 4096],
}

impl Error {
    /// Returns the error of a call that was not made.
    pub fn new() -> Error {
        let status = Status { code: 0, byte: 0, offset: 0 };
        let (struct_size, message) = (size_of::<Error>(), [0; 4096]);
        Error { struct_size, status, pattern: 0, start: 0, end: 0, length: 0, message }
    }

    /// Returns the message about a text or a limit, up to the first zero, or nothing if there is none.
    pub fn message(&self) -> String {
        let shown = if self.length > 0 { CStr::from_bytes_until_nul(&self.message).ok() } else { None };
        shown.map(|message| message.to_string_lossy().into_owned()).unwrap_or_default()
    }
}

/// What all matches of a pattern have in common: the length of the prefix, the number of literals, the number
/// of bytes of all of these, and flags, 0 or 1.
#[repr(C)]
#[derive(Clone, Copy, Debug, Default)]
pub struct Facts {
    pub prefix: usize,
    pub count: usize,
    pub length: usize,
    pub anchored_start: u32,
    pub anchored_end: u32,
    pub exact: u32,
    pub reserved: u32,
}

/// The bytes that a cache accounts for, the bytes of its leaps, all bytes that it holds from the allocator,
/// how often its two parts were cleared, and how many patterns its regex has.
#[repr(C)]
#[derive(Clone, Copy, Default)]
pub struct Usage {
    pub memory: usize,
    pub leaps: usize,
    pub held: usize,
    pub forward_clears: usize,
    pub reverse_clears: usize,
    pub patterns: usize,
}

unsafe extern "C" {
    /// Frees what the handle owns, and closes it. The status says whether it owned something.
    pub safe fn lazydfa_close(handle: &mut Handle) -> Status;
    /// Opens a handle on a builder without states.
    pub safe fn lazydfa_builder_new(builder: &mut Handle) -> Status;
    /// Removes all states and patterns of a builder. The settings are kept.
    pub safe fn lazydfa_builder_clear(builder: &mut Handle) -> Status;
    /// Starts a pattern, and writes its number.
    pub safe fn lazydfa_start_pattern(builder: &mut Handle, pattern: &mut u32) -> Status;
    /// Finishes the pattern that was started, whose searches start in this state, and writes its number.
    pub safe fn lazydfa_finish_pattern(builder: &mut Handle, start: u32, pattern: &mut u32) -> Status;
    /// Adds an edge from a state, or redirects the one that it has.
    pub safe fn lazydfa_patch(builder: &mut Handle, from: u32, to: u32) -> Status;
    /// Sets whether the NFA is in UTF-8 mode: 0 for no.
    pub safe fn lazydfa_set_utf8(builder: &mut Handle, yes: u32) -> Status;
    /// Sets whether the NFA reads its haystack backward: 0 for no.
    pub safe fn lazydfa_set_reverse(builder: &mut Handle, yes: u32) -> Status;
    /// Sets the byte that ends a line.
    pub safe fn lazydfa_set_line_terminator(builder: &mut Handle, byte: u8) -> Status;
    /// Adds a state with one edge that reads nothing, and writes its number.
    pub safe fn lazydfa_add_empty(builder: &mut Handle, id: &mut u32) -> Status;
    /// Adds a state that reads a byte from `lo` to `hi`, and writes its number.
    pub safe fn lazydfa_add_range(builder: &mut Handle, lo: u8, hi: u8, next: u32, id: &mut u32) -> Status;
    /// Adds a state with a look-around assertion, given by its number, and writes the state's number.
    pub safe fn lazydfa_add_look(builder: &mut Handle, look: u32, next: u32, id: &mut u32) -> Status;
    /// Adds a state where a group of the pattern begins, and writes its number.
    pub safe fn lazydfa_add_capture_start(
        builder: &mut Handle,
        group: u32,
        next: u32,
        id: &mut u32,
    ) -> Status;
    /// Adds a state where a group of the pattern ends, and writes its number.
    pub safe fn lazydfa_add_capture_end(builder: &mut Handle, group: u32, next: u32, id: &mut u32) -> Status;
    /// Adds a state from which nothing matches, and writes its number.
    pub safe fn lazydfa_add_fail(builder: &mut Handle, id: &mut u32) -> Status;
    /// Adds a match state of the pattern that was started, and writes its number.
    pub safe fn lazydfa_add_match(builder: &mut Handle, id: &mut u32) -> Status;
    /// Adds the states that skip bytes before a start, and writes the number of the unanchored start.
    pub safe fn lazydfa_add_unanchored_prefix(builder: &mut Handle, start: u32, id: &mut u32) -> Status;
    /// Opens a handle on a fresh cache of a regex.
    pub safe fn lazydfa_cache_new(cache: &mut Handle, regex: &mut Handle) -> Status;
    /// Resets a cache to a fresh one of its regex.
    pub safe fn lazydfa_cache_reset(cache: &mut Handle) -> Status;
    /// Writes the memory usage of a cache, in bytes, and how often its two parts were cleared.
    pub safe fn lazydfa_cache_usage(cache: &mut Handle, usage: &mut Usage) -> Status;
    /// Begins a search in pieces over a cache, which replaces the previous one. Two numbers give the anchored
    /// mode, and a third gives the byte before the pieces, if any.
    pub safe fn lazydfa_pieces_begin(
        cache: &mut Handle,
        anchored: u32,
        pattern: u32,
        behind: i32,
        earliest: u32,
    ) -> Status;
    /// Writes the end of the match in the pieces so far. A number gives the byte that follows them, if any.
    pub safe fn lazydfa_pieces_end(cache: &mut Handle, ahead: i32, found: &mut Half) -> Status;
    /// Begins a walk over a cache, which replaces the previous one. Two numbers give the anchored mode, and a
    /// third gives the byte before the pieces, if any.
    pub safe fn lazydfa_walk_begin(cache: &mut Handle, anchored: u32, pattern: u32, behind: i32) -> Status;
    /// Writes how many patterns match at the end of the pieces so far. A number gives the byte that follows
    /// them, if any.
    pub safe fn lazydfa_walk_end(cache: &mut Handle, ahead: i32, stop: &mut Stop) -> Status;
    /// Writes one of the patterns that match at the walk's position, given by its index.
    pub safe fn lazydfa_walk_pattern(cache: &mut Handle, index: usize, pattern: &mut u32) -> Status;

    /// Writes how many groups a pattern has, group 0 included.
    pub safe fn lazydfa_group_count(regex: &mut Handle, pattern: u32, count: &mut usize) -> Status;

    fn lazydfa_add_sparse(builder: &mut Handle, edges: *const Edge, length: usize, id: &mut u32) -> Status;
    fn lazydfa_add_union(builder: &mut Handle, ids: *const u32, length: usize, id: &mut u32) -> Status;
    fn lazydfa_add_union_reverse(
        builder: &mut Handle,
        ids: *const u32,
        length: usize,
        id: &mut u32,
    ) -> Status;
    /// Opens a handle on the regex of a builder's NFA.
    pub safe fn lazydfa_regex_build(
        regex: &mut Handle,
        builder: &mut Handle,
        starts: Starts,
        options: &Options,
    ) -> Status;
    /// Opens a handle on the regex of the NFAs of two builders, each with its starts, the forward one first.
    pub safe fn lazydfa_regex_build_pair(
        regex: &mut Handle,
        forward: &mut Handle,
        forward_starts: Starts,
        reverse: &mut Handle,
        reverse_starts: Starts,
        options: &Options,
    ) -> Status;

    fn lazydfa_regex_any_of(
        regex: &mut Handle,
        texts: *const Text,
        count: usize,
        options: &Options,
        error: &mut Error,
    ) -> Status;
    fn lazydfa_text_facts(
        text: *const u8,
        length: usize,
        options: &Options,
        facts: &mut Facts,
        bytes: *mut u8,
        room: usize,
        lengths: *mut usize,
        count_room: usize,
    ) -> Status;
    fn lazydfa_find(
        cache: &mut Handle,
        haystack: *const u8,
        length: usize,
        input: &Input,
        found: &mut Match,
    ) -> Status;
    fn lazydfa_is_match(cache: &mut Handle, haystack: *const u8, length: usize, input: &Input) -> Status;
    fn lazydfa_find_end(
        cache: &mut Handle,
        haystack: *const u8,
        length: usize,
        input: &Input,
        found: &mut Half,
    ) -> Status;
    fn lazydfa_find_start(
        cache: &mut Handle,
        haystack: *const u8,
        length: usize,
        input: &Input,
        found: &mut Half,
    ) -> Status;
    fn lazydfa_next_all(
        cache: &mut Handle,
        haystack: *const u8,
        length: usize,
        at: &mut Iteration,
        found: *mut Match,
        room: usize,
        count: &mut usize,
    ) -> Status;
    fn lazydfa_token(
        cache: &mut Handle,
        haystack: *const u8,
        length: usize,
        left: &mut Input,
        found: &mut Match,
    ) -> Status;
    fn lazydfa_all_ends(
        cache: &mut Handle,
        haystack: *const u8,
        length: usize,
        input: &Input,
        found: *mut Half,
        room: usize,
        count: &mut usize,
    ) -> Status;
    fn lazydfa_all_starts(
        cache: &mut Handle,
        haystack: *const u8,
        length: usize,
        input: &Input,
        found: *mut Half,
        room: usize,
        count: &mut usize,
    ) -> Status;
    fn lazydfa_which(
        cache: &mut Handle,
        haystack: *const u8,
        length: usize,
        input: &Input,
        below: usize,
        patterns: *mut u32,
        room: usize,
        count: &mut usize,
    ) -> Status;
    fn lazydfa_groups(
        cache: &mut Handle,
        haystack: *const u8,
        length: usize,
        found: &Match,
        groups: *mut Span,
        room: usize,
        count: &mut usize,
    ) -> Status;
    fn lazydfa_group_name(
        regex: &mut Handle,
        pattern: u32,
        group: usize,
        name: *mut u8,
        room: usize,
        length: &mut usize,
    ) -> Status;
    fn lazydfa_pieces_read(cache: &mut Handle, piece: *const u8, length: usize, done: &mut u32) -> Status;
    fn lazydfa_walk_read(cache: &mut Handle, piece: *const u8, length: usize, stop: &mut Stop) -> Status;
}

/// Returns the number that encodes the byte before or after a haystack, if any.
pub fn beside(byte: Option<u8>) -> i32 {
    byte.map_or(-1, i32::from)
}

/// Adds a state that reads a byte in any of several ranges, and writes its number.
pub fn add_sparse(builder: &mut Handle, edges: &[Edge], id: &mut u32) -> Status {
    // SAFETY: The pointer and the length are those of one slice.
    unsafe { lazydfa_add_sparse(builder, edges.as_ptr(), edges.len(), id) }
}

/// Adds a union whose first alternate is preferred, and writes its number.
pub fn add_union(builder: &mut Handle, ids: &[u32], id: &mut u32) -> Status {
    // SAFETY: The pointer and the length are those of one slice.
    unsafe { lazydfa_add_union(builder, ids.as_ptr(), ids.len(), id) }
}

/// Adds a union whose last alternate is preferred, and writes its number.
pub fn add_union_reverse(builder: &mut Handle, ids: &[u32], id: &mut u32) -> Status {
    // SAFETY: The pointer and the length are those of one slice.
    unsafe { lazydfa_add_union_reverse(builder, ids.as_ptr(), ids.len(), id) }
}

/// Opens a handle on the regex of the texts of patterns, and writes the error.
pub fn regex_any_of(regex: &mut Handle, texts: &[Text], options: &Options, error: &mut Error) -> Status {
    // SAFETY: The pointer and the length are those of one slice, and each text is one of a string.
    unsafe { lazydfa_regex_any_of(regex, texts.as_ptr(), texts.len(), options, error) }
}

/// Writes what all matches of a pattern have in common, and as many of the bytes and lengths as there is room
/// for.
pub fn text_facts(
    text: &str,
    options: &Options,
    facts: &mut Facts,
    bytes: &mut [u8],
    lengths: &mut [usize],
) -> Status {
    // SAFETY: Each pointer and the length beside it are those of one slice.
    unsafe {
        lazydfa_text_facts(
            text.as_ptr(),
            text.len(),
            options,
            facts,
            bytes.as_mut_ptr(),
            bytes.len(),
            lengths.as_mut_ptr(),
            lengths.len(),
        )
    }
}

/// Searches for the first match, and writes it.
pub fn find(cache: &mut Handle, haystack: &[u8], input: &Input, found: &mut Match) -> Status {
    // SAFETY: The pointer and the length are those of one slice.
    unsafe { lazydfa_find(cache, haystack.as_ptr(), haystack.len(), input, found) }
}

/// Tests whether there is a match.
pub fn is_match(cache: &mut Handle, haystack: &[u8], input: &Input) -> Status {
    // SAFETY: The pointer and the length are those of one slice.
    unsafe { lazydfa_is_match(cache, haystack.as_ptr(), haystack.len(), input) }
}

/// Searches for the end of the first match, and writes it.
pub fn find_end(cache: &mut Handle, haystack: &[u8], input: &Input, found: &mut Half) -> Status {
    // SAFETY: The pointer and the length are those of one slice.
    unsafe { lazydfa_find_end(cache, haystack.as_ptr(), haystack.len(), input, found) }
}

/// Searches for the start of a match that ends where the span ends, and writes it.
pub fn find_start(cache: &mut Handle, haystack: &[u8], input: &Input, found: &mut Half) -> Status {
    // SAFETY: The pointer and the length are those of one slice.
    unsafe { lazydfa_find_start(cache, haystack.as_ptr(), haystack.len(), input, found) }
}

/// Writes the next matches of an iteration, as many as there is room for, and their number.
pub fn next_all(
    cache: &mut Handle,
    haystack: &[u8],
    at: &mut Iteration,
    found: &mut [Match],
    count: &mut usize,
) -> Status {
    let (room, found) = (found.len(), found.as_mut_ptr());
    // SAFETY: Each pointer and the length beside it are those of one slice.
    unsafe { lazydfa_next_all(cache, haystack.as_ptr(), haystack.len(), at, found, room, count) }
}

/// Writes the token at the start of the remaining span, which then starts where the token ends.
pub fn token(cache: &mut Handle, haystack: &[u8], left: &mut Input, found: &mut Match) -> Status {
    // SAFETY: The pointer and the length are those of one slice.
    unsafe { lazydfa_token(cache, haystack.as_ptr(), haystack.len(), left, found) }
}

/// Writes the ends of all overlapping matches, as many as there is room for, and how many there are in all.
pub fn all_ends(
    cache: &mut Handle,
    haystack: &[u8],
    input: &Input,
    found: &mut [Half],
    count: &mut usize,
) -> Status {
    let (room, found) = (found.len(), found.as_mut_ptr());
    // SAFETY: Each pointer and the length beside it are those of one slice.
    unsafe { lazydfa_all_ends(cache, haystack.as_ptr(), haystack.len(), input, found, room, count) }
}

/// Writes the starts of all overlapping matches that end where the span ends, as many as there is room for,
/// and how many there are in all.
pub fn all_starts(
    cache: &mut Handle,
    haystack: &[u8],
    input: &Input,
    found: &mut [Half],
    count: &mut usize,
) -> Status {
    let (room, found) = (found.len(), found.as_mut_ptr());
    // SAFETY: Each pointer and the length beside it are those of one slice.
    unsafe { lazydfa_all_starts(cache, haystack.as_ptr(), haystack.len(), input, found, room, count) }
}

/// Writes those patterns that match and are below the length of `patterns`, and their number.
pub fn which(
    cache: &mut Handle,
    haystack: &[u8],
    input: &Input,
    patterns: &mut [u32],
    count: &mut usize,
) -> Status {
    let (at, length) = (haystack.as_ptr(), haystack.len());
    let (room, patterns) = (patterns.len(), patterns.as_mut_ptr());
    // SAFETY: Each pointer and the length beside it are those of one slice.
    unsafe { lazydfa_which(cache, at, length, input, room, patterns, room, count) }
}

/// Writes the spans of the groups of a match, as many as there is room for, and how many groups its pattern has.
pub fn groups(
    cache: &mut Handle,
    haystack: &[u8],
    found: &Match,
    groups: &mut [Span],
    count: &mut usize,
) -> Status {
    let (at, length) = (haystack.as_ptr(), haystack.len());
    let (room, groups) = (groups.len(), groups.as_mut_ptr());
    // SAFETY: Each pointer and the length beside it are those of one slice.
    unsafe { lazydfa_groups(cache, at, length, found, groups, room, count) }
}

/// Writes the name of a group, as many whole characters as there is room for, and a zero; and the length of the whole
/// name, in bytes.
pub fn group_name(
    regex: &mut Handle,
    pattern: u32,
    group: usize,
    name: &mut [u8],
    length: &mut usize,
) -> Status {
    // SAFETY: The pointer and the length are those of one slice.
    unsafe { lazydfa_group_name(regex, pattern, group, name.as_mut_ptr(), name.len(), length) }
}

/// Reads the next piece of the search that was begun over a cache, and writes 1 if the result is final,
/// otherwise 0.
pub fn pieces_read(cache: &mut Handle, piece: &[u8], done: &mut u32) -> Status {
    // SAFETY: The pointer and the length are those of one slice.
    unsafe { lazydfa_pieces_read(cache, piece.as_ptr(), piece.len(), done) }
}

/// Reads a piece up to the next offset where patterns match, and writes the position of the walk over a
/// cache.
pub fn walk_read(cache: &mut Handle, piece: &[u8], stop: &mut Stop) -> Status {
    // SAFETY: The pointer and the length are those of one slice.
    unsafe { lazydfa_walk_read(cache, piece.as_ptr(), piece.len(), stop) }
}
