//! Errors of building and of searching.
use crate::raw::Status;
use crate::{Anchored, PatternID};
use std::fmt;
use std::ops::Range;

/// An error from building an NFA, a DFA or a regex.
///
/// For the text of a pattern, its message says what is wrong, and shows the pattern with carets below the
/// part that this is about, as far as this fits in 4 KiB:
///
/// ```
/// use lazydfa::hybrid::regex::Regex;
///
/// let error = Regex::new("foo(b").unwrap_err();
/// assert_eq!(error.to_string(), "unclosed group\n  foo(b\n     ^");
/// assert_eq!(error.span(), Some(3..4));
/// ```
#[derive(Clone, Debug, PartialEq, Eq)]
pub struct BuildError {
    kind: BuildErrorKind,
    text: Option<Box<TextError>>,
}

/// What an error about the texts of patterns contains in addition: which of them it is about, if it is not about all.
#[derive(Clone, Debug, PartialEq, Eq)]
struct TextError {
    pattern: Option<PatternID>,
    span: Range<usize>,
    message: String,
}

/// The kind of a [`BuildError`].
#[derive(Clone, Copy, Debug, PartialEq, Eq)]
#[non_exhaustive]
pub enum BuildErrorKind {
    /// An allocation failed.
    OutOfMemory,
    /// The text is not a valid pattern.
    Syntax,
    /// The text of a pattern was parsed, but could not be compiled.
    NotCompiled,
    /// There are too many states, patterns, groups or alternates, or the patterns exceed the size limit.
    TooLarge,
    /// An NFA that the program built has a Unicode word boundary, and
    /// [`unicode_word_boundary`](crate::hybrid::dfa::Config::unicode_word_boundary) does not enable it.
    Unsupported,
    /// The cache capacity is below the minimum of one of the two DFAs, and
    /// [`cache_limit`](crate::hybrid::dfa::Config::cache_limit) does not raise it.
    InsufficientCacheCapacity {
        /// The minimum for both DFAs, in bytes.
        minimum: usize,
    },
    /// The smallest table needs larger offsets than a state ID can hold.
    InsufficientStateIDCapacity {
        /// The ID that is too large.
        attempted: usize,
    },
    /// A number is not a valid state or group, or one NFA was given twice.
    Argument,
    /// No pattern was started, or the last one was finished.
    NoPattern,
    /// The pattern that was started is not finished.
    UnfinishedPattern,
    /// The state to be patched does not exist.
    PatchRange,
    /// A sparse state cannot be patched.
    SparsePatch,
    /// A state leads to a state that does not exist.
    StateRange,
    /// A start state does not exist.
    StartRange,
    /// A match state has a pattern that does not exist.
    PatternRange,
    /// The ranges of bytes of a state are not in order.
    Ranges,
    /// The unanchored start does not skip lazily.
    NotLazy,
    /// In UTF-8 mode a match may be invalid UTF-8.
    NotUtf8,
    /// Only some of the starts match the empty string, so that the NFA cannot be reversed.
    Starts,
    /// The two NFAs of a pair differ in their numbers of patterns.
    PatternCounts,
    /// The regex was built from NFAs, not from texts, so it has no groups.
    NoGroups,
}

impl BuildError {
    /// Returns the kind of the error.
    pub fn kind(&self) -> BuildErrorKind {
        self.kind
    }

    /// Returns the pattern whose text has the error, by its index in the list, or `None` if the error is not
    /// about a text.
    pub fn pattern(&self) -> Option<PatternID> {
        self.text.as_ref()?.pattern
    }

    /// Returns the span of the pattern's text that the error is about, in bytes, or `None` if it is about no
    /// part of a text.
    pub fn span(&self) -> Option<Range<usize>> {
        let span = self.text.as_ref()?.span.clone();
        (!span.is_empty()).then_some(span)
    }

    /// Returns the same error, with what the library reports about the texts. The message may be empty.
    pub(crate) fn of_text(self, pattern: usize, span: Range<usize>, message: String) -> BuildError {
        if message.is_empty() {
            return self;
        }
        let is_about_all = matches!(self.kind, BuildErrorKind::InsufficientCacheCapacity { .. });
        let pattern = PatternID::new(pattern).filter(|_| !is_about_all);
        BuildError { text: Some(Box::new(TextError { pattern, span, message })), ..self }
    }
}

impl From<BuildErrorKind> for BuildError {
    fn from(kind: BuildErrorKind) -> BuildError {
        BuildError { kind, text: None }
    }
}

impl fmt::Display for BuildError {
    fn fmt(&self, f: &mut fmt::Formatter<'_>) -> fmt::Result {
        match &self.text {
            Some(text) => f.write_str(&text.message),
            None => self.kind.fmt(f),
        }
    }
}

impl std::error::Error for BuildError {}

impl fmt::Display for BuildErrorKind {
    fn fmt(&self, f: &mut fmt::Formatter<'_>) -> fmt::Result {
        let text = match *self {
            BuildErrorKind::OutOfMemory => "out of memory",
            BuildErrorKind::Syntax => "the text is not a valid pattern",
            BuildErrorKind::NotCompiled => "the pattern was not compiled",
            BuildErrorKind::TooLarge => {
                "too many states, patterns, groups or alternates, or a limit is exceeded"
            }
            BuildErrorKind::Unsupported => "Unicode word boundaries are not enabled",
            BuildErrorKind::InsufficientCacheCapacity { minimum } => {
                return write!(
                    f,
                    "a cache needs at least {minimum} bytes; raise cache_capacity or cache_limit"
                );
            }
            BuildErrorKind::InsufficientStateIDCapacity { attempted } => {
                return write!(f, "the ID {attempted} is too large");
            }
            BuildErrorKind::Argument => "an argument is not allowed",
            BuildErrorKind::NoPattern => "no pattern was started",
            BuildErrorKind::UnfinishedPattern => "a pattern was started and not finished",
            BuildErrorKind::PatchRange => "the state to be patched is out of range",
            BuildErrorKind::SparsePatch => "a sparse state cannot be patched",
            BuildErrorKind::StateRange => "a state leads to a state that is out of range",
            BuildErrorKind::StartRange => "a start state is out of range",
            BuildErrorKind::PatternRange => "the pattern of a match state is out of range",
            BuildErrorKind::Ranges => "ranges of bytes are not in order",
            BuildErrorKind::NotLazy => "the unanchored start does not skip lazily",
            BuildErrorKind::NotUtf8 => "a match may be invalid UTF-8",
            BuildErrorKind::Starts => "only some of the starts match the empty string",
            BuildErrorKind::PatternCounts => "the two NFAs have different numbers of patterns",
            BuildErrorKind::NoGroups => "a regex that was built from NFAs has no groups",
        };
        f.write_str(text)
    }
}

/// An error from a search.
#[derive(Clone, Copy, Debug, PartialEq, Eq)]
pub struct MatchError(MatchErrorKind);

/// The kind of a [`MatchError`].
#[derive(Clone, Copy, Debug, PartialEq, Eq)]
#[non_exhaustive]
pub enum MatchErrorKind {
    /// The search read a quit byte.
    Quit {
        /// The quit byte.
        byte: u8,
        /// Its offset in the haystack, in bytes.
        offset: usize,
    },
    /// The search gave up: the cache is full, and the settings do not allow another clear.
    GaveUp {
        /// The offset in the haystack, in bytes, where it gave up.
        offset: usize,
    },
    /// The regex was not built for this anchored mode.
    UnsupportedAnchored {
        /// The mode of the input.
        mode: Anchored,
    },
    /// The second NFA of a pair finds no start for a match of the first.
    NotAPair,
    /// No pattern matches at the offset, or only with the empty string, so there is no token.
    NoToken {
        /// The offset in the haystack, in bytes, where no token begins.
        offset: usize,
    },
    /// The haystack was to arrive in pieces, and the regex can match the empty string, but not inside a
    /// character. Such a search would have to read earlier bytes again, which are gone. It is possible with
    /// [`utf8`](crate::nfa::thompson::Config::utf8) turned off.
    Skips,
    /// What finds groups cannot be built: the regex was built from NFAs, or it exceeds a limit
    /// ([`try_group_info`](crate::hybrid::regex::Regex::try_group_info) says which).
    NoGroups,
    /// An allocation failed.
    OutOfMemory,
}

impl MatchError {
    /// Creates an error of this kind.
    pub fn new(kind: MatchErrorKind) -> MatchError {
        MatchError(kind)
    }

    /// Creates the error of a search that read this quit byte at this offset.
    pub fn quit(byte: u8, offset: usize) -> MatchError {
        MatchError(MatchErrorKind::Quit { byte, offset })
    }

    /// Creates the error of a search that gave up at this offset.
    pub fn gave_up(offset: usize) -> MatchError {
        MatchError(MatchErrorKind::GaveUp { offset })
    }

    /// Creates the error of a search whose anchored mode is not supported.
    pub fn unsupported_anchored(mode: Anchored) -> MatchError {
        MatchError(MatchErrorKind::UnsupportedAnchored { mode })
    }

    /// Returns the kind of the error.
    pub fn kind(&self) -> &MatchErrorKind {
        &self.0
    }
}

/// The error of a search for groups, where what finds them could not be built.
impl From<BuildError> for MatchError {
    fn from(error: BuildError) -> MatchError {
        match error.kind() {
            BuildErrorKind::OutOfMemory => MatchError(MatchErrorKind::OutOfMemory),
            _ => MatchError(MatchErrorKind::NoGroups),
        }
    }
}

impl From<MatchErrorKind> for MatchError {
    fn from(kind: MatchErrorKind) -> MatchError {
        MatchError(kind)
    }
}

impl fmt::Display for MatchError {
    fn fmt(&self, f: &mut fmt::Formatter<'_>) -> fmt::Result {
        match self.0 {
            MatchErrorKind::Quit { byte, offset } => {
                write!(f, "quit search after observing byte {byte:#04X} at offset {offset}")
            }
            MatchErrorKind::GaveUp { offset } => write!(f, "gave up searching at offset {offset}"),
            MatchErrorKind::UnsupportedAnchored { mode } => {
                write!(f, "the anchored mode {mode:?} is not supported")
            }
            MatchErrorKind::NotAPair => f.write_str("the reverse NFA finds no start"),
            MatchErrorKind::NoToken { offset } => write!(f, "no token at offset {offset}"),
            MatchErrorKind::Skips => {
                f.write_str("a regex that skips empty matches inside characters cannot be searched in pieces")
            }
            MatchErrorKind::NoGroups => f.write_str("what finds the groups of this regex cannot be built"),
            MatchErrorKind::OutOfMemory => f.write_str("out of memory"),
        }
    }
}

impl std::error::Error for MatchError {}

impl Status {
    /// Returns the error of a call that builds something, if it failed.
    pub fn built(self) -> Result<(), BuildError> {
        let kind = match self.code {
            0 => return Ok(()),
            5 => BuildErrorKind::Argument,
            6 => BuildErrorKind::OutOfMemory,
            10 => BuildErrorKind::NoPattern,
            11 => BuildErrorKind::UnfinishedPattern,
            12 => BuildErrorKind::PatchRange,
            13 => BuildErrorKind::SparsePatch,
            14 => BuildErrorKind::TooLarge,
            15 => BuildErrorKind::StateRange,
            16 => BuildErrorKind::StartRange,
            17 => BuildErrorKind::PatternRange,
            18 => BuildErrorKind::Ranges,
            20 => BuildErrorKind::NotLazy,
            22 => BuildErrorKind::NotUtf8,
            23 => BuildErrorKind::Starts,
            24 => BuildErrorKind::Unsupported,
            25 => BuildErrorKind::InsufficientCacheCapacity { minimum: self.offset },
            26 => BuildErrorKind::InsufficientStateIDCapacity { attempted: self.offset },
            27 => BuildErrorKind::PatternCounts,
            40 => BuildErrorKind::Syntax,
            42 => BuildErrorKind::NotCompiled,
            code => unreachable!("code {code}: the types of this crate allow no such call"),
        };
        Err(kind.into())
    }

    /// Returns whether a search with this anchored mode found something, or its error, if it failed.
    pub fn found(self, mode: Anchored) -> Result<bool, MatchError> {
        let offset = self.offset;
        let kind = match self.code {
            0 => return Ok(true),
            1 => return Ok(false),
            6 => MatchErrorKind::OutOfMemory,
            30 => MatchErrorKind::Quit { byte: self.byte as u8, offset },
            31 => MatchErrorKind::GaveUp { offset },
            32 => MatchErrorKind::UnsupportedAnchored { mode },
            33 => MatchErrorKind::NotAPair,
            34 => MatchErrorKind::NoToken { offset },
            35 => MatchErrorKind::Skips,
            code => unreachable!("code {code}: the types of this crate allow no such call"),
        };
        Err(kind.into())
    }
}
