//! How the texts of patterns are parsed.
use crate::raw::{self, TextOptions};
use crate::BuildError;

/// How the texts of patterns are parsed. A pattern sets flags for a part of itself with `(?i:..)` and the
/// like.
///
/// ```
/// use lazydfa::hybrid::regex::Regex;
/// use lazydfa::util::syntax;
///
/// let regex = Regex::builder().syntax(syntax::Config::new().case_insensitive(true)).build("straße")?;
/// assert!(regex.is_match(&mut regex.create_cache(), "STRAßE"));
/// # Ok::<(), lazydfa::BuildError>(())
/// ```
#[derive(Clone, Copy, Debug)]
pub struct Config {
    pub(crate) options: TextOptions,
}

impl Default for Config {
    fn default() -> Config {
        Config { options: TextOptions { nest_limit: 250, ..TextOptions::default() } }
    }
}

impl Config {
    /// Returns the default options.
    pub fn new() -> Config {
        Config::default()
    }

    /// Sets whether a letter matches in both cases. By default it does not.
    pub fn case_insensitive(mut self, yes: bool) -> Config {
        self.options.case_insensitive = yes.into();
        self
    }

    /// Sets whether `^` and `$` match at the start and the end of each line, not only of the haystack. By
    /// default they do not.
    pub fn multi_line(mut self, yes: bool) -> Config {
        self.options.multi_line = yes.into();
        self
    }

    /// Sets whether `.` matches a line feed. By default it does not.
    pub fn dot_matches_new_line(mut self, yes: bool) -> Config {
        self.options.dot_matches_new_line = yes.into();
        self
    }

    /// Sets whether lines end in a carriage return, a line feed or both. By default they end in a line feed.
    pub fn crlf(mut self, yes: bool) -> Config {
        self.options.crlf = yes.into();
        self
    }

    /// Sets whether `a*` prefers fewer repetitions, and `a*?` more. By default it is the other way round.
    pub fn swap_greed(mut self, yes: bool) -> Config {
        self.options.swap_greed = yes.into();
        self
    }

    /// Sets whether whitespace in patterns, and comments after `#`, are skipped. By default they are not.
    pub fn ignore_whitespace(mut self, yes: bool) -> Config {
        self.options.ignore_whitespace = yes.into();
        self
    }

    /// Sets whether classes and `.` match characters, and letters have the cases of Unicode. By default this
    /// is so. Otherwise they match bytes, and letters have the cases of ASCII.
    pub fn unicode(mut self, yes: bool) -> Config {
        self.options.no_unicode = (!yes).into();
        self
    }

    /// Sets whether matches are UTF-8, so that none splits a character. By default they are. Otherwise a
    /// pattern may match bytes that are not UTF-8. The library has one setting for this and for
    /// [`thompson::Config::utf8`](crate::nfa::thompson::Config::utf8).
    pub fn utf8(mut self, yes: bool) -> Config {
        self.options.bytes = (!yes).into();
        self
    }

    /// Sets how deep groups, repetitions and classes may nest, from 1 on (0 is taken as 1). By default it is
    /// 250. The parser is recursive, and takes 32 KiB of the stack and 1 KiB for each level above 8.
    pub fn nest_limit(mut self, limit: u32) -> Config {
        self.options.nest_limit = limit.max(1);
        self
    }

    /// Sets whether a backslash and digits are the character with that octal number, as in `\141`. By default
    /// they are not.
    pub fn octal(mut self, yes: bool) -> Config {
        self.options.octal = yes.into();
        self
    }

    /// Returns what all matches of a pattern have in common, from its text alone: nothing is compiled. The
    /// error has no message; [`Regex::new`](crate::hybrid::regex::Regex::new) returns one with a message.
    ///
    /// ```
    /// use lazydfa::util::syntax;
    ///
    /// let facts = syntax::Config::new().facts(r"^user=[a-z]+77[0-9]@example\.org")?;
    /// assert!(facts.anchored_start && !facts.exact);
    /// assert_eq!(facts.prefix, b"user=");
    /// assert_eq!(facts.literals, [&b"user="[..], b"77", b"@example.org"]);
    /// # Ok::<(), lazydfa::BuildError>(())
    /// ```
    pub fn facts(&self, pattern: &str) -> Result<Facts, BuildError> {
        let mut found = raw::Facts::default();
        let options = raw::Options::of(&raw::Settings::default(), &[], &self.options);
        raw::text_facts(pattern, &options, &mut found, &mut [], &mut []).built()?;
        let (mut bytes, mut lengths) = (vec![0; found.length], vec![0; found.count]);
        raw::text_facts(pattern, &options, &mut found, &mut bytes, &mut lengths).built()?;
        let (prefix, mut rest) = bytes.split_at(found.prefix);
        let mut literals = Vec::with_capacity(found.count);
        for length in lengths {
            let (literal, more) = rest.split_at(length);
            literals.push(literal.to_vec());
            rest = more;
        }
        Ok(Facts {
            anchored_start: found.anchored_start != 0,
            anchored_end: found.anchored_end != 0,
            exact: found.exact != 0,
            prefix: prefix.to_vec(),
            literals,
        })
    }
}

/// What all matches of a pattern have in common, for a search by an index over many haystacks. A haystack
/// that has all of this need not have a match.
#[derive(Clone, Debug, PartialEq, Eq)]
#[non_exhaustive]
pub struct Facts {
    /// Whether every match begins at the start of the haystack.
    pub anchored_start: bool,
    /// Whether every match ends at the end of the haystack.
    pub anchored_end: bool,
    /// Whether every match is exactly the prefix.
    pub exact: bool,
    /// The bytes with which every match begins; empty if nothing is known.
    pub prefix: Vec<u8>,
    /// Literals, each of which every match contains. Their order is not specified.
    pub literals: Vec<Vec<u8>>,
}
