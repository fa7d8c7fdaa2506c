//! Test cases: patterns, a haystack, and the expected result.
use lazydfa::hybrid::dfa::{self, DFA};
use lazydfa::hybrid::regex::{Builder, Regex};
use lazydfa::util::syntax;
use lazydfa::{BuildError, Input, MatchError, MatchErrorKind, MatchKind, PatternSet};
use std::ops::Range;

/// A row that a reader finds in a file.
#[derive(Debug, PartialEq)]
pub enum Row {
    Case(Case),
    /// A case that the reader cannot read, with the reason.
    NotRead(String),
    /// A test of something other than searches.
    Other(String),
}

/// One case of a table.
#[derive(Debug, PartialEq)]
pub struct Case {
    pub name: String,
    pub patterns: Vec<String>,
    pub haystack: Vec<u8>,
    pub options: Options,
    pub wanted: Wanted,
}

/// The options with which the patterns of a case are parsed.
#[derive(Debug, PartialEq)]
pub struct Options {
    pub case_insensitive: bool,
    pub unicode: bool,
    pub utf8: bool,
}

impl Default for Options {
    fn default() -> Options {
        Options { case_insensitive: false, unicode: true, utf8: true }
    }
}

/// The expected result.
#[derive(Debug, PartialEq)]
pub enum Wanted {
    /// The text is not a valid pattern.
    NoPattern,
    /// Whether there is a match.
    IsMatch(bool),
    /// The first match.
    First(Option<Range<usize>>),
    /// The first match, and its first groups.
    Groups(Vec<Option<Range<usize>>>),
    /// The end of the match that ends first.
    Earliest(Option<usize>),
    /// All matches that do not overlap.
    All(Vec<Range<usize>>),
    /// The IDs of the patterns that match.
    Which(Vec<usize>),
}

/// The outcome of a case.
pub enum Outcome {
    Equal,
    LeftOut(String),
    Different(String),
}

/// The reason why there is no result to compare.
enum Failure {
    Built(BuildError),
    Searched(MatchError),
}

impl From<BuildError> for Failure {
    fn from(error: BuildError) -> Failure {
        Failure::Built(error)
    }
}

impl From<MatchError> for Failure {
    fn from(error: MatchError) -> Failure {
        Failure::Searched(error)
    }
}

impl Case {
    /// Runs the case, and compares the result.
    pub fn run(&self) -> Outcome {
        match self.answer() {
            Ok(found) if found == self.wanted => Outcome::Equal,
            Err(Failure::Built(_)) if self.wanted == Wanted::NoPattern => Outcome::Equal,
            Ok(found) => self.differs(&format!("{found:?}")),
            Err(Failure::Built(error)) => self.differs(&error.to_string()),
            Err(Failure::Searched(error)) if matches!(error.kind(), MatchErrorKind::Quit { .. }) => {
                Outcome::LeftOut("a Unicode word boundary in text that is not ASCII".into())
            }
            Err(Failure::Searched(error)) => self.differs(&error.to_string()),
        }
    }

    fn differs(&self, found: &str) -> Outcome {
        let haystack = String::from_utf8_lossy(&self.haystack);
        let (patterns, wanted) = (&self.patterns, &self.wanted);
        Outcome::Different(format!("{patterns:?} in {haystack:?}: {wanted:?}, and not {found}"))
    }

    fn syntax(&self) -> syntax::Config {
        let Options { case_insensitive, unicode, utf8 } = self.options;
        syntax::Config::new().case_insensitive(case_insensitive).unicode(unicode).utf8(utf8)
    }

    /// Returns the result, of the same kind as the expected one.
    fn answer(&self) -> Result<Wanted, Failure> {
        let config = dfa::Config::new();
        if let Wanted::Which(_) = self.wanted {
            let config = config.match_kind(MatchKind::All);
            let dfa = DFA::builder().configure(config).syntax(self.syntax()).build_many(&self.patterns)?;
            return Ok(which(&dfa, &self.haystack)?);
        }
        let regex = Builder::new().dfa(config).syntax(self.syntax()).build_many(&self.patterns)?;
        Ok(searched(&regex, &self.haystack, &self.wanted)?)
    }
}

/// Returns the patterns that match.
fn which(dfa: &DFA, haystack: &[u8]) -> Result<Wanted, MatchError> {
    let mut set = PatternSet::new(dfa.pattern_len());
    dfa.try_which_overlapping_matches(&mut dfa.create_cache(), &Input::new(haystack), &mut set)?;
    Ok(Wanted::Which(set.iter().map(|pattern| pattern.as_usize()).collect()))
}

/// Returns the result of a search of this kind.
fn searched(regex: &Regex, haystack: &[u8], kind: &Wanted) -> Result<Wanted, MatchError> {
    let mut cache = regex.create_cache();
    let input = Input::new(haystack);
    Ok(match kind {
        Wanted::IsMatch(_) => Wanted::IsMatch(regex.try_is_match(&mut cache, &input)?),
        Wanted::Earliest(_) => {
            let half = regex.forward().try_search_fwd(&mut cache, &input.earliest(true))?;
            Wanted::Earliest(half.map(|half| half.offset()))
        }
        Wanted::Groups(wanted) => {
            let caps = regex.try_captures(&mut cache, input)?.expect("a match");
            Wanted::Groups(caps.iter().take(wanted.len()).map(|group| Some(group?.range())).collect())
        }
        Wanted::All(_) => {
            let matches = regex.try_find_iter(&mut cache, input);
            Wanted::All(matches.map(|found| found.map(|it| it.range())).collect::<Result<_, _>>()?)
        }
        Wanted::First(_) | Wanted::NoPattern | Wanted::Which(_) => {
            Wanted::First(regex.try_search(&mut cache, &input)?.map(|found| found.range()))
        }
    })
}
