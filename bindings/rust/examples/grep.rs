//! Prints the lines of files that match any of some patterns, as `grep -E` does, with a thread for each file:
//!
//!     grep [-c] [-i] [-n] [--which] PATTERN FILE..
//!     grep [-c] [-i] [-n] [--which] -e PATTERN [-e PATTERN].. FILE..
//!
//! `-c` counts the lines, `-i` ignores case, and `-n` prints line numbers. `--which` counts, in one pass over
//! a file, the lines that match each of the patterns. The status is 0 if a line matches, 1 if none does, and
//! 2 after an error.
use lazydfa::hybrid::dfa::{self, DFA};
use lazydfa::hybrid::regex::Regex;
use lazydfa::util::syntax;
use lazydfa::{Input, MatchKind, PatternSet};
use std::error::Error;
use std::io::{self, Write};
use std::process::ExitCode;
use std::{fs, thread};

/// What the arguments request.
#[derive(Default)]
struct Options {
    count: bool,
    ignore_case: bool,
    numbers: bool,
    which: bool,
    patterns: Vec<String>,
    files: Vec<String>,
}

impl Options {
    /// Reads the arguments. The first one that is not an option is a pattern, if `-e` gives none.
    fn read(mut words: impl Iterator<Item = String>) -> Result<Options, String> {
        let mut options = Options::default();
        while let Some(word) = words.next() {
            match word.as_str() {
                "-c" => options.count = true,
                "-i" => options.ignore_case = true,
                "-n" => options.numbers = true,
                "--which" => options.which = true,
                "-e" => options.patterns.push(words.next().ok_or("-e needs a pattern")?),
                _ if word.starts_with('-') => return Err(format!("there is no option {word}")),
                _ => options.files.push(word),
            }
        }
        if options.patterns.is_empty() && !options.files.is_empty() {
            options.patterns.push(options.files.remove(0));
        }
        if options.files.is_empty() {
            return Err("grep [-c] [-i] [-n] [--which] [-e PATTERN].. [PATTERN] FILE..".into());
        }
        Ok(options)
    }

    /// Returns the options for parsing patterns. Lines may be any bytes.
    fn syntax(&self) -> syntax::Config {
        syntax::Config::new().case_insensitive(self.ignore_case).utf8(false)
    }
}

/// What the files are searched with. All threads share it.
enum Matcher {
    Any(Regex),
    Which(DFA),
}

impl Matcher {
    fn new(options: &Options) -> Result<Matcher, lazydfa::BuildError> {
        let (patterns, syntax) = (&options.patterns, options.syntax());
        if !options.which {
            return Ok(Matcher::Any(Regex::builder().syntax(syntax).build_many(patterns)?));
        }
        let config = dfa::Config::new().match_kind(MatchKind::All);
        Ok(Matcher::Which(DFA::builder().configure(config).syntax(syntax).build_many(patterns)?))
    }
}

/// What is printed for a file, and whether a line of it matches.
#[derive(Default)]
struct Report {
    text: Vec<u8>,
    matched: bool,
}

/// Returns the lines of a text, without the line feeds at their ends.
fn lines(text: &[u8]) -> impl Iterator<Item = &[u8]> {
    text.split_inclusive(|byte| *byte == b'\n').map(|line| line.strip_suffix(b"\n").unwrap_or(line))
}

/// Reports the lines in which any pattern matches. Each begins with the name, if there are several files.
fn report_lines(regex: &Regex, options: &Options, name: &str, text: &[u8]) -> io::Result<Report> {
    let mut cache = regex.create_cache();
    let (mut report, mut count) = (Report::default(), 0);
    for (number, line) in lines(text).enumerate() {
        if !regex.is_match(&mut cache, line) {
            continue;
        }
        count += 1;
        if !options.count {
            report.text.extend(name.as_bytes());
            if options.numbers {
                write!(report.text, "{}:", number + 1)?;
            }
            report.text.extend(line);
            report.text.push(b'\n');
        }
    }
    if options.count {
        writeln!(report.text, "{name}{count}")?;
    }
    Ok(Report { matched: count > 0, ..report })
}

/// Reports how many lines match each of the patterns.
fn report_which(dfa: &DFA, options: &Options, name: &str, text: &[u8]) -> Result<Report, Box<dyn Error>> {
    let mut cache = dfa.create_cache();
    let mut counts = vec![0; dfa.pattern_len()];
    let mut set = PatternSet::new(dfa.pattern_len());
    for line in lines(text) {
        set.clear();
        dfa.try_which_overlapping_matches(&mut cache, &Input::new(line), &mut set)?;
        set.iter().for_each(|pattern| counts[pattern.as_usize()] += 1);
    }
    let mut report = Report { matched: counts.iter().any(|count| *count > 0), ..Report::default() };
    for (pattern, count) in options.patterns.iter().zip(counts) {
        writeln!(report.text, "{name}{count} {pattern}")?;
    }
    Ok(report)
}

/// Searches a file.
fn search(matcher: &Matcher, options: &Options, file: &str) -> Result<Report, String> {
    let text = fs::read(file).map_err(|error| format!("{file}: {error}"))?;
    let name = if options.files.len() > 1 { format!("{file}:") } else { String::new() };
    let report = match matcher {
        Matcher::Any(regex) => report_lines(regex, options, &name, &text).map_err(Box::from),
        Matcher::Which(dfa) => report_which(dfa, options, &name, &text),
    };
    report.map_err(|error| format!("{file}: {error}"))
}

/// Searches all files at once, and prints what is found in the order of the files.
fn run() -> Result<ExitCode, Box<dyn Error>> {
    let options = Options::read(std::env::args().skip(1))?;
    let matcher = Matcher::new(&options)?;
    let (options, matcher) = (&options, &matcher);
    let (mut matched, mut failed) = (false, false);
    thread::scope(|scope| {
        let mut searches = Vec::new();
        for file in &options.files {
            searches.push(scope.spawn(move || search(matcher, options, file)));
        }
        for searched in searches {
            match searched.join().expect("a search does not panic") {
                Ok(report) => {
                    io::stdout().write_all(&report.text)?;
                    matched |= report.matched;
                }
                Err(error) => {
                    eprintln!("grep: {error}");
                    failed = true;
                }
            }
        }
        io::stdout().flush()
    })?;
    Ok(ExitCode::from(if failed { 2 } else { u8::from(!matched) }))
}

fn main() -> ExitCode {
    run().unwrap_or_else(|error| {
        eprintln!("grep: {error}");
        ExitCode::from(2)
    })
}
