//! Runs the tests that Rust's crates regex and regex-automata publish, as Debian's packages librust-regex-dev
//! and librust-regex-automata-dev install them, with this crate: a pattern's text has to mean the same.
//!
//! The tests are read from below /usr/share/cargo/registry, or from the folder that REGEX_SOURCES names. If
//! there are none, the test says so and passes. `cargo test --test published -- --nocapture` prints what was
//! compared, and how many cases were left out, by reason.
mod case;
mod literal;
mod macros;
mod toml;

use case::{Case, Outcome, Row};
use std::collections::BTreeMap;
use std::path::{Path, PathBuf};
use std::{env, fs, io};

/// Cases with a different result here, by the reason.
const DIFFERENT: [(&str, &[&str]); 2] = [
    (
        "a repetition whose first round is empty, `(?m)(?:^|a)*`: here it ends as that of `(?m)(?:^|a)+`",
        &["multiline/match_multi_rep_3"],
    ),
    (
        "a group in a repetition whose only round is empty: here it takes part in the match, as in Perl",
        &[
            "fowler/match_basic_128",
            "fowler/match_basic_131",
            "fowler/match_basic_137",
            "fowler/match_basic_144",
            "fowler/match_nullsubexpr_5",
            "fowler/match_nullsubexpr_23",
            "fowler/match_nullsubexpr_32",
            "fowler/match_nullsubexpr_45",
            "fowler/match_nullsubexpr_48",
            "fowler/match_nullsubexpr_69",
        ],
    ),
];

/// The outcomes of the rows of one crate.
#[derive(Default)]
struct Tally {
    equal: usize,
    left_out: BTreeMap<String, usize>,
    others: BTreeMap<String, usize>,
    different: Vec<String>,
}

impl Tally {
    /// Counts a row, and runs it if it is a case.
    fn count(&mut self, row: Row) {
        match row {
            Row::Case(case) => self.run(&case),
            Row::NotRead(reason) => *self.left_out.entry(reason).or_default() += 1,
            Row::Other(what) => *self.others.entry(what).or_default() += 1,
        }
    }

    fn run(&mut self, case: &Case) {
        let known = DIFFERENT.iter().find(|(_, names)| names.contains(&case.name.as_str()));
        match (case.run(), known) {
            (Outcome::Equal, None) => self.equal += 1,
            (Outcome::Equal, Some(_)) => {
                self.different.push(format!("{}: is listed as different, and is equal", case.name));
            }
            (Outcome::Different(_), Some((reason, _))) => {
                *self.left_out.entry(reason.to_string()).or_default() += 1;
            }
            (Outcome::Different(found), None) => self.different.push(format!("{}: {found}", case.name)),
            (Outcome::LeftOut(reason), _) => *self.left_out.entry(reason).or_default() += 1,
        }
    }
}

/// Returns the folders of a crate's versions in a registry.
fn versions(registry: &Path, name: &str) -> Vec<PathBuf> {
    let Ok(entries) = fs::read_dir(registry) else {
        return Vec::new();
    };
    let is_version = |path: &PathBuf| {
        let file = path.file_name().and_then(|it| it.to_str()).unwrap_or_default();
        let version = file.strip_prefix(name).and_then(|rest| rest.strip_prefix('-'));
        version.is_some_and(|it| it.starts_with(|first: char| first.is_ascii_digit()))
    };
    let mut found: Vec<_> = entries.flatten().map(|entry| entry.path()).filter(is_version).collect();
    found.sort();
    found
}

/// Returns the files below a folder whose names have this ending.
fn files(folder: &Path, ending: &str) -> io::Result<Vec<PathBuf>> {
    let mut found = Vec::new();
    for entry in fs::read_dir(folder)? {
        let path = entry?.path();
        if path.is_dir() {
            found.extend(files(&path, ending)?);
        } else if path.extension().is_some_and(|it| it == ending) {
            found.push(path);
        }
    }
    found.sort();
    Ok(found)
}

/// A reader of files, to which the name and the text of each file are passed.
type Read = fn(&str, &str) -> Vec<Row>;

/// Runs the rows that a reader finds in the files of a folder with this ending.
fn run(folder: &Path, ending: &str, read: Read) -> Tally {
    let mut tally = Tally::default();
    for path in files(folder, ending).expect("the folder can be read") {
        let text = fs::read_to_string(&path).expect("a file of tests is text");
        let name = path.file_stem().and_then(|it| it.to_str()).unwrap_or_default();
        read(name, &text).into_iter().for_each(|row| tally.count(row));
    }
    tally
}

/// Prints the outcomes of the rows, and fails if a case differs, or if a tenth of the cases or more are left out.
fn judge(what: &str, tally: &Tally) {
    println!("{what}: {} cases are equal", tally.equal);
    for (reason, count) in &tally.left_out {
        println!("  {count} left out: {reason}");
    }
    for (what, count) in &tally.others {
        println!("  {count} about other calls: {what}");
    }
    assert!(tally.different.is_empty(), "{}", tally.different.join("\n"));
    let left_out: usize = tally.left_out.values().sum();
    assert!(tally.equal > 9 * left_out, "too many cases of {what} are left out");
}

/// Runs what is installed of a crate, in the folders `inside` of each of its versions.
fn published(name: &str, inside: &str, ending: &str, read: Read) {
    let registry = env::var("REGEX_SOURCES").unwrap_or("/usr/share/cargo/registry".into());
    let folders = versions(Path::new(&registry), name).into_iter().map(|version| version.join(inside));
    let folders: Vec<_> = folders.filter(|folder| folder.is_dir()).collect();
    if folders.is_empty() {
        println!("skipped: there is no {name} with a folder {inside} in {registry}");
    }
    for folder in folders {
        judge(&folder.display().to_string(), &run(&folder, ending, read));
    }
}

/// The tables of the crate regex, which are calls of macros.
#[test]
fn regex() {
    published("regex", "tests", "rs", macros::rows);
}

/// The tables of the crate regex-automata.
#[test]
fn regex_automata() {
    published("regex-automata", "data/tests", "toml", toml::rows);
}
