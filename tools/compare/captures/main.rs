//! Compares the groups of random patterns, and what is made of them, with those of Rust's crate regex:
//!
//!     captures [PATTERNS [SEED]]
//!
//! It prints each difference, up to twenty, and how many searches were compared: over texts and over bytes, all matches
//! with all of their groups, by number and by name; replacements by templates and by functions; and the parts between
//! matches. Left out are repetitions of what may read nothing, in whose rounds the two differ, and errors of regex
//! 1.7.1: it does not count groups in `(..){0}`; it finds `bb` for `(?:b$){2}`; where all matches end at the end, it
//! misses the start of a line there; and after its first match it may take an offset for the start of the text or of a
//! line that is none.
use lazydfa::hybrid::regex::Regex;
use lazydfa::util::syntax;
use lazydfa::{Captures, NoExpand, PooledRegex};

/// Random numbers.
struct Random(u64);

impl Random {
    fn below(&mut self, limit: usize) -> usize {
        self.0 = self.0.wrapping_mul(6364136223846793005).wrapping_add(1442695040888963407);
        (self.0 >> 33) as usize % limit
    }

    fn one_of<T: Copy>(&mut self, all: &[T]) -> T {
        all[self.below(all.len())]
    }
}

const ATOMS: [&str; 16] = [
    "a", "b", "c", "é", "ab", "[ab]", "[^a]", ".", r"\w", r"\d", "(?i:bA)", "^", "$", r"\A", r"\z", "(?m:^)",
];
const READS_NOTHING: usize = 11;
const REPETITIONS: [&str; 12] =
    ["*", "+", "?", "*?", "+?", "??", "{2}", "{1,3}", "{0,2}", "{2,}", "{0}", "{1,2}?"];
const TEXTS: [&str; 9] = ["a", "b", "c", "é", "ab", "B", "1", "\n", "aa"];
const BYTES: [&[u8]; 8] = [b"a", b"b", b"c", b"\xff", b"\xc3", b"\xa9", b"1", b"\n"];
const TEMPLATES: [&str; 14] =
    ["$1", "${2}x", "$x1-$0", "<$0>", "$$1", "$", "${", "${x2}", "$1a", "$x1_", "${a b}", "$é", "-", "$2$1$"];

/// A pattern, how many groups it has, and whether it may read nothing.
fn pattern(random: &mut Random, depth: usize, groups: &mut usize) -> (String, bool) {
    match random.below(if depth == 0 { 2 } else { 10 }) {
        0 | 1 => {
            let atom = random.below(ATOMS.len());
            (ATOMS[atom].into(), atom >= READS_NOTHING)
        }
        2 | 3 => {
            let (one, a) = pattern(random, depth - 1, groups);
            let (two, b) = pattern(random, depth - 1, groups);
            (one + &two, a && b)
        }
        4 | 5 => {
            let (one, a) = pattern(random, depth - 1, groups);
            let (two, b) = pattern(random, depth - 1, groups);
            (format!("(?:{one}|{two})"), a || b)
        }
        6 | 7 => {
            *groups += 1;
            let open = if random.below(2) == 0 { "(".into() } else { format!("(?P<x{groups}>") };
            let (inner, empty) = pattern(random, depth - 1, groups);
            (format!("{open}{inner})"), empty)
        }
        _ => {
            let before = *groups;
            let (inner, empty) = pattern(random, depth - 1, groups);
            if empty {
                return (inner, true);
            }
            let times = random.one_of(&REPETITIONS);
            if times == "{0}" && *groups > before || inner.contains(['$', 'z']) {
                return (inner, false);
            }
            (format!("(?:{inner}){times}"), times.starts_with(['*', '?']) || times.starts_with("{0"))
        }
    }
}

/// Collects differences, and counts what was compared.
#[derive(Default)]
struct Report {
    compared: usize,
    matches: usize,
    groups: usize,
    different: usize,
}

impl Report {
    fn same<T: PartialEq + std::fmt::Debug>(
        &mut self,
        what: &str,
        pattern: &str,
        text: &[u8],
        ours: T,
        theirs: T,
    ) {
        self.compared += 1;
        if ours != theirs {
            self.different += 1;
            if self.different <= 20 {
                println!(
                    "{what} of {pattern} in {:?}: {ours:?}, and not {theirs:?}",
                    String::from_utf8_lossy(text)
                );
            }
        }
    }
}

/// Whether a pattern has an assertion of the start of the text or of a line.
fn has_start(pattern: &str) -> bool {
    pattern.replace("[^", "").contains('^') || pattern.contains(r"\A")
}

type Spans = Vec<Vec<Option<(usize, usize)>>>;

/// The two crates' regexes for texts or for bytes, and what is compared of them.
macro_rules! comparison {
    ($name:ident, $theirs:path, $text:ty, $captures:ty, $case:expr, $owned:expr) => {
        fn $name(
            report: &mut Report,
            random: &mut Random,
            ours: &Regex,
            theirs: &$theirs,
            pattern: &str,
            text: &$text,
        ) {
            let mut cache = ours.create_cache();
            let bytes: &[u8] = text.as_ref();
            let most = if has_start(pattern) { 1 } else { usize::MAX };
            let found: Spans = ours
                .captures_iter(&mut cache, text)
                .take(most)
                .map(|caps| caps.iter().map(|group| group.map(|it| (it.start(), it.end()))).collect())
                .collect();
            let wanted: Spans = theirs
                .captures_iter(text)
                .take(most)
                .map(|caps| caps.iter().map(|group| group.map(|it| (it.start(), it.end()))).collect())
                .collect();
            report.matches += wanted.len();
            report.groups += wanted.iter().flatten().flatten().count();
            let first = ours.captures(&mut cache, text);
            let their_first = theirs.captures(text);
            for name in theirs.capture_names().flatten() {
                let found = first.as_ref().and_then(|caps| caps.name(name)).map(|it| it.range());
                let wanted = their_first.as_ref().and_then(|caps| caps.name(name)).map(|it| it.range());
                report.same(name, pattern, bytes, found, wanted);
            }
            report.same("groups", pattern, bytes, found, wanted);
            let template: &$text = random.one_of(&TEMPLATES).as_ref();
            let limit = if most == 1 { 1 } else { random.below(4) };
            let found = ours.replacen(&mut cache, text, limit, template).into_owned();
            let wanted = theirs.replacen(text, limit, template).into_owned();
            report.same(&format!("replacen by {template:?}, {limit}"), pattern, bytes, found, wanted);
            let found = ours.replacen(&mut cache, text, limit, NoExpand(template)).into_owned();
            let wanted = theirs.replacen(text, limit, $owned(template)).into_owned();
            report.same("replacen as it is", pattern, bytes, found, wanted);
            let found = ours.replace(&mut cache, text, |caps: &Captures<$text>| $case(&caps[0], caps.len()));
            let wanted = theirs.replace(text, |caps: &$captures| $case(&caps[0], caps.len()));
            report.same("replace by a function", pattern, bytes, found, wanted);
            let found: Vec<_> = ours.splitn(&mut cache, text, limit + 1).collect();
            report.same("splitn", pattern, bytes, found, theirs.splitn(text, limit + 1).collect());
            if most > 1 {
                let found: Vec<_> = ours.split(&mut cache, text).collect();
                report.same("split", pattern, bytes, found, theirs.split(text).collect());
                let found = ours.replace_all(&mut cache, text, template).into_owned();
                report.same(
                    "replace_all",
                    pattern,
                    bytes,
                    found,
                    theirs.replace_all(text, template).into_owned(),
                );
            }
        }
    };
}

comparison!(
    compare_texts,
    regex::Regex,
    str,
    regex::Captures,
    |text: &str, groups: usize| format!("{}{groups}", text.to_uppercase()),
    regex::NoExpand
);
comparison!(
    compare_bytes,
    regex::bytes::Regex,
    [u8],
    regex::bytes::Captures,
    |text: &[u8], groups: usize| [text, &[groups as u8]].concat(),
    regex::bytes::NoExpand
);

/// Compares the regexes of a pattern in some texts.
fn compare(report: &mut Report, random: &mut Random, pattern: &str) {
    let theirs = regex::Regex::new(pattern).expect("a pattern for regex");
    let ours = Regex::new(pattern).expect("a pattern");
    let names: Vec<_> = ours.capture_names().map(|name| name.map(str::to_owned)).collect();
    let wanted: Vec<_> = theirs.capture_names().map(|name| name.map(str::to_owned)).collect();
    report.same("names", pattern, b"", (names, ours.captures_len()), (wanted, theirs.captures_len()));
    for _ in 0..3 {
        let text: String = (0..random.below(9)).map(|_| random.one_of(&TEXTS)).collect();
        compare_texts(report, random, &ours, &theirs, pattern, &text);
        let pooled = PooledRegex::from(ours.clone());
        let found = pooled.captures(&text).map(|caps| caps[0].to_owned());
        let wanted = theirs.find(&text).map(|found| found.as_str().to_owned());
        report.same("pooled groups", pattern, text.as_bytes(), found, wanted);
    }
    let theirs = regex::bytes::RegexBuilder::new(pattern).unicode(false).build();
    let syntax = syntax::Config::new().unicode(false).utf8(false);
    let ours = Regex::builder().syntax(syntax).build(pattern);
    let (Ok(ours), Ok(theirs)) = (ours, theirs) else {
        return;
    };
    let bytes: Vec<u8> = (0..random.below(9)).flat_map(|_| random.one_of(&BYTES)).copied().collect();
    compare_bytes(report, random, &ours, &theirs, pattern, &bytes);
}

fn main() {
    let mut words = std::env::args().skip(1).map(|word| word.parse::<u64>().expect("a number"));
    let (patterns, seed) = (words.next().unwrap_or(20_000), words.next().unwrap_or(1));
    let (mut report, mut random) = (Report::default(), Random(seed));
    for _ in 0..patterns {
        let mut groups = 0;
        let (pattern, _) = pattern(&mut random, 4, &mut groups);
        if !(pattern.contains("(?m:^)") && pattern.contains(['$', 'z'])) {
            compare(&mut report, &mut random, &pattern);
        }
    }
    let Report { compared, matches, groups, different } = report;
    println!(
        "{patterns} patterns, {compared} comparisons, {matches} matches, {groups} groups; {different} differ"
    );
    std::process::exit(i32::from(different > 0));
}
