//! Tests of walks over a haystack that arrives in pieces: all ends, and sets of patterns.
mod common;

use common::{bytes_dfa, Numbers, Tested};
use lazydfa::hybrid::dfa::{Cache, Config, Walk, DFA};
use lazydfa::hybrid::regex::Regex;
use lazydfa::util::start;
use lazydfa::{
    Anchored, HalfMatch, Input, Match, MatchError, MatchErrorKind, MatchKind, PatternID, PatternSet,
};
use std::borrow::BorrowMut;
use std::thread;

/// Returns the settings with which all matches are reported.
fn all() -> Config {
    Config::new().match_kind(MatchKind::All)
}

/// Begins a walk that is not anchored, with no byte before the first piece.
fn begin<C: BorrowMut<Cache>>(dfa: &DFA, cache: C) -> Result<Walk<C>, MatchError> {
    dfa.begin_walk(cache, &start::Config::new())
}

/// Returns what a walk reports for one more piece.
fn read<C: BorrowMut<Cache>>(walk: &mut Walk<C>, piece: &[u8]) -> Result<Vec<HalfMatch>, MatchError> {
    walk.read(piece).collect()
}

/// Returns what a walk reports for the end of the haystack, or for the pieces so far if a byte follows.
fn end<C: BorrowMut<Cache>>(walk: &mut Walk<C>, ahead: Option<u8>) -> Result<Vec<HalfMatch>, MatchError> {
    Ok(walk.end(ahead)?.collect())
}

/// Returns half matches of patterns at offsets.
fn halves(wanted: &[(usize, usize)]) -> Vec<HalfMatch> {
    wanted.iter().map(|(pattern, offset)| HalfMatch::must(*pattern, *offset)).collect()
}

/// Where matches end: the lengths of the prefixes of the text in which `grep -P '(?:PATTERN)\z'` finds a
/// match.
const ROWS: [(&str, &str, &[usize]); 11] = [
    ("fo+", "12 fooo fo", &[5, 6, 7, 10]),
    ("[a-z]+", "a bc", &[1, 3, 4]),
    ("ab|abc|c", "xabcc", &[3, 4, 5]),
    ("a.c", "abcacc", &[3, 6]),
    ("a*", "baa", &[0, 1, 2, 3]),
    ("^ab?", "abab", &[1, 2]),
    (r"\bcat", "concat cat", &[10]),
    ("(?:ab)+", "ababxab", &[2, 4, 7]),
    ("q", "no such byte", &[]),
    ("a{2,3}", "aaaa", &[2, 3, 4]),
    ("a+?b?", "aab", &[1, 2, 3]),
];

/// Walks over each row, cut into two pieces at every offset, and byte by byte.
#[test]
fn as_grep() -> Tested {
    for (pattern, text, ends) in ROWS {
        let dfa = bytes_dfa(&[pattern], all())?;
        let mut cache = dfa.create_cache();
        let wanted: Vec<_> = ends.iter().map(|at| HalfMatch::must(0, *at)).collect();
        for cut in 0..=text.len() {
            let mut walk = begin(&dfa, &mut cache)?;
            let (left, right) = text.as_bytes().split_at(cut);
            let found = [read(&mut walk, left)?, read(&mut walk, right)?, end(&mut walk, None)?].concat();
            assert_eq!(found, wanted, "{pattern} {text} {cut}");
        }
        let mut walk = begin(&dfa, &mut cache)?;
        let mut found = Vec::new();
        for byte in text.as_bytes().chunks(1) {
            found.extend(read(&mut walk, byte)?);
        }
        found.extend(walk.end(None)?);
        assert_eq!(found, wanted, "{pattern} {text}");
    }
    Ok(())
}

/// Appends what a walk reports for the span of an input, cut at random, and returns its error. Offsets are in
/// the haystack.
fn in_pieces(
    dfa: &DFA,
    cache: &mut Cache,
    input: &Input<'_>,
    numbers: &mut Numbers,
    ends: &mut Vec<HalfMatch>,
) -> Result<(), MatchError> {
    let (text, at) = (input.haystack(), input.start());
    let behind = at.checked_sub(1).map(|before| text[before]);
    let config = start::Config::new().anchored(input.get_anchored()).look_behind(behind);
    let mut walk = dfa.begin_walk(cache, &config)?;
    let mut push = |half: HalfMatch| ends.push(HalfMatch::new(half.pattern(), half.offset() + at));
    let mut left = &text[input.get_range()];
    while !left.is_empty() {
        let (piece, rest) = left.split_at(numbers.below(left.len().min(9) + 1));
        for half in walk.read(piece) {
            push(half?);
        }
        left = rest;
        if numbers.below(99) == 0 {
            walk.try_reset_cache().expect("a fresh cache");
        }
        if numbers.below(9) == 0 {
            // What would match if the haystack ended here is not part of the result.
            walk.end(None)?.for_each(drop);
        }
    }
    walk.end(text.get(input.end()).copied())?.for_each(push);
    Ok(())
}

/// Returns the set of the patterns of ends.
fn patterns_of(ends: &[HalfMatch], capacity: usize) -> PatternSet {
    let mut set = PatternSet::new(capacity);
    for half in ends {
        set.insert(half.pattern());
    }
    set
}

/// Patterns, the letters of the texts to search, and a quit byte.
type Row = (&'static [&'static str], &'static [u8], Option<u8>);

/// In random texts with random cuts, over caches that are cleared and reset, a walk reports the same ends,
/// the same set of patterns and the same error as searches of the whole text.
#[test]
fn as_the_whole() -> Tested {
    let rows: [Row; 9] = [
        (&["[a-z]+", "b", "z;"], b"a bz;", None),
        (&["a[ab]{8}c", "b{3}c", "c"], b"abababababc", None),
        (&["(?m)^ab*$", "(?m)^$"], b"ab\n", None),
        (&[r"\bab\b|b+a", r"a\b", r"\Bb"], b"ab .", None),
        (&["a*", "b", "(?:ab)*"], b"ab", None),
        (&["(?:ab|a)(?:c|bcd)", "d"], b"abcd", None),
        (&["a{3,5}b", "b", "aa"], b"aaaaaaaabbbab;", Some(b';')),
        (&["x$", "^b", "^a*"], b"abx", None),
        (&["[^;]*ab", "b$"], b"ab;", None),
    ];
    let (mut numbers, mut clears, mut found, mut failed) = (Numbers(1), 0, 0, 0);
    for ((patterns, letters, quit), kind) in
        rows.into_iter().flat_map(|row| [(row, MatchKind::All), (row, MatchKind::LeftmostFirst)])
    {
        for small in [false, true] {
            let mut config = Config::new().match_kind(kind).starts_for_each_pattern(true);
            config = quit.map_or(config.clone(), |byte| config.quit(byte, true));
            let whole = bytes_dfa(patterns, config.clone())?;
            let dfa = if small {
                bytes_dfa(patterns, config.cache_capacity(0).skip_cache_capacity_check(true))?
            } else {
                whole.clone()
            };
            let (mut cache, mut other) = (dfa.create_cache(), whole.create_cache());
            for _ in 0..200 {
                let length = numbers.below(120);
                let text: Vec<u8> = (0..length).map(|_| letters[numbers.below(letters.len())]).collect();
                // A quit byte before the haystack is an error at offset 0, so this is tested elsewhere.
                let start = if quit.is_some() { 0 } else { numbers.below(length + 1) };
                let stop = start + numbers.below(length - start + 1);
                let pattern = PatternID::must(numbers.below(4));
                let mode = [Anchored::No, Anchored::No, Anchored::Yes, Anchored::Pattern(pattern)];
                let input = Input::new(&text).range(start..stop).anchored(mode[numbers.below(4)]);
                let (mut wanted, mut ends) = (Vec::new(), Vec::new());
                let answer = whole.try_all_ends(&mut other, &input, &mut wanted);
                let walked = in_pieces(&dfa, &mut cache, &input, &mut numbers, &mut ends);
                assert_eq!((&walked, &ends), (&answer, &wanted), "{patterns:?} {kind:?} {input:?}");
                let mut set = PatternSet::new(patterns.len());
                let answer = whole.try_which_overlapping_matches(&mut other, &input, &mut set);
                // That search may stop once it has all patterns, before the byte at which the walk fails.
                assert!(
                    answer == walked || (answer.is_ok() && set.is_full()),
                    "{patterns:?} {kind:?} {input:?}"
                );
                assert_eq!(patterns_of(&ends, patterns.len()), set, "{patterns:?} {kind:?} {input:?}");
                found += ends.len();
                failed += usize::from(walked.is_err());
                clears += cache.clear_counts().0;
            }
        }
    }
    assert!(clears > 0 && found > 10_000 && failed > 100, "{clears} {found} {failed}");
    Ok(())
}

/// Each pattern at an offset is reported once; by default patterns to which the first match is preferred are
/// left out.
#[test]
fn patterns() -> Tested {
    let patterns = ["a+", "b", "ab", "[ab]+", "b$"];
    let dfa = bytes_dfa(&patterns, all())?;
    let mut walk = begin(&dfa, dfa.create_cache())?;
    assert_eq!(read(&mut walk, b"a")?, []);
    assert_eq!(read(&mut walk, b"")?, []);
    assert_eq!(end(&mut walk, None)?, halves(&[(0, 1), (3, 1)]));
    let mut ends = read(&mut walk, b"b.")?;
    ends.sort_by_key(|half| (half.offset(), half.pattern()));
    assert_eq!(ends, halves(&[(0, 1), (3, 1), (1, 2), (2, 2), (3, 2)]));
    let dfa = bytes_dfa(&["ab?", "b"], Config::new())?;
    let mut walk = begin(&dfa, dfa.create_cache())?;
    assert_eq!(read(&mut walk, b".abab.")?, halves(&[(0, 2), (0, 3)]));
    Ok(())
}

/// The bytes before and after the haystack count for assertions.
#[test]
fn beside() -> Tested {
    let dfa = bytes_dfa(&[r"\bfoo\b", "foo$"], all())?;
    let mut walk = begin(&dfa, dfa.create_cache())?;
    assert_eq!([read(&mut walk, b"f")?, read(&mut walk, b"oo")?].concat(), []);
    assert_eq!(end(&mut walk, None)?, halves(&[(0, 3), (1, 3)]));
    assert_eq!(end(&mut walk, Some(0))?, halves(&[(0, 3)]));
    assert_eq!(end(&mut walk, Some(0xFF))?, halves(&[(0, 3)]));
    assert_eq!(end(&mut walk, Some(b'x'))?, []);
    let after = start::Config::new().look_behind(Some(b'x'));
    let mut walk = dfa.begin_walk(walk.into_cache(), &after)?;
    assert_eq!(read(&mut walk, b"foo")?, []);
    assert_eq!(end(&mut walk, None)?, halves(&[(1, 3)]));
    Ok(())
}

/// An iterator that is dropped has read the piece up to its rest, from which the walk continues.
#[test]
fn stops_early() -> Tested {
    let dfa = bytes_dfa(&["[ab]", "b"], all())?;
    let mut walk = begin(&dfa, dfa.create_cache())?;
    let mut ends = walk.read(b"-ba-b");
    assert_eq!(ends.rest(), b"-ba-b");
    assert_eq!(ends.next(), Some(Ok(HalfMatch::must(0, 2))));
    assert_eq!(ends.rest(), b"-b");
    assert_eq!(ends.next(), Some(Ok(HalfMatch::must(1, 2))));
    let rest = ends.rest();
    let mut ends = walk.read(rest);
    assert_eq!(ends.next(), Some(Ok(HalfMatch::must(0, 3))));
    assert_eq!((ends.next(), ends.rest()), (None, &b""[..]));
    assert_eq!(ends.next(), None);
    assert_eq!(end(&mut walk, None)?, halves(&[(0, 5), (1, 5)]));
    // An iterator that is not advanced reads nothing.
    drop(walk.read(b"bbbb"));
    assert_eq!(end(&mut walk, None)?, halves(&[(0, 5), (1, 5)]));
    Ok(())
}

/// A walk that is cancelled leaves a cache that can serve other searches, also in pieces.
#[test]
fn cancelled() -> Tested {
    let regex = Regex::new("foo[0-9]+")?;
    let mut cache = regex.create_cache();
    assert_eq!(read(&mut begin(regex.forward(), &mut cache)?, b"-foo12")?, halves(&[(0, 5)]));
    assert_eq!(regex.find(&mut cache, "12 foo3 "), Some(Match::must(0, 3..7)));
    let mut pieces = regex.forward().begin_pieces(&mut cache, &start::Config::new(), false)?;
    pieces.read(b"foo4")?;
    assert_eq!(pieces.end(None)?, Some(HalfMatch::must(0, 4)));
    let mut walk = begin(regex.forward(), cache)?;
    assert_eq!(read(&mut walk, b"56")?, []);
    assert_eq!(end(&mut walk, None)?, []);
    assert_eq!(read(&mut walk, b"foo78")?, halves(&[(0, 6)]));
    let mut walk = begin(regex.forward(), walk.into_cache())?;
    assert_eq!(read(&mut walk, b"9")?, []);
    assert_eq!(end(&mut walk, None)?, []);
    Ok(())
}

/// A walk that owns its cache can be stored in a struct, and sent to another thread between two pieces.
#[test]
fn moves() -> Tested {
    let dfa = bytes_dfa(&["foo[0-9]+", "o"], all())?;
    let mut walk = begin(&dfa, dfa.create_cache())?;
    drop(dfa);
    let mut ends = Vec::new();
    for piece in [&b"12 f"[..], b"oo", b"34"] {
        let moved = thread::spawn(move || read(&mut walk, piece).map(|found| (walk, found)));
        let (back, found) = moved.join().expect("it returns")?;
        walk = back;
        ends.extend(found);
    }
    ends.extend(walk.end(None)?);
    assert_eq!(ends, halves(&[(1, 5), (1, 6), (0, 7), (0, 8)]));
    Ok(())
}

/// A quit byte is an error at its offset, wherever it is, and the walk remains where it was before it.
#[test]
fn quits() -> Tested {
    let dfa = bytes_dfa(&["[a-z]+"], all().quit(b';', true))?;
    let mut cache = dfa.create_cache();
    let after = start::Config::new().look_behind(Some(b';'));
    let begun = dfa.begin_walk(&mut cache, &after).map(|_| ());
    assert_eq!(begun, Err(MatchError::quit(b';', 0)));
    let mut walk = begin(&dfa, &mut cache)?;
    assert_eq!(read(&mut walk, b"12")?, []);
    let mut ends = walk.read(b"345ab;c");
    assert_eq!(ends.next(), Some(Ok(HalfMatch::must(0, 6))));
    assert_eq!(ends.next(), Some(Err(MatchError::quit(b';', 7))));
    assert_eq!((ends.next(), ends.next(), ends.rest()), (None, None, &b";c"[..]));
    assert_eq!(read(&mut walk, b";c"), Err(MatchError::quit(b';', 7)));
    assert_eq!(end(&mut walk, Some(b';')), Err(MatchError::quit(b';', 7)));
    assert_eq!(end(&mut walk, None)?, halves(&[(0, 7)]));
    assert_eq!(read(&mut walk, b"c ")?, halves(&[(0, 7), (0, 8)]));
    Ok(())
}

/// A walk that gave up continues in the rest of its piece after its cache is reset, and no match is lost or
/// reported twice.
#[test]
fn gives_up() -> Tested {
    let config = all().cache_capacity(0).skip_cache_capacity_check(true);
    let config = config.byte_classes(false).minimum_cache_clear_count(Some(0));
    let dfa = bytes_dfa(&["[a-z]{20}[0-9]", "[a-z]"], config)?;
    let mut walk = begin(&dfa, dfa.create_cache())?;
    let text = b"--abcdefghijklmnopqrstuvwxyz0";
    let (mut left, mut found, mut errors) = (&text[..], Vec::new(), 0);
    while !left.is_empty() {
        let mut ends = walk.read(left);
        let failed = ends.by_ref().try_for_each(|half| half.map(|half| found.push(half)));
        left = ends.rest();
        if let Err(error) = failed {
            let MatchErrorKind::GaveUp { offset } = *error.kind() else { panic!("{error}") };
            assert!((text.len() - left.len()..=text.len()).contains(&offset), "{error}");
            errors += 1;
            walk.try_reset_cache()?;
        }
    }
    walk.try_reset_cache()?;
    found.extend(walk.end(None)?);
    let mut wanted: Vec<_> = (3..=28).map(|at| (1, at)).collect();
    wanted.push((0, 29));
    assert_eq!(found, halves(&wanted));
    assert!(errors > 0);
    Ok(())
}

/// An anchored mode that the DFA does not support, and a regex that would have to skip matches, are errors.
#[test]
fn not_begun() -> Tested {
    let dfa = DFA::new("a")?;
    for pattern in [0, (1 << 31) - 2] {
        let mode = Anchored::Pattern(PatternID::must(pattern));
        let config = start::Config::new().anchored(mode);
        let begun = dfa.begin_walk(dfa.create_cache(), &config).map(|_| ());
        assert_eq!(begun, Err(MatchError::unsupported_anchored(mode)));
    }
    let dfa = DFA::new("a*")?;
    let mut cache = dfa.create_cache();
    assert_eq!(begin(&dfa, &mut cache).unwrap_err().kind(), &MatchErrorKind::Skips);
    assert_eq!(dfa.try_search_fwd(&mut cache, &Input::new("aa"))?, Some(HalfMatch::must(0, 2)));
    // A pattern that the DFA does not have is never found.
    let dfa = bytes_dfa(&["a"], all().starts_for_each_pattern(true))?;
    for (pattern, wanted) in [(0, halves(&[(0, 1)])), (1, halves(&[]))] {
        let config = start::Config::new().anchored(Anchored::Pattern(PatternID::must(pattern)));
        let mut walk = dfa.begin_walk(dfa.create_cache(), &config)?;
        assert_eq!(read(&mut walk, b"aa")?, wanted);
    }
    Ok(())
}

/// A walk with the cache of another regex panics.
#[test]
#[should_panic(expected = "the cache is of another regex")]
fn another_cache() {
    let (one, two) = (DFA::new("a").unwrap(), DFA::new("b").unwrap());
    let _ = begin(&one, two.create_cache());
}

/// The reverse DFA of a regex does not search forward.
#[test]
#[should_panic(expected = "a Reverse DFA does not search Forward")]
fn a_reverse_dfa() {
    let regex = Regex::new("a").unwrap();
    let _ = begin(regex.reverse(), regex.create_cache());
}
