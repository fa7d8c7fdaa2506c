//! Tests of searches whose haystack arrives in pieces.
mod common;

use common::{bytes_dfa, Numbers, Tested};
use lazydfa::hybrid::dfa::{Cache, Config, Pieces, DFA};
use lazydfa::hybrid::regex::Regex;
use lazydfa::util::start;
use lazydfa::{Anchored, HalfMatch, Input, Match, MatchError, MatchErrorKind, MatchKind, PatternID};
use std::borrow::BorrowMut;
use std::thread;

/// Begins a search that is neither anchored nor earliest, with no byte before the first piece.
fn begin<C: BorrowMut<Cache>>(dfa: &DFA, cache: C) -> Result<Pieces<C>, MatchError> {
    dfa.begin_pieces(cache, &start::Config::new(), false)
}

/// Where the first match ends, according to `printf %s TEXT | grep -obP PATTERN`: its offset plus its length.
const ROWS: [(&str, &str, Option<usize>); 13] = [
    ("[a-z]+", "12 foo bar", Some(6)),
    ("[0-9]{4}-[0-9]{2}", "on 2024-1 or 2025-06-07", Some(20)),
    ("foo|foobar", "a foobar", Some(5)),
    ("foobar|foo", "a fooba foobar", Some(5)),
    ("(?:ab)+c?", "xababac ababc", Some(5)),
    ("a.c", "ab abc", Some(6)),
    (r"\bcat\b", "concat cats cat.", Some(15)),
    ("^b", "ab", None),
    ("b$", "abab", Some(4)),
    ("x*y", "xxz xxxy", Some(8)),
    ("q", "no such byte", None),
    ("a+?", "baaa", Some(2)),
    ("[^a-z ]{3}", "ab 12 345", Some(9)),
];

/// Searches each row, cut into two pieces at every offset, and byte by byte.
#[test]
fn as_grep() -> Tested {
    for (pattern, text, end) in ROWS {
        let dfa = bytes_dfa(&[pattern], Config::new())?;
        let mut cache = dfa.create_cache();
        let wanted = end.map(|at| HalfMatch::must(0, at));
        for cut in 0..=text.len() {
            let mut pieces = begin(&dfa, &mut cache)?;
            pieces.read(&text.as_bytes()[..cut])?;
            pieces.read(&text.as_bytes()[cut..])?;
            assert_eq!(pieces.end(None)?, wanted, "{pattern} {text} {cut}");
        }
        let mut pieces = begin(&dfa, &mut cache)?;
        for byte in text.as_bytes().chunks(1) {
            pieces.read(byte)?;
        }
        assert_eq!(pieces.end(None)?, wanted, "{pattern} {text}");
    }
    Ok(())
}

/// Returns the result of a search in pieces of the span of an input, cut at random. Errors have offsets in
/// the haystack.
fn in_pieces(
    dfa: &DFA,
    cache: &mut Cache,
    input: &Input<'_>,
    numbers: &mut Numbers,
) -> Result<Option<HalfMatch>, MatchError> {
    let (text, at) = (input.haystack(), input.start());
    let behind = at.checked_sub(1).map(|before| text[before]);
    let config = start::Config::new().anchored(input.get_anchored()).look_behind(behind);
    let mut left = &text[input.get_range()];
    let searched = dfa.begin_pieces(&mut *cache, &config, input.get_earliest()).and_then(|mut pieces| {
        while !left.is_empty() {
            let (piece, rest) = left.split_at(numbers.below(left.len().min(9) + 1));
            pieces.read(piece)?;
            left = rest;
            if numbers.below(99) == 0 {
                pieces.try_reset_cache().expect("a fresh cache");
            }
        }
        let look_ahead = text.get(input.end()).copied();
        let found = pieces.end(look_ahead)?;
        assert_eq!(pieces.end(look_ahead)?, found);
        Ok(found)
    });
    let moved = |half: HalfMatch| HalfMatch::new(half.pattern(), half.offset() + at);
    searched.map(|found| found.map(moved)).map_err(|error| match *error.kind() {
        MatchErrorKind::Quit { byte, offset } => MatchError::quit(byte, offset + at),
        _ => error,
    })
}

/// In random texts with random cuts, over caches that are cleared and reset, a search in pieces returns the
/// same end, or the same error, as a search of the whole text.
#[test]
fn as_the_whole() -> Tested {
    let patterns: [(&[&str], &[u8], Option<u8>); 9] = [
        (&["[a-z]+"], b"a bz;", None),
        (&["a[ab]{8}c", "b{3}c"], b"abababababc", None),
        (&["(?m)^ab*$"], b"ab\n", None),
        (&[r"\bab\b|b+a"], b"ab .", None),
        (&["a*", "b"], b"ab", None),
        (&["(?:ab|a)(?:c|bcd)"], b"abcd", None),
        (&["a{3,5}b"], b"ab;", Some(b';')),
        (&["x$", "^b"], b"abx", None),
        (&["[^;]*ab"], b"ab;", None),
    ];
    let (mut numbers, mut clears, mut found, mut failed) = (Numbers(1), 0, 0, 0);
    for (patterns, letters, quit) in patterns {
        for small in [false, true] {
            let mut config = Config::new().starts_for_each_pattern(true);
            config = quit.map_or(config.clone(), |byte| config.quit(byte, true));
            let whole = bytes_dfa(patterns, config.clone())?;
            let dfa = if small {
                bytes_dfa(patterns, config.cache_capacity(0).skip_cache_capacity_check(true))?
            } else {
                whole.clone()
            };
            let (mut cache, mut other) = (dfa.create_cache(), whole.create_cache());
            for _ in 0..300 {
                let length = numbers.below(120);
                let text: Vec<u8> = (0..length).map(|_| letters[numbers.below(letters.len())]).collect();
                // A quit byte before the haystack is an error at offset 0, so this is tested elsewhere.
                let start = if quit.is_some() { 0 } else { numbers.below(length + 1) };
                let end = start + numbers.below(length - start + 1);
                let pattern = PatternID::must(numbers.below(3));
                let mode = [Anchored::No, Anchored::No, Anchored::Yes, Anchored::Pattern(pattern)];
                let input = Input::new(&text).range(start..end).anchored(mode[numbers.below(4)]);
                let input = input.earliest(numbers.below(4) == 0);
                let wanted = whole.try_search_fwd(&mut other, &input);
                assert_eq!(in_pieces(&dfa, &mut cache, &input, &mut numbers), wanted, "{input:?}");
                found += usize::from(matches!(wanted, Ok(Some(_))));
                failed += usize::from(wanted.is_err());
                clears += cache.clear_counts().0;
            }
        }
    }
    assert!(clears > 0 && found > 1000 && failed > 100, "{clears} {found} {failed}");
    Ok(())
}

/// The bytes before and after the haystack count for assertions, and a search may be done before its first
/// piece.
#[test]
fn beside() -> Tested {
    let dfa = bytes_dfa(&[r"\bfoo\b"], Config::new())?;
    let mut pieces = begin(&dfa, dfa.create_cache())?;
    pieces.read(b"f")?;
    pieces.read(b"oo")?;
    assert_eq!(pieces.end(None)?, Some(HalfMatch::must(0, 3)));
    assert_eq!(pieces.end(Some(0))?, Some(HalfMatch::must(0, 3)));
    assert_eq!(pieces.end(Some(0xFF))?, Some(HalfMatch::must(0, 3)));
    assert_eq!(pieces.end(Some(b'x'))?, None);
    let after = start::Config::new().look_behind(Some(b'x'));
    assert_eq!((after.get_look_behind(), after.get_anchored()), (Some(b'x'), Anchored::No));
    let mut pieces = dfa.begin_pieces(pieces.into_cache(), &after, false)?;
    pieces.read(b"foo")?;
    assert_eq!((pieces.end(None)?, pieces.is_done()), (None, false));
    // A pattern that the DFA does not have is never found.
    let dfa = bytes_dfa(&["a"], Config::new().starts_for_each_pattern(true))?;
    for (pattern, found) in [(0, Some(HalfMatch::must(0, 1))), (1, None)] {
        let config = start::Config::new().anchored(Anchored::Pattern(PatternID::must(pattern)));
        let mut pieces = dfa.begin_pieces(dfa.create_cache(), &config, false)?;
        assert_eq!(pieces.is_done(), found.is_none());
        pieces.read(b"a")?;
        assert_eq!(pieces.end(None)?, found);
    }
    Ok(())
}

/// An earliest search is done at the first match that it sees, and other searches once no match can be
/// longer.
#[test]
fn done() -> Tested {
    let regex = Regex::new("[a-z]+")?;
    let mut cache = regex.create_cache();
    let mut pieces = regex.forward().begin_pieces(&mut cache, &start::Config::new(), true)?;
    pieces.read(b"1foo")?;
    assert_eq!((pieces.is_done(), pieces.end(None)?), (true, Some(HalfMatch::must(0, 2))));
    let mut pieces = begin(regex.forward(), &mut cache)?;
    pieces.read(b"1foo")?;
    assert_eq!((pieces.is_done(), pieces.end(None)?), (false, Some(HalfMatch::must(0, 4))));
    pieces.read(b" bar")?;
    assert_eq!((pieces.is_done(), pieces.end(None)?), (true, Some(HalfMatch::must(0, 4))));
    Ok(())
}

/// A search that is cancelled leaves a cache that can serve other searches, also in pieces.
#[test]
fn cancelled() -> Tested {
    let regex = Regex::new("foo[0-9]+")?;
    let mut cache = regex.create_cache();
    begin(regex.forward(), &mut cache)?.read(b"-foo12")?;
    assert_eq!(regex.find(&mut cache, "12 foo3 "), Some(Match::must(0, 3..7)));
    let mut pieces = begin(regex.forward(), &mut cache)?;
    pieces.read(b"34")?;
    assert_eq!(pieces.end(None)?, None);
    pieces.read(b"foo5")?;
    let cache = pieces.into_cache();
    let mut pieces = begin(regex.forward(), cache)?;
    pieces.read(b"6")?;
    assert_eq!(pieces.end(None)?, None);
    pieces.read(b"foo7")?;
    assert_eq!(pieces.end(None)?, Some(HalfMatch::must(0, 5)));
    Ok(())
}

/// A search that owns its cache can be stored in a struct, and sent to another thread between two pieces.
#[test]
fn moves() -> Tested {
    let dfa = DFA::new("foo[0-9]+")?;
    let mut pieces = begin(&dfa, dfa.create_cache())?;
    drop(dfa);
    for piece in [&b"12 f"[..], b"oo", b"34"] {
        pieces = thread::spawn(move || pieces.read(piece).map(|()| pieces)).join().expect("it returns")?;
    }
    assert_eq!(pieces.end(None)?, Some(HalfMatch::must(0, 8)));
    Ok(())
}

/// A quit byte is an error at its offset, wherever it is, and the search continues before the piece.
#[test]
fn quits() -> Tested {
    let dfa = bytes_dfa(&["[a-z]+"], Config::new().quit(b';', true))?;
    let mut cache = dfa.create_cache();
    let after = start::Config::new().look_behind(Some(b';'));
    let begun = dfa.begin_pieces(&mut cache, &after, false).map(|_| ());
    assert_eq!(begun, Err(MatchError::quit(b';', 0)));
    let mut pieces = begin(&dfa, &mut cache)?;
    pieces.read(b"12")?;
    assert_eq!(pieces.read(b"345;ab"), Err(MatchError::quit(b';', 5)));
    assert_eq!(pieces.read(b";"), Err(MatchError::quit(b';', 2)));
    assert_eq!(pieces.end(Some(b';')), Err(MatchError::quit(b';', 2)));
    assert!(!pieces.is_done());
    pieces.read(b"ab")?;
    assert_eq!(pieces.end(None)?, Some(HalfMatch::must(0, 4)));
    // Once the result is final, no byte is read, so no quit byte is either.
    pieces.read(b" x;")?;
    pieces.read(b";")?;
    assert_eq!(pieces.end(Some(b';'))?, Some(HalfMatch::must(0, 4)));
    Ok(())
}

/// A search that gave up continues after its cache is reset.
#[test]
fn gives_up() -> Tested {
    let config = Config::new().cache_capacity(0).skip_cache_capacity_check(true);
    let config = config.byte_classes(false).minimum_cache_clear_count(Some(0));
    let dfa = bytes_dfa(&["[a-z]{20}[0-9]"], config)?;
    let mut pieces = begin(&dfa, dfa.create_cache())?;
    pieces.read(b"--")?;
    let error = pieces.read(b"abcdefghijklmnopqrstuvwxyz").unwrap_err();
    let MatchErrorKind::GaveUp { offset } = *error.kind() else { panic!("{error}") };
    assert!((2..28).contains(&offset), "{error}");
    for byte in b"abcdefghijklmnopqrstuvwxyz0" {
        if pieces.read(&[*byte]).is_err() {
            pieces.try_reset_cache()?;
            pieces.read(&[*byte])?;
        }
    }
    pieces.try_reset_cache()?;
    assert_eq!(pieces.end(None)?, Some(HalfMatch::must(0, 29)));
    Ok(())
}

/// An anchored mode that the DFA does not support, and a regex that would have to skip matches, are errors.
#[test]
fn not_begun() -> Tested {
    let dfa = DFA::new("a")?;
    for pattern in [0, (1 << 31) - 2] {
        let mode = Anchored::Pattern(PatternID::must(pattern));
        let config = start::Config::new().anchored(mode);
        let begun = dfa.begin_pieces(dfa.create_cache(), &config, false).map(|_| ());
        assert_eq!(begun, Err(MatchError::unsupported_anchored(mode)));
    }
    let dfa = DFA::new("a*")?;
    let mut cache = dfa.create_cache();
    let error = begin(&dfa, &mut cache).unwrap_err();
    assert_eq!(error.kind(), &MatchErrorKind::Skips);
    let text = "a regex that skips empty matches inside characters cannot be searched in pieces";
    assert_eq!(error.to_string(), text);
    assert_eq!(dfa.try_search_fwd(&mut cache, &Input::new("aa"))?, Some(HalfMatch::must(0, 2)));
    let dfa = bytes_dfa(&["a*"], Config::new())?;
    assert_eq!(begin(&dfa, dfa.create_cache())?.end(None)?, Some(HalfMatch::must(0, 0)));
    Ok(())
}

/// A search with the cache of another regex panics.
#[test]
#[should_panic(expected = "the cache is of another regex")]
fn another_cache() {
    let (one, two) = (DFA::new("a").unwrap(), DFA::new("b").unwrap());
    let _ = begin(&one, two.create_cache());
}

/// The reverse DFA of a regex does not search forward.
#[test]
#[should_panic(expected = "a Reverse DFA does not search Forward")]
fn a_reverse_dfa() {
    let regex = Regex::new("a").unwrap();
    let _ = begin(regex.reverse(), regex.create_cache());
}

/// With `MatchKind::All`, the search reports the last end before it is done.
#[test]
fn all_matches() -> Tested {
    let dfa = bytes_dfa(&["a+?", "ab"], Config::new().match_kind(MatchKind::All))?;
    let mut pieces = begin(&dfa, dfa.create_cache())?;
    pieces.read(b"xa")?;
    assert_eq!(pieces.end(None)?, Some(HalfMatch::must(0, 2)));
    pieces.read(b"b")?;
    assert_eq!(pieces.end(None)?, Some(HalfMatch::must(1, 3)));
    Ok(())
}
