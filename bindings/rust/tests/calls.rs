//! Tests of the types over the library.
#![allow(clippy::single_range_in_vec_init)] // a list of spans may have one
use lazydfa::hybrid::dfa::{self, DFA};
use lazydfa::hybrid::regex::{Cache, Regex};
use lazydfa::nfa::thompson::{self, Builder, Transition, NFA};
use lazydfa::util::look::Look;
use lazydfa::util::primitives::StateID;
use lazydfa::util::{start, syntax};
use lazydfa::{
    Anchored, BuildError, BuildErrorKind, HalfMatch, Input, Match, MatchError, MatchErrorKind, MatchKind,
    PatternID, PatternSet, PooledRegex,
};
use std::error::Error;
use std::ops::Range;

type Tested = Result<(), Box<dyn Error>>;

/// Returns the NFA of `[a-z]+`.
fn word() -> Result<NFA, BuildError> {
    let mut builder = Builder::new();
    builder.start_pattern()?;
    let letter = builder.add_range(Transition { start: b'a', end: b'z', next: StateID::ZERO })?;
    let found = builder.add_match()?;
    let more = builder.add_union(vec![letter, found])?;
    builder.patch(letter, more)?;
    builder.finish_pattern(letter)?;
    let prefix = builder.add_unanchored_prefix(letter)?;
    Ok(builder.build(letter, prefix))
}

/// Returns the NFA of `[a-z]` and `[a-z0-9]`.
fn two() -> Result<NFA, BuildError> {
    let mut builder = Builder::new();
    builder.start_pattern()?;
    let end = builder.add_match()?;
    let letter = builder.add_range(Transition { start: b'a', end: b'z', next: end })?;
    builder.finish_pattern(letter)?;
    builder.start_pattern()?;
    let next = builder.add_match()?;
    let ranges = [(b'0', b'9'), (b'a', b'z')].map(|(start, end)| Transition { start, end, next });
    let any = builder.add_sparse(ranges.to_vec())?;
    builder.finish_pattern(any)?;
    let start = builder.add_union(vec![letter, any])?;
    let prefix = builder.add_unanchored_prefix(start)?;
    Ok(builder.build(start, prefix))
}

/// Builds the regex of an NFA with these settings.
fn with(config: dfa::Config, nfa: &NFA) -> Result<Regex, BuildError> {
    Regex::builder().dfa(config).build_from_nfa(nfa)
}

/// Returns the spans of a regex's matches.
fn spans<'h>(regex: &Regex, haystack: impl Into<Input<'h>>) -> Vec<Range<usize>> {
    regex.find_iter(&mut regex.create_cache(), haystack).map(|found| found.range()).collect()
}

/// A search finds spans, ends and starts, in the span of its input.
#[test]
fn finds() -> Tested {
    let regex = with(dfa::Config::new(), &word()?)?;
    let mut cache = regex.create_cache();
    let found = regex.find(&mut cache, Input::new("12 foo").range(1..6)).unwrap();
    assert_eq!((found, found.len()), (Match::must(0, 3..6), 3));
    assert!(regex.is_match(&mut cache, "a"));
    assert!(!regex.is_match(&mut cache, ""));
    let half = regex.forward().try_search_fwd(&mut cache, &Input::new("ab-").earliest(true))?;
    assert_eq!(half, Some(HalfMatch::must(0, 1)));
    let half = regex.reverse().try_search_rev(&mut cache, &Input::new("-ab").anchored(Anchored::Yes))?;
    assert_eq!(half, Some(HalfMatch::must(0, 1)));
    Ok(())
}

/// A haystack may be a text, bytes, or a reference to anything that has them.
#[test]
fn haystacks() -> Tested {
    let regex = Regex::new("b+")?;
    let owned = (String::from("abb"), b"abb".to_vec());
    assert_eq!(spans(&regex, "abb"), [1..3]);
    assert_eq!(spans(&regex, b"abb"), [1..3]);
    assert_eq!(spans(&regex, &b"abb"[..]), [1..3]);
    assert_eq!(spans(&regex, &owned.0), [1..3]);
    assert_eq!(spans(&regex, &owned.1), [1..3]);
    assert_eq!(spans(&regex, Input::new("abb").range(..=1)), [1..2]);
    assert_eq!(spans(&regex, Input::new("abb").span(2..3)), [2..3]);
    let mut input = Input::new("abb");
    input.set_range(2..);
    input.set_earliest(true);
    input.set_anchored(Anchored::Yes);
    assert_eq!((input.get_range(), input.get_earliest(), input.get_anchored()), (2..3, true, Anchored::Yes));
    Ok(())
}

/// An iteration returns every match, however many fit into its buffer.
#[test]
fn iterates_past_the_buffer() -> Tested {
    let regex = with(dfa::Config::new(), &word()?)?;
    let pooled = PooledRegex::from(regex.clone());
    let mut cache = regex.create_cache();
    for n in [0, 1, 2, 31, 32, 33, 34, 65, 66, 1000] {
        let text = "a ".repeat(n);
        let wanted: Vec<_> = (0..n).map(|i| 2 * i).collect();
        let starts: Vec<_> = regex.find_iter(&mut cache, &text).map(|it| it.start()).collect();
        assert_eq!(starts, wanted);
        let starts: Vec<_> = pooled.find_iter(&text).map(|it| it.start()).collect();
        assert_eq!(starts, wanted);
    }
    assert!(cache.memory_usage() > 0 && cache.memory_usage() + cache.leap_usage() <= cache.heap_usage());
    cache.try_reset()?;
    assert_eq!((cache.clear_counts(), regex.pattern_len()), ((0, 0), 1));
    Ok(())
}

/// A search over a long text uses leaps, which count in addition to the accounted bytes, and a reset drops
/// them.
#[test]
fn counts_leaps() -> Tested {
    let regex = Regex::new("(?-u)[0-9]{4}-[0-9]{2}")?;
    let mut cache = regex.create_cache();
    let fresh = cache.heap_usage();
    assert_eq!(regex.find(&mut cache, &"01234 567 ".repeat(100_000)), None);
    let (memory, leaps, heap) = (cache.memory_usage(), cache.leap_usage(), cache.heap_usage());
    assert!(leaps > 0 && memory + leaps < heap && fresh < heap, "{memory} {leaps} {heap}");
    cache.try_reset()?;
    assert_eq!((cache.leap_usage(), cache.heap_usage()), (0, fresh));
    Ok(())
}

/// Tokens are returned up to the offset where no token begins.
#[test]
fn tokens() -> Tested {
    let regex = with(dfa::Config::new(), &two()?)?;
    let mut cache = regex.create_cache();
    let tokens: Vec<_> = regex.tokens(&mut cache, "a1-").collect();
    let error = MatchError::new(MatchErrorKind::NoToken { offset: 2 });
    assert_eq!(tokens, [Ok(Match::must(0, 0..1)), Ok(Match::must(1, 1..2)), Err(error)]);
    Ok(())
}

/// Sets of patterns and lists of overlapping matches contain everything that matches.
#[test]
fn sets() -> Tested {
    let regex = with(dfa::Config::new().match_kind(MatchKind::All), &two()?)?;
    let mut cache = regex.create_cache();
    let mut set = PatternSet::new(regex.pattern_len());
    regex.forward().try_which_overlapping_matches(&mut cache, &Input::new("1"), &mut set)?;
    assert_eq!(set.iter().map(PatternID::as_usize).collect::<Vec<_>>(), [1]);
    regex.forward().try_which_overlapping_matches(&mut cache, &Input::new("a"), &mut set)?;
    assert_eq!((set.len(), set.is_full()), (2, true));
    let mut first = PatternSet::new(1);
    regex.forward().try_which_overlapping_matches(&mut cache, &Input::new("a"), &mut first)?;
    assert_eq!((first.len(), first.capacity()), (1, 1));
    let (text, mut ends, mut starts) = ("a".repeat(100), Vec::new(), Vec::new());
    regex.forward().try_all_ends(&mut cache, &Input::new(&text), &mut ends)?;
    assert_eq!((ends.len(), ends[199].offset()), (200, 100));
    regex.reverse().try_all_starts(&mut cache, &Input::new("a"), &mut starts)?;
    assert_eq!(starts.len(), 2);
    Ok(())
}

/// Sets of patterns and tokens have word boundaries in text of any script.
#[test]
fn words_in_sets_and_tokens() -> Tested {
    let texts = [r"и\b", r"\bда", r"\w+", r"\W"];
    let config = dfa::Config::new().match_kind(MatchKind::All);
    let regex = Regex::builder().dfa(config).build_many(&texts)?;
    let mut cache = regex.create_cache();
    let members =
        [("и", &[0, 2][..]), ("сидя и да", &[0, 1, 2, 3]), ("字", &[2]), ("—", &[3]), ("a", &[2]), ("", &[])];
    for (text, members) in members {
        let mut set = PatternSet::new(regex.pattern_len());
        regex.forward().try_which_overlapping_matches(&mut cache, &Input::new(text), &mut set)?;
        assert_eq!(set.iter().map(PatternID::as_usize).collect::<Vec<_>>(), members, "{text}");
    }
    let regex = Regex::builder().build_many(&texts)?;
    let mut cache = regex.create_cache();
    let tokens: Result<Vec<_>, _> = regex.tokens(&mut cache, "и имя, дам").collect();
    let tokens: Vec<_> = tokens?.iter().map(|it| (it.pattern().as_usize(), it.range())).collect();
    assert_eq!(tokens, [(0, 0..2), (3, 2..3), (2, 3..9), (3, 9..10), (3, 10..11), (1, 11..15), (2, 15..17)]);
    Ok(())
}

/// What an overlapping search found before an error is kept, even if the room for it had to grow.
#[test]
fn found_before_an_error() -> Tested {
    let config = dfa::Config::new().match_kind(MatchKind::All).quit(b';', true);
    let regex = with(config, &two()?)?;
    let mut cache = regex.create_cache();
    for n in [1, 40, 1000] {
        let (mut ends, mut set) = (vec![HalfMatch::must(0, 0)], PatternSet::new(3));
        let text = format!("{} ;", "a".repeat(n));
        let quit = Err(MatchError::quit(b';', n + 1));
        assert_eq!(regex.forward().try_all_ends(&mut cache, &Input::new(&text), &mut ends), quit);
        assert_eq!((ends.len(), ends[2 * n].offset()), (2 * n + 1, n));
        let input = Input::new(&text);
        assert_eq!(regex.forward().try_which_overlapping_matches(&mut cache, &input, &mut set), quit);
        assert_eq!((set.len(), set.is_full()), (2, false));
    }
    Ok(())
}

/// Each search returns the expected error.
#[test]
fn errors_of_searches() -> Tested {
    let regex = with(dfa::Config::new().quit(b';', true), &word()?)?;
    let mut cache = regex.create_cache();
    let error = regex.try_search(&mut cache, &Input::new("--;")).unwrap_err();
    assert_eq!(error.to_string(), "quit search after observing byte 0x3B at offset 2");
    let items: Vec<_> = regex.try_find_iter(&mut cache, "a b;c").collect();
    assert_eq!(items, [Ok(Match::must(0, 0..1)), Err(MatchError::quit(b';', 3))]);
    let mode = Anchored::Pattern(PatternID::ZERO);
    let error = regex.try_search(&mut cache, &Input::new("a").anchored(mode)).unwrap_err();
    assert_eq!(error, MatchError::unsupported_anchored(mode));
    let config = dfa::Config::new()
        .byte_classes(false)
        .cache_capacity(0)
        .skip_cache_capacity_check(true)
        .minimum_cache_clear_count(Some(0));
    let regex = Regex::builder().dfa(config).build("[a-z]{20}[0-9]")?;
    let error = regex.try_search(&mut regex.create_cache(), &Input::new("abcdefghijklmnopqrstuvwxyz"));
    assert!(matches!(error.unwrap_err().kind(), MatchErrorKind::GaveUp { .. }));
    Ok(())
}

/// A pattern may be searched for alone, and a pattern that the regex does not have finds nothing.
#[test]
fn one_pattern_alone() -> Tested {
    let config = dfa::Config::new().starts_for_each_pattern(true);
    let regex = Regex::builder().dfa(config).build_many(&["[a-z]", "[a-z0-9]"])?;
    let mut cache = regex.create_cache();
    for (pattern, found) in [(0, None), (1, Some(Match::must(1, 0..1))), (2, None), (1 << 30, None)] {
        let input = Input::new("1").anchored(Anchored::Pattern(PatternID::must(pattern)));
        assert_eq!(regex.find(&mut cache, input), found);
    }
    Ok(())
}

/// Building returns the expected errors.
#[test]
fn errors_of_building() -> Tested {
    let capacity = |bytes| with(dfa::Config::new().cache_capacity(bytes), &word()?).map(|_| ());
    let error = capacity(1).unwrap_err();
    let BuildErrorKind::InsufficientCacheCapacity { minimum } = error.kind() else {
        panic!("a capacity of one byte is enough: {error}");
    };
    assert_eq!(capacity(minimum - 1).unwrap_err().kind(), error.kind());
    assert_eq!(capacity(minimum), Ok(()));
    let mut builder = Builder::new();
    assert_eq!(builder.add_match().unwrap_err().kind(), BuildErrorKind::NoPattern);
    let look = builder.add_look(StateID::ZERO, Look::Start)?;
    builder.patch(look, look)?;
    let fail = builder.add_fail()?;
    let error = with(dfa::Config::new(), &builder.build(look, fail)).unwrap_err();
    assert_eq!((error.kind(), error.pattern(), error.span()), (BuildErrorKind::NotLazy, None, None));
    Ok(())
}

/// `(?:\b|%)+` has a cycle that passes a look.
#[test]
fn look_cycles() -> Tested {
    let mut builder = Builder::new();
    builder.start_pattern()?;
    let boundary = builder.add_look(StateID::ZERO, Look::WordAscii)?;
    let percent = builder.add_range(Transition { start: b'%', end: b'%', next: StateID::ZERO })?;
    let either = builder.add_union(vec![boundary, percent])?;
    let found = builder.add_match()?;
    let more = builder.add_union(vec![either, found])?;
    builder.patch(boundary, more)?;
    builder.patch(percent, more)?;
    builder.finish_pattern(either)?;
    let prefix = builder.add_unanchored_prefix(either)?;
    let regex = with(dfa::Config::new(), &builder.build(either, prefix))?;
    assert_eq!(spans(&regex, "z%"), [0..0, 1..1]);
    Ok(())
}

/// If both starts are one state, every search is anchored, as in regex-automata.
#[test]
fn one_start() -> Tested {
    let mut builder = Builder::new();
    builder.start_pattern()?;
    let found = builder.add_match()?;
    let letter = builder.add_range(Transition { start: b'a', end: b'z', next: found })?;
    builder.finish_pattern(letter)?;
    let regex = with(dfa::Config::new(), &builder.build(letter, letter))?;
    assert_eq!((spans(&regex, "ab1c"), spans(&regex, "1a")), (vec![0..1, 1..2], vec![]));
    Ok(())
}

/// A regex is built from two NFAs, but not from one NFA twice, nor from an NFA and its clone.
#[test]
fn pairs() -> Tested {
    let same = word()?;
    let pair = |forward: &NFA, reverse: &NFA| Regex::builder().build_from_nfas(forward, reverse);
    assert_eq!(pair(&same, &same).unwrap_err().kind(), BuildErrorKind::Argument);
    assert_eq!(pair(&same, &same.clone()).unwrap_err().kind(), BuildErrorKind::Argument);
    assert_eq!(pair(&two()?, &same).unwrap_err().kind(), BuildErrorKind::PatternCounts);
    let regex = pair(&two()?, &two()?)?;
    assert_eq!(spans(&regex, "-a"), [1..2]);
    Ok(())
}

/// A clone of a regex searches with the same caches. A search with the cache of another regex panics.
#[test]
#[should_panic(expected = "the cache is of another regex")]
fn another_cache() {
    let (one, two) = (Regex::new("a").unwrap(), Regex::new("b").unwrap());
    let mut cache = two.create_cache();
    assert!(two.clone().is_match(&mut cache, "b"));
    one.is_match(&mut cache, "b");
}

/// After a reset, a cache belongs to another regex.
#[test]
fn a_reset_cache() -> Tested {
    let (one, two) = (Regex::new("a")?, Regex::new("b")?);
    let mut cache = two.create_cache();
    one.reset_cache(&mut cache);
    assert!(one.is_match(&mut cache, "a"));
    one.forward().reset_cache(&mut cache);
    assert!(one.is_match(&mut cache, "a"));
    cache.reset(&two);
    assert_eq!(cache.memory_usage(), Cache::new(&two).memory_usage());
    assert!(two.is_match(&mut cache, "b"));
    Ok(())
}

/// The reverse DFA of a regex does not search forward.
#[test]
#[should_panic(expected = "a Reverse DFA does not search Forward")]
fn a_reverse_dfa_forward() {
    let regex = Regex::new("a").unwrap();
    let _ = regex.reverse().try_search_fwd(&mut regex.create_cache(), &Input::new("a"));
}

/// A forward DFA does not search backward.
#[test]
#[should_panic(expected = "a Forward DFA does not search Reverse")]
fn a_forward_dfa_backward() {
    let dfa = DFA::new("a").unwrap();
    let _ = dfa.try_search_rev(&mut dfa.create_cache(), &Input::new("a"));
}

/// A span that does not lie in the haystack panics.
#[test]
#[should_panic(expected = "invalid span 0..2 for haystack of length 1")]
fn a_bad_span() {
    let _ = Input::new("a").range(0..2);
}

/// A search that fails panics, if its function does not return errors.
#[test]
#[should_panic(expected = "Quit { byte: 120, offset: 1 }")]
fn a_failed_search() {
    let config = dfa::Config::new().quit(b'x', true);
    let regex = Regex::builder().dfa(config).build("b").unwrap();
    regex.find(&mut regex.create_cache(), "axb");
}

/// A regex is built from texts, or the error says what is wrong with a text.
#[test]
fn texts_of_patterns() -> Tested {
    assert_eq!(spans(&Regex::new(r"\pL+")?, "foo 12 bär"), [0..3, 7..11]);
    let error = Regex::new_many(&["a", "é(b"]).unwrap_err();
    let place = (error.kind(), error.pattern(), error.span());
    assert_eq!(place, (BuildErrorKind::Syntax, Some(PatternID::must(1)), Some(2..3)));
    assert_eq!(error.to_string(), "unclosed group\n  é(b\n   ^");
    assert_eq!(spans(&Regex::new(r"\bfoo")?, "éfoo foo"), [6..9]);
    let limit = thompson::Config::new().nfa_size_limit(Some(10));
    let error = Regex::builder().thompson(limit).build("abc").unwrap_err();
    assert_eq!(error.kind(), BuildErrorKind::TooLarge);
    let none: [&str; 0] = [];
    let regex = Regex::new_many(&none)?;
    assert_eq!((spans(&regex, "a"), regex.pattern_len()), (vec![], 0));
    Ok(())
}

/// A DFA is built from texts of patterns.
#[test]
fn a_dfa_of_texts() -> Tested {
    let config = DFA::config().match_kind(MatchKind::All);
    let dfa = DFA::builder().configure(config).build_many(&["a", "b", "ab"])?;
    let (mut cache, mut set) = (dfa.create_cache(), PatternSet::new(dfa.pattern_len()));
    dfa.try_which_overlapping_matches(&mut cache, &Input::new("xab"), &mut set)?;
    assert_eq!(set.len(), 3);
    let dfa = DFA::builder().syntax(syntax::Config::new().case_insensitive(true)).build("É+")?;
    assert_eq!(dfa.try_search_fwd(&mut dfa.create_cache(), &Input::new("éÉ"))?, Some(HalfMatch::must(0, 4)));
    let dfa = DFA::builder().build_from_nfa(&two()?)?;
    assert_eq!(dfa.pattern_len(), 2);
    Ok(())
}

/// Each option has the same effect as in Rust's regex crate.
#[test]
fn options_of_patterns() -> Tested {
    let found = |config, pattern, haystack| {
        Regex::builder().syntax(config).build(pattern).map(|regex| spans(&regex, haystack))
    };
    let config = syntax::Config::new;
    assert_eq!(found(config().unicode(false), r"\w", "éa")?, [2..3]);
    assert_eq!(found(config().case_insensitive(true), "ab", "aB")?, [0..2]);
    assert_eq!(found(config().multi_line(true), "^b$", "a\nb\nc")?, [2..3]);
    assert_eq!(found(config().dot_matches_new_line(true), ".", "\r\n")?, [0..1, 1..2]);
    assert_eq!(found(config().crlf(true), "(?m)^b$", "a\r\nb\r\nc")?, [3..4]);
    assert_eq!(found(config().swap_greed(true), "a+|b+?", "aabb")?, [0..1, 1..2, 2..4]);
    assert_eq!(found(config().ignore_whitespace(true), "a b # c", "ab")?, [0..2]);
    assert_eq!(found(config().octal(true), r"\141", "a")?, [0..1]);
    assert_eq!(found(config(), "", "é")?, [0..0, 2..2]);
    assert_eq!(found(config().utf8(false), "", "é")?, [0..0, 1..1, 2..2]);
    let bytes = Regex::builder().thompson(thompson::Config::new().utf8(false)).build("")?;
    assert_eq!(spans(&bytes, "é"), [0..0, 1..1, 2..2]);
    Ok(())
}

/// By default many rules build, as a regex and as a DFA that reports all. An error of a limit names what is needed.
#[test]
fn many_rules() -> Tested {
    let rules: Vec<_> = (0..10_000).map(|n| format!("user{n} took [0-9]*{} ms", n % 10)).collect();
    for rules in [&rules[..1000], &rules] {
        let regex = Regex::new_many(rules)?;
        assert_eq!(regex.find(&mut regex.create_cache(), "user37 took 1237 ms"), Some(Match::must(37, 0..19)));
        let all = dfa::Config::new().match_kind(MatchKind::All);
        let dfa = DFA::builder().configure(all).build_many(rules)?;
        let mut set = PatternSet::new(dfa.pattern_len());
        let input = Input::new("user37 took 1237 ms");
        dfa.try_which_overlapping_matches(&mut dfa.create_cache(), &input, &mut set)?;
        assert_eq!(set.iter().collect::<Vec<_>>(), [PatternID::must(37)]);
    }
    let small = |limit| dfa::Config::new().cache_capacity(2 << 20).cache_limit(limit);
    let error = Regex::builder().dfa(small(0)).build_many(&rules[..1000]).unwrap_err();
    let BuildErrorKind::InsufficientCacheCapacity { minimum } = error.kind() else {
        panic!("2 MiB are enough: {error}");
    };
    assert_eq!((error.pattern(), error.span()), (None, None));
    assert!(error.to_string().contains(&format!("needs at least {minimum} bytes")));
    Regex::builder().dfa(small(minimum)).build_many(&rules[..1000])?;
    Ok(())
}

/// By default patterns nest up to 250 levels deep, as in regex-automata; the limit can be set.
#[test]
fn nesting() -> Tested {
    let nested = |limit: u32, depth| {
        let pattern = format!("{}a{}", "(".repeat(depth), ")".repeat(depth));
        Regex::builder().syntax(syntax::Config::new().nest_limit(limit)).build(&pattern).map(|_| ())
    };
    assert_eq!(nested(2, 2), Ok(()));
    assert_eq!(nested(2, 3).unwrap_err().kind(), BuildErrorKind::Syntax);
    let deep = |depth| Regex::new(&format!("{}a{}", "(".repeat(depth), ")".repeat(depth))).map(|_| ());
    assert_eq!(deep(250), Ok(()));
    assert_eq!(deep(251).unwrap_err().kind(), BuildErrorKind::Syntax);
    Ok(())
}

/// The debug output of types says what they are, not how they are represented.
#[test]
fn prints() -> Tested {
    let regex = Regex::new_many(&["a", "b"])?;
    let dfa = "DFA { direction: Forward, patterns: 2, .. }";
    assert_eq!(format!("{:?}", regex.forward()), dfa);
    assert!(format!("{regex:?}").starts_with(&format!("Regex {{ forward: {dfa}, reverse: DFA")));
    let mut cache = regex.create_cache();
    assert!(format!("{cache:?}").ends_with("clear_counts: (0, 0), .. }"));
    assert!(format!("{:?}", regex.find_iter(&mut cache, "ab")).starts_with("FindMatches(TryFindMatches"));
    assert!(format!("{:?}", regex.tokens(&mut cache, "ab")).starts_with("Tokens"));
    let pieces = regex.forward().begin_pieces(&mut cache, &start::Config::new(), false)?;
    assert!(format!("{pieces:?}").starts_with("Pieces { cache: Cache { memory_usage: "));
    assert_eq!(format!("{:?}", Builder::new()), "Builder { states: 0, patterns: 0, .. }");
    assert_eq!(format!("{:?}", word()?), "NFA { states: 5, patterns: 1, .. }");
    assert!(format!("{:?}", PooledRegex::from(regex)).ends_with("caches: 0 }"));
    Ok(())
}
