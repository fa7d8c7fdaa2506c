//! Tests of groups, replacements and the parts between matches.
use lazydfa::hybrid::dfa;
use lazydfa::hybrid::regex::Regex;
use lazydfa::nfa::thompson::{Builder, Config};
use lazydfa::util::syntax;
use lazydfa::{
    BuildErrorKind, Captures, Input, MatchErrorKind, MatchKind, NoExpand, PatternID, PooledRegex, Replacer,
};
use std::error::Error;
use std::ops::Range;

type Tested = Result<(), Box<dyn Error>>;

/// Returns the spans of the groups of the first match.
fn spans(pattern: &str, text: &str) -> Vec<Option<Range<usize>>> {
    let regex = Regex::new(pattern).expect("a pattern");
    let caps = regex.captures(&mut regex.create_cache(), text).expect("a match");
    caps.iter().map(|group| Some(group?.range())).collect()
}

/// Groups have the spans of their last round, or none if they took no part.
#[test]
fn spans_of_groups() {
    assert_eq!(spans("(a)|(b)", "b"), [Some(0..1), None, Some(0..1)]);
    assert_eq!(spans("(?:(a)|(b))+", "xab"), [Some(1..3), Some(1..2), Some(2..3)]);
    assert_eq!(spans("(a*?)(a*)", "aa"), [Some(0..2), Some(0..0), Some(0..2)]);
    assert_eq!(spans("(é+)(x?)", "aéé"), [Some(1..5), Some(1..5), Some(5..5)]);
    assert_eq!(spans("", "a"), [Some(0..0)]);
}

/// Groups are found by number and by name, of the pattern that matched.
#[test]
fn several_patterns() -> Tested {
    let regex = Regex::new_many(&["(?P<key>[a-z]+)=(?P<value>[a-z]*)", "(?P<value>[0-9]+)", "-"])?;
    let mut cache = regex.create_cache();
    let mut found = regex.captures_iter(&mut cache, "ab=c 12 -");
    let caps = found.next().unwrap();
    assert_eq!((caps.pattern(), caps.len()), (PatternID::ZERO, 3));
    assert_eq!((&caps["key"], &caps["value"], &caps[0]), ("ab", "c", "ab=c"));
    assert_eq!(caps.extract(), ("ab=c", ["ab", "c"]));
    let caps = found.next().unwrap();
    assert_eq!((caps.pattern(), caps.len(), &caps["value"]), (PatternID::must(1), 2, "12"));
    assert!(caps.name("key").is_none() && caps.get(2).is_none());
    assert_eq!(format!("{caps:?}"), r#"Captures{"0": Some("12" at 5..7), "value": Some("12" at 5..7)}"#);
    assert_eq!(
        (found.next().unwrap().len(), found.next().is_none(), found.next().is_none()),
        (1, true, true)
    );
    drop(found);
    let info = regex.group_info();
    assert_eq!(
        (info.pattern_len(), info.group_len(PatternID::must(1)), info.group_len(PatternID::must(3))),
        (3, 2, 0)
    );
    assert_eq!(info.to_index(PatternID::must(1), "value"), Some(1));
    assert_eq!(info.to_name(PatternID::ZERO, 2), Some("value"));
    assert_eq!(info.pattern_names(PatternID::must(2)).collect::<Vec<_>>(), [None]);
    assert_eq!((regex.captures_len(), regex.capture_names().len()), (3, 3));
    Ok(())
}

/// A long name is read whole.
#[test]
fn long_names() -> Tested {
    for length in [1, 62, 63, 64, 65, 1000] {
        let name = "é".repeat(length);
        let regex = Regex::new(&format!("(?P<{name}>a)"))?;
        assert_eq!(regex.capture_names().collect::<Vec<_>>(), [None, Some(name.as_str())]);
        assert_eq!(&regex.captures(&mut regex.create_cache(), "a").unwrap()[name.as_str()], "a");
    }
    Ok(())
}

/// A haystack of bytes has groups of bytes, and an input searches its span alone.
#[test]
fn haystacks() -> Tested {
    let syntax = syntax::Config::new().unicode(false).utf8(false);
    let regex = Regex::builder().syntax(syntax).build(r"(.)\xFF(.?)")?;
    let mut cache = regex.create_cache();
    let caps = regex.captures(&mut cache, b"ab\xFFc").unwrap();
    assert_eq!((&caps[1], caps.get(2).unwrap().as_bytes()), (&b"b"[..], &b"c"[..]));
    let caps = regex.captures(&mut cache, Input::new(b"ab\xFFc").range(..3)).unwrap();
    assert_eq!(caps.get(2).unwrap().range(), 3..3);
    assert_eq!(*regex.replace_all(&mut cache, b"ab\xFFc", b"$2$1"), *b"acb");
    assert_eq!(*regex.replace_all(&mut cache, &b"a\xFFc".to_vec(), vec![0xFF]), [0xFF]);
    let regex = Regex::new("([a-z])(?P<x>[0-9])")?;
    let (mut cache, text) = (regex.create_cache(), String::from("a1 b2 c3"));
    let caps = regex.captures(&mut cache, Input::new(&text).range(1..)).unwrap();
    assert_eq!((&caps["x"], caps.get(1).unwrap().range()), (&b"2"[..], 3..4));
    assert_eq!(*regex.replace_all(&mut cache, Input::new(&text).range(1..5), &b"-"[..]), *b"a1 - c3");
    let parts: Vec<_> = regex.split(&mut cache, Input::new(&text).range(1..5)).collect();
    assert_eq!(parts, [b"a1 ", b" c3"]);
    assert_eq!(regex.captures(&mut cache, &text).unwrap().get(2).unwrap().as_str(), "1");
    Ok(())
}

/// Each kind of replacement.
#[test]
fn replacements() -> Tested {
    let regex = Regex::new(r"(?P<first>\w)(\w)?")?;
    let mut cache = regex.create_cache();
    let text = "ab c";
    assert_eq!(regex.replace(&mut cache, text, "<$0>"), "<ab> c");
    assert_eq!(regex.replace_all(&mut cache, text, "${2}$first"), "ba c");
    assert_eq!(regex.replace_all(&mut cache, text, String::from("$2")), "b ");
    assert_eq!(
        regex.replace_all(&mut cache, text, &String::from("$$1 $1x $x ${1 $")),
        "$1   ${1 $ $1   ${1 $"
    );
    assert_eq!(regex.replace_all(&mut cache, text, NoExpand("$1")), "$1 $1");
    assert_eq!(regex.replacen(&mut cache, "a b c", 2, "-"), "- - c");
    assert_eq!(regex.replacen(&mut cache, "-", 2, "$1"), "-");
    let mut count = 0;
    let mut number = |_: &Captures| {
        count += 1;
        count.to_string()
    };
    assert_eq!(regex.replace_all(&mut cache, text, Replacer::<str>::by_ref(&mut number)), "1 2");
    assert_eq!(regex.replace_all(&mut cache, "x", number), "3");
    let mut expanded = String::from("=");
    regex.captures(&mut cache, text).unwrap().expand("$2$1", &mut expanded);
    assert_eq!(expanded, "=ba");
    Ok(())
}

/// The parts between matches, of which the last may be empty.
#[test]
fn parts() -> Tested {
    let regex = PooledRegex::new(",+")?;
    assert_eq!(regex.split("").collect::<Vec<_>>(), [""]);
    assert_eq!(regex.split(",a,,b,").collect::<Vec<_>>(), ["", "a", "b", ""]);
    for (limit, wanted) in [(0, &[][..]), (1, &["a,b,c"]), (2, &["a", "b,c"]), (9, &["a", "b", "c"])] {
        assert_eq!(regex.splitn("a,b,c", limit).collect::<Vec<_>>(), wanted);
    }
    assert_eq!(PooledRegex::new("")?.split("é").collect::<Vec<_>>(), ["", "é", ""]);
    Ok(())
}

/// A pool lends a cache to each iterator, and gets it back.
#[test]
fn pooled() -> Tested {
    let regex = PooledRegex::new("(?P<letter>[a-z])([0-9])")?;
    let pairs: Vec<_> = regex.captures_iter("a1 b2").zip(regex.captures_iter("c3 d4")).collect();
    assert_eq!((&pairs[1].0["letter"], &pairs[1].1[2]), ("b", "4"));
    assert_eq!(regex.captures("x9").unwrap().extract(), ("x9", ["x", "9"]));
    assert_eq!(regex.try_captures("-")?.map(|caps| caps.len()), None);
    assert_eq!((regex.captures_len(), regex.capture_names().flatten().next()), (3, Some("letter")));
    assert_eq!(regex.replace("a1b2", "$2"), "1b2");
    assert_eq!(regex.replace_all("a1b2", "$2"), "12");
    assert_eq!(regex.replacen("a1b2c3", 2, "$2"), "12c3");
    std::thread::scope(|scope| {
        for thread in 0..4 {
            let regex = &regex;
            scope.spawn(move || {
                let text = format!("k{thread} ").repeat(500);
                let digits = regex.captures_iter(&text).map(|caps| caps[2].to_owned());
                assert!(digits.eq(vec![thread.to_string(); 500]));
            });
        }
    });
    Ok(())
}

/// What finds groups is built when it is first needed: until then a cache takes what it took without it.
#[test]
fn builds_when_needed() -> Tested {
    let regex = Regex::new(r"(\w+)@(\w+)")?;
    let mut cache = regex.create_cache();
    let fresh = cache.heap_usage();
    assert!(regex.captures(&mut cache, "-").is_none());
    assert_eq!(regex.replace_all(&mut cache, "a", "x"), "a");
    let searched = cache.heap_usage();
    assert_eq!(&regex.captures(&mut cache, "ab@c").unwrap()[1], "ab");
    assert!(cache.heap_usage() > searched + 1000, "{fresh} {searched} {}", cache.heap_usage());
    cache.try_reset()?;
    assert_eq!(cache.heap_usage(), fresh);
    assert_eq!(&regex.captures(&mut cache, "ab@c").unwrap()[2], "c");
    Ok(())
}

/// Several threads may ask a regex for its first groups at once.
#[test]
fn built_by_several_threads() {
    for _ in 0..20 {
        let regex = Regex::new("(a)(?P<last>b)?").expect("a pattern");
        std::thread::scope(|scope| {
            for _ in 0..4 {
                scope.spawn(|| {
                    let mut cache = regex.create_cache();
                    assert_eq!(&regex.captures(&mut cache, "xab").unwrap()["last"], "b");
                });
            }
        });
    }
}

/// A regex of an NFA has no groups, but its matches are replaced by texts without any, and split.
#[test]
fn without_groups() -> Tested {
    let mut builder = Builder::new();
    builder.start_pattern()?;
    let found = builder.add_match()?;
    let range = lazydfa::nfa::thompson::Transition { start: b'a', end: b'z', next: found };
    let letter = builder.add_range(range)?;
    builder.finish_pattern(letter)?;
    let prefix = builder.add_unanchored_prefix(letter)?;
    let regex = Regex::builder().build_from_nfa(&builder.build(letter, prefix))?;
    let mut cache = regex.create_cache();
    let error = regex.try_captures(&mut cache, "a").unwrap_err();
    assert_eq!(error.kind(), &MatchErrorKind::NoGroups);
    let items: Vec<_> =
        regex.try_captures_iter(&mut cache, "aa").map(|caps| caps.map(|it| it.len())).collect();
    assert_eq!(items, [Err(MatchErrorKind::NoGroups.into())]);
    assert_eq!(regex.try_group_info().unwrap_err().kind(), BuildErrorKind::NoGroups);
    assert!(regex.try_replacen(&mut cache, "a", 0, "$0").is_err());
    assert_eq!(regex.replace_all(&mut cache, "a1", "-"), "-1");
    assert_eq!(regex.split(&mut cache, "1a2").collect::<Vec<_>>(), ["1", "2"]);
    Ok(())
}

/// An error of a search is the last item, and ends replacements.
#[test]
fn errors() -> Tested {
    let regex = Regex::builder().dfa(dfa::Config::new().quit(b';', true)).build("([a-z])")?;
    let mut cache = regex.create_cache();
    let mut items = regex.try_captures_iter(&mut cache, "a b;c");
    assert_eq!(&items.next().unwrap()?[1], "a");
    assert_eq!(
        items.next().unwrap().unwrap_err().to_string(),
        "quit search after observing byte 0x3B at offset 3"
    );
    assert!(items.next().is_none());
    assert!(regex.try_replacen(&mut cache, "a;", 0, "$1").is_err());
    assert_eq!(regex.try_replacen(&mut cache, "a--;", 1, "$1$1")?, "aa--;");
    let config = dfa::Config::new().unicode_word_boundary(true);
    let regex = Regex::builder().dfa(config).build(r"\b(\w)(\w+)\b")?;
    assert_eq!(regex.replace_all(&mut regex.create_cache(), "ab cde", "$2$1"), "ba dec");
    Ok(())
}

/// With `MatchKind::All` a longer match is reported, and its groups lie within it.
#[test]
fn all_matches() -> Tested {
    let config = dfa::Config::new().match_kind(MatchKind::All);
    let regex = Regex::builder().dfa(config).build("(a)(b?)|(ab)c")?;
    let caps = regex.captures(&mut regex.create_cache(), "xabc").unwrap();
    assert_eq!((caps.len(), caps.get(0).unwrap().range()), (4, 1..4));
    assert!(caps.iter().flatten().all(|group| 1 <= group.start() && group.end() <= 4));
    Ok(())
}

/// The size limit holds for what finds groups too.
#[test]
fn limits() -> Tested {
    let mut least = None;
    for limit in (100..4000).step_by(20) {
        let built =
            Regex::builder().thompson(Config::new().nfa_size_limit(Some(limit))).build(r"([0-9]+)-([0-9]+)");
        if let Ok(regex) = built {
            least = least.or(Some(limit));
            match regex.try_group_info() {
                Ok(info) => assert_eq!(info.group_len(PatternID::ZERO), 3),
                Err(error) => assert_eq!(error.kind(), BuildErrorKind::TooLarge),
            }
        }
    }
    assert!(least.is_some());
    Ok(())
}
