//! Tests of one regex on many threads.
use lazydfa::hybrid::dfa::{self, Ends, Pieces, Walk, DFA};
use lazydfa::hybrid::regex::{Cache, Regex};
use lazydfa::nfa::thompson::{Builder, NFA};
use lazydfa::{Input, MatchKind, PatternSet, PooledRegex};
use std::sync::mpsc;
use std::thread;

/// These types can be sent to other threads and shared by them, and a clone is equivalent to its original.
#[test]
fn types() {
    fn shared<T: Send + Sync + Clone>() {}
    fn owned<T: Send + Sync>() {}
    fn sent<T: Send>() {}
    shared::<Regex>();
    shared::<DFA>();
    shared::<NFA>();
    shared::<PooledRegex>();
    owned::<Cache>();
    sent::<Builder>();
    sent::<Pieces<Cache>>();
    sent::<Pieces<&mut Cache>>();
    sent::<Walk<Cache>>();
    sent::<Walk<&mut Cache>>();
    sent::<Ends>();
}

/// Returns a text in which `[a-z]+[0-9]` has `n` matches that differ from each other.
fn text(n: usize) -> String {
    (0..n).map(|i| format!("{}{} ", "ab".repeat(i % 7 + 1), i % 10)).collect()
}

/// Four threads search with one regex, each with its own caches that it creates, resets and drops, while its
/// clones are dropped.
#[test]
fn one_regex() {
    let config = dfa::Config::new().cache_capacity(0).skip_cache_capacity_check(true);
    let regex = Regex::builder().dfa(config).build("[a-z]+[0-9]").unwrap();
    thread::scope(|scope| {
        for _ in 0..4 {
            let clone = regex.clone();
            let regex = &regex;
            scope.spawn(move || {
                let mut kept = clone.create_cache();
                for round in 0..50 {
                    let mut cache = regex.create_cache();
                    assert_eq!(regex.find_iter(&mut cache, &text(round)).count(), round);
                    assert_eq!(clone.find_iter(&mut kept, &text(round)).count(), round);
                    regex.reset_cache(&mut cache);
                    assert!(!regex.is_match(&mut cache, "ab"));
                }
            });
        }
    });
}

/// Threads create, reset and drop many caches of one regex at once, and the regex is freed with the last of
/// them.
#[test]
fn caches_that_come_and_go() {
    for _ in 0..300 {
        let regex = Regex::new("[a-z]+[0-9]").unwrap();
        let last = regex.create_cache();
        thread::scope(|scope| {
            for _ in 0..4 {
                let regex = regex.clone();
                scope.spawn(move || {
                    for round in 0..40 {
                        let mut cache = regex.create_cache();
                        if round % 5 == 0 {
                            regex.reset_cache(&mut cache);
                        }
                    }
                });
            }
        });
        drop((regex, last));
    }
}

/// A cache is moved from thread to thread, and is dropped on another thread than it was created on, after its
/// regex.
#[test]
fn a_cache_that_moves() {
    let regex = Regex::new("[a-z]+[0-9]").unwrap();
    let (send, receive) = mpsc::channel::<(Regex, Cache)>();
    let searching = thread::spawn(move || {
        for (n, (regex, mut cache)) in receive.iter().enumerate() {
            assert_eq!(regex.find_iter(&mut cache, &text(n)).count(), n);
            drop(regex);
            cache.try_reset().unwrap();
        }
    });
    for n in 0..20 {
        let mut cache = regex.create_cache();
        assert_eq!(regex.find_iter(&mut cache, &text(n)).count(), n);
        send.send((regex.clone(), cache)).unwrap();
    }
    drop((regex, send));
    searching.join().unwrap();
}

/// A pool serves any number of searches at once, and keeps as many caches.
#[test]
fn a_pool() {
    let regex = PooledRegex::new("[a-z]+[0-9]").unwrap();
    thread::scope(|scope| {
        for _ in 0..4 {
            scope.spawn(|| {
                for round in 0..50 {
                    assert_eq!(regex.find_iter(&text(round)).count(), round);
                    assert_eq!(regex.is_match(&text(round)), round > 0);
                }
            });
        }
    });
    let caches = format!("{regex:?}");
    let open = regex.find_iter("a1 b2");
    assert_eq!(regex.find("a1").unwrap().range(), 0..2);
    assert_eq!(open.count(), 2);
    assert!((1..=4).any(|n| caches.ends_with(&format!("caches: {n} }}"))), "{caches}");
}

/// Threads build regexes from one NFA, and from two NFAs in both orders, at once.
#[test]
fn one_nfa() {
    let nfa = |byte| {
        let mut builder = Builder::new();
        builder.start_pattern().unwrap();
        let found = builder.add_match().unwrap();
        let transition = lazydfa::nfa::thompson::Transition { start: byte, end: byte, next: found };
        let start = builder.add_range(transition).unwrap();
        builder.finish_pattern(start).unwrap();
        let prefix = builder.add_unanchored_prefix(start).unwrap();
        builder.build(start, prefix)
    };
    let (one, two) = (nfa(b'a'), nfa(b'a'));
    thread::scope(|scope| {
        for (forward, reverse) in [(&one, &two), (&two, &one), (&one, &two), (&two, &one)] {
            scope.spawn(move || {
                for _ in 0..50 {
                    let regex = Regex::builder().build_from_nfas(forward, reverse).unwrap();
                    assert_eq!(regex.find(&mut regex.create_cache(), "-a").unwrap().range(), 1..2);
                    let regex = Regex::builder().build_from_nfa(forward).unwrap();
                    assert!(!regex.is_match(&mut regex.create_cache(), "-b"));
                }
            });
        }
    });
}

/// A DFA that reports which patterns match can also be used by several threads.
#[test]
fn one_dfa() {
    let config = DFA::config().match_kind(MatchKind::All);
    let dfa = DFA::builder().configure(config).build_many(&["[a-z]+[0-9]", "b1", "ab0"]).unwrap();
    thread::scope(|scope| {
        for (text, members) in [("a2", 1), ("b1", 2), ("ab0", 2), ("ab0b1", 3)] {
            let dfa = &dfa;
            scope.spawn(move || {
                let mut cache = dfa.create_cache();
                for _ in 0..50 {
                    let mut set = PatternSet::new(dfa.pattern_len());
                    dfa.try_which_overlapping_matches(&mut cache, &Input::new(text), &mut set).unwrap();
                    assert_eq!(set.len(), members);
                }
            });
        }
    });
}
