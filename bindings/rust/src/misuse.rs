//! Programs that must not compile, each because of the error that is named. `cargo test` tries them; without
//! their last lines they compile, as the first one shows.
//!
//! A regex, a cache and an iterator:
//!
//! ```
//! # use lazydfa::hybrid::regex::Regex;
//! let regex = Regex::new("[a-z]")?;
//! let mut cache = regex.create_cache();
//! let text = String::from("abc");
//! let matches = regex.find_iter(&mut cache, &text);
//! assert_eq!(matches.count(), 3);
//! drop((text, regex));
//! cache.try_reset()?;
//! std::thread::spawn(move || drop(cache)).join().unwrap();
//! # Ok::<(), lazydfa::BuildError>(())
//! ```
//!
//! A cache is not used while one of its iterators is in use.
//!
//! ```compile_fail,E0499
//! # use lazydfa::hybrid::regex::Regex;
//! let regex = Regex::new("[a-z]")?;
//! let mut cache = regex.create_cache();
//! let mut matches = regex.find_iter(&mut cache, "abc");
//! cache.try_reset()?;
//! matches.next();
//! # Ok::<(), lazydfa::BuildError>(())
//! ```
//!
//! A cache is not used while a search in pieces borrows it.
//!
//! ```compile_fail,E0499
//! # use lazydfa::{hybrid::dfa::DFA, util::start};
//! let dfa = DFA::new("[a-z]")?;
//! let mut cache = dfa.create_cache();
//! let mut pieces = dfa.begin_pieces(&mut cache, &start::Config::new(), false)?;
//! cache.try_reset()?;
//! pieces.read(b"abc")?;
//! # Ok::<(), Box<dyn std::error::Error>>(())
//! ```
//!
//! A cache is not used while a walk borrows it.
//!
//! ```compile_fail,E0499
//! # use lazydfa::{hybrid::dfa::DFA, util::start};
//! let dfa = DFA::new("[a-z]")?;
//! let mut cache = dfa.create_cache();
//! let mut walk = dfa.begin_walk(&mut cache, &start::Config::new())?;
//! cache.try_reset()?;
//! walk.end(None)?;
//! # Ok::<(), Box<dyn std::error::Error>>(())
//! ```
//!
//! A walk reads one piece at a time.
//!
//! ```compile_fail,E0499
//! # use lazydfa::{hybrid::dfa::DFA, util::start};
//! let dfa = DFA::new("[a-z]")?;
//! let mut walk = dfa.begin_walk(dfa.create_cache(), &start::Config::new())?;
//! let mut ends = walk.read(b"abc");
//! walk.read(b"def").next();
//! ends.next();
//! # Ok::<(), Box<dyn std::error::Error>>(())
//! ```
//!
//! A cache serves one search at a time.
//!
//! ```compile_fail,E0499
//! # use lazydfa::hybrid::regex::Regex;
//! let regex = Regex::new("[a-z]")?;
//! let mut cache = regex.create_cache();
//! std::thread::scope(|scope| {
//!     scope.spawn(|| regex.is_match(&mut cache, "abc"));
//!     scope.spawn(|| regex.is_match(&mut cache, "abc"));
//! });
//! # Ok::<(), lazydfa::BuildError>(())
//! ```
//!
//! A cache is not sent to another thread while one of its iterators is in use.
//!
//! ```compile_fail,E0505
//! # use lazydfa::hybrid::regex::Regex;
//! let regex = Regex::new("[a-z]")?;
//! let mut cache = regex.create_cache();
//! let mut matches = regex.find_iter(&mut cache, "abc");
//! std::thread::spawn(move || drop(cache));
//! matches.next();
//! # Ok::<(), lazydfa::BuildError>(())
//! ```
//!
//! A haystack lives as long as it is searched.
//!
//! ```compile_fail,E0505
//! # use lazydfa::hybrid::regex::Regex;
//! let regex = Regex::new("[a-z]")?;
//! let mut cache = regex.create_cache();
//! let text = String::from("abc");
//! let mut matches = regex.find_iter(&mut cache, &text);
//! drop(text);
//! matches.next();
//! # Ok::<(), lazydfa::BuildError>(())
//! ```
//!
//! A haystack lives as long as its tokens are read.
//!
//! ```compile_fail,E0505
//! # use lazydfa::hybrid::regex::Regex;
//! let regex = Regex::new("[a-z]")?;
//! let mut cache = regex.create_cache();
//! let text = String::from("abc");
//! let mut tokens = regex.tokens(&mut cache, &text);
//! drop(text);
//! tokens.next();
//! # Ok::<(), lazydfa::BuildError>(())
//! ```
//!
//! A haystack lives as long as the groups of a match, also without the regex and the cache.
//!
//! ```
//! # use lazydfa::hybrid::regex::Regex;
//! let text = String::from("abc");
//! let regex = Regex::new("(b)")?;
//! let caps = regex.captures(&mut regex.create_cache(), &text).unwrap();
//! drop(regex);
//! assert_eq!(&caps[1], "b");
//! # Ok::<(), lazydfa::BuildError>(())
//! ```
//!
//! ```compile_fail,E0505
//! # use lazydfa::hybrid::regex::Regex;
//! let text = String::from("abc");
//! let regex = Regex::new("(b)")?;
//! let caps = regex.captures(&mut regex.create_cache(), &text).unwrap();
//! drop(text);
//! assert_eq!(&caps[1], "b");
//! # Ok::<(), lazydfa::BuildError>(())
//! ```
//!
//! A cache is not used while groups are found with it.
//!
//! ```compile_fail,E0499
//! # use lazydfa::hybrid::regex::Regex;
//! let regex = Regex::new("(b)")?;
//! let mut cache = regex.create_cache();
//! let mut found = regex.captures_iter(&mut cache, "abc");
//! regex.replace(&mut cache, "abc", "$1");
//! found.next();
//! # Ok::<(), lazydfa::BuildError>(())
//! ```
//!
//! A pool lives as long as matches are found with one of its caches.
//!
//! ```compile_fail,E0505
//! # use lazydfa::PooledRegex;
//! let regex = PooledRegex::new("[a-z]")?;
//! let mut matches = regex.find_iter("abc");
//! drop(regex);
//! matches.next();
//! # Ok::<(), lazydfa::BuildError>(())
//! ```
//!
//! A cache is not cloned.
//!
//! ```compile_fail,E0599
//! # use lazydfa::hybrid::regex::Regex;
//! let regex = Regex::new("[a-z]")?;
//! let cache = regex.create_cache();
//! let other = cache.clone();
//! # Ok::<(), lazydfa::BuildError>(())
//! ```
//!
//! A handle is not created by hand.
//!
//! ```compile_fail,E0451
//! # use lazydfa::nfa::thompson::Builder;
//! let builder = Builder { handle: todo!(), states: 0, patterns: 0 };
//! ```
//!
//! A builder is consumed when it is built.
//!
//! ```compile_fail,E0382
//! # use lazydfa::nfa::thompson::Builder;
//! let mut builder = Builder::new();
//! let start = builder.add_fail()?;
//! let nfa = builder.build(start, start);
//! builder.clear();
//! # Ok::<(), lazydfa::BuildError>(())
//! ```
