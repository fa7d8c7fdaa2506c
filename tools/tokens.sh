#!/bin/sh
# Tests which uses the lifetimes of tokens allow, with two tests in a copy of the repository: one keeps a token after
# the cache is dropped, and runs; the other uses a cache while tokens over it are still in use, which the compiler must
# reject. The gate has no place for the second.
set -eu
top=$(cd "$(dirname "$0")/.." && pwd)
copy=$(mktemp -d)
trap 'rm -rf "$copy"' EXIT
(cd "$top" && git ls-files -z | tar -c --null -T -) | tar -x -C "$copy"

cd "$copy/crates/lazydfa"
cat > src/tests/accepted.rt <<'TEST'
use super::same_of;
use regex_automata::hybrid::regex::Regex;
use regex_automata::util::search::Input;
use search_script::Entry;
use std::test::Fail;

#[test]
fn keeps_a_token(rt: HostRuntime) -> Result<(), Fail> {
    let forward = Entry::Runs.forward(rt.alloc())?;
    let reverse = Entry::Runs.reverse(rt.alloc())?;
    let regex = Regex::builder().build_from_nfas(forward, reverse)?;
    let mut cache = regex.create_cache()?;
    let first = regex.tokens(&mut cache, Input::new(b"12ab")).next();
    drop(cache);
    let token = first.ok_or("a token")??;
    same_of(&rt, &token.bytes(), &b"12".as_slice(), &"a kept token");
    Ok(())
}
TEST
echo 'mod accepted;' >> src/tests/mod.rt
rt try --test -- keeps_a_token

cat > src/tests/refused.rt <<'TEST'
use regex_automata::hybrid::regex::Regex;
use regex_automata::util::search::Input;
use search_script::Entry;
use std::test::Fail;

#[test]
fn uses_the_cache_of_tokens(rt: HostRuntime) -> Result<(), Fail> {
    let forward = Entry::Runs.forward(rt.alloc())?;
    let reverse = Entry::Runs.reverse(rt.alloc())?;
    let regex = Regex::builder().build_from_nfas(forward, reverse)?;
    let mut cache = regex.create_cache()?;
    let mut tokens = regex.tokens(&mut cache, Input::new(b"12ab"));
    let _first = tokens.next();
    let _bytes = cache.memory_usage();
    let _second = tokens.next();
    Ok(())
}
TEST
echo 'mod refused;' >> src/tests/mod.rt
if rt try --test -- uses_the_cache_of_tokens > ../../told 2>&1; then
    echo 'a cache under tokens that are still used was accepted'
    exit 1
fi
grep 'refused.rt:14:18: error\[borrow-e0502\]' ../../told
