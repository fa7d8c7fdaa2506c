//! Prints the words of a text, found with an NFA that is built state by state: `words TEXT..`.
use lazydfa::hybrid::regex::Regex;
use lazydfa::nfa::thompson::{Builder, Transition};
use lazydfa::util::primitives::StateID;
use lazydfa::BuildError;

/// Builds the regex `[a-z]+`.
fn word() -> Result<Regex, BuildError> {
    let mut builder = Builder::new();
    builder.start_pattern()?;
    let letter = builder.add_range(Transition { start: b'a', end: b'z', next: StateID::ZERO })?;
    let found = builder.add_match()?;
    let more = builder.add_union(vec![letter, found])?;
    builder.patch(letter, more)?;
    builder.finish_pattern(letter)?;
    let prefix = builder.add_unanchored_prefix(letter)?;
    Regex::builder().build_from_nfa(&builder.build(letter, prefix))
}

/// Prints the span, in bytes, of each word of the arguments.
fn main() -> Result<(), BuildError> {
    let text = std::env::args().skip(1).collect::<Vec<_>>().join(" ");
    let regex = word()?;
    for found in regex.find_iter(&mut regex.create_cache(), &text) {
        println!("{:?}", found.range());
    }
    Ok(())
}
