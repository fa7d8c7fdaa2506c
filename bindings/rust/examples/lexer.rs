//! Prints the tokens of a small language: `lexer FILE` prints a line for each, with its kind and its text.
//!
//! Where no token begins, it prints the line of the text, and a caret below the character.
use lazydfa::hybrid::regex::{Cache, Regex};
use lazydfa::{BuildError, MatchErrorKind};
use std::error::Error;
use std::process::ExitCode;

/// The kinds of tokens and their patterns. If several match, the first is preferred, however long its match
/// is: so keywords come before names and end at a word boundary, and `<=` comes before `<`.
const KINDS: [(&str, &str); 7] = [
    ("blank", r"[ \t\r\n]+|//[^\n]*"),
    ("keyword", r"(?:fn|let|if|else|while|return)(?-u:\b)"),
    ("name", r"[A-Za-z_][A-Za-z0-9_]*"),
    ("number", r"[0-9]+(?:\.[0-9]+)?"),
    ("string", r#""(?:[^"\\]|\\.)*""#),
    ("operator", r"<=|>=|==|!=|&&|\|\||[-+*/<>=!]"),
    ("mark", r"[(){},;]"),
];

/// A lexer, which owns its regex and a cache of it.
struct Lexer {
    regex: Regex,
    cache: Cache,
}

impl Lexer {
    fn new() -> Result<Lexer, BuildError> {
        let regex = Regex::new_many(&KINDS.map(|(_, pattern)| pattern))?;
        Ok(Lexer { cache: regex.create_cache(), regex })
    }

    /// Returns the kind and the text of each token that is not blank, or an error with the place where no
    /// token begins.
    fn tokens<'t>(&mut self, text: &'t str) -> Result<Vec<(&'static str, &'t str)>, Box<dyn Error>> {
        let mut tokens = Vec::new();
        for token in self.regex.tokens(&mut self.cache, text) {
            match token {
                Ok(token) => tokens.push((KINDS[token.pattern().as_usize()].0, &text[token.range()])),
                Err(error) => match *error.kind() {
                    MatchErrorKind::NoToken { offset } => return Err(at(text, offset).into()),
                    _ => return Err(error.into()),
                },
            }
        }
        tokens.retain(|(kind, _)| *kind != "blank");
        Ok(tokens)
    }
}

/// Returns the line of an offset, and a caret below its character.
fn at(text: &str, offset: usize) -> String {
    let start = text[..offset].rfind('\n').map_or(0, |end| end + 1);
    let line = text[start..].lines().next().unwrap_or_default();
    let (number, column) = (text[..start].matches('\n').count() + 1, text[start..offset].chars().count());
    format!("line {number}: no token\n  {line}\n  {}^", " ".repeat(column))
}

fn run() -> Result<(), Box<dyn Error>> {
    let file = std::env::args().nth(1).ok_or("lexer FILE")?;
    let text = std::fs::read_to_string(file)?;
    for (kind, token) in Lexer::new()?.tokens(&text)? {
        println!("{kind:8} {token}");
    }
    Ok(())
}

fn main() -> ExitCode {
    run().map_or_else(
        |error| {
            eprintln!("{error}");
            ExitCode::FAILURE
        },
        |()| ExitCode::SUCCESS,
    )
}
