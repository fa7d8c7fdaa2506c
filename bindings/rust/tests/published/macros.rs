//! Reads the tables of the crate regex: calls of macros such as `mat!(name, r"a+", "baa", Some((1, 3)));`.
use super::case::{Case, Options, Row, Wanted};
use super::literal::Reader;
use std::ops::Range;

/// An argument of a macro call.
#[derive(Clone, Debug, PartialEq)]
enum Value {
    /// A word, such as the name of the case, `None` or `true`.
    Word(String),
    Text(Vec<u8>),
    Number(usize),
    /// A list, a pair, or the arguments of a function such as `Some`.
    List(Vec<Value>),
}

/// The macros whose calls are tables of search results. The others are about other functions of the crate.
const TABLES: [&str; 7] = ["mat", "matiter", "ismatch", "matset", "nomatset", "noparse", "shortmat"];
const OTHERS: [&str; 6] = ["replace", "split", "splitn", "expand", "searcher", "consistent"];

/// Returns the rows of a file.
pub fn rows(file: &str, text: &str) -> Vec<Row> {
    let mut found = Vec::new();
    for (at, line) in lines(text) {
        let Some((name, _)) = line.trim_start().split_once("!(") else {
            if line.trim() == "#[test]" && !is_in_macro(&text[..at]) {
                found.push(Row::Other("a function".into()));
            }
            continue;
        };
        if TABLES.contains(&name) {
            let start = at + line.find("!(").expect("it was split there") + 2;
            found.push(case(file, name, &text[start..]).map_or_else(Row::NotRead, Row::Case));
        } else if OTHERS.contains(&name) {
            found.push(Row::Other(format!("a row of `{name}!`")));
        }
    }
    found
}

/// Returns the lines of a text, each with its offset.
fn lines(text: &str) -> impl Iterator<Item = (usize, &str)> {
    text.split_inclusive('\n').scan(0, |at, line| {
        *at += line.len();
        Some((*at - line.len(), line))
    })
}

/// Whether a text ends inside the definition of a macro.
fn is_in_macro(before: &str) -> bool {
    let Some(start) = before.rfind("macro_rules!") else {
        return false;
    };
    !["\n}", "\n)"].iter().any(|end| before[start..].contains(end))
}

/// Returns the case of a call, from its first argument on.
fn case(file: &str, table: &str, arguments: &str) -> Result<Case, String> {
    let mut reader = Reader::new(arguments);
    let values = list(&mut reader, ')').ok_or("a row with an expression that is not read here")?;
    let wanted = wanted(table, &values).ok_or("a row of a form that is not read here")?;
    let [Value::Word(name), patterns, ..] = values.as_slice() else {
        return Err("a row without a name".into());
    };
    let patterns = match patterns {
        Value::List(patterns) => patterns.iter().map(text).collect(),
        pattern => text(pattern).map(|pattern| vec![pattern]),
    };
    let haystack = match values.get(2) {
        Some(Value::Text(haystack)) => haystack.clone(),
        _ => Vec::new(),
    };
    // These files are only run over bytes, where a match may split a character.
    let utf8 = !file.contains("bytes") && file != "word_boundary_ascii";
    Ok(Case {
        name: format!("{file}/{name}"),
        patterns: patterns.ok_or("a row whose pattern is no text")?,
        haystack,
        options: Options { utf8, ..Options::default() },
        wanted,
    })
}

/// Returns the result that a row expects, from its arguments.
fn wanted(table: &str, values: &[Value]) -> Option<Wanted> {
    let rest = values.get(3..).unwrap_or_default();
    Some(match table {
        "noparse" => Wanted::NoPattern,
        "ismatch" => Wanted::IsMatch(rest.first()? == &Value::Word("true".into())),
        // The spans after the first one are those of groups, as many as the row has.
        "mat" if rest.len() > 1 => {
            let span = |value| optional(value)?.map(pair).transpose_option();
            Wanted::Groups(rest.iter().map(span).collect::<Option<_>>()?)
        }
        "mat" => Wanted::First(optional(rest.first()?)?.map(pair).transpose_option()?),
        "matiter" => Wanted::All(rest.iter().map(pair).collect::<Option<_>>()?),
        "shortmat" => Wanted::Earliest(optional(rest.first()?)?.map(number).transpose_option()?),
        _ => Wanted::Which(rest.iter().map(number).collect::<Option<_>>()?),
    })
}

/// Returns the argument of `Some`, or `None` for the word `None`. Anything else is not an option.
fn optional(value: &Value) -> Option<Option<&Value>> {
    match value {
        Value::Word(word) if word == "None" => Some(None),
        Value::List(values) if values.len() == 1 => Some(values.first()),
        _ => None,
    }
}

/// Turns `Some(None)`, a value that could not be read, into `None`.
trait TransposeOption<T> {
    fn transpose_option(self) -> Option<Option<T>>;
}

impl<T> TransposeOption<T> for Option<Option<T>> {
    fn transpose_option(self) -> Option<Option<T>> {
        match self {
            None => Some(None),
            Some(None) => None,
            Some(value) => Some(value),
        }
    }
}

/// Returns the span given by two numbers.
fn pair(value: &Value) -> Option<Range<usize>> {
    match value {
        Value::List(ends) => match ends[..] {
            [Value::Number(start), Value::Number(end)] => Some(start..end),
            _ => None,
        },
        _ => None,
    }
}

fn number(value: &Value) -> Option<usize> {
    match value {
        Value::Number(number) => Some(*number),
        _ => None,
    }
}

fn text(value: &Value) -> Option<String> {
    match value {
        Value::Text(text) => String::from_utf8(text.clone()).ok(),
        _ => None,
    }
}

/// Reads values up to the closing bracket.
fn list(reader: &mut Reader<'_>, end: char) -> Option<Vec<Value>> {
    let mut values = Vec::new();
    loop {
        reader.blanks("//");
        if reader.take(end.encode_utf8(&mut [0; 4])) {
            return Some(values);
        }
        values.push(value(reader)?);
        reader.blanks("//");
        if !reader.take(",") && !reader.left.starts_with(end) {
            return None;
        }
    }
}

/// Reads a value.
fn value(reader: &mut Reader<'_>) -> Option<Value> {
    reader.take("&");
    if reader.take("[") {
        return list(reader, ']').map(Value::List);
    }
    if reader.take("(") {
        return list(reader, ')').map(Value::List);
    }
    if reader.take("\"") || reader.take("b\"") {
        return reader.quoted().map(Value::Text);
    }
    if let Some(hashes) = raw_hashes(reader.left) {
        reader.left = &reader.left[1 + hashes + 1..];
        let end = format!("\"{}", "#".repeat(hashes));
        return reader.until(&end).map(|text| Value::Text(text.into()));
    }
    if reader.left.starts_with(|it: char| it.is_ascii_digit()) {
        return reader.number().map(Value::Number);
    }
    let word = reader.run(|it| it.is_alphanumeric() || it == '_');
    match word {
        "" => None,
        // Bytes that are not text
        "R" if reader.take("(") => match list(reader, ')')?.pop()? {
            Value::Text(bytes) => Some(Value::Text(bytes)),
            _ => None,
        },
        "Some" if reader.take("(") => list(reader, ')').map(Value::List),
        _ => Some(Value::Word(word.into())),
    }
}

/// Returns how many `#` precede the quote of a raw text, if one begins here.
fn raw_hashes(text: &str) -> Option<usize> {
    let rest = text.strip_prefix('r')?;
    let quote = rest.trim_start_matches('#');
    quote.starts_with('"').then_some(rest.len() - quote.len())
}

#[test]
fn tables() {
    let row = |name: &str, pattern: &str, wanted| {
        Row::Case(Case {
            name: format!("f/{name}"),
            patterns: vec![pattern.into()],
            haystack: b"baa".to_vec(),
            options: Options::default(),
            wanted,
        })
    };
    let text = "mat!(one, r\"a+\", \"baa\", Some((1, 3)), None);\n    // a comment\n\
                mat!(\n    two,\n    \"\\\\d\",\n    \"baa\",\n    None\n);\n\
                matiter!(three, r#\"a\"#, \"baa\", (1, 2), (2, 3));\n";
    let wanted = [
        row("one", "a+", Wanted::Groups(vec![Some(1..3), None])),
        row("two", r"\d", Wanted::First(None)),
        row("three", "a", Wanted::All(vec![1..2, 2..3])),
    ];
    assert_eq!(rows("f", text), wanted);
    let set = rows("f", "matset!(four, &[\"a\", \"b\"], \"a\", 0);");
    let [Row::Case(Case { patterns, wanted, .. })] = &set[..] else { panic!("{set:?}") };
    assert_eq!((&patterns[..], wanted), (&["a".into(), "b".into()][..], &Wanted::Which(vec![0])));
    assert!(matches!(rows("f", "mat!(five, { \"a\" }, \"a\", None);")[..], [Row::NotRead(_)]));
    assert!(matches!(rows("f", "replace!(six, \"a\", replace, \"a\", \"b\", \"b\");")[..], [Row::Other(_)]));
}
