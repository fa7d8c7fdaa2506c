//! Reads the tables of regex-automata: `[[tests]]`, followed by lines `key = value` with texts and lists.
use super::case::{Case, Options, Row, Wanted};
use super::literal::{unescaped, Reader};
use std::collections::HashMap;
use std::ops::Range;

/// A value: a text, a number or a list.
#[derive(Debug, PartialEq)]
enum Value {
    Text(String),
    Number(usize),
    List(Vec<Value>),
}

/// Returns the rows of a file.
pub fn rows(file: &str, text: &str) -> Vec<Row> {
    let row = |table| case(file, table).map_or_else(Row::NotRead, Row::Case);
    text.split("[[tests]]").skip(1).map(row).collect()
}

/// Returns the case of a table.
fn case(file: &str, table: &str) -> Result<Case, String> {
    let values = values(table).ok_or("a table that is not read here")?;
    let text = |key: &str| match values.get(key) {
        Some(Value::Text(text)) => Ok(text.as_str()),
        _ => Err(format!("a table without a text `{key}`")),
    };
    let has = |option: &str| match values.get("options") {
        Some(Value::List(options)) => options.contains(&Value::Text(option.into())),
        _ => false,
    };
    let (name, pattern, haystack) = (text("name")?, text("pattern")?, text("input")?);
    let Some(Value::List(matches)) = values.get("matches") else {
        return Err("a table without matches".into());
    };
    let matches: Option<Vec<_>> = matches.iter().map(span).collect();
    let matches = matches.ok_or("a table whose matches are no spans")?;
    // As in the crate's own reader, one match is the first of several, unless the table is about iteration.
    let is_first = matches.len() == 1 && !name.contains("iter");
    Ok(Case {
        name: format!("{file}/{name}"),
        patterns: vec![if has("anchored") { format!(r"\A(?:{pattern})") } else { pattern.into() }],
        haystack: if has("escaped") { unescaped(haystack) } else { haystack.into() },
        options: Options {
            case_insensitive: has("case-insensitive"),
            unicode: !has("no-unicode"),
            // Searches of that version are over bytes, where an empty match may split a character.
            utf8: false,
        },
        wanted: if is_first { Wanted::First(matches.into_iter().next()) } else { Wanted::All(matches) },
    })
}

/// Returns the span given by a list of two numbers.
fn span(value: &Value) -> Option<Range<usize>> {
    match value {
        Value::List(ends) => match ends[..] {
            [Value::Number(start), Value::Number(end)] => Some(start..end),
            _ => None,
        },
        _ => None,
    }
}

/// Returns the values of a table, by their keys.
fn values(table: &str) -> Option<HashMap<String, Value>> {
    let (mut reader, mut values) = (Reader::new(table), HashMap::new());
    loop {
        reader.blanks("#");
        if reader.left.is_empty() {
            return Some(values);
        }
        let key = reader.run(|it| it.is_alphanumeric() || "-_".contains(it));
        reader.blanks("#");
        if key.is_empty() || !reader.take("=") {
            return None;
        }
        reader.blanks("#");
        values.insert(key.into(), value(&mut reader)?);
    }
}

/// Reads a value.
fn value(reader: &mut Reader<'_>) -> Option<Value> {
    if reader.take("'''") {
        return Some(Value::Text(reader.until("'''")?.into()));
    }
    if reader.take("'") {
        return Some(Value::Text(reader.until("'")?.into()));
    }
    if reader.take("\"") {
        return Some(Value::Text(String::from_utf8(reader.quoted()?).ok()?));
    }
    if !reader.take("[") {
        return reader.number().map(Value::Number);
    }
    let mut list = Vec::new();
    loop {
        reader.blanks("#");
        if reader.take("]") {
            return Some(Value::List(list));
        }
        list.push(value(reader)?);
        reader.blanks("#");
        reader.take(",");
    }
}

#[test]
fn a_table() {
    let text = "# a comment\n[[tests]]\nname = \"n\"\noptions = ['escaped', \"case-insensitive\"]\n\
                pattern = '''it's'''\ninput = '\\x41'\nmatches = [[0, 1],\n  [2, 3]]\n";
    let wanted = Case {
        name: "f/n".into(),
        patterns: vec!["it's".into()],
        haystack: b"A".to_vec(),
        options: Options { case_insensitive: true, unicode: true, utf8: false },
        wanted: Wanted::All(vec![0..1, 2..3]),
    };
    assert_eq!(rows("f", text), [Row::Case(wanted)]);
    assert!(matches!(rows("f", "[[tests]]\nname = 'n'")[..], [Row::NotRead(_)]));
}
