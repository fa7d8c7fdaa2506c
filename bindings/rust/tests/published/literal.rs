//! What both readers need for texts: a position in a text, and escapes.

/// The rest of a text that is read from its start.
#[derive(Clone, Copy)]
pub struct Reader<'t> {
    pub left: &'t str,
}

impl<'t> Reader<'t> {
    pub fn new(left: &'t str) -> Reader<'t> {
        Reader { left }
    }

    /// Reads these words, if they come next.
    pub fn take(&mut self, words: &str) -> bool {
        let rest = self.left.strip_prefix(words);
        self.left = rest.unwrap_or(self.left);
        rest.is_some()
    }

    /// Reads up to these words, and reads them too.
    pub fn until(&mut self, words: &str) -> Option<&'t str> {
        let (before, after) = self.left.split_once(words)?;
        self.left = after;
        Some(before)
    }

    /// Reads as many characters of this kind as there are.
    pub fn run(&mut self, is_one: impl Fn(char) -> bool) -> &'t str {
        let end = self.left.find(|it| !is_one(it)).unwrap_or(self.left.len());
        let (run, rest) = self.left.split_at(end);
        self.left = rest;
        run
    }

    /// Reads blanks, and comments that begin with these words and end with the line.
    pub fn blanks(&mut self, comment: &str) {
        self.run(char::is_whitespace);
        while self.take(comment) {
            self.run(|it| it != '\n');
            self.run(char::is_whitespace);
        }
    }

    /// Reads a number.
    pub fn number(&mut self) -> Option<usize> {
        self.run(|it| it.is_ascii_digit()).parse().ok()
    }

    /// Reads a quoted text with escapes, after its opening quote.
    pub fn quoted(&mut self) -> Option<Vec<u8>> {
        let mut bytes = Vec::new();
        loop {
            bytes.extend(self.run(|it| it != '"' && it != '\\').as_bytes());
            if self.take("\"") {
                return Some(bytes);
            }
            if !self.take("\\") {
                return None;
            }
            self.escape(&mut bytes)?;
        }
    }

    /// Reads the escape after a backslash.
    fn escape(&mut self, bytes: &mut Vec<u8>) -> Option<()> {
        let mark = self.left.chars().next()?;
        self.left = &self.left[mark.len_utf8()..];
        match mark {
            'n' => bytes.push(b'\n'),
            'r' => bytes.push(b'\r'),
            't' => bytes.push(b'\t'),
            '0' => bytes.push(0),
            '\\' | '"' | '\'' => bytes.push(mark as u8),
            'x' => bytes.push(u8::try_from(self.hex(2)?).ok()?),
            'u' if self.take("{") => {
                let code = u32::from_str_radix(self.until("}")?, 16).ok()?;
                push(bytes, char::from_u32(code)?);
            }
            'u' => push(bytes, char::from_u32(self.hex(4)?)?),
            'U' => push(bytes, char::from_u32(self.hex(8)?)?),
            '\n' => {
                self.run(char::is_whitespace);
            }
            _ => return None,
        }
        Some(())
    }

    /// Reads a number of this many hexadecimal digits.
    fn hex(&mut self, digits: usize) -> Option<u32> {
        let (number, rest) = self.left.split_at_checked(digits)?;
        self.left = rest;
        u32::from_str_radix(number, 16).ok()
    }
}

fn push(bytes: &mut Vec<u8>, character: char) {
    bytes.extend(character.encode_utf8(&mut [0; 4]).as_bytes());
}

/// Returns the bytes of a text in which `\\`, `\n`, `\r`, `\t` and `\xFF` are escapes, and every other
/// backslash is itself.
pub fn unescaped(text: &str) -> Vec<u8> {
    let (mut bytes, mut reader) = (Vec::new(), Reader::new(text));
    while !reader.left.is_empty() {
        bytes.extend(reader.run(|it| it != '\\').as_bytes());
        let before = reader;
        if reader.take("\\") {
            let is_escape = reader.left.starts_with(['\\', 'n', 'r', 't', 'x']);
            if !is_escape || reader.escape(&mut bytes).is_none() {
                reader = Reader::new(&before.left[1..]);
                bytes.push(b'\\');
            }
        }
    }
    bytes
}

#[test]
fn escapes() {
    let read = |text| Reader::new(text).quoted();
    assert_eq!(read(r#"a\"\\\n\x41\u00e9" left"#).unwrap(), "a\"\\\nAé".as_bytes());
    assert_eq!(read(r#"\u{212A}\0""#).unwrap(), "\u{212A}\0".as_bytes());
    assert_eq!(read("open"), None);
    assert_eq!(unescaped(r"a\xFF\n\.\\\xG"), b"a\xFF\n\\.\\\\xG");
}
