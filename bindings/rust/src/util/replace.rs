//! What matches are replaced by.
use super::captures::{Captures, Text};
use std::borrow::Cow;

/// What each match is replaced by: a text in which `$1`, `$name` and `${name}` stand for groups, as
/// [`Captures::expand`] says, [`NoExpand`], or a function of the groups.
///
/// ```
/// use lazydfa::hybrid::regex::Regex;
/// use lazydfa::{Captures, NoExpand};
///
/// let regex = Regex::new(r"(?P<last>\pL+), (?P<first>\pL+)")?;
/// let mut cache = regex.create_cache();
/// assert_eq!(regex.replace(&mut cache, "Twain, Mark", "$first $last"), "Mark Twain");
/// assert_eq!(regex.replace(&mut cache, "Twain, Mark", NoExpand("$first")), "$first");
/// let shout = |caps: &Captures| caps[2].to_uppercase();
/// assert_eq!(regex.replace_all(&mut cache, "Twain, Mark; Woolf, Virginia", shout), "MARK; VIRGINIA");
/// # Ok::<(), lazydfa::BuildError>(())
/// ```
pub trait Replacer<T: ?Sized + Text> {
    /// Appends what a match with these groups is replaced by.
    fn replace_append(&mut self, caps: &Captures<'_, T>, dst: &mut T::Owned);

    /// Returns what each match is replaced by, if that is the same for all: groups are not searched for then.
    fn no_expansion(&mut self) -> Option<Cow<'_, T>> {
        None
    }

    /// Returns a replacer that uses this one, which can be used again.
    fn by_ref(&mut self) -> ReplacerRef<'_, Self> {
        ReplacerRef(self)
    }
}

/// A replacer that uses another one.
#[derive(Debug)]
pub struct ReplacerRef<'r, R: ?Sized>(&'r mut R);

impl<T: ?Sized + Text, R: ?Sized + Replacer<T>> Replacer<T> for ReplacerRef<'_, R> {
    fn replace_append(&mut self, caps: &Captures<'_, T>, dst: &mut T::Owned) {
        self.0.replace_append(caps, dst);
    }

    fn no_expansion(&mut self) -> Option<Cow<'_, T>> {
        self.0.no_expansion()
    }
}

/// A text by which matches are replaced as it is: `$` is a dollar sign.
#[derive(Clone, Copy, Debug)]
pub struct NoExpand<'r, T: ?Sized>(pub &'r T);

impl<T: ?Sized + Text> Replacer<T> for NoExpand<'_, T> {
    fn replace_append(&mut self, _: &Captures<'_, T>, dst: &mut T::Owned) {
        self.0.append_to(dst);
    }

    fn no_expansion(&mut self) -> Option<Cow<'_, T>> {
        Some(Cow::Borrowed(self.0))
    }
}

impl<T: ?Sized + Text, F: FnMut(&Captures<'_, T>) -> R, R: AsRef<T>> Replacer<T> for F {
    fn replace_append(&mut self, caps: &Captures<'_, T>, dst: &mut T::Owned) {
        self(caps).as_ref().append_to(dst);
    }
}

macro_rules! replacers {
    ($([$($parameters:tt)*] $type:ty: $text:ty),*) => {
        $(impl<$($parameters)*> Replacer<$text> for $type {
            fn replace_append(&mut self, caps: &Captures<'_, $text>, dst: &mut <$text as ToOwned>::Owned) {
                expand(caps, <$type as AsRef<$text>>::as_ref(self), dst);
            }

            fn no_expansion(&mut self) -> Option<Cow<'_, $text>> {
                let text = <$type as AsRef<$text>>::as_ref(self);
                (!text.raw_bytes().contains(&b'$')).then_some(Cow::Borrowed(text))
            }
        })*
    };
}

replacers! {
    [] &str: str, [] String: str, [] &String: str, [] Cow<'_, str>: str,
    [] &[u8]: [u8], [] Vec<u8>: [u8], [] &Vec<u8>: [u8], [] Cow<'_, [u8]>: [u8],
    [const N: usize] [u8; N]: [u8], [const N: usize] &[u8; N]: [u8]
}

/// Appends a replacement with the groups for which it has names and numbers.
pub(super) fn expand<T: ?Sized + Text>(caps: &Captures<'_, T>, replacement: &T, dst: &mut T::Owned) {
    let bytes = replacement.raw_bytes();
    let (mut at, mut copied) = (0, 0);
    while let Some(before) = bytes[at..].iter().position(|byte| *byte == b'$') {
        let dollar = at + before;
        let Some((reference, length)) = reference(&bytes[dollar + 1..]) else {
            at = dollar + 1;
            continue;
        };
        replacement.part(copied..dollar).append_to(dst);
        if reference == Reference::Dollar {
            replacement.part(dollar..dollar + 1).append_to(dst);
        }
        if let Some(group) = group(caps, reference) {
            group.append_to(dst);
        }
        at = dollar + 1 + length;
        copied = at;
    }
    replacement.part(copied..bytes.len()).append_to(dst);
}

/// What follows a dollar sign.
#[derive(Clone, Copy, PartialEq)]
enum Reference<'r> {
    /// Another dollar sign.
    Dollar,
    /// The number or the name of a group.
    Group(&'r str),
}

/// Returns what follows a dollar sign, and its length, unless the dollar sign is itself.
fn reference(after: &[u8]) -> Option<(Reference<'_>, usize)> {
    match after.first()? {
        b'$' => Some((Reference::Dollar, 1)),
        b'{' => {
            let end = after.iter().position(|byte| *byte == b'}')?;
            let name = std::str::from_utf8(&after[1..end]).ok()?;
            Some((Reference::Group(name), end + 1))
        }
        _ => {
            let is_letter = |byte: &u8| byte.is_ascii_alphanumeric() || *byte == b'_';
            let end = after.iter().position(|byte| !is_letter(byte)).unwrap_or(after.len());
            let name = std::str::from_utf8(&after[..end]).ok()?;
            (end > 0).then_some((Reference::Group(name), end))
        }
    }
}

/// Returns what the group captured to which this refers.
fn group<'h, T: ?Sized + Text>(caps: &Captures<'h, T>, reference: Reference<'_>) -> Option<&'h T> {
    let Reference::Group(name) = reference else {
        return None;
    };
    let group = match name.parse::<u32>() {
        Ok(number) => caps.get(number as usize)?,
        Err(_) => caps.name(name)?,
    };
    Some(group.part())
}
