//! Look-around assertions.

/// A look-around assertion: what must hold at an offset of the haystack.
#[derive(Clone, Copy, Debug, PartialEq, Eq, Hash)]
#[repr(u32)]
pub enum Look {
    /// The haystack begins here.
    Start = 0,
    /// The haystack ends here.
    End = 1,
    /// A line begins here. Lines end in the NFA's line terminator.
    StartLF = 2,
    /// A line ends here. Lines end in the NFA's line terminator.
    EndLF = 3,
    /// A line begins here. Lines end in `\r`, `\n` or `\r\n`.
    StartCRLF = 4,
    /// A line ends here. Lines end in `\r`, `\n` or `\r\n`.
    EndCRLF = 5,
    /// An ASCII word begins or ends here.
    WordAscii = 6,
    /// No ASCII word begins or ends here.
    WordAsciiNegate = 7,
    /// A Unicode word begins or ends here.
    WordUnicode = 8,
    /// No Unicode word begins or ends here.
    WordUnicodeNegate = 9,
    /// An ASCII word begins here.
    WordStartAscii = 10,
    /// An ASCII word ends here.
    WordEndAscii = 11,
    /// A Unicode word begins here.
    WordStartUnicode = 12,
    /// A Unicode word ends here.
    WordEndUnicode = 13,
    /// No byte of an ASCII word is before this offset.
    WordStartHalfAscii = 14,
    /// No byte of an ASCII word is after this offset.
    WordEndHalfAscii = 15,
    /// No character of a Unicode word is before this offset.
    WordStartHalfUnicode = 16,
    /// No character of a Unicode word is after this offset.
    WordEndHalfUnicode = 17,
}
