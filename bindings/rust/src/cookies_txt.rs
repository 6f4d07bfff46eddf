//! Netscape's `cookies.txt`, which curl, wget and Python share.

use crate::handle::Word;
use std::fmt;

/// Who reads a `cookies.txt`.
#[derive(Clone, Copy, Debug, Default, PartialEq, Eq)]
pub enum Reader {
    /// curl, and others that read the format as it documents it.
    #[default]
    Curl,
    /// wget, which takes `#HttpOnly_` for a comment: no line says to it that a cookie is HttpOnly.
    Wget,
    /// `MozillaCookieJar` of Python, which takes 0 for a second of 1970: to it no expiry is empty.
    Python,
}

impl Reader {
    pub(crate) fn word(self, sessions: bool) -> Word {
        match (self, sessions) {
            (Reader::Curl, true) => Word::Export,
            (Reader::Wget, true) => Word::ExportForWget,
            (Reader::Python, true) => Word::ExportForPython,
            (Reader::Curl, false) => Word::ExportLasting,
            (Reader::Wget, false) => Word::ExportLastingForWget,
            (Reader::Python, false) => Word::ExportLastingForPython,
        }
    }
}

/// Why a line isn't taken: of several causes the first.
#[derive(Clone, Copy, Debug, PartialEq, Eq)]
#[non_exhaustive]
pub enum RowCause {
    /// It isn't UTF-8.
    NotText,
    /// It has neither six nor seven fields, parted by tabs.
    Fields,
    /// It has no domain.
    NoDomain,
    /// One of its two flags is neither `TRUE` nor `FALSE`, in any case.
    Flag,
    /// Its path doesn't begin with `/`.
    Path,
    /// Its expiry is neither empty nor a number of seconds.
    Expiry,
    /// Its name is empty.
    EmptyName,
    /// Its domain has no IDNA form, or a second dot in front.
    Domain,
    /// A control character stands in its name, value, domain or path: a byte below 32 but the tab, or 127.
    Control,
    /// No `Set-Cookie` line gives such a name or value, as one with a semicolon, or with white space at an end.
    Pair,
    /// It is against the prefix `__Host-`.
    HostPrefix,
    /// A number that this crate doesn't know.
    Other(u8),
}

impl RowCause {
    fn of(number: u8) -> RowCause {
        match number {
            40 => RowCause::NotText,
            41 => RowCause::Fields,
            42 => RowCause::NoDomain,
            43 => RowCause::Flag,
            44 => RowCause::Path,
            45 => RowCause::Expiry,
            46 => RowCause::EmptyName,
            47 => RowCause::Domain,
            48 => RowCause::Control,
            49 => RowCause::Pair,
            50 => RowCause::HostPrefix,
            _ => RowCause::Other(number),
        }
    }
}

impl fmt::Display for RowCause {
    fn fmt(&self, to: &mut fmt::Formatter<'_>) -> fmt::Result {
        to.write_str(match self {
            RowCause::NotText => "the line isn't UTF-8",
            RowCause::Fields => "the line has neither six nor seven fields",
            RowCause::NoDomain => "the line has no domain",
            RowCause::Flag => "a flag of the line is neither TRUE nor FALSE",
            RowCause::Path => "the path has no / in front",
            RowCause::Expiry => "the expiry is no number",
            RowCause::EmptyName => "the line's name is empty",
            RowCause::Domain => "the domain has no IDNA form",
            RowCause::Control => "a control character stands in the cookie",
            RowCause::Pair => "no Set-Cookie line gives such a name or value",
            RowCause::HostPrefix => "the cookie is against the prefix __Host-",
            RowCause::Other(number) => return write!(to, "the library told {number}"),
        })
    }
}

/// A line of a `cookies.txt` that wasn't taken.
#[derive(Clone, Copy, Debug, PartialEq, Eq)]
pub struct RefusedLine {
    /// Its number, counted from 1.
    pub line: usize,
    /// Why.
    pub cause: RowCause,
}

/// What became of the lines of a `cookies.txt` that are neither blank nor comments.
#[derive(Clone, Debug, PartialEq, Eq)]
pub struct Imported {
    /// How many were taken.
    pub taken: usize,
    /// How many were passed over, since their cookies are expired.
    pub expired: usize,
    /// Those that were refused, in their order.
    pub refused: Vec<RefusedLine>,
}

/// What an answer tells: how many lines there are and how many were taken, and nine bytes of each that was refused.
pub(crate) fn imported(answer: &[u8]) -> Imported {
    let number = |bytes: &[u8]| bytes.iter().rev().fold(0, |sum, byte| sum << 8 | usize::from(*byte));
    let (counts, rest) = answer.split_at(16);
    let refused_line = |told: &[u8]| RefusedLine { line: number(&told[..8]), cause: RowCause::of(told[8]) };
    let refused: Vec<_> = rest.chunks_exact(9).map(refused_line).collect();
    let taken = number(&counts[8..]);
    Imported { taken, expired: number(&counts[..8]) - taken - refused.len(), refused }
}
