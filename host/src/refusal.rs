//! 01's refusals in words.

/// What a refusal number says. The numbers are those of the scope document, 1 to 14.
pub fn words(number: u64) -> &'static str {
    match number {
        1 => "a size is broken",
        2 => "a chromosome name is empty, too long or there twice",
        3 => "base stop beyond a known chromosome length",
        4 => "base chromosome not on the list",
        5 => "base out of order",
        6 => "base start > stop",
        7 => "stream record: chromosome not on the list, or start > stop",
        8 => "stream record out of order",
        9 => "no room in the queue",
        10 => "more records than answer rows",
        11 => "text line malformed",
        12 => "one good row more than the row slots lent",
        13 => "a record given to the parts has start > stop, doesn't overlap the base, or starts before the one ahead",
        14 => "more fragments or pieces than lent slots, or a listing longer than its buffer",
        _ => "no refusal of this number",
    }
}

/// Why no run began: 1 or 2.
#[derive(Clone, Copy, Debug, PartialEq, Eq)]
pub struct Refusal(pub u64);

impl std::fmt::Display for Refusal {
    fn fmt(&self, f: &mut std::fmt::Formatter) -> std::fmt::Result {
        write!(f, "refusal {}: {}", self.0, words(self.0))
    }
}

impl std::error::Error for Refusal {}

/// Why a text was not read: the refusal, how many good rows stand ahead of it, and the line of the text (from 1, empty
/// lines and comments counted) where one line is to blame.
#[derive(Clone, Copy, Debug, PartialEq, Eq)]
pub struct BadText {
    pub number: u64,
    pub rows: usize,
    pub line: Option<u64>,
}

impl std::fmt::Display for BadText {
    fn fmt(&self, f: &mut std::fmt::Formatter) -> std::fmt::Result {
        if let Some(line) = self.line {
            write!(f, "line {line}: ")?;
        }
        Refusal(self.number).fmt(f)
    }
}

impl std::error::Error for BadText {}

/// Why a reader gave no rows: it failed, or its text is bad.
#[derive(Debug)]
pub enum ReadError {
    Io(std::io::Error),
    Bad(BadText),
}

impl std::fmt::Display for ReadError {
    fn fmt(&self, f: &mut std::fmt::Formatter) -> std::fmt::Result {
        match self {
            ReadError::Io(e) => e.fmt(f),
            ReadError::Bad(e) => e.fmt(f),
        }
    }
}

impl std::error::Error for ReadError {}

impl From<std::io::Error> for ReadError {
    fn from(e: std::io::Error) -> Self {
        ReadError::Io(e)
    }
}

impl From<BadText> for ReadError {
    fn from(e: BadText) -> Self {
        ReadError::Bad(e)
    }
}
