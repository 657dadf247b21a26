//! Cedarlash for Rust programs: at scale, a run over columns; within the program's limits, all texts in, one listing out.
//!
//! At scale (feature `inplace`): a [`Genome`] is read, then the streams into [`Columns`]; [`Sweep::begin`] begins a run and
//! [`Sweep::give`] gives it a base, [`Sweep::give_all`] many at once; [`Sweep::answers`] gives all bases of a source. [`lines`]
//! writes the listing's lines.
//!
//! Within the limits (feature `library`): `list` and `list_ends` call the proved listing; [`paper`] is a second
//! implementation, written from the scope document (01) alone, against which the program `differential` holds the first.
#![deny(unsafe_op_in_unsafe_fn)]
#![deny(unsafe_code)]

pub mod blocks;
#[cfg(feature = "inplace")]
mod columns;
#[cfg(feature = "inplace")]
mod genome;
pub mod lines;
pub mod paper;
#[cfg(any(feature = "library", feature = "inplace"))]
#[allow(unsafe_code)]
mod raw;
mod refusal;
#[cfg(feature = "inplace")]
mod sweep;

#[cfg(feature = "inplace")]
pub use columns::{Base, Columns, Rows};
#[cfg(feature = "inplace")]
pub use genome::Genome;
pub use refusal::{words, BadText, ReadError, Refusal};
#[cfg(feature = "inplace")]
pub use sweep::{Answer, Answers, Bases, Batch, End, LeavingOut, Place, Records, Sweep, MOST_ROOM};

/// What a call gives besides the bytes it wrote.
#[repr(C)]
#[derive(Clone, Copy, Debug, PartialEq, Eq)]
pub struct Listing {
    /// 0, or 14 where the listing is longer than the buffer.
    pub number: u64,
    /// How many bytes of the buffer hold lines; the others are as they were.
    pub length: usize,
}

/// Lists a job given as separate texts: the chromosome list, the bases, and one text for each stream.
///
/// The listing stands at the front of `out` afterwards. A job that the scope document refuses (too many streams, too
/// much text, a bad line) is no error here: its listing is the line that says so.
#[cfg(feature = "library")]
pub fn list(list: &[u8], bases: &[u8], streams: &[&[u8]], out: &mut [u8]) -> Listing {
    let (text, ends) = join(list, bases, streams);
    list_ends(&text, &ends, out)
}

/// Lists a job given as one text: text k (the list, the bases, stream 0, stream 1, ..) ends at `ends[k]`.
///
/// Ends that fall, that don't reach the end of `text`, or that are fewer than 3 or more than 10 are refused by the
/// listing `X 1 0 0`.
#[cfg(feature = "library")]
pub fn list_ends(text: &[u8], ends: &[usize], out: &mut [u8]) -> Listing {
    raw::list(text, ends, out)
}

/// The texts one after the other, and where each ends.
pub fn join(list: &[u8], bases: &[u8], streams: &[&[u8]]) -> (Vec<u8>, Vec<usize>) {
    let mut text = Vec::new();
    let mut ends = Vec::new();
    for part in [list, bases].iter().chain(streams) {
        text.extend_from_slice(part);
        ends.push(text.len());
    }
    (text, ends)
}
