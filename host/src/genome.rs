//! The chromosome list.

use crate::blocks::Block;
use crate::raw::{self, Names};
use crate::refusal::BadText;

/// A chromosome list, read and checked: 1 to 256 names in their order, each with its length where that is known. Rows name
/// a chromosome by its number in this list, from 0.
#[derive(Clone, Debug)]
pub struct Genome {
    text: Vec<u8>,
    from: Vec<usize>,
    to: Vec<usize>,
    lengths: Vec<u64>,
}

/// How a column says that a length is not known: no stop lies beyond it.
const UNKNOWN: u64 = u64::MAX;

impl Genome {
    /// Reads a list: a line for each chromosome, its name and, where known, a tab and its length.
    pub fn read(text: impl Into<Vec<u8>>) -> Result<Genome, BadText> {
        let text = text.into();
        let block = Block::whole(&text);
        let (mut from, mut to, mut lengths) = (vec![0; block.lines], vec![0; block.lines], vec![0; block.lines]);
        let tally = raw::read_list(&text, &mut from, &mut to, &mut lengths);
        if tally.refusal != 0 {
            return Err(BadText { number: tally.refusal, rows: tally.rows, line: Some(block.line_of(tally.rows)) });
        }
        from.truncate(tally.rows);
        to.truncate(tally.rows);
        lengths.truncate(tally.rows);
        match raw::check_list(Names { text: &text, from: &from, to: &to }) {
            0 => Ok(Genome { text, from, to, lengths }),
            number => {
                let bad = if number == 2 { bad_name(&text, &from, &to) } else { None };
                Err(BadText { number, rows: 0, line: bad.map(|row| block.line_of(row)) })
            }
        }
    }

    /// How many chromosomes there are.
    pub fn count(&self) -> usize {
        self.from.len()
    }

    /// The name of a chromosome, if there is one of this number.
    pub fn name(&self, chrom: u64) -> Option<&[u8]> {
        let chrom = usize::try_from(chrom).ok()?;
        self.text.get(*self.from.get(chrom)?..*self.to.get(chrom)?)
    }

    /// All names in their order.
    pub fn names(&self) -> impl Iterator<Item = &[u8]> {
        self.from.iter().zip(&self.to).map(|(&from, &to)| &self.text[from..to])
    }

    /// The number of a name.
    pub fn number(&self, name: &[u8]) -> Option<u64> {
        self.names().position(|n| n == name).map(|n| n as u64)
    }

    /// The length of a chromosome, where it is known.
    pub fn length(&self, chrom: u64) -> Option<u64> {
        let length = *self.lengths.get(usize::try_from(chrom).ok()?)?;
        (length != UNKNOWN).then_some(length)
    }

    pub(crate) fn lent(&self) -> Names<'_> {
        Names { text: &self.text, from: &self.from, to: &self.to }
    }

    pub(crate) fn lengths(&self) -> &[u64] {
        &self.lengths
    }
}

/// The first name that is empty, too long or there before, to say where 2 comes from.
fn bad_name(text: &[u8], from: &[usize], to: &[usize]) -> Option<usize> {
    let name = |k: usize| &text[from[k]..to[k]];
    (0..from.len()).find(|&k| name(k).is_empty() || name(k).len() > 255 || (0..k).any(|j| name(j) == name(k)))
}
