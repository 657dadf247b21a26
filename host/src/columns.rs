//! Rows in columns: the streams of a run.

use crate::blocks::{Block, Blocks};
use crate::genome::Genome;
use crate::raw::{self, Cols};
use crate::refusal::{BadText, ReadError};
use std::io::Read;

/// A base or a record: the chromosome's number in the list, where it starts (from 0), and where it stops (not included).
#[derive(Clone, Copy, Debug, PartialEq, Eq, PartialOrd, Ord)]
pub struct Base {
    pub chrom: u64,
    pub start: u64,
    pub stop: u64,
}

/// Rows of BED text, one behind the other, in three columns.
#[derive(Clone, Debug, Default)]
pub struct Rows {
    chrom: Vec<u64>,
    start: Vec<u64>,
    stop: Vec<u64>,
}

impl Rows {
    /// How many rows there are.
    pub fn len(&self) -> usize {
        self.chrom.len()
    }

    /// Whether there are none.
    pub fn is_empty(&self) -> bool {
        self.chrom.is_empty()
    }

    /// Row `k`.
    pub fn get(&self, k: usize) -> Option<Base> {
        Some(Base { chrom: *self.chrom.get(k)?, start: self.start[k], stop: self.stop[k] })
    }

    /// All rows in their order.
    pub fn iter(&self) -> impl Iterator<Item = Base> + '_ {
        self.some(0, self.len()).iter()
    }

    /// The rows of a whole text.
    pub fn from_text(genome: &Genome, text: &[u8]) -> Result<Rows, BadText> {
        let mut rows = Rows::default();
        rows.read(genome, Block::whole(text)).map(|()| rows)
    }

    /// Forgets the rows from `k` on.
    pub fn truncate(&mut self, k: usize) {
        self.columns().into_iter().for_each(|c| c.truncate(k));
    }

    /// Adds a row.
    pub fn push(&mut self, row: Base) {
        self.chrom.push(row.chrom);
        self.start.push(row.start);
        self.stop.push(row.stop);
    }

    /// Adds the rows of some lines. At a bad line the rows ahead of it stay; the error counts those of this block.
    pub fn read(&mut self, genome: &Genome, block: Block) -> Result<(), BadText> {
        let len = self.len();
        // No more rows than lines: 12 never comes.
        self.columns().into_iter().for_each(|c| c.resize(len + block.lines, 0));
        let [chrom, start, stop] = self.columns().map(|c| &mut c[len..]);
        let tally = raw::read_rows(block.text, genome.lent(), chrom, start, stop);
        self.truncate(len + tally.rows);
        match tally.refusal {
            0 => Ok(()),
            number => Err(BadText { number, rows: tally.rows, line: Some(block.line_of(tally.rows)) }),
        }
    }

    fn columns(&mut self) -> [&mut Vec<u64>; 3] {
        [&mut self.chrom, &mut self.start, &mut self.stop]
    }

    /// The rows from `from` on, `most` at most.
    pub(crate) fn some(&self, from: usize, most: usize) -> Cols<'_> {
        let from = from.min(self.len());
        let to = self.len().min(from.saturating_add(most));
        Cols { chrom: &self.chrom[from..to], start: &self.start[from..to], stop: &self.stop[from..to] }
    }
}

impl<'a> Cols<'a> {
    /// All rows in their order.
    pub(crate) fn iter(self) -> impl Iterator<Item = Base> + 'a {
        let row = |((&chrom, &start), &stop)| Base { chrom, start, stop };
        self.chrom.iter().zip(self.start).zip(self.stop).map(row)
    }
}

/// The streams of a run, 1 to 8: their rows one behind the other, and a range for each. Stream 0 is the one added first.
#[derive(Clone, Debug, Default)]
pub struct Columns {
    rows: Rows,
    from: Vec<usize>,
    to: Vec<usize>,
}

/// How much of a stream is read at a time.
const BLOCK: usize = 256 * 1024;

impl Columns {
    /// No streams yet.
    pub fn new() -> Self {
        Self::default()
    }

    /// Adds a stream from its BED text, and gives its count of rows. A bad line adds nothing.
    pub fn add_text(&mut self, genome: &Genome, text: &[u8]) -> Result<usize, BadText> {
        let len = self.rows.len();
        self.rows.read(genome, Block::whole(text)).inspect_err(|_| self.rows.truncate(len))?;
        Ok(self.close(len))
    }

    /// Adds a stream from a file or any other reader, block by block, so that no text is held beside the columns. `heed`
    /// hears now and then how many rows were read. A bad line or a failed read adds nothing.
    pub fn add_reader(
        &mut self,
        genome: &Genome,
        source: impl Read,
        mut heed: impl FnMut(usize),
    ) -> Result<usize, ReadError> {
        let len = self.rows.len();
        let mut blocks = Blocks::new(source, BLOCK);
        let read = loop {
            match blocks.next_block() {
                Ok(None) => break Ok(()),
                Err(e) => break Err(ReadError::Io(e)),
                Ok(Some(block)) => {
                    let ahead = self.rows.len() - len;
                    if let Err(bad) = self.rows.read(genome, block) {
                        break Err(ReadError::Bad(BadText { rows: ahead + bad.rows, ..bad }));
                    }
                }
            }
            heed(self.rows.len() - len);
        };
        match read {
            Ok(()) => Ok(self.close(len)),
            Err(e) => {
                self.rows.truncate(len);
                Err(e)
            }
        }
    }

    /// Adds a stream of rows that the caller has already.
    pub fn add_rows(&mut self, rows: impl IntoIterator<Item = Base>) -> usize {
        let len = self.rows.len();
        rows.into_iter().for_each(|row| self.rows.push(row));
        self.close(len)
    }

    /// How many streams there are.
    pub fn streams(&self) -> usize {
        self.from.len()
    }

    /// How many rows a stream has.
    pub fn rows(&self, stream: usize) -> Option<usize> {
        Some(self.to.get(stream)? - self.from[stream])
    }

    /// A row of a stream.
    pub fn get(&self, stream: usize, row: usize) -> Option<Base> {
        if row < self.rows(stream)? {
            return self.rows.get(self.from[stream] + row);
        }
        None
    }

    /// The rows added from `from` on are a stream.
    fn close(&mut self, from: usize) -> usize {
        self.from.push(from);
        self.to.push(self.rows.len());
        self.rows.len() - from
    }

    pub(crate) fn lent(&self) -> Cols<'_> {
        Cols { chrom: &self.rows.chrom, start: &self.rows.start, stop: &self.rows.stop }
    }

    pub(crate) fn ranges(&self) -> (&[usize], &[usize]) {
        (&self.from, &self.to)
    }
}
