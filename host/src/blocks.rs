//! A text of any size, read in blocks of whole lines.

use std::io::{ErrorKind, Read};

/// Some whole lines of a text, and where they stand in it.
#[derive(Clone, Copy)]
pub struct Block<'a> {
    pub text: &'a [u8],
    /// How many lines stand ahead of this block.
    pub ahead: u64,
    /// How many lines it has, empty ones and comments among them.
    pub lines: usize,
}

impl<'a> Block<'a> {
    /// A whole text as one block.
    pub fn whole(text: &'a [u8]) -> Self {
        Block { text, ahead: 0, lines: lines_in(text) }
    }

    /// The number (from 1) of the line of row `row` of this block: the lines that are passed by count as lines, not as rows.
    pub fn line_of(&self, row: usize) -> u64 {
        let lines = self.text.split(|&b| b == b'\n').enumerate();
        let rows = lines.filter(|(_, line)| !line.is_empty() && line[0] != b'#');
        self.ahead + 1 + rows.map(|(n, _)| n).nth(row).unwrap_or(self.lines) as u64
    }
}

/// How many lines a text has; the last may lack its LF.
fn lines_in(text: &[u8]) -> usize {
    let open = text.last().is_some_and(|&b| b != b'\n');
    // In parts whose count fits a byte: many bytes are then compared at a time.
    let count = |part: &[u8]| part.iter().fold(0u8, |n, &b| n.wrapping_add(u8::from(b == b'\n')));
    text.chunks(255).map(|part| usize::from(count(part))).sum::<usize>() + usize::from(open)
}

/// Reads blocks of about the size asked for; a longer line makes a longer block. A block is given as soon as a read
/// brought the end of a line, so a slow source is not waited for longer than it takes.
pub struct Blocks<R> {
    source: R,
    buffer: Vec<u8>,
    /// The buffer holds bytes up to here, and has given those up to there.
    filled: usize,
    given: usize,
    lines: u64,
}

impl<R: Read> Blocks<R> {
    pub fn new(source: R, size: usize) -> Self {
        Blocks { source, buffer: vec![0; size.max(1)], filled: 0, given: 0, lines: 0 }
    }

    /// The next block, or none at the end of the text.
    pub fn next_block(&mut self) -> std::io::Result<Option<Block<'_>>> {
        self.buffer.copy_within(self.given..self.filled, 0);
        self.filled -= self.given;
        self.given = 0;
        while self.given == 0 {
            if self.filled == self.buffer.len() {
                self.buffer.resize(2 * self.filled, 0);
            }
            let from = self.filled;
            match self.source.read(&mut self.buffer[from..]) {
                Ok(0) if from == 0 => return Ok(None),
                Ok(0) => self.given = from,
                Ok(n) => {
                    self.filled += n;
                    let last = self.buffer[from..self.filled].iter().rposition(|&b| b == b'\n');
                    self.given = last.map_or(0, |at| from + at + 1);
                }
                Err(e) if e.kind() == ErrorKind::Interrupted => {}
                Err(e) => return Err(e),
            }
        }
        let text = &self.buffer[..self.given];
        let block = Block { text, ahead: self.lines, lines: lines_in(text) };
        self.lines += block.lines as u64;
        Ok(Some(block))
    }
}
