//! The plain Rust sweep: a Vec of rows for each stream, the least by a look at every head, a Vec as queue that is
//! cleared by `retain`. It believes its input: it tests neither order nor sizes, refuses nothing and offers nothing.

use crate::input::Row;

/// A record that waits for later bases, all on one chromosome.
struct Waiting {
    chrom: u64,
    start: u64,
    stop: u64,
    stream: usize,
    row: usize,
}

pub struct Plain<'a> {
    streams: &'a [Vec<Row>],
    next: Vec<usize>,
    queue: Vec<Waiting>,
    found: Vec<(usize, usize)>,
}

impl<'a> Plain<'a> {
    pub fn new(streams: &'a [Vec<Row>]) -> Self {
        Plain { streams, next: vec![0; streams.len()], queue: Vec::new(), found: Vec::new() }
    }

    /// The least head and its stream; of equal ones the earlier stream's.
    fn least(&self) -> Option<(usize, Row)> {
        let mut best: Option<(usize, Row)> = None;
        for (k, (rows, &next)) in self.streams.iter().zip(&self.next).enumerate() {
            if let Some(&r) = rows.get(next) {
                if best.is_none_or(|(_, b)| r < b) {
                    best = Some((k, r));
                }
            }
        }
        best
    }

    /// The stream and row of each record that overlaps the base, in merged order.
    pub fn give(&mut self, b: Row) -> &[(usize, usize)] {
        self.queue.retain(|w| w.chrom == b.chrom && w.stop > b.start);
        while let Some((k, r)) = self.least() {
            if r.chrom > b.chrom || (r.chrom == b.chrom && r.start >= b.stop) {
                break;
            }
            if r.chrom == b.chrom && r.stop > b.start {
                self.queue.push(Waiting { chrom: r.chrom, start: r.start, stop: r.stop, stream: k, row: self.next[k] });
            }
            self.next[k] += 1;
        }
        self.found.clear();
        self.found.extend(self.queue.iter().filter(|w| w.start < b.stop).map(|w| (w.stream, w.row)));
        &self.found
    }
}
