//! The Rust that is ported, unchanged, over rows in memory: plain overlap, skip-ahead off.

use crate::chrom_ordering::{parse_genome, Chromosome};
use crate::input::{list, Input, Row, GENOME};
use crate::intersection::IntersectionIterator;
use crate::interval::Interval;
use crate::position::{Position, PositionedIterator};
use hashbrown::HashMap;
use std::io;

/// A row as the Rust holds one.
fn position(r: &Row) -> Position {
    let chrom = GENOME[r.chrom as usize].0.into();
    Position::Interval(Interval { chrom, start: r.start, stop: r.stop, ..Default::default() })
}

/// Rows made ahead of the run, handed out in order.
struct Made(std::vec::IntoIter<Position>);

impl PositionedIterator for Made {
    fn name(&self) -> String {
        "rows".into()
    }
    fn next_position(&mut self, _: Option<&Position>) -> Option<io::Result<Position>> {
        self.0.next().map(Ok)
    }
}

pub fn genome() -> HashMap<String, Chromosome> {
    parse_genome(list().as_bytes()).expect("a list in memory")
}

fn made(rows: &[Row]) -> Box<dyn PositionedIterator> {
    Box::new(Made(rows.iter().map(position).collect::<Vec<_>>().into_iter()))
}

/// The Rust's iterator over an input, all its rows made; nothing is read yet.
pub fn begin<'a>(input: &Input, genome: &'a HashMap<String, Chromosome>) -> IntersectionIterator<'a> {
    let streams = input.streams.iter().map(|rows| made(rows)).collect();
    IntersectionIterator::new(made(&input.bases), streams, genome, 0, 0, false).expect("the constructor never fails")
}
