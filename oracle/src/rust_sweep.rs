//! Runs the Rust's own IntersectionIterator over a job held in memory.

use crate::chrom_ordering::parse_genome;
use crate::intersection::IntersectionIterator;
use crate::interval::Interval;
use crate::job::{Hit, Row, Sweep};
use crate::position::{Position, PositionedIterator, Value};
use std::cell::RefCell;
use std::collections::VecDeque;
use std::io;
use std::rc::Rc;

/// What the Rust did with one base: records, an error text, or nothing at all
/// (swallowed: drawn but not given; left out: the table jumped over it because of an offered place).
#[derive(Clone, PartialEq, Eq, Debug)]
pub enum Outcome {
    Records(Vec<Hit>),
    Error(String),
    Swallowed,
    LeftOut,
}

/// The outcome of each base by row number, and the place (chromosome, start) the Rust offered just ahead of it.
#[derive(Default)]
pub struct Told {
    pub outcomes: Vec<Option<Outcome>>,
    pub offers: Vec<Option<(u64, u64)>>,
}

/// A position that carries its row number in a field of the Rust's own interval type.
fn position(row: &Row, chroms: usize, number: usize) -> Position {
    let mut i = Interval { chrom: name(row.chrom, chroms), start: row.start, stop: row.stop, ..Default::default() };
    i.fields.insert("row".into(), Value::Ints(vec![number as i64]));
    Position::Interval(i)
}

/// Chromosome k is named `ck`; a number past the list gets a name that isn't on it.
fn name(chrom: u64, chroms: usize) -> String {
    if chrom < chroms as u64 {
        format!("c{chrom}")
    } else {
        "unlisted".into()
    }
}

fn number_of(p: &Position) -> usize {
    match p {
        Position::Interval(i) => match i.fields.get("row") {
            Some(Value::Ints(v)) => v[0] as usize,
            _ => panic!("a position without its row"),
        },
        _ => panic!("a position of another kind"),
    }
}

/// A sequential stream: hands out its rows in order, whatever is asked for.
struct Stream {
    rows: VecDeque<Position>,
    name: String,
}

impl PositionedIterator for Stream {
    fn name(&self) -> String {
        self.name.clone()
    }
    fn next_position(&mut self, _: Option<&Position>) -> Option<io::Result<Position>> {
        self.rows.pop_front().map(Ok)
    }
}

/// The base table. With `heed` it leaves out bases on earlier chromosomes than the offered place,
/// and on its own those with stop at or below it.
struct Bases {
    rows: Vec<Row>,
    next: usize,
    chroms: usize,
    heed: bool,
    told: Rc<RefCell<Told>>,
}

impl PositionedIterator for Bases {
    fn name(&self) -> String {
        "bases".into()
    }
    fn next_position(&mut self, place: Option<&Position>) -> Option<io::Result<Position>> {
        let mut told = self.told.borrow_mut();
        let place = place.map(|p| {
            let chrom = p.chrom()[1..].parse().expect("a name on the list");
            (chrom, p.start())
        });
        while self.heed && self.next < self.rows.len() {
            let r = self.rows[self.next];
            match place {
                Some((c, at)) if r.chrom < c || (r.chrom == c && r.stop <= at) => {
                    told.outcomes[self.next] = Some(Outcome::LeftOut);
                    told.offers[self.next] = place;
                    self.next += 1;
                }
                _ => break,
            }
        }
        let row = self.rows.get(self.next)?;
        told.offers[self.next] = place;
        told.outcomes[self.next] = Some(Outcome::Swallowed);
        let p = position(row, self.chroms, self.next);
        self.next += 1;
        Some(Ok(p))
    }
}

/// Gives the whole job to the Rust and tells, for each base, what it did. After an error the run is gone on with.
pub fn run(job: &Sweep) -> Told {
    let chroms = job.lengths.len();
    let mut list = String::new();
    for (k, length) in job.lengths.iter().enumerate() {
        match length {
            Some(l) => list.push_str(&format!("c{k}\t{l}\n")),
            None => list.push_str(&format!("c{k}\n")),
        }
    }
    let order = parse_genome(list.as_bytes()).expect("a list in memory");
    let n = job.bases.len();
    let told = Rc::new(RefCell::new(Told { outcomes: vec![None; n], offers: vec![None; n] }));
    let bases = Bases { rows: job.bases.clone(), next: 0, chroms, heed: job.skip == 2, told: told.clone() };
    let streams = job
        .streams
        .iter()
        .enumerate()
        .map(|(k, rows)| {
            let rows = rows.iter().enumerate().map(|(i, r)| position(r, chroms, i)).collect();
            Box::new(Stream { rows, name: format!("stream {k}") }) as Box<dyn PositionedIterator>
        })
        .collect();
    let mut it = IntersectionIterator::new(Box::new(bases), streams, &order, 0, 0, job.skip > 0)
        .expect("the constructor never fails");
    while let Some(given) = it.next() {
        let mut told = told.borrow_mut();
        match given {
            Ok(x) => {
                let base = number_of(&x.base_interval.lock());
                let hits = x.overlapping.iter().map(|o| (o.id as usize, number_of(&o.interval.lock())));
                told.outcomes[base] = Some(Outcome::Records(hits.collect()));
            }
            Err(e) => {
                let drawn = told.outcomes.iter().rposition(|o| *o == Some(Outcome::Swallowed));
                told.outcomes[drawn.expect("a base was drawn")] = Some(Outcome::Error(e.to_string()));
            }
        }
    }
    drop(it);
    told.take()
}
