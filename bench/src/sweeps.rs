//! Part (a): the sweep alone, ours by batches and a base a call, and two others; that all find the same; what a run of each
//! costs.

use crate::chrom_ordering::Chromosome;
use crate::clock::thread_ns;
use crate::input::{list, Input, Row};
use crate::intersection::IntersectionIterator;
use crate::plain::Plain;
use crate::rust;
use cedarlash::{Answer, Columns, Genome, Records, Rows, Sweep};
use hashbrown::HashMap;
use std::hint::black_box;

/// The queue's room, the listing's own; no input here needs as much.
const ROOM: usize = 1_024;

#[derive(Clone, Copy, PartialEq)]
pub enum Who {
    /// Many bases a call.
    Ours,
    /// Ours, a base a call.
    Single,
    Plain,
    Rust,
}

impl Who {
    pub const ALL: [Who; 4] = [Who::Ours, Who::Single, Who::Plain, Who::Rust];

    pub fn name(self) -> &'static str {
        match self {
            Who::Ours => "ours",
            Who::Single => "single",
            Who::Plain => "plain",
            Who::Rust => "rust",
        }
    }

    pub fn named(name: &str) -> Who {
        Who::ALL.into_iter().find(|w| w.name() == name).unwrap_or_else(|| panic!("nobody is called {name}"))
    }
}

/// An input as each of them takes it.
pub struct Bench {
    pub input: Input,
    genome: Genome,
    columns: Columns,
    bases: Rows,
    order: HashMap<String, Chromosome>,
}

/// A run that has begun, with the bases that it will be given.
enum Job<'a> {
    Ours(Sweep<'a>, &'a Rows),
    Single(Sweep<'a>, &'a [Row]),
    Plain(Plain<'a>, &'a [Row]),
    Rust(IntersectionIterator<'a>),
}

/// The records of a base that is not refused.
fn found(answer: Answer<Records>) -> Records {
    let Answer::Found { records, .. } = answer else { panic!("no base of the input is refused") };
    records
}

/// Every base is given and its records are counted. callgrind counts the instructions of this function by its name.
#[no_mangle]
#[inline(never)]
fn bench_measured(job: Job) -> usize {
    let mut n = 0;
    match job {
        Job::Ours(mut run, bases) => {
            let mut from = 0;
            while from < bases.len() {
                let batch = run.give_all(bases, from);
                assert!(batch.stopped.is_none(), "no base of the input is refused");
                n += batch.iter().map(|(_, records)| black_box(records).len()).sum::<usize>();
                from = batch.behind();
            }
        }
        Job::Single(mut run, bases) => {
            for &b in bases {
                n += found(black_box(run.give(b))).len();
            }
        }
        Job::Plain(mut run, bases) => {
            for &b in bases {
                n += black_box(run.give(b)).len();
            }
        }
        Job::Rust(run) => {
            for answer in run {
                n += black_box(answer).expect("no base of the input is refused").overlapping.len();
            }
        }
    }
    n
}

impl Bench {
    pub fn new(input: Input) -> Bench {
        let mut columns = Columns::new();
        for rows in &input.streams {
            columns.add_rows(rows.iter().copied());
        }
        let mut bases = Rows::default();
        input.bases.iter().for_each(|&b| bases.push(b));
        let genome = Genome::read(list()).expect("the list is good");
        Bench { input, genome, columns, bases, order: rust::genome() }
    }

    fn ours(&self) -> Sweep<'_> {
        Sweep::begin(&self.genome, &self.columns, ROOM).expect("the run begins")
    }

    fn job(&self, who: Who) -> Job<'_> {
        match who {
            Who::Ours => Job::Ours(self.ours(), &self.bases),
            Who::Single => Job::Single(self.ours(), &self.input.bases),
            Who::Plain => Job::Plain(Plain::new(&self.input.streams), &self.input.bases),
            Who::Rust => Job::Rust(rust::begin(&self.input, &self.order)),
        }
    }

    /// One run: how many records were found.
    pub fn count(&self, who: Who) -> usize {
        bench_measured(self.job(who))
    }

    /// One run: nanoseconds of processor time for each record of the streams. What is made ahead of it isn't counted.
    pub fn time(&self, who: Who) -> f64 {
        let job = self.job(who);
        let begin = thread_ns();
        black_box(bench_measured(job));
        (thread_ns() - begin) / self.input.records() as f64
    }

    /// Stops unless all find the same records for each base: ours by batches, ours a base a call and plain in the same order,
    /// the Rust with records of equal start as an unordered group. Gives how many were found.
    pub fn check(&self) -> usize {
        let (mut ours, mut single, mut plain) = (self.ours(), self.ours(), Plain::new(&self.input.streams));
        let mut rust = rust::begin(&self.input, &self.order);
        let (mut n, mut from) = (0, 0);
        while from < self.input.bases.len() {
            let batch = ours.give_all(&self.bases, from);
            assert!(batch.stopped.is_none(), "no base of the input is refused");
            for ((base, records), &b) in batch.iter().zip(&self.input.bases[from..]) {
                let ours: Vec<(usize, usize)> = records.iter().collect();
                assert_eq!((base, &ours[..]), (b, plain.give(b)), "ours and plain differ at {b:?}");
                assert_eq!(records, found(single.give(b)), "ours by batches and a base a call differ at {b:?}");
                let theirs = rust.next().expect("an answer for each base").expect("no base is refused");
                let theirs = theirs.overlapping.iter().map(|o| {
                    let p = o.interval.lock();
                    (p.start(), p.stop(), o.id as usize)
                });
                assert_eq!(self.grouped(&ours), grouped(theirs.collect()), "ours and the Rust differ at {b:?}");
                n += ours.len();
            }
            from = batch.behind();
        }
        assert!(from == self.input.bases.len() && rust.next().is_none(), "as many answers as bases");
        n
    }

    fn grouped(&self, ours: &[(usize, usize)]) -> Vec<(u64, u64, usize)> {
        let row = |&(s, r): &(usize, usize)| (self.input.streams[s][r].start, self.input.streams[s][r].stop, s);
        grouped(ours.iter().map(row).collect())
    }
}

/// Records as start, stop and stream, those of equal start in one order; that starts don't fall is tested first.
fn grouped(mut records: Vec<(u64, u64, usize)>) -> Vec<(u64, u64, usize)> {
    assert!(records.is_sorted_by_key(|r| r.0), "records come by their start");
    records.sort_unstable();
    records
}
