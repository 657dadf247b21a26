//! Many bases at once: as one at a time, whatever the batches and wherever a base is refused or the run ends.

use crate::rng::Rng;
use cedarlash::{Answer, Base, Columns, Genome, Records, Rows, Sweep};
use std::convert::Infallible;

/// The chromosomes of every job here.
pub const LIST: &str = "a\t60\nb\nc\t50\n";
pub const LENGTHS: [u64; 3] = [60, u64::MAX, 50];

pub struct Job {
    pub streams: Vec<Vec<Base>>,
    pub bases: Vec<Base>,
    pub room: usize,
}

/// What a base gets, but for the offer, which a batch doesn't tell.
type Got = Answer<Vec<(usize, usize)>>;

fn row(rng: &mut Rng) -> Base {
    let start = rng.below(40) as u64;
    let length = if rng.one_in(9) { rng.below(30) } else { rng.below(8) };
    // No stop lies beyond a length here.
    Base { chrom: rng.below(3) as u64, start, stop: (start + length as u64).min(50) }
}

/// Rows in order, and one in `faulty` of them with a fault (0: none).
fn rows(rng: &mut Rng, most: usize, faulty: usize) -> Vec<Base> {
    let mut rows: Vec<Base> = (0..rng.below(most + 1)).map(|_| row(rng)).collect();
    rows.sort();
    for k in 0..rows.len() {
        if faulty > 0 && rng.one_in(faulty) {
            match rng.below(5) {
                0 => (rows[k].start, rows[k].stop) = (rows[k].stop + 1, rows[k].start),
                1 => rows[k].chrom = 3 + rng.below(2) as u64,
                2 => rows[k].stop = 61,
                3 => rows[k] = row(rng),
                _ => rows.swap(k, 0),
            }
        }
    }
    rows
}

/// A job of up to so many bases; valid, or with faults among the bases, the streams or both.
pub fn job(rng: &mut Rng, bases: usize) -> Job {
    let fault = |rng: &mut Rng, rare: usize| if rng.one_in(2) { 0 } else { rng.from(2, rare) };
    let (base_fault, row_fault) = (fault(rng, 20), fault(rng, 60));
    let count = if rng.one_in(8) { 8 } else { rng.from(1, 3) };
    let streams = (0..count).map(|_| rows(rng, 20, row_fault)).collect();
    Job { streams, bases: rows(rng, bases, base_fault), room: *rng.pick(&[1, 2, 3, 5, 9, 64, 64]) }
}

impl Job {
    fn columns(&self) -> Columns {
        let mut columns = Columns::new();
        for rows in &self.streams {
            columns.add_rows(rows.iter().copied());
        }
        columns
    }
}

/// The records of an answer; the others as they are.
fn got(answer: Answer<Records>) -> Got {
    match answer.to_owned() {
        Answer::Found { records, .. } => Answer::Found { records, offer: None },
        other => other,
    }
}

/// What stopped a batch, as what its base gets.
fn stop(stopped: Answer<Infallible>) -> Got {
    match stopped {
        Answer::Refused(number) => Answer::Refused(number),
        Answer::Ended(end) => Answer::Ended(end),
    }
}

/// What was met: bases refused by each number, or at which the run ended by it, that were not the first of their batch; and
/// batches that the answer rows cut short.
#[derive(Default)]
struct Met {
    numbers: [usize; 10],
    short: usize,
}

/// A run whose bases are given in batches of up to `size`, with so many answer rows to spare.
struct Batches<'a> {
    sweep: Sweep<'a>,
    size: usize,
    spare: usize,
}

impl Batches<'_> {
    /// Gives all bases, now and then one alone.
    fn all(&mut self, rng: &mut Rng, bases: &[Base], met: &mut Met) -> Vec<Got> {
        let mut all = Vec::new();
        while let Some(&base) = bases.get(all.len()) {
            match rng.one_in(6) {
                true => all.push(got(self.sweep.give(base))),
                false => self.batch(bases, &mut all, met),
            }
        }
        all
    }

    /// Gives a batch behind those bases that have an answer.
    fn batch(&mut self, bases: &[Base], all: &mut Vec<Got>, met: &mut Met) {
        let (from, to) = (all.len(), bases.len().min(all.len() + self.size));
        let mut lent = Rows::default();
        bases[..to].iter().for_each(|&b| lent.push(b));
        let batch = self.sweep.give_all(&lent, from);
        let (mut taken, mut ahead) = (0, 0);
        for (base, records) in batch.iter() {
            assert_eq!(base, bases[all.len()]);
            all.push(Answer::Found { records: records.iter().collect(), offer: None });
            (ahead, taken) = (taken, taken + records.len());
        }
        assert_eq!((batch.len(), batch.is_empty()), (all.len() - from, all.len() == from));
        // A further base is given if the records ahead of it leave as many rows as the room, and only then.
        assert!(ahead <= self.spare);
        match batch.stopped.map(stop) {
            None if all.len() == to => {}
            None => {
                assert!(taken > self.spare);
                met.short += 1;
            }
            Some(answer) => {
                assert!(taken <= self.spare);
                met.numbers[number(&answer)] += usize::from(!batch.is_empty());
                all.push(answer);
            }
        }
        assert_eq!(batch.behind(), all.len());
    }
}

fn number(answer: &Got) -> usize {
    match answer {
        Answer::Found { .. } => 0,
        Answer::Refused(number) => *number as usize,
        Answer::Ended(end) => end.number as usize,
    }
}

#[test]
fn batches_answer_as_one_base_at_a_time() {
    let mut rng = Rng(31);
    let genome = Genome::read(LIST).unwrap();
    let mut met = Met::default();
    for _ in 0..4_000 {
        let job = job(&mut rng, 40);
        let columns = job.columns();
        let begin = || Sweep::begin(&genome, &columns, job.room).unwrap();
        let mut alone = begin();
        let wanted: Vec<Got> = job.bases.iter().map(|&b| got(alone.give(b))).collect();
        for size in [1, 2, 3, rng.from(4, 12), 40] {
            let spare = *rng.pick(&[0, 0, 1, 5, 30, 4_096]);
            let mut batches = Batches { sweep: begin().with_spare(spare), size, spare };
            let all = batches.all(&mut rng, &job.bases, &mut met);
            assert_eq!(all, wanted, "size {size}, spare {spare}, room {}: {:?} {:?}", job.room, job.streams, job.bases);
        }
    }
    assert!(met.short > 1_000, "batches were cut short: {}", met.short);
    assert!((3..10).all(|n| met.numbers[n] > 100), "all that a base can be refused by: {:?}", met.numbers);
}

/// More bases than one batch takes: 256 at a time, and from any row on.
#[test]
fn a_long_column_of_bases() {
    let mut rng = Rng(32);
    let genome = Genome::read(LIST).unwrap();
    let (mut whole, mut rest) = (0, 0);
    for _ in 0..300 {
        let job = job(&mut rng, 1_000);
        let columns = job.columns();
        let begin = || Sweep::begin(&genome, &columns, 64).unwrap();
        let (mut alone, mut sweep, mut bases) = (begin(), begin(), Rows::default());
        job.bases.iter().for_each(|&b| bases.push(b));
        let mut from = 0;
        while from < bases.len() {
            let batch = sweep.give_all(&bases, from);
            assert!(batch.len() <= 256 && (batch.stopped.is_some() || batch.behind() == bases.len().min(from + 256)));
            whole += usize::from(batch.len() == 256);
            for (base, records) in batch.iter() {
                assert_eq!(got(alone.give(base)), Answer::Found { records: records.iter().collect(), offer: None });
            }
            if let Some(stopped) = batch.stopped {
                assert_eq!(got(alone.give(job.bases[batch.behind() - 1])), stop(stopped));
                rest += 1;
            }
            from = batch.behind();
        }
        for from in [bases.len(), bases.len() + 1, usize::MAX] {
            let batch = sweep.give_all(&bases, from);
            assert!(batch.is_empty() && batch.stopped.is_none() && batch.behind() == from && batch.iter().count() == 0);
        }
    }
    assert!(whole > 100 && rest > 1_000, "{whole} {rest}");
}
