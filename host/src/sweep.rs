//! A run: one base in, its records and an offer out; or many bases at once.

use crate::columns::{Base, Columns, Rows};
use crate::genome::Genome;
use crate::raw::{self, Cols, Found, Offered, Run, Slot, Stopped};
use crate::refusal::{words, Refusal};
use std::convert::Infallible;

/// The most records that can wait: the largest room.
pub const MOST_ROOM: usize = 65_536;

/// How many bases are given at once at most, and how many answer rows there are for them beyond the room. What a call costs
/// beside the bases is paid once for so many.
const BATCH: usize = 256;
const SPARE: usize = 4_096;

/// A place: it permits leaving out the following bases on earlier chromosomes, and on its own those with stop at or below
/// it. It holds until the next offer.
#[derive(Clone, Copy, Debug, PartialEq, Eq)]
pub struct Place {
    pub chrom: u64,
    pub stop: u64,
}

impl Place {
    /// Whether this base may be left out.
    pub fn permits(&self, base: Base) -> bool {
        base.chrom < self.chrom || base.chrom == self.chrom && base.stop <= self.stop
    }
}

/// Why a run has ended: 7 to 10, and for 7 and 8 the stream and row of the record.
#[derive(Clone, Copy, Debug, PartialEq, Eq)]
pub struct End {
    pub number: u64,
    pub record: Option<(usize, usize)>,
}

impl std::fmt::Display for End {
    fn fmt(&self, f: &mut std::fmt::Formatter) -> std::fmt::Result {
        write!(f, "refusal {}: {}", self.number, words(self.number))?;
        match self.record {
            Some((stream, row)) => write!(f, " (stream {stream}, row {row})"),
            None => Ok(()),
        }
    }
}

/// What a base gets. `R` is how its records are held: [`Records`], or a `Vec` of stream and row.
#[derive(Clone, Copy, Debug, PartialEq, Eq)]
pub enum Answer<R> {
    /// The records that overlap the base, in merged order, and the offered place if there is one.
    Found { records: R, offer: Option<Place> },
    /// The base was refused (1, 3, 4, 5 or 6); the run is as it was.
    Refused(u64),
    /// The run has ended, now or earlier. Every base after it gets this again.
    Ended(End),
}

/// The records of an answer, in merged order.
#[derive(Clone, Copy, Debug, PartialEq, Eq)]
pub struct Records<'a>(&'a [Found]);

impl<'a> Records<'a> {
    pub fn len(&self) -> usize {
        self.0.len()
    }

    pub fn is_empty(&self) -> bool {
        self.0.is_empty()
    }

    /// Stream and row of each.
    pub fn iter(&self) -> impl Iterator<Item = (usize, usize)> + 'a {
        self.0.iter().map(|&[stream, row]| (stream as usize, row as usize))
    }

    /// The same as they stand in memory: stream and row of each.
    pub fn as_slice(&self) -> &'a [[u64; 2]] {
        self.0
    }

    /// Takes the first `count` of them away, and gives these.
    #[inline]
    fn take(&mut self, count: usize) -> Records<'a> {
        let (taken, left) = self.0.split_at(count);
        *self = Records(left);
        Records(taken)
    }
}

impl Answer<Records<'_>> {
    /// The same with its records copied.
    pub fn to_owned(&self) -> Answer<Vec<(usize, usize)>> {
        match *self {
            Answer::Found { records, offer } => Answer::Found { records: records.iter().collect(), offer },
            Answer::Refused(number) => Answer::Refused(number),
            Answer::Ended(end) => Answer::Ended(end),
        }
    }
}

/// The offered place, if there is one.
fn place(offer: Offered) -> Option<Place> {
    (offer.any != 0).then_some(Place { chrom: offer.chrom, stop: offer.stop })
}

/// What a base got that got no records; nothing if none was stopped.
fn unfound<R>(told: Stopped) -> Option<Answer<R>> {
    match told.refusal {
        0 => None,
        number @ (7 | 8) => {
            Some(Answer::Ended(End { number, record: Some((told.stream as usize, told.row as usize)) }))
        }
        number @ (9 | 10) => Some(Answer::Ended(End { number, record: None })),
        number => Some(Answer::Refused(number)),
    }
}

/// A run over streams in columns. It owns the queue's slots, 32 bytes each, and the answer rows, 16 bytes each: 48 bytes for each
/// record that may wait, and 66 KiB more for batches ([`Sweep::give_all`]), all of it allocated when it begins; the columns are
/// only borrowed, so that they cannot change while it goes on.
pub struct Sweep<'a> {
    genome: &'a Genome,
    columns: &'a Columns,
    run: Run,
    queue: Vec<Slot>,
    /// The answer rows: as many as the room, and some to spare for the bases of a batch.
    answers: Vec<Found>,
    /// How many records each base of a batch has.
    counts: Vec<usize>,
}

impl<'a> Sweep<'a> {
    /// Begins a run in which at most `room` records wait at a time (1 to 65,536). It is refused by 1 if that or the count
    /// of streams (1 to 8) is broken.
    pub fn begin(genome: &'a Genome, columns: &'a Columns, room: usize) -> Result<Self, Refusal> {
        let mut run = Run::NONE;
        let (from, to) = columns.ranges();
        match raw::begin(&mut run, from, to, room, genome.lent(), columns.lent()) {
            // The room is known to be good from here on.
            0 => {
                let (queue, answers, counts) = (vec![[0; 4]; room], Vec::new(), vec![0; BATCH]);
                Ok(Sweep { genome, columns, run, queue, answers, counts }.with_spare(SPARE))
            }
            number => Err(Refusal(number)),
        }
    }

    /// Gives a base. Bases come by chromosome, start and stop.
    pub fn give(&mut self, base: Base) -> Answer<Records<'_>> {
        let (cols, lengths) = (self.columns.lent(), self.genome.lengths());
        let (queue, answers, one) = (&mut self.queue, &mut self.answers, Cols::of_one(&base));
        let swept = raw::give(&mut self.run, one, cols, lengths, queue, answers, &mut [0]);
        unfound(swept.last).unwrap_or_else(|| Answer::Found {
            records: Records(&self.answers[..swept.records]),
            offer: place(swept.offer),
        })
    }

    /// Gives the bases of `bases` from row `from` on, one after the other, each as [`Sweep::give`] would but faster: at most
    /// 256 of them, until one gets no records (it is refused, or the run ends) or the answer rows might not do for the next.
    /// At least one is given if there is one. Offers between them are not told: where bases are to be left out, they are given one
    /// by one.
    pub fn give_all<'b>(&'b mut self, bases: &'b Rows, from: usize) -> Batch<'b> {
        let (cols, lengths) = (self.columns.lent(), self.genome.lengths());
        let bases = bases.some(from, self.counts.len());
        let (queue, answers, counts) = (&mut self.queue, &mut self.answers, &mut self.counts);
        let swept = raw::give(&mut self.run, bases, cols, lengths, queue, answers, counts);
        Batch {
            from,
            bases,
            counts: &self.counts[..swept.bases],
            records: Records(&self.answers[..swept.records]),
            stopped: unfound(swept.last),
        }
    }

    /// The same run with so many answer rows beyond the room, 16 bytes each, in place of 4,096. A batch ends when fewer than
    /// the room are left, so with more of them bases that have many records get along in fewer calls; the answers are the same.
    pub fn with_spare(mut self, rows: usize) -> Self {
        self.answers = vec![[0; 2]; self.queue.len() + rows];
        self
    }

    /// The list of this run.
    pub fn genome(&self) -> &'a Genome {
        self.genome
    }

    /// The streams of this run.
    pub fn columns(&self) -> &'a Columns {
        self.columns
    }

    /// The answers to all bases of a source.
    pub fn answers<B: Bases>(self, bases: B) -> Answers<'a, B> {
        Answers { sweep: self, bases, place: None, over: false }
    }
}

/// What bases got that were given together: the records of those that were answered, and what stopped them, if anything did.
pub struct Batch<'a> {
    from: usize,
    bases: Cols<'a>,
    counts: &'a [usize],
    records: Records<'a>,
    /// What the base behind the answered ones got, if it was given: it was refused or the run has ended, so it is never `Found`.
    pub stopped: Option<Answer<Infallible>>,
}

impl<'a> Batch<'a> {
    /// How many bases were answered.
    pub fn len(&self) -> usize {
        self.counts.len()
    }

    /// Whether none was.
    pub fn is_empty(&self) -> bool {
        self.counts.is_empty()
    }

    /// Each base that was answered and its records, in merged order.
    pub fn iter(&self) -> impl Iterator<Item = (Base, Records<'a>)> {
        let mut left = self.records;
        self.bases.iter().zip(self.counts).map(move |(base, &count)| (base, left.take(count)))
    }

    /// The row behind the last base that got something, records or not: the next batch goes on from there.
    pub fn behind(&self) -> usize {
        self.from + self.counts.len() + usize::from(self.stopped.is_some())
    }
}

/// Where bases come from. Every iterator over bases is a source that leaves out none; [`LeavingOut`] makes one that leaves
/// out what it may.
pub trait Bases {
    /// The next base, or none at the end. `place` is the place in force: bases that it permits may be left out, which
    /// changes no other answer where the bases come in order.
    fn next_base(&mut self, place: Option<Place>) -> Option<Base>;
}

impl<I: Iterator<Item = Base>> Bases for I {
    fn next_base(&mut self, _: Option<Place>) -> Option<Base> {
        self.next()
    }
}

/// The bases of an iterator but for those that the place in force permits to leave out.
pub struct LeavingOut<I>(pub I);

impl<I: Iterator<Item = Base>> Bases for LeavingOut<I> {
    fn next_base(&mut self, place: Option<Place>) -> Option<Base> {
        self.0.find(|&base| !place.is_some_and(|place| place.permits(base)))
    }
}

/// The answers to the bases of a source, one after the other; the end of the run is the last of them.
pub struct Answers<'a, B> {
    sweep: Sweep<'a>,
    bases: B,
    place: Option<Place>,
    over: bool,
}

impl<B: Bases> Answers<'_, B> {
    /// The next base and its answer, whose records are borrowed: nothing is copied.
    pub fn next_answer(&mut self) -> Option<(Base, Answer<Records<'_>>)> {
        if self.over {
            return None;
        }
        let base = self.bases.next_base(self.place)?;
        let answer = self.sweep.give(base);
        match answer {
            Answer::Found { offer: Some(place), .. } => self.place = Some(place),
            Answer::Ended(_) => self.over = true,
            _ => {}
        }
        Some((base, answer))
    }
}

impl<B: Bases> Iterator for Answers<'_, B> {
    type Item = (Base, Answer<Vec<(usize, usize)>>);

    fn next(&mut self) -> Option<Self::Item> {
        self.next_answer().map(|(base, answer)| (base, answer.to_owned()))
    }
}
