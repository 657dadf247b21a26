//! The calls themselves, with the memory that they are lent: what they leave of it, and what they make of any content.

use crate::batches::{job, Job, LENGTHS};
use crate::raw::{self, any, Cols, Found, Mark, Names, Offered, Run, Settings, Slot, Stopped, Swept};
use crate::rng::Rng;
use cedarlash::Base;
use std::panic::{catch_unwind, AssertUnwindSafe};

/// A run and all that its calls are lent, filled with numbers that no call writes.
#[derive(Clone, Debug, PartialEq)]
struct Lent {
    run: Run,
    cols: [Vec<u64>; 3],
    queue: Vec<Slot>,
    answers: Vec<Found>,
    counts: Vec<usize>,
}

const OLD: u64 = 1_000_000;

const NAMES: Names = Names { text: b"abc", from: &[0, 1, 2], to: &[1, 2, 3] };

fn column(rows: &[Base], field: fn(&Base) -> u64) -> Vec<u64> {
    rows.iter().map(field).collect()
}

fn three(rows: &[Base]) -> [Vec<u64>; 3] {
    [column(rows, |r| r.chrom), column(rows, |r| r.start), column(rows, |r| r.stop)]
}

fn lend([chrom, start, stop]: &[Vec<u64>; 3]) -> Cols<'_> {
    Cols { chrom, start, stop }
}

/// Where the rows of each stream end, with a 0 ahead.
fn ends(job: &Job) -> Vec<usize> {
    let mut ends = vec![0];
    job.streams.iter().for_each(|s| ends.push(ends[ends.len() - 1] + s.len()));
    ends
}

impl Lent {
    fn begin(job: &Job, spare: usize, counts: usize) -> Lent {
        let (cols, ends) = (three(&job.streams.concat()), ends(job));
        let mut run = Run::NONE;
        let (from, to) = (&ends[..job.streams.len()], &ends[1..]);
        assert_eq!(raw::begin(&mut run, from, to, job.room, NAMES, lend(&cols)), 0);
        let (queue, answers) = (vec![[OLD; 4]; job.room], vec![[OLD; 2]; job.room + spare]);
        Lent { run, cols, queue, answers, counts: vec![OLD as usize; counts] }
    }

    /// A base alone; its count goes elsewhere.
    fn give(&mut self, base: Base) -> Swept {
        let (queue, answers) = (&mut self.queue, &mut self.answers);
        raw::give(&mut self.run, Cols::of_one(&base), lend(&self.cols), &LENGTHS, queue, answers, &mut [0])
    }

    fn give_all(&mut self, bases: Cols) -> Swept {
        let (queue, answers, counts) = (&mut self.queue, &mut self.answers, &mut self.counts);
        raw::give(&mut self.run, bases, lend(&self.cols), &LENGTHS, queue, answers, counts)
    }

    /// The same with no look at the lengths.
    fn give_any(&mut self, base: Base) -> Swept {
        let (mut counts, one) = (vec![OLD as usize], Cols::of_one(&base));
        let swept = self.give_to(one, &mut counts);
        assert_eq!(counts[0], if swept.bases == 1 { swept.records } else { OLD as usize });
        swept
    }

    fn give_all_any(&mut self, bases: Cols) -> Swept {
        let mut counts = std::mem::take(&mut self.counts);
        let swept = self.give_to(bases, &mut counts);
        self.counts = counts;
        swept
    }

    fn give_to(&mut self, bases: Cols, counts: &mut Vec<usize>) -> Swept {
        fenced(&mut self.queue, [OLD; 4], |queue| {
            fenced(&mut self.answers, [OLD; 2], |answers| {
                fenced(counts, OLD as usize, |counts| {
                    any::give(&mut self.run, bases, lend(&self.cols), &LENGTHS, queue, answers, counts)
                })
            })
        })
    }
}

/// Lends all of it, with something ahead and behind that is to stay.
fn fenced<T: Copy + PartialEq, R>(all: &mut Vec<T>, fence: T, call: impl FnOnce(&mut [T]) -> R) -> R {
    all.insert(0, fence);
    all.push(fence);
    let end = all.len() - 1;
    let result = call(&mut all[1..end]);
    assert!(all[0] == fence && all[end] == fence, "nothing is written but what is lent");
    all.pop();
    all.remove(0);
    result
}

/// The counts and records of the answered bases, one behind the other; and what stood behind them is as it was.
#[test]
fn what_is_lent_behind_the_answers_stays() {
    let mut rng = Rng(33);
    for _ in 0..8_000 {
        let job = job(&mut rng, 30);
        let (spare, more) = (*rng.pick(&[0, 3, 200]), rng.below(3));
        let mut alone = Lent::begin(&job, 0, 0);
        let mut many = Lent::begin(&job, spare, job.bases.len() + more);
        let swept = many.give_all(lend(&three(&job.bases)));
        let (mut counts, mut answers, mut offer) = (Vec::new(), Vec::new(), NOTHING.offer);
        for &base in &job.bases[..swept.bases] {
            let one = alone.give(base);
            assert_eq!((one.bases, one.last), (1, NONE));
            counts.push(one.records);
            answers.extend_from_slice(&alone.answers[..one.records]);
            offer = one.offer;
        }
        assert_eq!(swept.offer, offer);
        assert_eq!(swept.records, answers.len());
        counts.resize(many.counts.len(), OLD as usize);
        answers.resize(many.answers.len(), [OLD; 2]);
        assert_eq!((&many.counts, &many.answers), (&counts, &answers));
        // What the next one got; then the run goes on as the other does, offers and all.
        let mut left = job.bases[swept.bases..].iter();
        match swept.last.refusal {
            0 => assert_eq!(swept.last, NONE),
            _ => assert_eq!(stopped(swept.last), alone.give(*left.next().expect("a base was refused"))),
        }
        left.for_each(|&base| assert_eq!(many.give(base), alone.give(base)));
    }
}

const NONE: Stopped = Stopped { refusal: 0, stream: 0, row: 0 };
const NOTHING: Swept = Swept { bases: 0, records: 0, offer: Offered { any: 0, chrom: 0, stop: 0 }, last: NONE };
const SIZES: Swept = stopped(Stopped { refusal: 1, ..NONE });

/// The first base was stopped.
const fn stopped(last: Stopped) -> Swept {
    Swept { last, ..NOTHING }
}

// ---- lengths

/// Three bases over a stream of one row.
fn small() -> Job {
    let rows = vec![Base { chrom: 0, start: 0, stop: 9 }];
    Job { streams: vec![rows], bases: vec![Base { chrom: 0, start: 1, stop: 2 }; 3], room: 4 }
}

/// What differs in length: how it is spoilt, of what is lent and of the bases.
type Spoil = fn(&mut Lent, &mut [Vec<u64>; 3]);

const UNEVEN: [Spoil; 7] = [
    |lent, _| lent.counts.truncate(2),
    |_, bases| bases[0].truncate(2),
    |_, bases| bases[0].clear(),
    |_, bases| bases[1].truncate(2),
    |_, bases| bases[2].push(9),
    |lent, _| lent.answers.truncate(3),
    |lent, _| lent.cols[1].push(5),
];

/// Lengths that differ stop the host before the call.
#[test]
fn broken_lengths() {
    let passes = |counts: usize, spoil: Spoil| {
        let (mut lent, mut bases) = (Lent::begin(&small(), 0, counts), three(&small().bases));
        spoil(&mut lent, &mut bases);
        catch_unwind(AssertUnwindSafe(|| lent.give_all(lend(&bases)).bases)).ok()
    };
    assert_eq!(passes(3, |lent, _| lent.answers.resize(12, [OLD; 2])), Some(3));
    assert_eq!(passes(4, |_, _| {}), Some(1));
    assert_eq!(passes(0, |_, bases| bases.iter_mut().for_each(Vec::clear)), Some(0));
    for spoil in UNEVEN {
        assert_eq!(passes(3, spoil), None);
    }
}

/// The proved call refuses them itself: by 1, with nothing changed.
#[test]
fn broken_lengths_are_refused_by_the_call() {
    for given in [0, 1, 2] {
        let mut good = Lent::begin(&small(), 0, 3);
        small().bases[..given].iter().for_each(|&base| assert_eq!(good.give(base).last, NONE));
        for spoil in UNEVEN {
            let (mut lent, mut bases) = (good.clone(), three(&small().bases));
            spoil(&mut lent, &mut bases);
            let before = lent.clone();
            assert_eq!(lent.give_all_any(lend(&bases)), SIZES);
            assert_eq!(lent, before);
        }
    }
}

/// A queue of another length than the room, fewer answer rows, columns that differ: 1 to a base given alone, too.
#[test]
fn broken_lengths_of_a_base() {
    let spoils: [fn(&mut Lent); 7] = [
        |lent| lent.queue.truncate(3),
        |lent| lent.queue.push([OLD; 4]),
        |lent| lent.queue.clear(),
        |lent| lent.answers.truncate(3),
        |lent| lent.cols[0].clear(),
        |lent| lent.cols[1].push(5),
        |lent| lent.cols.iter_mut().for_each(Vec::clear),
    ];
    for spoil in spoils {
        let mut lent = Lent::begin(&small(), 0, 3);
        spoil(&mut lent);
        let before = lent.clone();
        assert_eq!(lent.give_any(small().bases[0]), SIZES);
        assert_eq!(lent, before);
    }
}

/// An ended run gives its old answer, whatever is lent, and stays as it is. Where no base is given, none is answered.
#[test]
fn an_ended_run_with_broken_lengths() {
    let faults: [(Vec<Base>, usize, Stopped); 3] = [
        (vec![Base { chrom: 0, start: 9, stop: 3 }], 4, Stopped { refusal: 7, ..NONE }),
        (
            vec![Base { chrom: 0, start: 1, stop: 3 }, Base { chrom: 0, start: 0, stop: 3 }],
            4,
            Stopped { refusal: 8, row: 1, ..NONE },
        ),
        (vec![Base { chrom: 0, start: 0, stop: 9 }; 5], 4, Stopped { refusal: 9, ..NONE }),
    ];
    for (rows, room, last) in faults {
        let job = Job { streams: vec![rows], room, ..small() };
        let mut ended = Lent::begin(&job, 0, 3);
        let old = stopped(last);
        assert_eq!(ended.give(job.bases[0]), old);
        for spoil in UNEVEN {
            let (mut lent, mut bases) = (ended.clone(), three(&job.bases));
            spoil(&mut lent, &mut bases);
            let before = lent.clone();
            assert_eq!((lent.give_all_any(lend(&bases)), lent.give_any(job.bases[0])), (old, old));
            assert_eq!(lent, before);
        }
        assert_eq!(ended.give_all_any(lend(&three(&[]))), NOTHING);
    }
}

/// As many streams as ranges and as many chromosomes as names: else 1, and the run of no streams.
#[test]
fn settings_that_do_not_fit() {
    let job = small();
    let cols = three(&job.streams.concat());
    let good = Settings { streams: 1, chroms: 3, room: 4 };
    let begins = |settings: Settings, from: &[usize], to: &[usize]| {
        let mut lent = Lent::begin(&job, 0, 3);
        let number = any::begin(&mut lent.run, settings, from, to, NAMES, lend(&cols));
        let swept = lent.give(job.bases[0]);
        assert_eq!(swept, if number == 0 { Swept { bases: 1, records: 1, ..NOTHING } } else { SIZES });
        number
    };
    assert_eq!(begins(good, &[0], &[1]), 0);
    for streams in [0, 2, 8, 9, usize::MAX] {
        assert_eq!(begins(Settings { streams, ..good }, &[0], &[1]), 1);
    }
    for chroms in [0, 2, 4, 256, 257, usize::MAX] {
        assert_eq!(begins(Settings { chroms, ..good }, &[0], &[1]), 1);
    }
    for room in [0, 65_537, usize::MAX] {
        assert_eq!(begins(Settings { room, ..good }, &[0], &[1]), 1);
    }
    for (from, to) in [(&[][..], &[1][..]), (&[0], &[]), (&[0, 0], &[1]), (&[0], &[1, 1]), (&[1], &[0]), (&[0], &[2])] {
        assert_eq!(begins(good, from, to), 1);
    }
    for count in 9..12 {
        assert_eq!(begins(Settings { streams: count, ..good }, &vec![0; count], &vec![1; count]), 1);
    }
}

// ---- any content

/// A number that may break something: small, near one of the lengths, huge, or any.
fn odd(rng: &mut Rng, lent: &Lent) -> u64 {
    let (rows, room) = (lent.cols[0].len() as u64, lent.queue.len() as u64);
    let near = *rng.pick(&[0, 1, 2, 7, 8, 9, 10, 256, rows, room, OLD, u64::MAX, 1 << 63]);
    match rng.below(4) {
        0 => rng.next() >> rng.below(64),
        1 => near.wrapping_sub(1),
        2 => near.wrapping_add(1),
        _ => near,
    }
}

/// All numbers of a run, in its order.
fn numbers(run: &mut Run) -> Vec<Word<'_>> {
    let Run { chrom, start, stop, row, ended, next, from, to, settings, head, len, place, mark } = run;
    let mut all = Vec::new();
    [chrom, start, stop, row, ended].into_iter().for_each(|a| all.extend(a.iter_mut().map(Word::Number)));
    [next, from, to].into_iter().for_each(|a| all.extend(a.iter_mut().map(Word::Size)));
    let Settings { streams, chroms, room } = settings;
    all.extend([streams, chroms, room, head, len].map(Word::Size));
    let Mark { kind, first, second, third } = mark;
    all.extend([place, kind, first, second, third].map(Word::Number));
    all
}

enum Word<'a> {
    Number(&'a mut u64),
    Size(&'a mut usize),
}

impl Word<'_> {
    fn set(&mut self, n: u64) {
        match self {
            Word::Number(at) => **at = n,
            Word::Size(at) => **at = n as usize,
        }
    }
}

/// The run and the queue with some numbers, or all, put in place of theirs.
fn spoil(rng: &mut Rng, lent: &mut Lent) {
    let mut run = lent.run;
    let all = rng.one_in(8);
    for mut word in numbers(&mut run) {
        if all || rng.one_in(20) {
            word.set(odd(rng, lent));
        }
    }
    lent.run = run;
    for k in 0..lent.queue.len() {
        if rng.one_in(6) {
            let (i, n) = (rng.below(4), odd(rng, lent));
            lent.queue[k][i] = n;
        }
    }
}

/// Whether a record is a row of a stream of the run.
fn is_lent(run: &Run, [stream, row]: Found) -> bool {
    let k = stream as usize;
    k < run.settings.streams && row < (run.to[k] - run.from[k]) as u64
}

/// Whatever stands in the memory of a run and of its queue, a base gets records of lent streams, a refusal that changes nothing, or
/// an end that is told again; and nothing is written but what is lent.
#[test]
fn any_content_is_a_run() {
    let mut rng = Rng(34);
    let mut met = [0; 11];
    for _ in 0..60_000 {
        let job = job(&mut rng, 12);
        let mut lent = Lent::begin(&job, rng.below(30), job.bases.len());
        let given = rng.below(job.bases.len() + 1);
        job.bases[..given].iter().for_each(|&base| {
            lent.give(base);
        });
        spoil(&mut rng, &mut lent);
        let (before, cols) = (lent.clone(), lent.cols.clone());
        let mut bases = job.bases[given..].to_vec();
        bases.push(Base { chrom: rng.below(4) as u64, start: odd(&mut rng, &lent), stop: odd(&mut rng, &lent) });
        let many = lent.counts.len() >= bases.len() && rng.one_in(2);
        let (found, told) = match many {
            true => {
                let swept = lent.give_all_any(lend(&three(&bases)));
                let sum: usize = lent.counts[..swept.bases].iter().sum();
                assert_eq!(sum, swept.records);
                assert_eq!(lent.counts[swept.bases..], before.counts[swept.bases..]);
                (swept.records, swept.last)
            }
            false => {
                let swept = lent.give_any(bases[0]);
                (swept.records, swept.last)
            }
        };
        met[told.refusal as usize] += 1;
        assert_eq!(lent.cols, cols);
        assert!(lent.answers[..found].iter().all(|&r| is_lent(&lent.run, r)), "{before:?}");
        assert_eq!(lent.answers[found..], before.answers[found..]);
        match told.refusal {
            0 => {}
            1 => assert_eq!(lent, before),
            3..=6 => assert!(found > 0 || many || lent == before, "{before:?}"),
            7..=10 => {
                let again = lent.clone();
                assert_eq!((lent.give_any(bases[0]), lent.run, &lent.queue), (stopped(told), again.run, &again.queue));
            }
            other => panic!("no refusal of a base: {other}"),
        }
    }
    assert!([0, 1, 3, 4, 5, 6, 7, 8, 9, 10].iter().all(|&n| met[n] > 20), "all that a base can get: {met:?}");
}
