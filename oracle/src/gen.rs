//! Jobs to compare: short ones exhaustively, then random ones around every boundary, from a seed.

use crate::job::{Parts, Row, Span, Sweep};

pub const MAX: u64 = u64::MAX;

/// A small generator of pseudo-random numbers (splitmix64): the same seed gives the same jobs everywhere.
pub struct Dice(u64);

impl Dice {
    pub fn new(seed: u64) -> Self {
        Dice(seed)
    }

    pub fn next(&mut self) -> u64 {
        self.0 = self.0.wrapping_add(0x9E37_79B9_7F4A_7C15);
        let mut z = self.0;
        z = (z ^ (z >> 30)).wrapping_mul(0xBF58_476D_1CE4_E5B9);
        z = (z ^ (z >> 27)).wrapping_mul(0x94D0_49BB_1331_11EB);
        z ^ (z >> 31)
    }

    /// A number from 0 up to, not including, n.
    pub fn below(&mut self, n: u64) -> u64 {
        self.next() % n
    }

    pub fn one_in(&mut self, n: u64) -> bool {
        self.below(n) == 0
    }

    pub fn pick<T: Copy>(&mut self, from: &[T]) -> T {
        from[self.below(from.len() as u64) as usize]
    }
}

pub fn row(chrom: u64, start: u64, stop: u64) -> Row {
    Row { chrom, start, stop }
}

pub fn sweep(chroms: usize, streams: Vec<Vec<Row>>, bases: Vec<Row>) -> Sweep {
    Sweep { lengths: vec![None; chroms], room: 1024, skip: 0, streams, bases }
}

/// All intervals with 0 <= start <= stop <= line on each of some chromosomes, zero lengths among them.
pub fn intervals(chroms: u64, line: u64) -> Vec<Row> {
    let mut all = Vec::new();
    for c in 0..chroms {
        for s in 0..=line {
            for e in s..=line {
                all.push(row(c, s, e));
            }
        }
    }
    all
}

/// All lists of at most `most` of these rows in which each may follow the one ahead, shortest first.
pub fn lists<T: Copy>(of: &[T], most: usize, may_follow: impl Fn(&T, &T) -> bool) -> Vec<Vec<T>> {
    let mut all: Vec<Vec<T>> = vec![vec![]];
    let mut from = 0;
    for _ in 0..most {
        let to = all.len();
        for k in from..to {
            for r in of {
                if all[k].last().is_none_or(|l| may_follow(l, r)) {
                    let mut longer = all[k].clone();
                    longer.push(*r);
                    all.push(longer);
                }
            }
        }
        from = to;
    }
    all
}

/// The sizes of one exhaustive family: chromosomes, line, most rows of each stream, most bases.
pub struct Family {
    pub chroms: u64,
    pub line: u64,
    pub rows: &'static [usize],
    pub bases: usize,
}

pub const FAMILIES: [Family; 9] = [
    Family { chroms: 1, line: 6, rows: &[2], bases: 1 },
    Family { chroms: 1, line: 4, rows: &[3], bases: 2 },
    Family { chroms: 1, line: 2, rows: &[3], bases: 3 },
    Family { chroms: 1, line: 3, rows: &[2, 2], bases: 2 },
    Family { chroms: 1, line: 2, rows: &[2, 2], bases: 3 },
    Family { chroms: 1, line: 2, rows: &[1, 1, 1], bases: 2 },
    Family { chroms: 1, line: 1, rows: &[2, 2, 2], bases: 2 },
    Family { chroms: 2, line: 1, rows: &[2, 2], bases: 3 },
    Family { chroms: 3, line: 1, rows: &[2, 1], bases: 3 },
];

/// Gives every job of a family to `f`.
pub fn each_of_family(family: &Family, f: &mut impl FnMut(Sweep)) {
    use crate::plain::{base_may_follow, row_may_follow};
    let of = intervals(family.chroms, family.line);
    let bases = lists(&of, family.bases, base_may_follow);
    let streams: Vec<Vec<Vec<Row>>> = family.rows.iter().map(|&n| lists(&of, n, row_may_follow)).collect();
    let mut at = vec![0; streams.len()];
    loop {
        let chosen: Vec<Vec<Row>> = at.iter().zip(&streams).map(|(&k, s)| s[k].clone()).collect();
        for b in &bases {
            f(sweep(family.chroms as usize, chosen.clone(), b.clone()));
        }
        let mut k = 0;
        while k < at.len() {
            at[k] += 1;
            if at[k] < streams[k].len() {
                break;
            }
            at[k] = 0;
            k += 1;
        }
        if k == at.len() {
            return;
        }
    }
}

/// Points at which something changes: the ends of the number line, powers of two, the offer's 100,000.
const POINTS: [u64; 14] =
    [0, 1, 10, 100, 99_999, 100_000, 100_001, 1 << 31, 1 << 32, 1 << 53, (1 << 63) - 1, 1 << 63, MAX - 100_001, MAX];

/// A few points that a job's coordinates crowd around, so that equal, touching and off-by-one places are common.
fn pool(dice: &mut Dice) -> Vec<u64> {
    let n = 2 + dice.below(4);
    match dice.below(4) {
        0 => (0..=n + 2).collect(),
        1 => (0..n).map(|_| dice.below(30)).collect(),
        2 => (0..n).map(|_| dice.pick(&POINTS)).collect(),
        _ => {
            let near = dice.pick(&POINTS);
            (0..n).map(|k| near.saturating_add(k * dice.below(4))).collect()
        }
    }
}

fn coordinate(dice: &mut Dice, pool: &[u64]) -> u64 {
    let p = dice.pick(pool);
    match dice.below(6) {
        0 => p.saturating_add(1),
        1 => p.saturating_sub(1),
        _ => p,
    }
}

fn span(dice: &mut Dice, pool: &[u64]) -> Span {
    let (a, b) = (coordinate(dice, pool), coordinate(dice, pool));
    if dice.one_in(8) {
        (a, a)
    } else {
        (a.min(b), a.max(b))
    }
}

/// Some rows over a few chromosomes; now and then one is the row ahead again, or a row of another list.
fn some_rows(dice: &mut Dice, n: u64, chroms: &[u64], pool: &[u64], seen: &mut Vec<Row>) -> Vec<Row> {
    let mut rows: Vec<Row> = Vec::new();
    for _ in 0..n {
        let r = if !seen.is_empty() && dice.one_in(5) {
            dice.pick(seen)
        } else {
            let (s, e) = span(dice, pool);
            row(dice.pick(chroms), s, e)
        };
        seen.push(r);
        rows.push(r);
    }
    rows
}

/// A random valid job: up to eight streams, up to 256 chromosomes, coordinates to 2^64-1.
pub fn random_sweep(dice: &mut Dice, large: bool) -> Sweep {
    let pool = pool(dice);
    let chroms = match dice.below(8) {
        0..=3 => 1,
        4 | 5 => 2,
        6 => 3 + dice.below(3),
        _ => dice.pick(&[255, 256]),
    };
    let used: Vec<u64> = (0..1 + dice.below(3)).map(|_| dice.pick(&[0, chroms / 2, chroms - 1])).collect();
    let streams = match dice.below(6) {
        0 | 1 => 1,
        2 | 3 => 2,
        4 => 3 + dice.below(5),
        _ => 8,
    };
    let most = if large { 40 } else { 1 + 12 / streams };
    let mut seen = Vec::new();
    let mut all: Vec<Vec<Row>> = Vec::new();
    for _ in 0..streams {
        let n = if dice.one_in(8) { 0 } else { dice.below(most + 1) };
        let mut rows = some_rows(dice, n, &used, &pool, &mut seen);
        rows.sort_by_key(|r| (r.chrom, r.start));
        all.push(rows);
    }
    let n = 1 + dice.below(if large { 30 } else { 5 });
    let mut bases = some_rows(dice, n, &used, &pool, &mut seen);
    bases.sort();
    sweep(chroms as usize, all, bases)
}

/// A job with one long record and some thousands of short ones behind it, with bases side by side over them all, so
/// that each is queued and then expires behind the long one: the Rust compacts its queue from 4,096 expired records on.
/// Never more than some tens are live at once.
pub fn long_sweep(dice: &mut Dice) -> Sweep {
    let n = 5_000 + dice.below(3_000);
    let step = 1 + dice.below(3);
    let mut first = vec![row(0, 0, n * step + 10)];
    let mut second = Vec::new();
    for k in 0..n {
        let r = row(0, k * step, k * step + 1 + dice.below(6));
        if dice.one_in(2) {
            first.push(r)
        } else {
            second.push(r)
        }
    }
    second.push(row(1, 0, 5));
    let mut bases = Vec::new();
    let mut at = 0;
    while at < n * step {
        let next = at + 1 + dice.below(20);
        bases.push(row(0, at, next));
        at = next;
    }
    bases.push(row(1, 0, 1));
    sweep(2, vec![first, second], bases)
}

/// Spoils a few bases, so that 3, 4 and 5 come up: a stop past the length, a chromosome off the list, a step back.
pub fn spoil_bases(dice: &mut Dice, job: &mut Sweep) {
    let chroms = job.lengths.len() as u64;
    for k in 0..job.lengths.len() {
        if dice.one_in(2) {
            let b = dice.pick(&job.bases);
            job.lengths[k] = Some(b.stop);
        }
    }
    for _ in 0..1 + dice.below(3) {
        let at = dice.below(job.bases.len() as u64 + 1) as usize;
        let mut b = dice.pick(&job.bases);
        match dice.below(3) {
            0 => b.chrom = chroms,
            1 => b.stop = b.stop.saturating_add(1),
            _ => {}
        }
        job.bases.insert(at, b);
    }
}

/// All parts jobs on a short line with at most `most` records that number 13 accepts, all twenty-five pairs.
pub fn each_parts(line: u64, most: usize, f: &mut impl FnMut(Parts)) {
    let spans: Vec<Span> = intervals(1, line).iter().map(|r| (r.start, r.stop)).collect();
    for &base in &spans {
        let over: Vec<Span> = spans.iter().copied().filter(|s| s.0 < base.1 && s.1 > base.0).collect();
        for records in lists(&over, most, |l: &Span, r: &Span| l.0 <= r.0) {
            for pair in 0..25 {
                f(Parts { a: pair / 5, b: pair % 5, base, records: records.clone() });
            }
        }
    }
}

/// A random parts job that number 13 accepts, with up to ten records.
pub fn random_parts(dice: &mut Dice) -> Parts {
    let pool = pool(dice);
    let base = span(dice, &pool);
    let mut records = Vec::new();
    for _ in 0..dice.below(11) {
        let r = if !records.is_empty() && dice.one_in(5) { dice.pick(&records) } else { span(dice, &pool) };
        if r.0 < base.1 && r.1 > base.0 {
            records.push(r);
        }
    }
    records.sort_by_key(|r| r.0);
    Parts { a: dice.below(5) as usize, b: dice.below(5) as usize, base, records }
}
