//! The scope document's own rules, written down as plainly as possible, each from the sentence quoted above it.
//! No line is shared with the Rust; the comparison stands on this file.

use crate::job::{Fragment, Hit, Parts, Row, Span, Sweep};

/// A deliberate mistake, so that the comparison can be shown to fail.
#[derive(Clone, Copy, PartialEq, Eq, Debug)]
pub enum Broken {
    No,
    /// a touching record counts as an overlap
    Touch,
    /// the scan stops at the first record that has expired
    Scan,
    /// an answer is ordered by stream, not merged
    Order,
    /// the walk of A Inverse never goes back (the rule that a later request asks for)
    Gap,
    /// B Piece takes the smaller start
    Clip,
    /// A Whole with no records gives no fragment
    Bare,
}

pub const BROKEN: [(&str, Broken); 6] = [
    ("touch", Broken::Touch),
    ("scan", Broken::Scan),
    ("order", Broken::Order),
    ("gap", Broken::Gap),
    ("clip", Broken::Clip),
    ("bare", Broken::Bare),
];

/// A row with its stream and row number.
#[derive(Clone, Copy, PartialEq, Eq, Debug)]
pub struct Record {
    pub stream: usize,
    pub row: usize,
    pub at: Row,
}

/// "The merged list comes from taking, again and again, the least head by chromosome, start, stop, stream number."
pub fn merged(streams: &[Vec<Row>]) -> Vec<Record> {
    let mut next = vec![0; streams.len()];
    let mut list = Vec::new();
    loop {
        let heads = (0..streams.len()).filter(|&k| next[k] < streams[k].len());
        let least = heads.min_by_key(|&k| {
            let r = streams[k][next[k]];
            (r.chrom, r.start, r.stop, k)
        });
        match least {
            None => return list,
            Some(k) => {
                list.push(Record { stream: k, row: next[k], at: streams[k][next[k]] });
                next[k] += 1;
            }
        }
    }
}

/// A record overlaps a base: same chromosome, start < base stop, stop > base start.
pub fn overlaps(base: &Row, r: &Row, broken: Broken) -> bool {
    if broken == Broken::Touch {
        return r.chrom == base.chrom && r.start <= base.stop && r.stop >= base.start;
    }
    r.chrom == base.chrom && r.start < base.stop && r.stop > base.start
}

/// The answer to each base of a valid job: the merged list, filtered.
pub fn answers(job: &Sweep, broken: Broken) -> Vec<Vec<Hit>> {
    let list = merged(&job.streams);
    job.bases
        .iter()
        .map(|b| {
            let mut hits = Vec::new();
            for r in &list {
                if overlaps(b, &r.at, broken) {
                    hits.push((r.stream, r.row));
                } else if broken == Broken::Scan && r.at.chrom == b.chrom && !hits.is_empty() {
                    break;
                }
            }
            if broken == Broken::Order {
                hits.sort();
            }
            hits
        })
        .collect()
}

/// "Base order: chromosome number must not fall; on one chromosome start must not fall; at equal start stop
/// must not fall."
pub fn base_may_follow(last: &Row, b: &Row) -> bool {
    (last.chrom, last.start, last.stop) <= (b.chrom, b.start, b.stop)
}

/// "Stream order: chromosome number must not fall; on one chromosome start must not fall; stop is free."
pub fn row_may_follow(last: &Row, r: &Row) -> bool {
    (last.chrom, last.start) <= (r.chrom, r.start)
}

/// What 01 refuses of a base, in its order: 4, 6, 3, 5.
fn base_refusal(job: &Sweep, last: Option<&Row>, b: &Row) -> Option<u8> {
    if b.chrom >= job.lengths.len() as u64 {
        return Some(4);
    }
    if b.start > b.stop {
        return Some(6);
    }
    if job.lengths[b.chrom as usize].is_some_and(|l| b.stop > l) {
        return Some(3);
    }
    if last.is_some_and(|l| !base_may_follow(l, b)) {
        return Some(5);
    }
    None
}

/// What 01 refuses of row `k` of a stream: 7, then 8.
fn row_refusal(job: &Sweep, rows: &[Row], k: usize) -> Option<u8> {
    let r = rows[k];
    if r.chrom >= job.lengths.len() as u64 || r.start > r.stop {
        return Some(7);
    }
    if k > 0 && !row_may_follow(&rows[k - 1], &r) {
        return Some(8);
    }
    None
}

/// "1 to 8 streams. 1 to 256 chromosomes. Queue room Q from 1 to 65,536."
pub fn sizes_hold(job: &Sweep) -> bool {
    (1..=8).contains(&job.streams.len()) && (1..=256).contains(&job.lengths.len()) && (1..=65_536).contains(&job.room)
}

/// Is this input valid, so that the comparison with the Rust is fair (refusal 9 aside)?
pub fn valid(job: &Sweep) -> bool {
    let mut last = None;
    for b in &job.bases {
        if base_refusal(job, last, b).is_some() {
            return false;
        }
        last = Some(b);
    }
    let rows_good = |s: &Vec<Row>| (0..s.len()).all(|k| row_refusal(job, s, k).is_none());
    sizes_hold(job) && job.streams.iter().all(rows_good)
}

/// What the run of 01 says about one base.
#[derive(Clone, PartialEq, Eq, Debug)]
pub enum Said {
    Records(Vec<Hit>, Option<(u64, u64)>),
    /// 3, 4, 5, 6 or 9
    Refused(u8),
    /// 7 or 8 with stream and row
    Fault(u8, usize, usize),
}

/// The run of 01 as it is told there: heads, one pull a base, the queue, the refusals and the offer.
pub struct Run<'a> {
    job: &'a Sweep,
    merged: Vec<Record>,
    loaded: bool,
    next: Vec<usize>,
    queue: Vec<Record>,
    last: Option<Row>,
    ended: Option<Said>,
}

impl<'a> Run<'a> {
    pub fn start(job: &'a Sweep) -> Self {
        let clean: Vec<Vec<Row>> = job.streams.iter().map(|s| ahead_of_fault(job, s)).collect();
        Run {
            job,
            merged: merged(&clean),
            loaded: false,
            next: vec![0; job.streams.len()],
            queue: Vec::new(),
            last: None,
            ended: None,
        }
    }

    /// One base in, its records and an offer out.
    pub fn base(&mut self, b: &Row) -> Said {
        if let Some(e) = &self.ended {
            return e.clone();
        }
        if let Some(n) = base_refusal(self.job, self.last.as_ref(), b) {
            return Said::Refused(n);
        }
        self.last = Some(*b);
        if let Err(e) = self.pull(b) {
            self.ended = Some(e.clone());
            return e;
        }
        let hits = self.queue.iter().filter(|r| overlaps(b, &r.at, Broken::No));
        Said::Records(hits.map(|r| (r.stream, r.row)).collect(), self.offer(b))
    }

    fn check(&self, stream: usize) -> Result<(), Said> {
        let rows = &self.job.streams[stream];
        let k = self.next[stream];
        if k < rows.len() {
            if let Some(n) = row_refusal(self.job, rows, k) {
                return Err(Said::Fault(n, stream, k));
            }
        }
        Ok(())
    }

    /// "At base b, heads are taken while they lie on an earlier chromosome, or on b's with start < b.stop. For each
    /// one taken, its successor is read and checked (7, 8). Then, if it is on b's chromosome and ends after b.start,
    /// it is queued (9 if Q live records are queued already); otherwise it is dropped."
    fn pull(&mut self, b: &Row) -> Result<(), Said> {
        if !self.loaded {
            self.loaded = true;
            for k in 0..self.next.len() {
                self.check(k)?;
            }
        }
        let live = |r: &Row| r.chrom == b.chrom && r.stop > b.start;
        loop {
            let heads = (0..self.next.len()).filter(|&k| self.next[k] < self.job.streams[k].len());
            let least = heads.min_by_key(|&k| {
                let r = self.job.streams[k][self.next[k]];
                (r.chrom, r.start, r.stop, k)
            });
            let Some(k) = least else { return Ok(()) };
            let r = self.job.streams[k][self.next[k]];
            if !(r.chrom < b.chrom || (r.chrom == b.chrom && r.start < b.stop)) {
                return Ok(());
            }
            let row = self.next[k];
            self.next[k] += 1;
            self.check(k)?;
            if live(&r) {
                if self.queue.iter().filter(|q| live(&q.at)).count() >= self.job.room {
                    return Err(Said::Refused(9));
                }
                self.queue.push(Record { stream: k, row, at: r });
            }
        }
    }

    /// "Let T be the first record of the merged list that lies on a later chromosome, or on p's and ends after
    /// p.start. No T: no offer. T on a later chromosome: the place is T's chromosome and start. T on p's: only if
    /// T.start > p.stop and T.start - p.stop > 100,000; the place is T.start - 1. After a base of length zero
    /// nothing is offered."
    fn offer(&self, p: &Row) -> Option<(u64, u64)> {
        if p.start == p.stop {
            return None;
        }
        let waits = |r: &&Record| r.at.chrom > p.chrom || (r.at.chrom == p.chrom && r.at.stop > p.start);
        let t = self.merged.iter().find(waits)?.at;
        if t.chrom > p.chrom {
            return Some((t.chrom, t.start));
        }
        if t.start > p.stop && t.start - p.stop > 100_000 {
            return Some((t.chrom, t.start - 1));
        }
        None
    }
}

/// "For faulty streams, only the rows ahead of each stream's first fault count."
fn ahead_of_fault(job: &Sweep, rows: &[Row]) -> Vec<Row> {
    let end = (0..rows.len()).find(|&k| row_refusal(job, rows, k).is_some()).unwrap_or(rows.len());
    rows[..end].to_vec()
}

/// What 01 refuses of a parts job (sizes aside): 6, then 13.
pub fn parts_refusal(job: &Parts) -> Option<u8> {
    let (start, stop) = job.base;
    if start > stop {
        return Some(6);
    }
    let mut last = 0;
    for &(s, e) in &job.records {
        if s > e || !(s < stop && e > start) || s < last {
            return Some(13);
        }
        last = s;
    }
    None
}

/// "B None: nothing. B Whole or WholeWide: the record. B Piece: larger start, smaller stop. B Inverse: what lies
/// before base start, then what lies after base stop, where not empty."
fn pieces_of(choice: usize, base: Span, r: Span, broken: Broken) -> Vec<Span> {
    match choice {
        0 => vec![],
        1 | 2 => vec![r],
        3 if broken == Broken::Clip => vec![(base.0.min(r.0), base.1.min(r.1))],
        3 => vec![(base.0.max(r.0), base.1.min(r.1))],
        _ => {
            let sides = [(r.0, r.1.min(base.0)), (r.0.max(base.1), r.1)];
            sides.into_iter().filter(|s| s.0 < s.1).collect()
        }
    }
}

/// "Walk from base start: where a record starts after the walk's place, the stretch between is a gap; the place
/// becomes that record's stop. A last gap runs to base stop if the place is below it."
fn gaps(base: Span, records: &[Span], broken: Broken) -> Vec<Span> {
    let mut found = Vec::new();
    let mut place = base.0;
    for &(s, e) in records {
        if s > place {
            found.push((place, s));
        }
        place = if broken == Broken::Gap { place.max(e) } else { e };
    }
    if place < base.1 {
        found.push((place, base.1));
    }
    found
}

/// The fragments of one base and one stream's records, by the list under "Fragments".
pub fn fragments(job: &Parts, broken: Broken) -> Vec<Fragment> {
    let base = job.base;
    let of = |r: Span| pieces_of(job.b, base, r, broken);
    let all: Vec<Span> = job.records.iter().flat_map(|&r| of(r)).collect();
    let with_all = |base| Fragment { base, pieces: all.clone() };
    match job.a {
        0 => vec![with_all(None)],
        1 if job.records.is_empty() && broken == Broken::Bare => vec![],
        1 if job.records.is_empty() => vec![Fragment { base: Some(base), pieces: vec![] }],
        1 => job.records.iter().map(|&r| Fragment { base: Some(base), pieces: of(r) }).collect(),
        2 => vec![with_all(Some(base))],
        3 => job.records.iter().map(|r| with_all(Some((base.0.max(r.0), base.1.min(r.1))))).collect(),
        _ => gaps(base, &job.records, broken).into_iter().map(|g| with_all(Some(g))).collect(),
    }
}
