//! The recorded lists: jobs chosen to cover every boundary, each with the Rust's answer.

use crate::compare::{canonical, fair, rust_answers, Group};
use crate::gen::{self, row, sweep, Dice, MAX};
use crate::job::{self, Parts, Row, Span, Sweep};
use crate::plain::{self, Broken};
use crate::rust_parts;
use std::collections::BTreeSet;

/// A list may be this long, comments included.
const ROOM: usize = 60_000;

/// The largest counts in a list, for those who must lend room to replay it.
#[derive(Default)]
struct Most {
    lines: usize,
    line: usize,
    streams: usize,
    rows: usize,
    bases: usize,
    answer: usize,
    pieces: usize,
}

struct List {
    lines: Vec<String>,
    bytes: usize,
    seen: BTreeSet<String>,
    features: BTreeSet<Vec<u64>>,
    most: Most,
    differ: usize,
}

impl List {
    fn new() -> Self {
        List {
            lines: Vec::new(),
            bytes: 700,
            seen: BTreeSet::new(),
            features: BTreeSet::new(),
            most: Most::default(),
            differ: 0,
        }
    }

    fn push(&mut self, line: String) -> bool {
        if self.bytes + line.len() + 1 > ROOM || !self.seen.insert(line.clone()) {
            return false;
        }
        self.bytes += line.len() + 1;
        self.most.lines += 1;
        self.most.line = self.most.line.max(line.len());
        self.lines.push(line);
        true
    }

    /// The number of features of a job that no job in the list has yet.
    fn gain(&self, features: &BTreeSet<Vec<u64>>) -> usize {
        features.difference(&self.features).count()
    }

    /// Adds a fair sweep with the Rust's answers, groups of equal start sorted; a job on which 01 and the Rust
    /// differ is left out and counted.
    fn sweep(&mut self, job: &Sweep) {
        assert!(fair(job), "not fair: {}", job::write_sweep(job));
        let sorted = |answers: Vec<Vec<job::Hit>>| -> Vec<Vec<job::Hit>> {
            answers.iter().map(|a| canonical(job, a, Group::Start)).collect()
        };
        let ours = sorted(plain::answers(job, Broken::No));
        match rust_answers(job).map(sorted) {
            Some(theirs) if theirs == ours => {
                if self.push(job::record_sweep(job, &theirs)) {
                    self.features.extend(sweep_features(job));
                    let m = &mut self.most;
                    m.streams = m.streams.max(job.streams.len());
                    m.rows = m.rows.max(job.streams.iter().map(Vec::len).sum());
                    m.bases = m.bases.max(job.bases.len());
                    m.answer = m.answer.max(theirs.iter().map(Vec::len).max().unwrap_or(0));
                }
            }
            _ => self.differ += 1,
        }
    }

    fn parts(&mut self, job: &Parts) {
        assert!(plain::parts_refusal(job).is_none(), "refused: {}", job::write_parts(job));
        let theirs = rust_parts::run(job);
        if theirs != plain::fragments(job, Broken::No) {
            self.differ += 1;
        } else if self.push(job::record_parts(job, &theirs)) {
            self.features.extend(parts_features(job));
            let m = &mut self.most;
            m.rows = m.rows.max(job.records.len());
            m.answer = m.answer.max(theirs.len());
            m.pieces = m.pieces.max(theirs.iter().map(|f| f.pieces.len()).sum());
        }
    }
}

/// 0, 1 or 2 as x is below, at or above y.
fn side(x: u64, y: u64) -> u64 {
    match x.cmp(&y) {
        std::cmp::Ordering::Less => 0,
        std::cmp::Ordering::Equal => 1,
        std::cmp::Ordering::Greater => 2,
    }
}

/// How a record lies to a base: each end against each end, and which of the two has length zero.
fn relation(b: &Row, r: &Row) -> u64 {
    let ends = [side(r.start, b.start), side(r.start, b.stop), side(r.stop, b.start), side(r.stop, b.stop)];
    let zero = (r.start == r.stop) as u64 * 2 + (b.start == b.stop) as u64;
    ends.iter().fold(zero, |n, s| n * 3 + s)
}

fn bucket(n: usize) -> u64 {
    match n {
        0..=3 => n as u64,
        4..=7 => 4,
        _ => 8,
    }
}

fn extreme(r: &Row) -> u64 {
    [r.start == 0, r.stop == 0, r.start == MAX, r.stop == MAX, r.start >= MAX - 1]
        .iter()
        .fold(0, |n, &b| n * 2 + b as u64)
}

/// What a sweep job exercises, as small tuples of numbers.
fn sweep_features(job: &Sweep) -> BTreeSet<Vec<u64>> {
    let mut f = BTreeSet::new();
    let streams = bucket(job.streams.len());
    let answers = plain::answers(job, Broken::No);
    f.insert(vec![0, job.lengths.len() as u64, streams]);
    f.insert(vec![1, job.streams.iter().filter(|s| s.is_empty()).count() as u64]);
    for (k, b) in job.bases.iter().enumerate() {
        f.insert(vec![2, bucket(answers[k].len()), streams]);
        f.insert(vec![3, extreme(b)]);
        let last = if k == 0 { None } else { Some(&job.bases[k - 1]) };
        let step = last.map_or(99, |l| {
            side(b.chrom, l.chrom) * 27 + side(b.start, l.start) * 9 + side(b.stop, l.stop) * 3 + side(b.start, l.stop)
        });
        f.insert(vec![4, step, bucket(answers[k].len())]);
        for s in &job.streams {
            for (i, r) in s.iter().enumerate() {
                let far = side(r.chrom, b.chrom);
                if far != 1 {
                    f.insert(vec![5, far, step, streams]);
                    continue;
                }
                let rel = relation(b, r);
                f.insert(vec![6, rel, extreme(r)]);
                f.insert(vec![7, rel, step]);
                f.insert(vec![8, rel, streams]);
                if i > 0 && s[i - 1].chrom == r.chrom {
                    f.insert(vec![9, rel, relation(&s[i - 1], r)]);
                }
            }
        }
        for w in answers[k].windows(2) {
            let (x, y) = (job.streams[w[0].0][w[0].1], job.streams[w[1].0][w[1].1]);
            f.insert(vec![10, relation(&x, &y), (w[0].0 == w[1].0) as u64]);
        }
    }
    f
}

fn parts_features(job: &Parts) -> BTreeSet<Vec<u64>> {
    let mut f = BTreeSet::new();
    let pair = (job.a * 5 + job.b) as u64;
    let b = row(0, job.base.0, job.base.1);
    f.insert(vec![0, pair, bucket(job.records.len())]);
    f.insert(vec![1, pair, extreme(&b)]);
    for (k, s) in job.records.iter().enumerate() {
        let r = row(0, s.0, s.1);
        let rel = relation(&b, &r);
        f.insert(vec![2, pair, rel]);
        f.insert(vec![3, job.a as u64, extreme(&r)]);
        f.insert(vec![4, job.b as u64, extreme(&r)]);
        if k > 0 {
            let l = row(0, job.records[k - 1].0, job.records[k - 1].1);
            f.insert(vec![5, job.a as u64, rel, relation(&l, &r)]);
        }
    }
    f
}

fn on(chrom: u64, spans: &[Span]) -> Vec<Row> {
    spans.iter().map(|s| row(chrom, s.0, s.1)).collect()
}

/// The boundary cases of 01 that are valid input, and others worth having by name.
fn named_sweeps() -> Vec<Sweep> {
    let one = |streams: &[&[Span]], bases: &[Span]| sweep(1, streams.iter().map(|s| on(0, s)).collect(), on(0, bases));
    let two = |streams: &[&[Span]], bases: &[Span]| sweep(2, streams.iter().map(|s| on(1, s)).collect(), on(1, bases));
    let equal: &[Span] = &[(5, 9)];
    let mut all = vec![
        one(&[&[(0, 10), (20, 30)]], &[(10, 20)]),
        one(&[&[(0, 100), (10, 20), (30, 40)]], &[(25, 35)]),
        one(&[&[(3, 8), (5, 5)]], &[(5, 5)]),
        one(&[&[(5, 5)]], &[(3, 8)]),
        one(&[&[(3, 8), (5, 5)]], &[(3, 8), (5, 5), (5, 6)]),
        one(&[&[(5, 9)], &[(5, 9), (5, 7)]], &[(0, 6)]),
        one(&[&[(0, 40), (12, 15)]], &[(10, 30), (10, 30)]),
        one(&[&[(0, 40), (12, 25), (20, 22)]], &[(10, 20), (10, 30), (11, 12), (29, 30)]),
        one(&[&[(0, 1000), (999, 1000)]], &[(990, 1000), (1000, 1001)]),
        one(&[&[(0, 100), (10, 20), (30, 40), (50, 60)]], &[(0, 5), (25, 35), (32, 60)]),
        one(&[&[(10, 12), (50, 60)]], &[(0, 100), (1, 2)]),
        two(&[&[(100_010, 100_020)]], &[(0, 10), (100_015, 100_016)]),
        two(&[&[(100_011, 100_020)]], &[(0, 10), (100_015, 100_016)]),
        two(&[&[(5, 50), (200_000, 200_010), (900_000, 900_010)]], &[(0, 10), (60, 70), (200_005, 900_001)]),
        two(&[&[(20, 30), (100_011, 100_012)]], &[(0, 10), (20, 30)]),
        one(&[equal, equal, equal, equal], &[(0, 6), (8, 9), (9, 10)]),
        one(&[equal; 8], &[(0, 6), (5, 5), (6, 6)]),
        one(&[&[(5, 9), (5, 6)], &[(5, 9)]], &[(0, 6)]),
        one(&[&[]], &[(0, 0), (0, 1), (MAX, MAX)]),
        one(&[&[], &[(0, 1)], &[]], &[(0, 1)]),
        one(&[&[(0, MAX)]], &[(0, 0), (0, 1), (1, 1), (MAX - 1, MAX), (MAX, MAX)]),
        one(&[&[(MAX - 1, MAX), (MAX, MAX)]], &[(0, MAX), (MAX - 1, MAX - 1), (MAX - 1, MAX), (MAX, MAX)]),
        one(&[&[(MAX, MAX)], &[(0, MAX)]], &[(MAX - 1, MAX), (MAX, MAX)]),
        sweep(
            3,
            vec![vec![row(0, 0, 5), row(2, 0, 5)], vec![row(1, 0, 5)]],
            vec![row(0, 4, 6), row(1, 4, 6), row(2, 4, 6)],
        ),
        sweep(3, vec![vec![row(0, 0, 9), row(0, 1, 2), row(1, 0, 9)]], vec![row(1, 0, 1), row(2, 0, 9)]),
        sweep(3, vec![vec![row(2, 3, 4)], vec![row(0, 3, 4)]], vec![row(0, 0, 9), row(2, 0, 9)]),
        sweep(256, vec![vec![row(0, 1, 2), row(255, 1, 2)]], vec![row(0, 0, 2), row(254, 0, 9), row(255, 1, 2)]),
        sweep(1, vec![on(0, &[(1, 2)])], vec![]),
    ];
    // One long record with expired ones trapped behind it in the queue, then a live one.
    let mut trapped: Vec<Span> = vec![(0, 100)];
    trapped.extend((1..20).map(|k| (k, k + 1)));
    trapped.push((50, 60));
    all.push(one(&[&trapped], &[(0, 30), (40, 55), (55, 70), (99, 100), (100, 101)]));
    all
}

/// Every way in which few intervals can lie on a short line, zero lengths among them: one record and one base; one
/// record and two bases; a record in each of two streams and one base.
fn short_sweeps(list: &mut List) {
    for base in gen::intervals(1, 3) {
        for record in gen::intervals(1, 3) {
            list.sweep(&sweep(1, vec![vec![record]], vec![base]));
        }
    }
    let few = gen::intervals(1, 2);
    for bases in gen::lists(&few, 2, plain::base_may_follow) {
        for &record in few.iter().filter(|_| bases.len() == 2) {
            list.sweep(&sweep(1, vec![vec![record]], bases.clone()));
        }
    }
    for &base in &few {
        for &x in &few {
            for &y in &few {
                list.sweep(&sweep(1, vec![vec![x], vec![y]], vec![base]));
            }
        }
    }
}

/// Some longer runs, with many bases, so that records wait over several bases and room is used again.
fn long_sweeps(list: &mut List, dice: &mut Dice) {
    let mut taken = 0;
    while taken < 16 {
        let job = gen::random_sweep(dice, true);
        let rows: usize = job.streams.iter().map(Vec::len).sum();
        let hits: usize = plain::answers(&job, Broken::No).iter().map(Vec::len).sum();
        let fits = job.streams.len() >= 2 && rows <= 48 && job.bases.len() >= 8 && (30..=150).contains(&hits);
        if fits && job::write_sweep(&job).len() <= 700 {
            list.sweep(&job);
            taken += 1;
        }
    }
}

/// The recorded list of the sweep.
pub fn sweeps(seed: u64) -> String {
    let mut list = List::new();
    for job in named_sweeps() {
        list.sweep(&job);
    }
    short_sweeps(&mut list);
    let mut dice = Dice::new(seed);
    let jobs: Vec<Sweep> = (0..60_000).map(|_| gen::random_sweep(&mut dice, false)).collect();
    let missed = choose(&mut list, &jobs, |j| sweep_features(j), |l, j| l.sweep(j), |j| job::write_sweep(j).len());
    long_sweeps(&mut list, &mut dice);
    let m = &list.most;
    let head = format!(
        "# Sweep jobs with the Rust's answers; made by: oracle/run record sweep --seed {seed}\n\
         # chroms streams, each stream as: rows c s e .., then: bases c s e .., then for each base: n stream row ..\n\
         # records of equal start within one answer are sorted by stream, row; Q = 1024; no length is known\n\
         # jobs {} features {} missed {} left out because 01 and the Rust differ {}\n\
         # most: line {} bytes, streams {}, rows of a job {}, bases of a job {}, records of an answer {}\n",
        m.lines,
        list.features.len(),
        missed,
        list.differ,
        m.line,
        m.streams,
        m.rows,
        m.bases,
        m.answer
    );
    finish(head, &list)
}

/// Bases with records that cover each rule of "Fragments"; every one is recorded with all twenty-five pairs.
fn named_parts() -> Vec<(Span, Vec<Span>)> {
    vec![
        ((10, 20), vec![]),
        ((10, 10), vec![]),
        ((10, 20), vec![(5, 12)]),
        ((10, 20), vec![(8, 25)]),
        ((10, 20), vec![(10, 20)]),
        ((3, 8), vec![(5, 5)]),
        ((5, 5), vec![(3, 8)]),
        ((5, 5), vec![(3, 8), (4, 6)]),
        ((0, 20), vec![(2, 5), (8, 10)]),
        ((0, 20), vec![(2, 15), (4, 6)]),
        ((0, 20), vec![(2, 30), (4, 6)]),
        ((10, 20), vec![(12, 14), (14, 16)]),
        ((10, 20), vec![(5, 12), (12, 18), (15, 25)]),
        ((10, 20), vec![(12, 12), (12, 15), (12, 12)]),
        ((10, 20), vec![(5, 20), (10, 25), (10, 25)]),
        ((0, MAX), vec![(MAX - 1, MAX)]),
        ((MAX - 1, MAX), vec![(0, MAX)]),
    ]
}

/// The recorded list of the parts.
pub fn parts(seed: u64) -> String {
    let mut list = List::new();
    for (base, records) in named_parts() {
        for pair in 0..25 {
            list.parts(&Parts { a: pair / 5, b: pair % 5, base, records: records.clone() });
        }
    }
    for base in [(0, 0), (MAX, MAX)] {
        for a in 0..5 {
            list.parts(&Parts { a, b: 1, base, records: vec![] });
        }
    }
    let mut dice = Dice::new(seed ^ 3);
    let jobs: Vec<Parts> = (0..200_000).map(|_| gen::random_parts(&mut dice)).collect();
    let missed = choose(
        &mut list,
        &jobs,
        |j| parts_features(j),
        |l, j| l.parts(j),
        |j| job::record_parts(j, &rust_parts::run(j)).len(),
    );
    let m = &list.most;
    let head = format!(
        "# Parts jobs with the Rust's fragments; made by: oracle/run record parts --seed {seed}\n\
         # A B base_start base_stop n s e .. F, then each fragment: present bstart bstop k s e ..\n\
         # A and B: 0 None, 1 Whole, 2 WholeWide, 3 Piece, 4 Inverse; present 0 (no base part) has 0 0\n\
         # jobs {} features {} missed {} left out because 01 and the Rust differ {}\n\
         # most: line {} bytes, records {}, fragments {}, pieces of all fragments of a job {}\n",
        m.lines,
        list.features.len(),
        missed,
        list.differ,
        m.line,
        m.rows,
        m.answer,
        m.pieces
    );
    finish(head, &list)
}

/// Takes random jobs that show something new: first those that show much for their length, then any, while room lasts.
/// Gives the number of features of these jobs that no job of the list has. Jobs over 1,000 bytes are passed by.
fn choose<J>(
    list: &mut List,
    jobs: &[J],
    features: impl Fn(&J) -> BTreeSet<Vec<u64>>,
    add: impl Fn(&mut List, &J),
    bytes: impl Fn(&J) -> usize,
) -> usize {
    let short: Vec<&J> = jobs.iter().filter(|j| bytes(j) <= 1_000).collect();
    let shown: Vec<(usize, BTreeSet<Vec<u64>>)> = short.iter().map(|j| (bytes(j), features(j))).collect();
    for cost in [6, 9, 14, 20, 30, 45, 70, 120, 250, usize::MAX] {
        for (j, (bytes, features)) in short.iter().zip(&shown) {
            let gain = list.gain(features);
            if gain > 0 && *bytes / gain <= cost {
                add(list, j);
            }
        }
    }
    let seen: BTreeSet<&Vec<u64>> = shown.iter().flat_map(|(_, f)| f).collect();
    seen.into_iter().filter(|f| !list.features.contains(*f)).count()
}

fn finish(head: String, list: &List) -> String {
    let mut out = head;
    for l in &list.lines {
        out.push_str(l);
        out.push('\n');
    }
    assert!(out.len() <= ROOM);
    out
}

/// Reads a recorded list again and runs each job through the Rust and the plain rules; tells each
/// line that is wrong.
pub fn verify(kind: &str, text: &str, broken: Broken) -> bool {
    let (mut jobs, mut wrong) = (0, 0);
    for (n, line) in text.lines().enumerate().filter(|(_, l)| !l.starts_with('#')) {
        jobs += 1;
        let good = if kind == "sweep" { verify_sweep(line, broken) } else { verify_parts(line, broken) };
        if let Err(why) = good {
            wrong += 1;
            println!("line {}: {why}", n + 1);
        }
    }
    println!("{kind}: jobs {jobs} wrong {wrong}");
    wrong == 0 && jobs > 0
}

fn verify_sweep(line: &str, broken: Broken) -> Result<(), String> {
    let (job, recorded) = job::read_recorded_sweep(line)?;
    if !fair(&job) {
        return Err("the comparison isn't fair".into());
    }
    let sorted = |a: &Vec<job::Hit>| canonical(&job, a, Group::Start);
    let ours: Vec<_> = plain::answers(&job, broken).iter().map(sorted).collect();
    let theirs: Vec<_> = rust_answers(&job).ok_or("the Rust gives an error")?.iter().map(sorted).collect();
    if recorded != theirs {
        return Err("not what the Rust gives".into());
    }
    if recorded != ours {
        Err("not what 01 says".into())
    } else {
        Ok(())
    }
}

fn verify_parts(line: &str, broken: Broken) -> Result<(), String> {
    let (job, recorded) = job::read_recorded_parts(line)?;
    if plain::parts_refusal(&job).is_some() {
        return Err("01 refuses it".into());
    }
    if recorded != rust_parts::run(&job) {
        return Err("not what the Rust gives".into());
    }
    if recorded != plain::fragments(&job, broken) {
        Err("not what 01 says".into())
    } else {
        Ok(())
    }
}
