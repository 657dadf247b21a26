//! Runs jobs through the Rust and through the plain rules of 01, counts, and keeps the smallest job that differs.

use crate::gen::{self, Dice, Family};
use crate::job::{write_parts, write_sweep, Hit, Parts, Row, Sweep};
use crate::plain::{self, Broken, Run, Said};
use crate::rust_parts;
use crate::rust_sweep::{self, Outcome};
use std::collections::BTreeMap;

/// Which records of one answer count as an unordered group.
#[derive(Clone, Copy, PartialEq, Eq, Debug)]
pub enum Group {
    Start,
    StartStop,
    Exact,
}

#[derive(Default)]
pub struct Count {
    pub jobs: u64,
    pub bases: u64,
    pub records: u64,
    pub unfair: u64,
}

/// How many jobs differ in each way, and the smallest seen of each.
pub struct Found<J> {
    pub count: Count,
    pub kinds: BTreeMap<String, (u64, J)>,
}

impl<J: Clone> Found<J> {
    pub fn new() -> Self {
        Found { count: Count::default(), kinds: BTreeMap::new() }
    }

    fn note(&mut self, kind: String, job: &J, size: impl Fn(&J) -> u128) {
        match self.kinds.get_mut(&kind) {
            None => {
                self.kinds.insert(kind, (1, job.clone()));
            }
            Some((n, least)) => {
                *n += 1;
                if size(job) < size(least) {
                    *least = job.clone();
                }
            }
        }
    }
}

/// Puts each group of records that stand together and count as unordered in order of stream and row.
pub fn canonical(job: &Sweep, hits: &[Hit], group: Group) -> Vec<Hit> {
    let key = |h: &Hit| {
        let r = job.streams[h.0][h.1];
        match group {
            Group::Start => (r.start, 0, 0),
            Group::StartStop => (r.start, r.stop, 0),
            Group::Exact => (r.start, h.0 as u64, h.1 as u64),
        }
    };
    let mut out: Vec<Hit> = Vec::new();
    for part in hits.chunk_by(|x, y| key(x) == key(y)) {
        let mut part = part.to_vec();
        part.sort();
        out.extend(part);
    }
    out
}

/// 01's run over the whole job: what it says about each base.
pub fn said(job: &Sweep) -> Vec<Said> {
    let mut run = Run::start(job);
    job.bases.iter().map(|b| run.base(b)).collect()
}

/// 01 says that the comparison is fair: skip-ahead off, valid input, no refusal 9.
pub fn fair(job: &Sweep) -> bool {
    job.skip == 0 && plain::valid(job) && !said(job).iter().any(|s| matches!(s, Said::Refused(_)))
}

/// The Rust's answers to a fair job; None if it gave an error or left a base out.
pub fn rust_answers(job: &Sweep) -> Option<Vec<Vec<Hit>>> {
    let take = |o| match o {
        Some(Outcome::Records(hits)) => Some(hits),
        _ => None,
    };
    rust_sweep::run(job).outcomes.into_iter().map(take).collect()
}

/// How a fair job differs, if it does.
fn sweep_kind(job: &Sweep, broken: Broken, group: Group) -> Option<String> {
    let Some(rust) = rust_answers(job) else {
        return Some("the Rust gives an error or leaves a base out".into());
    };
    let ours = plain::answers(job, broken);
    let pulled: Vec<Said> = said(job);
    for ((r, o), p) in rust.iter().zip(&ours).zip(&pulled) {
        let same_pull = matches!(p, Said::Records(hits, _) if hits == o);
        if broken == Broken::No && !same_pull {
            return Some("01's pull and 01's filter differ".into());
        }
        if canonical(job, r, group) != canonical(job, o, group) {
            let (mut r, mut o) = (r.clone(), o.clone());
            r.sort();
            o.sort();
            let what = if r == o { "same records in another order" } else { "other records" };
            return Some(what.into());
        }
    }
    None
}

/// The number that 01 gives to an error text of the Rust about a base.
fn number_of_text(text: &str) -> u8 {
    if text.starts_with("interval beyond end of chromosome") {
        3
    } else if text.starts_with("invalid chromosome") && !text.contains(" in iterator ") {
        4
    } else if text.starts_with("intervals from bases out of order") {
        5
    } else {
        0
    }
}

/// How a job with refused bases (3, 4, 5; streams valid, no start > stop) differs.
fn refusal_kind(job: &Sweep) -> Option<String> {
    let told = rust_sweep::run(job);
    for (s, o) in said(job).iter().zip(&told.outcomes) {
        let same = match (s, o) {
            (Said::Records(a, _), Some(Outcome::Records(b))) => {
                canonical(job, a, Group::Start) == canonical(job, b, Group::Start)
            }
            (Said::Refused(n), Some(Outcome::Error(text))) => *n == number_of_text(text),
            _ => false,
        };
        if !same {
            return Some(format!("01 says {s:?}, the Rust {o:?}").chars().take(30).collect());
        }
    }
    None
}

/// How the Rust's offers differ from 01's. The bases are read on regardless, so both see the same ones.
fn offer_kind(job: &Sweep) -> Option<String> {
    let told = rust_sweep::run(job);
    let said = said(job);
    let answers = plain::answers(job, Broken::No);
    for k in 1..job.bases.len() {
        let Said::Records(_, ours) = &said[k - 1] else { return None };
        let theirs = told.offers[k];
        let loses = |place: Option<(u64, u64)>| {
            let Some((c, at)) = place else { return false };
            let permits = |b: &Row| b.chrom < c || (b.chrom == c && b.stop <= at);
            (k..job.bases.len()).any(|j| permits(&job.bases[j]) && !answers[j].is_empty())
        };
        if loses(*ours) {
            return Some("01's place permits leaving out a base that has records".into());
        }
        if loses(theirs) {
            return Some("the Rust's place permits leaving out a base that has records".into());
        }
        let last = job.bases[k - 1];
        let kind = match (theirs, *ours) {
            (a, b) if a == b => continue,
            (Some(_), None) if last.start == last.stop => "the Rust offers after a base of length zero",
            (Some(_), None) => "only the Rust offers",
            (None, Some(_)) => "only 01 offers",
            _ => "both offer, at different places",
        };
        return Some(kind.into());
    }
    None
}

/// A base that the Rust draws and says nothing about.
fn swallowed_kind(job: &Sweep) -> Option<String> {
    let told = rust_sweep::run(job);
    let any = told.outcomes.contains(&Some(Outcome::Swallowed));
    any.then(|| "an empty base is swallowed".into())
}

fn parts_kind(job: &Parts, broken: Broken) -> Option<String> {
    let same = rust_parts::run(job) == plain::fragments(job, broken);
    (!same).then(|| format!("A {}", crate::job::CHOICES[job.a]))
}

pub fn sweep_size(job: &Sweep) -> u128 {
    let rows = job.streams.iter().flatten().chain(&job.bases);
    let sum: u128 = rows.clone().map(|r| r.chrom as u128 + r.start as u128 + r.stop as u128).sum();
    let count = (rows.count() + job.streams.len()) as u128;
    (count << 80) + ((job.lengths.len() as u128) << 72) + sum.min(1 << 71)
}

pub fn parts_size(job: &Parts) -> u128 {
    let spans = job.records.iter().chain([&job.base]);
    let sum: u128 = spans.map(|s| s.0 as u128 + s.1 as u128).sum();
    ((job.records.len() as u128) << 80) + sum.min(1 << 79)
}

/// Smaller numbers to try in place of n: a few small ones, then n less each power of two, largest first.
fn smaller(n: u64) -> Vec<u64> {
    let mut out = vec![0, 1, 2];
    out.extend((0..64).rev().filter(|&k| 1u64 << k <= n).map(|k| n - (1 << k)));
    out.retain(|&x| x < n);
    out
}

/// The job with every coordinate lowered by the same amount, none below 0, and every chromosome by one.
fn lowered(job: &Sweep, by: u64, chrom: u64) -> Sweep {
    let mut j = job.clone();
    for r in j.streams.iter_mut().flatten().chain(j.bases.iter_mut()) {
        r.chrom = r.chrom.saturating_sub(chrom);
        r.start = r.start.saturating_sub(by);
        r.stop = r.stop.saturating_sub(by);
    }
    j
}

/// The job with every coordinate replaced by its rank among them all.
fn ranked(job: &Sweep) -> Sweep {
    let mut j = job.clone();
    let rows = || job.streams.iter().flatten().chain(&job.bases);
    let mut points: Vec<u64> = rows().flat_map(|r| [r.start, r.stop]).collect();
    points.sort();
    points.dedup();
    let rank = |x: u64| points.binary_search(&x).expect("it is one of them") as u64;
    for r in j.streams.iter_mut().flatten().chain(j.bases.iter_mut()) {
        (r.start, r.stop) = (rank(r.start), rank(r.stop));
    }
    j
}

/// All jobs that are one step smaller than this one.
fn smaller_sweeps(job: &Sweep) -> Vec<Sweep> {
    let mut out = vec![ranked(job), lowered(job, 0, 1)];
    out.extend((0..64).rev().map(|k| lowered(job, 1 << k, 0)));
    let mut with = |change: &dyn Fn(&mut Sweep)| {
        let mut j = job.clone();
        change(&mut j);
        out.push(j);
    };
    for k in 0..job.streams.len() {
        with(&|j| {
            _ = j.streams.remove(k);
        });
        for i in 0..job.streams[k].len() {
            with(&|j| {
                _ = j.streams[k].remove(i);
            });
        }
    }
    for i in 0..job.bases.len() {
        with(&|j| {
            _ = j.bases.remove(i);
        });
    }
    with(&|j| {
        _ = j.lengths.pop();
    });
    for k in 0..=job.streams.len() {
        let rows = if k < job.streams.len() { &job.streams[k] } else { &job.bases };
        for (i, r) in rows.iter().enumerate() {
            let at = |j: &mut Sweep, f: &dyn Fn(&mut Row)| {
                let rows = if k < j.streams.len() { &mut j.streams[k] } else { &mut j.bases };
                f(&mut rows[i])
            };
            smaller(r.chrom).iter().for_each(|&v| with(&|j| at(j, &|r| r.chrom = v)));
            smaller(r.start).iter().for_each(|&v| with(&|j| at(j, &|r| r.start = v)));
            smaller(r.stop).iter().for_each(|&v| with(&|j| at(j, &|r| r.stop = v)));
            if r.start == r.stop {
                smaller(r.start).iter().for_each(|&v| with(&|j| at(j, &|r| (r.start, r.stop) = (v, v))));
            }
        }
    }
    out
}

fn smaller_parts(job: &Parts) -> Vec<Parts> {
    let mut out = Vec::new();
    let mut with = |change: &dyn Fn(&mut Parts)| {
        let mut j = job.clone();
        change(&mut j);
        out.push(j);
    };
    for i in 0..job.records.len() {
        with(&|j| {
            _ = j.records.remove(i);
        });
        smaller(job.records[i].0).iter().for_each(|&v| with(&|j| j.records[i].0 = v));
        smaller(job.records[i].1).iter().for_each(|&v| with(&|j| j.records[i].1 = v));
    }
    smaller(job.base.0).iter().for_each(|&v| with(&|j| j.base.0 = v));
    smaller(job.base.1).iter().for_each(|&v| with(&|j| j.base.1 = v));
    out
}

/// Makes a job smaller as long as it still differs in the same way, in at most a thousand steps.
fn shrink<J: Clone>(job: &J, size: impl Fn(&J) -> u128, less: impl Fn(&J) -> Vec<J>, still: impl Fn(&J) -> bool) -> J {
    let mut least = job.clone();
    for _ in 0..1000 {
        let best = less(&least).into_iter().filter(|j| size(j) < size(&least)).find(|j| still(j));
        match best {
            Some(j) => least = j,
            None => break,
        }
    }
    least
}

/// Prints what was found; true if nothing differs.
fn print<J: Clone>(title: &str, f: &Found<J>, least: impl Fn(&str, &J) -> String) -> bool {
    let c = &f.count;
    println!("{title}: jobs {} bases {} records {} not fair {}", c.jobs, c.bases, c.records, c.unfair);
    for (kind, (n, job)) in &f.kinds {
        println!("{title}: DIFFERENCE in {n} jobs: {kind}");
        println!("{title}:   smallest: {}", least(kind, job));
    }
    f.kinds.is_empty()
}

fn count_sweep(f: &mut Found<Sweep>, job: &Sweep) {
    f.count.jobs += 1;
    f.count.bases += job.bases.len() as u64;
    f.count.records += plain::answers(job, Broken::No).iter().map(|a| a.len() as u64).sum::<u64>();
}

/// Runs one job by a rule that tells how it differs, and notes the result.
fn try_sweep(f: &mut Found<Sweep>, job: &Sweep, kind: &impl Fn(&Sweep) -> Option<String>, fair: bool) {
    if !fair {
        f.count.unfair += 1;
        return;
    }
    count_sweep(f, job);
    if let Some(k) = kind(job) {
        f.note(k, job, sweep_size);
    }
}

fn print_sweeps(title: &str, f: &Found<Sweep>, kind: impl Fn(&Sweep) -> Option<String>) -> bool {
    print(title, f, |name, job| {
        let still = |j: &Sweep| plain::valid(j) && kind(j).as_deref() == Some(name);
        let least = if plain::valid(job) { shrink(job, sweep_size, smaller_sweeps, still) } else { job.clone() };
        format!("sweep skip={} {}", least.skip, write_sweep(&least))
    })
}

/// Compares sweeps: every job of the exhaustive families, then random ones, then some long ones.
pub fn sweeps(jobs: u64, seed: u64, broken: Broken, group: Group, families: &[Family]) -> bool {
    let kind = |j: &Sweep| sweep_kind(j, broken, group);
    let mut f = Found::new();
    for family in families {
        gen::each_of_family(family, &mut |j| {
            let ok = fair(&j);
            try_sweep(&mut f, &j, &kind, ok)
        });
    }
    let all = print_sweeps("sweep, exhaustive", &f, kind);
    let mut f = Found::new();
    let mut dice = Dice::new(seed);
    for k in 0..jobs {
        let job = gen::random_sweep(&mut dice, k % 8 == 7);
        let ok = fair(&job);
        try_sweep(&mut f, &job, &kind, ok);
    }
    let some = print_sweeps("sweep, random", &f, kind);
    let long = long_sweeps((jobs / 20_000).clamp(2, 10), &mut dice, &kind);
    all && some && long
}

/// The most records that were queued (each is in some answer) and have expired while an earlier one is still live.
fn trapped(job: &Sweep) -> usize {
    let answers = plain::answers(job, Broken::No);
    let queued: std::collections::BTreeSet<Hit> = answers.iter().flatten().copied().collect();
    let expired = |b: &Row| {
        let gone = |h: &&Hit| {
            let r = job.streams[h.0][h.1];
            r.chrom == b.chrom && r.stop <= b.start
        };
        queued.iter().filter(gone).count()
    };
    let held = job.bases.iter().zip(&answers).filter(|(_, a)| a.contains(&(0, 0)));
    held.map(|(b, _)| expired(b)).max().unwrap_or(0)
}

/// Compares long jobs. One that differs isn't made smaller (that would take too long); its sizes are told.
fn long_sweeps(jobs: u64, dice: &mut Dice, kind: &impl Fn(&Sweep) -> Option<String>) -> bool {
    let mut f = Found::new();
    let mut most = usize::MAX;
    for _ in 0..jobs {
        let job = gen::long_sweep(dice);
        let ok = fair(&job);
        most = most.min(trapped(&job));
        try_sweep(&mut f, &job, kind, ok);
    }
    println!("sweep, long: expired records trapped behind a live one in each job: {most} or more");
    print("sweep, long", &f, |_, job| {
        let rows: usize = job.streams.iter().map(Vec::len).sum();
        format!("{rows} rows, {} bases; the same seed makes it again", job.bases.len())
    })
}

/// Compares jobs with refused bases: 3, 4 and 5 leave the run unchanged in both.
pub fn refusals(jobs: u64, seed: u64) -> bool {
    let mut f = Found::new();
    let mut dice = Dice::new(seed ^ 1);
    for _ in 0..jobs {
        let mut job = gen::random_sweep(&mut dice, false);
        gen::spoil_bases(&mut dice, &mut job);
        let nine = said(&job).contains(&Said::Refused(9));
        try_sweep(&mut f, &job, &refusal_kind, !nine);
    }
    print_sweeps("refused bases", &f, refusal_kind)
}

/// Counts how the Rust's offers, and the bases it swallows, differ from 01. These are differences that 01 names.
pub fn offers(jobs: u64, seed: u64) -> bool {
    let mut f = Found::new();
    let mut g = Found::new();
    let mut dice = Dice::new(seed ^ 2);
    for _ in 0..jobs {
        let mut job = gen::random_sweep(&mut dice, false);
        let ok = fair(&job);
        job.skip = 1;
        try_sweep(&mut f, &job, &offer_kind, ok);
        try_sweep(&mut g, &job, &swallowed_kind, ok);
    }
    let a = print_sweeps("offers", &f, offer_kind);
    let b = print_sweeps("swallowed", &g, swallowed_kind);
    a && b
}

fn count_parts(f: &mut Found<Parts>, job: &Parts, broken: Broken) {
    if plain::parts_refusal(job).is_some() {
        f.count.unfair += 1;
        return;
    }
    f.count.jobs += 1;
    f.count.bases += 1;
    f.count.records += job.records.len() as u64;
    if let Some(k) = parts_kind(job, broken) {
        f.note(k, job, parts_size);
    }
}

/// Compares parts: all on a short line, all twenty-five pairs, then random ones.
pub fn parts(jobs: u64, seed: u64, broken: Broken) -> bool {
    let least = |name: &str, job: &Parts| {
        let still = |j: &Parts| plain::parts_refusal(j).is_none() && parts_kind(j, broken).as_deref() == Some(name);
        format!("parts {}", write_parts(&shrink(job, parts_size, smaller_parts, still)))
    };
    let mut f = Found::new();
    gen::each_parts(5, 2, &mut |j| count_parts(&mut f, &j, broken));
    gen::each_parts(4, 3, &mut |j| count_parts(&mut f, &j, broken));
    let all = print("parts, exhaustive", &f, least);
    let mut f = Found::new();
    let mut dice = Dice::new(seed ^ 3);
    for _ in 0..jobs {
        let job = gen::random_parts(&mut dice);
        count_parts(&mut f, &job, broken);
    }
    all & print("parts, random", &f, least)
}
