//! Runs the Rust's own fragment rule. `push_overlap_fragments` is private, so the unchanged file is included
//! inside this module, which may then call it.

#![allow(dead_code)]

include!("bedder/intersections.rs");

use crate::interval::Interval;
use crate::job::{Fragment, Parts, Span, Whole};

fn place(s: Span) -> Arc<Mutex<Position>> {
    Arc::new(Mutex::new(Position::Interval(Interval {
        chrom: "c0".into(),
        start: s.0,
        stop: s.1,
        ..Default::default()
    })))
}

fn span(p: &Arc<Mutex<Position>>) -> Span {
    let p = p.lock();
    (p.start(), p.stop())
}

fn part(choice: usize) -> IntersectionPart {
    match choice {
        0 => IntersectionPart::None,
        1 => IntersectionPart::Whole,
        2 => IntersectionPart::WholeWide,
        3 => IntersectionPart::Piece,
        _ => IntersectionPart::Inverse,
    }
}

fn fragment(f: &ReportFragment) -> Fragment {
    Fragment { base: f.a.as_ref().map(span), pieces: f.b.iter().map(span).collect() }
}

fn answer(base: Span, records: Vec<Intersection>) -> Intersections {
    Intersections { base_interval: place(base), overlapping: records, cached_report: Arc::new(Mutex::new(None)) }
}

/// The fragments of one base and one stream's records, by `push_overlap_fragments`.
pub fn run(job: &Parts) -> Vec<Fragment> {
    let records: Vec<Intersection> =
        job.records.iter().map(|&r| Intersection { interval: place(r), id: 0 }).collect();
    let mut out = Vec::new();
    answer(job.base, records.clone()).push_overlap_fragments(&mut out, &records, &part(job.a), &part(job.b), 0);
    out.iter().map(fragment).collect()
}

/// The fragments that the public `report` gives, each with its stream number.
pub fn report(job: &Whole) -> Vec<(usize, Fragment)> {
    let mut records = Vec::new();
    for (id, spans) in job.streams.iter().enumerate() {
        records.extend(spans.iter().map(|&r| Intersection { interval: place(r), id: id as u32 }));
    }
    let options = ReportOptions::builder()
        .a_mode(if job.not { IntersectionMode::Not } else { IntersectionMode::Default })
        .a_piece(part(job.a))
        .b_piece(part(job.b))
        .a_requirements(OverlapAmount::Bases(job.least))
        .b_requirements(OverlapAmount::Bases(job.least))
        .build();
    answer(job.base, records).report(&options).iter().map(|f| (f.id, fragment(f))).collect()
}
