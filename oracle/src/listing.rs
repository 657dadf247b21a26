//! Jobs in, one listing out: for each job the Rust's answer and, where there is one, 01's by the plain rules.

use crate::chrom_ordering::parse_genome;
use crate::compare;
use crate::job::{Fragment, Hit, Job, Parts, Span, Sweep, Whole};
use crate::plain::{self, Broken, Said};
use crate::rust_parts;
use crate::rust_sweep::{self, Outcome};

fn base_lines(who: &str, job: &Sweep, k: usize, hits: &[Hit]) {
    let b = job.bases[k];
    println!("{who}\tB\t{}\t{}\t{}\t{}", b.chrom, b.start, b.stop, hits.len());
    for h in hits {
        let r = job.streams[h.0][h.1];
        println!("{who}\tR\t{}\t{}\t{}\t{}", h.0, h.1, r.start, r.stop);
    }
}

fn sweep(job: &Sweep) {
    let told = rust_sweep::run(job);
    for (k, o) in told.outcomes.iter().enumerate() {
        if let Some((c, at)) = told.offers[k] {
            println!("rust\tO\t{c}\t{at}");
        }
        match o {
            Some(Outcome::Records(hits)) => base_lines("rust", job, k, hits),
            Some(Outcome::Error(text)) => println!("rust\tE\t{k}\t{text}"),
            Some(Outcome::Swallowed) => println!("rust\tswallowed\t{k}"),
            Some(Outcome::LeftOut) => println!("rust\tleft out\t{k}"),
            None => println!("rust\tnot drawn\t{k}"),
        }
    }
    if !plain::sizes_hold(job) {
        println!("01\tX\t1\t0\t0");
        return;
    }
    for (k, s) in compare::said(job).iter().enumerate() {
        match s {
            Said::Records(hits, offer) => {
                base_lines("01", job, k, hits);
                if let (Some((c, at)), true) = (offer, job.skip > 0) {
                    println!("01\tO\t{c}\t{at}");
                }
            }
            Said::Refused(n) => println!("01\tX\t{n}\t{k}"),
            Said::Fault(n, stream, row) => println!("01\tX\t{n}\t{k}\t{stream}\t{row}"),
        }
    }
}

fn fragment_line(who: &str, f: &Fragment) {
    let show = |s: &Span| format!("{}-{}", s.0, s.1);
    let base = f.base.as_ref().map_or("none".into(), show);
    let pieces: Vec<String> = f.pieces.iter().map(show).collect();
    println!("{who}\tF\t{base}\t{}", pieces.join(" "));
}

fn parts(job: &Parts) {
    for f in rust_parts::run(job) {
        fragment_line("rust", &f);
    }
    match plain::parts_refusal(job) {
        Some(n) => println!("01\tX\t{n}"),
        None => plain::fragments(job, Broken::No).iter().for_each(|f| fragment_line("01", f)),
    }
}

fn report(job: &Whole) {
    for (id, f) in rust_parts::report(job) {
        let stream = if id == usize::MAX { "-".into() } else { id.to_string() };
        fragment_line(&format!("report\t{stream}"), &f);
    }
    for (k, records) in job.streams.iter().enumerate() {
        let one = Parts { a: job.a, b: job.b, base: job.base, records: records.clone() };
        match plain::parts_refusal(&one) {
            Some(n) => println!("01\t{k}\tX\t{n}"),
            None => plain::fragments(&one, Broken::No).iter().for_each(|f| fragment_line(&format!("01\t{k}"), f)),
        }
    }
}

fn genome(text: &str) {
    match parse_genome(text.as_bytes()) {
        Err(e) => println!("rust\tE\t{e}"),
        Ok(map) => {
            let mut all: Vec<_> = map.iter().map(|(name, c)| (c.index, name, c.length)).collect();
            all.sort();
            for (index, name, length) in all {
                println!("rust\tC\t{index}\t{name}\t{}", length.map_or("unknown".into(), |l| l.to_string()));
            }
        }
    }
}

/// Runs one job; a panic of the Rust is caught and listed.
pub fn run(job: &Job) {
    let done = std::panic::catch_unwind(|| match job {
        Job::Sweep(s) => sweep(s),
        Job::Parts(p) => parts(p),
        Job::Report(w) => report(w),
        Job::Genome(t) => genome(t),
    });
    if done.is_err() {
        println!("rust\tpanic");
    }
}
