//! The Rust as an oracle: runs the unchanged files of bedder-rs over jobs, compares them with 01's rules written
//! plainly, and records answers. See README.md.

#[path = "bedder/chrom_ordering.rs"]
mod chrom_ordering;
#[allow(dead_code)]
#[path = "bedder/intersection.rs"]
mod intersection;
#[allow(dead_code)]
#[path = "bedder/interval.rs"]
mod interval;
#[allow(dead_code, unreachable_code)]
#[path = "bedder/position.rs"]
mod position;
#[allow(dead_code)]
#[path = "bedder/report.rs"]
mod report;
#[allow(dead_code)]
#[path = "bedder/report_options.rs"]
mod report_options;
#[allow(unexpected_cfgs)]
#[path = "bedder/string.rs"]
mod string;

#[path = "stub_bed.rs"]
mod bedder_bed;
#[path = "stub_vcf.rs"]
mod bedder_vcf;

mod compare;
mod gen;
mod job;
mod listing;
mod plain;
mod record;
mod rust_parts;
mod rust_sweep;

use compare::Group;
use gen::Dice;
use plain::Broken;
use std::io::Read;

const USAGE: &str = "usage:
  run [FILE]                           jobs in (standard input without FILE), listing out
  jobs sweep|parts [--jobs N] [--seed S]   random jobs, as `run` takes them
  compare [sweep|parts|refusals|offers|all] [--jobs N] [--seed S] [--break KIND] [--group start|startstop|exact]
  record sweep|parts [--seed S]        a recorded list
  verify sweep|parts FILE [--break KIND]   a recorded list, checked line by line
status: 0 no difference, 1 a difference or a wrong line, 2 the call or a job can't be read";

fn stop(why: &str) -> ! {
    eprintln!("oracle: {why}\n{USAGE}");
    std::process::exit(2)
}

struct Options {
    words: Vec<String>,
    jobs: u64,
    seed: u64,
    broken: Broken,
    group: Group,
}

fn options() -> Options {
    let mut o = Options { words: vec![], jobs: 200_000, seed: 1, broken: Broken::No, group: Group::Start };
    let mut args = std::env::args().skip(1);
    while let Some(a) = args.next() {
        if !a.starts_with("--") {
            o.words.push(a);
            continue;
        }
        let v = args.next().unwrap_or_else(|| stop(&format!("{a} needs a value")));
        let bad = || -> ! { stop(&format!("{a} can't be {v}")) };
        match a.as_str() {
            "--jobs" => o.jobs = v.parse().unwrap_or_else(|_| bad()),
            "--seed" => o.seed = v.parse().unwrap_or_else(|_| bad()),
            "--break" => {
                let found = plain::BROKEN.iter().find(|b| b.0 == v);
                o.broken = found.unwrap_or_else(|| bad()).1;
            }
            "--group" => {
                o.group = match v.as_str() {
                    "start" => Group::Start,
                    "startstop" => Group::StartStop,
                    "exact" => Group::Exact,
                    _ => bad(),
                }
            }
            _ => stop(&format!("no such option: {a}")),
        }
    }
    o
}

fn text_of(path: Option<&str>) -> String {
    let read = match path {
        Some(p) => std::fs::read_to_string(p),
        None => {
            let mut t = String::new();
            std::io::stdin().read_to_string(&mut t).map(|_| t)
        }
    };
    read.unwrap_or_else(|e| stop(&e.to_string()))
}

/// Runs every job of a text, and hands on its comments; a line that can't be read is told and counts at the end.
fn run(text: &str) -> bool {
    let mut good = true;
    for (n, line) in text.lines().enumerate() {
        if line.is_empty() || line.starts_with('#') {
            println!("{line}");
            continue;
        }
        println!("job {} {line}", n + 1);
        match job::read_job(line) {
            Ok(j) => listing::run(&j),
            Err(why) => {
                println!("bad\t{why}");
                good = false;
            }
        }
    }
    good
}

fn jobs(o: &Options, kind: &str) {
    let mut dice = Dice::new(o.seed);
    for _ in 0..o.jobs {
        match kind {
            "sweep" => println!("sweep {}", job::write_sweep(&gen::random_sweep(&mut dice, false))),
            "parts" => println!("parts {}", job::write_parts(&gen::random_parts(&mut dice))),
            _ => stop("jobs of which kind?"),
        }
    }
}

fn compare(o: &Options, kind: &str) -> bool {
    let sweeps = || compare::sweeps(o.jobs, o.seed, o.broken, o.group, &gen::FAMILIES);
    match kind {
        "sweep" => sweeps(),
        "parts" => compare::parts(o.jobs, o.seed, o.broken),
        "refusals" => compare::refusals(o.jobs, o.seed),
        "offers" => compare::offers(o.jobs, o.seed),
        "all" => sweeps() & compare::refusals(o.jobs, o.seed) & compare::parts(o.jobs, o.seed, o.broken),
        _ => stop("compare what?"),
    }
}

fn main() {
    let o = options();
    let words: Vec<&str> = o.words.iter().map(|w| w.as_str()).collect();
    let status = match words[..] {
        ["run"] => 2 * !run(&text_of(None)) as i32,
        ["run", file] => 2 * !run(&text_of(Some(file))) as i32,
        ["jobs", kind] => {
            jobs(&o, kind);
            0
        }
        ["compare"] => !compare(&o, "all") as i32,
        ["compare", kind] => !compare(&o, kind) as i32,
        ["record", "sweep"] => {
            print!("{}", record::sweeps(o.seed));
            0
        }
        ["record", "parts"] => {
            print!("{}", record::parts(o.seed));
            0
        }
        ["verify", kind @ ("sweep" | "parts"), file] => !record::verify(kind, &text_of(Some(file)), o.broken) as i32,
        _ => stop("no such command"),
    };
    std::process::exit(status)
}
