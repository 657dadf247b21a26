//! Measures the proved sweep side by side with the Rust it comes from, a plain Rust sweep, and tools for files.

// The Rust that is ported, as oracle/run lays it: unchanged (and never formatted), with stubs for two readers that nothing here
// uses.
#[rustfmt::skip]
#[path = "../../target/oracle/src/bedder/chrom_ordering.rs"]
mod chrom_ordering;
#[allow(dead_code)]
#[rustfmt::skip]
#[path = "../../target/oracle/src/bedder/intersection.rs"]
mod intersection;
#[allow(dead_code)]
#[rustfmt::skip]
#[path = "../../target/oracle/src/bedder/intersections.rs"]
mod intersections;
#[allow(dead_code)]
#[rustfmt::skip]
#[path = "../../target/oracle/src/bedder/interval.rs"]
mod interval;
#[allow(dead_code, unreachable_code)]
#[rustfmt::skip]
#[path = "../../target/oracle/src/bedder/position.rs"]
mod position;
#[allow(dead_code)]
#[rustfmt::skip]
#[path = "../../target/oracle/src/bedder/report.rs"]
mod report;
#[allow(dead_code)]
#[rustfmt::skip]
#[path = "../../target/oracle/src/bedder/report_options.rs"]
mod report_options;
#[allow(unexpected_cfgs)]
#[rustfmt::skip]
#[path = "../../target/oracle/src/bedder/string.rs"]
mod string;

#[rustfmt::skip]
#[path = "../../oracle/src/stub_bed.rs"]
mod bedder_bed;
#[rustfmt::skip]
#[path = "../../oracle/src/stub_vcf.rs"]
mod bedder_vcf;

mod clock;
mod count;
mod files;
mod input;
mod measure;
mod plain;
mod rust;
mod sweeps;
mod table;

use input::{Recipe, Size};
use measure::Plan;
use sweeps::{Bench, Who};

const USAGE: &str = "usage, in the repository's root:
  all FOLDER            measures everything and writes the document to standard output; files go to FOLDER
  quick FOLDER          the same with a twentieth of the rows and few rounds: a trial, no measurement
  count WHO INPUT SIZE  one run, for callgrind";

/// The document, with places in braces for what is measured.
const DOCUMENT: &str = include_str!("../performance.md");

fn main() {
    let words: Vec<String> = std::env::args().skip(1).collect();
    let words: Vec<&str> = words.iter().map(|w| w.as_str()).collect();
    let full = Size { records: 1_000_000, bases: 200_000, shrink: 1 };
    let small = Size { records: 48_000, bases: 10_000, shrink: 1 };
    match words[..] {
        ["all", folder] => document(Plan { size: full, rounds: 15, folder }),
        ["quick", folder] => document(Plan { size: small, rounds: 3, folder }),
        ["count", who, name, size] => {
            let size = Size::of_words(size).unwrap_or_else(|| panic!("'{size}' is no size"));
            println!("{}", Bench::new(Recipe::named(name).make(size)).count(Who::named(who)));
        }
        _ => {
            eprintln!("{USAGE}");
            std::process::exit(2);
        }
    }
}

fn document(plan: Plan) {
    let mut text = DOCUMENT.to_string();
    for (place, what) in plan.all() {
        text = text.replace(&format!("{{{place}}}"), what.trim_end());
    }
    print!("{text}");
}
