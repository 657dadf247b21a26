//! Holds the proved listing to a second implementation of it, `cedarlash::paper`, over jobs that are exhaustive where
//! that can be done and random elsewhere.
//!
//!     differential test [FAMILY..]       the proved library; ends with 1 on any difference
//!     differential record                the same, written as a page
//!     differential selfcheck [SLIP..]    the same tests on witnesses made wrong on purpose (slips.txt): each must be
//!                                        caught. Built by: cargo build --profile selfcheck --no-default-features --features slips
//!     differential case FILE             the cases of a file, one a line, as a difference is printed
//!     differential families              what the tests are made of
//!
//! CEDARLASH_SEED (a number) changes the random jobs, CEDARLASH_FUZZ_SECONDS (default 10) the time of the last family,
//! CEDARLASH_DEEP=1 makes the exhaustive families larger (some minutes).

mod bench;
mod exhaustive;
mod fixed;
mod fuzz;
mod make;
mod random;
mod report;
mod rng;
mod shrink;
#[cfg(feature = "slips")]
mod slips;

use bench::{Bench, Held, Subject};
// The wrong witnesses are copies of src/paper.rs and name it as that does.
#[cfg(feature = "slips")]
use cedarlash::Listing;
use std::process::ExitCode;

/// A set of jobs: its name, what it has, and the function that tries them.
pub struct Family {
    pub name: &'static str,
    pub what: &'static str,
    pub run: fn(&mut Bench) -> Held,
}

/// All families, the quick ones first.
pub const FAMILIES: &[Family] = &[
    Family {
        name: "paper",
        what: "01's example and boundary cases, with the listing written out by hand",
        run: fixed::paper,
    },
    Family {
        name: "edges",
        what: "each size at its limit and one past it, with the listing written out by hand",
        run: fixed::edges,
    },
    Family { name: "ends", what: "bad ends: falling, short, past the text, too few, too many", run: fixed::bad_ends },
    Family {
        name: "recorded",
        what: "the jobs recorded from the Rust that is ported, with its answers",
        run: fixed::recorded,
    },
    Family { name: "buffers", what: "every buffer length from 0 to one more than the listing", run: fixed::buffers },
    Family {
        name: "queue",
        what: "more than a thousand records that wait: 1,024 live ones and one more",
        run: random::queue,
    },
    Family {
        name: "texts",
        what: "every short text, by bytes and by pieces, as list, bases and stream",
        run: exhaustive::texts,
    },
    Family {
        name: "grid",
        what: "every job of up to 2 bases and 3 records in one or two streams on a short line",
        run: exhaustive::grid,
    },
    Family { name: "random", what: "random jobs, valid and damaged", run: random::jobs },
    Family { name: "large", what: "random jobs of many rows", run: random::large },
    Family { name: "fuzz", what: "random bytes and mutated jobs, for a fixed time", run: fuzz::bytes },
];

#[cfg(feature = "library")]
const LIBRARY: Option<Subject> = Some(Subject { raw: cedarlash::list_ends, texts: Some(cedarlash::list) });
#[cfg(not(feature = "library"))]
const LIBRARY: Option<Subject> = None;

fn main() -> ExitCode {
    let words: Vec<String> = std::env::args().skip(1).collect();
    let rest = &words[words.len().min(1)..];
    match words.first().map(String::as_str) {
        Some("test") => with_library(|subject| report::test(subject, rest, false)),
        Some("record") => with_library(|subject| report::test(subject, rest, true)),
        Some("case") => with_library(|subject| report::cases(subject, rest)),
        #[cfg(feature = "slips")]
        Some("selfcheck") => ExitCode::from(slips::selfcheck(rest)),
        Some("families") => {
            FAMILIES.iter().for_each(|f| println!("{:12}{}", f.name, f.what));
            ExitCode::SUCCESS
        }
        _ => {
            eprintln!("usage: differential test [FAMILY..] | record | selfcheck [SLIP..] | case FILE | families");
            ExitCode::from(2)
        }
    }
}

/// Runs `work` on the proved library, or says that this program was built without it.
fn with_library(work: impl Fn(Subject) -> u8) -> ExitCode {
    match LIBRARY {
        Some(subject) => ExitCode::from(work(subject)),
        None => {
            eprintln!("differential: built without the library, so there is nothing to test");
            ExitCode::from(2)
        }
    }
}
