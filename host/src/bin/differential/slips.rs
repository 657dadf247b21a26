//! The tests tested: each wrong witness of slips.txt must be caught by them.

use crate::bench::{Bench, Case, Subject};
use crate::{report, shrink, Family, Listing, FAMILIES};
use cedarlash::paper;

/// A mistake made on purpose: src/paper.rs with the edits of slips.txt.
pub struct Slip {
    pub name: &'static str,
    pub what: &'static str,
    pub list: fn(&[u8], &[usize], &mut [u8]) -> Listing,
}

include!(concat!(env!("OUT_DIR"), "/slips.rs"));

/// The witness as the call over separate texts, right and wrong: its own mistakes are not those of slips.txt.
const RIGHT: Subject =
    Subject { raw: paper::list, texts: Some(|list, bases, streams, out| by_join(list, bases, streams, out)) };
const WRONG_CALLS: &[(&str, Subject)] = &[
    (
        "texts_last_stream",
        Subject { raw: paper::list, texts: Some(|l, b, s, out| by_join(l, b, &s[..s.len().max(1) - 1], out)) },
    ),
    ("texts_swapped", Subject { raw: paper::list, texts: Some(|l, b, s, out| by_join(b, l, s, out)) }),
    ("texts_short_buffer", Subject { raw: paper::list, texts: Some(|l, b, s, out| by_join(l, b, s, &mut out[1..])) }),
];

fn by_join(list: &[u8], bases: &[u8], streams: &[&[u8]], out: &mut [u8]) -> Listing {
    let (text, ends) = cedarlash::join(list, bases, streams);
    paper::list(&text, &ends, out)
}

/// Runs the tests on the witness itself, which must pass, and on each slip, which must not. Words choose slips or, as
/// `in=FAMILY`, families.
pub fn selfcheck(words: &[String]) -> u8 {
    let (families, names): (Vec<&String>, Vec<&String>) = words.iter().partition(|w| w.starts_with("in="));
    let families: Vec<&Family> =
        FAMILIES.iter().filter(|f| families.is_empty() || families.iter().any(|w| w[3..] == *f.name)).collect();
    let slips = SLIPS.iter().map(|s| (s.name, Subject { raw: s.list, texts: None }));
    let subjects = slips
        .chain(WRONG_CALLS.iter().copied())
        .filter(|(name, _)| names.is_empty() || names.iter().any(|w| w == name));
    let (mut count, mut missed) = (0, 0);
    if let Some((family, case)) = first(RIGHT, &families) {
        println!("WRONG   the witness differs from itself, in {family}: {}", report::short(&case));
        missed += 1;
    }
    for (name, subject) in subjects {
        count += 1;
        match first(subject, &families) {
            Some((family, case)) => {
                println!("caught  {name:24} by {family:9} {}", report::short(&shrink::smallest(subject, &case, 2)))
            }
            None => {
                println!("MISSED  {name:24} {}", SLIPS.iter().find(|s| s.name == name).map_or("", |s| s.what));
                missed += 1;
            }
        }
    }
    println!("{count} wrong subjects, {missed} missed");
    u8::from(missed > 0)
}

/// The first difference of a subject, and the family that shows it.
fn first(subject: Subject, families: &[&Family]) -> Option<(&'static str, Case)> {
    let mut bench = Bench::new(subject, report::seed(), true);
    for family in families {
        bench.family = family.name;
        if (family.run)(&mut bench).is_err() {
            return bench.differences.pop().map(|d| (d.family, d.case));
        }
    }
    None
}
