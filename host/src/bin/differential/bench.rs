//! One call tried against the witness, and the counts of all that were.

use cedarlash::{join, paper, Listing};
use std::collections::BTreeMap;

/// What is tested: the call over one text with ends and, where there is one, the call over separate texts.
#[derive(Clone, Copy)]
pub struct Subject {
    pub raw: fn(&[u8], &[usize], &mut [u8]) -> Listing,
    #[allow(clippy::type_complexity)]
    pub texts: Option<fn(&[u8], &[u8], &[&[u8]], &mut [u8]) -> Listing>,
}

/// The end of a selfcheck: a difference was found.
#[derive(Debug)]
pub struct Stop;
pub type Held = Result<(), Stop>;

/// How long a buffer the call is lent.
#[derive(Clone, Copy, Debug, PartialEq)]
pub enum Room {
    /// Some bytes more than the listing needs.
    Ample,
    /// So many bytes.
    Bytes(usize),
    /// Between 0 and one more than the listing needs, by this number.
    Some(u64),
}

/// A call: all texts, where each ends, and the buffer's length.
#[derive(Clone, Debug, PartialEq)]
pub struct Case {
    pub text: Vec<u8>,
    pub ends: Vec<usize>,
    pub room: Room,
}

/// A call whose outcome is not the witness's.
pub struct Difference {
    pub family: &'static str,
    pub case: Case,
}

/// What a call left: its answer, the buffer, and whether all around the buffer and the inputs is as it was.
#[derive(PartialEq)]
pub struct Outcome {
    pub listing: Listing,
    pub buffer: Vec<u8>,
    pub kept: bool,
}

/// Counts of what the witness's listings say.
#[derive(Clone, Default)]
pub struct Tally {
    pub calls: u64,
    pub bases: u64,
    pub records: u64,
    /// By refusal number and, for faults before the run, the text (2 for every stream).
    pub refusals: BTreeMap<(u64, Option<usize>), u64>,
    pub differences: u64,
}

/// Tries calls on a subject and keeps count.
pub struct Bench {
    pub subject: Subject,
    pub seed: u64,
    /// End at the first difference, as the selfcheck does.
    pub first_only: bool,
    pub family: &'static str,
    pub tally: Tally,
    pub differences: Vec<Difference>,
}

/// Bytes around each lent slice that must neither matter nor change.
const AROUND: usize = 23;
const BEHIND: &[u8; AROUND] = b"9\t1\n0\ta\t0\t9\na\t0\t1\n#\t\n7\n";

impl Bench {
    pub fn new(subject: Subject, seed: u64, first_only: bool) -> Bench {
        Bench { subject, seed, first_only, family: "", tally: Tally::default(), differences: Vec::new() }
    }

    /// Tries the job of these texts: the list, the bases, the streams.
    pub fn texts(&mut self, texts: &[&[u8]], room: Room) -> Held {
        let (text, ends) = join(texts[0], texts[1], &texts[2..]);
        self.ends(&text, &ends, room)
    }

    /// Tries the job of one text and its ends.
    pub fn ends(&mut self, text: &[u8], ends: &[usize], room: Room) -> Held {
        let lines = paper::lines(text, ends);
        let need: usize = lines.iter().map(Vec::len).sum();
        let bytes = resolve(room, need);
        let wanted = witness(&lines, bytes);
        self.count(&lines, wanted.listing);
        // The call over separate texts joins them and makes the same call, so one time in eight is enough.
        let same = outcome(self.subject, text, ends, bytes) == wanted;
        if same && (!self.tally.calls.is_multiple_of(8) || by_texts(self.subject, text, ends, &wanted)) {
            return Ok(());
        }
        self.tally.differences += 1;
        // The first of each family is made small and printed; the others are counted.
        if self.differences.iter().all(|d| d.family != self.family) {
            let room = if room == Room::Ample { room } else { Room::Bytes(bytes) };
            self.differences.push(Difference {
                family: self.family,
                case: Case { text: text.to_vec(), ends: ends.to_vec(), room },
            });
        }
        if self.first_only {
            Err(Stop)
        } else {
            Ok(())
        }
    }

    /// Counts one call by the witness's lines.
    fn count(&mut self, lines: &[Vec<u8>], listing: Listing) {
        self.tally.calls += 1;
        for line in lines {
            match line[0] {
                b'B' => self.tally.bases += 1,
                b'R' => self.tally.records += 1,
                _ => *self.tally.refusals.entry(refusal(line)).or_default() += 1,
            }
        }
        if listing.number != 0 {
            *self.tally.refusals.entry((listing.number, None)).or_default() += 1;
        }
    }
}

/// The number of an X line and, for a fault before the run, its text (2 for every stream).
fn refusal(line: &[u8]) -> (u64, Option<usize>) {
    let fields: Vec<usize> =
        line.split(|&b| b == b'\t' || b == b'\n').filter_map(|f| std::str::from_utf8(f).ok()?.parse().ok()).collect();
    match fields[0] {
        n @ (1 | 2 | 11 | 12) => (n as u64, Some(fields[1].min(2))),
        n => (n as u64, None),
    }
}

/// The buffer's length for a listing of `need` bytes.
fn resolve(room: Room, need: usize) -> usize {
    match room {
        Room::Ample => need + 40,
        Room::Bytes(n) => n,
        Room::Some(n) => (n % (need as u64 + 2)) as usize,
    }
}

/// What a buffer holds before a call: bytes that no line of these tests has and that tell their places apart.
fn pattern(bytes: usize) -> Vec<u8> {
    (0..bytes).map(|i| 0x80 | (i * 37 % 127) as u8).collect()
}

/// What the witness leaves in a buffer of so many bytes.
fn witness(lines: &[Vec<u8>], bytes: usize) -> Outcome {
    let mut buffer = pattern(bytes);
    let listing = paper::put(lines, &mut buffer);
    Outcome { listing, buffer, kept: true }
}

/// What the subject leaves in a buffer of so many bytes. Text, ends and buffer lie within longer ones.
fn outcome(subject: Subject, text: &[u8], ends: &[usize], bytes: usize) -> Outcome {
    let texts = [BEHIND, text, BEHIND].concat();
    let more = [&[1, 2, 3][..], ends, &[text.len(); 9]].concat();
    let mut out = pattern(bytes + 2 * AROUND);
    out[AROUND..AROUND + bytes].copy_from_slice(&pattern(bytes));
    let listing =
        (subject.raw)(&texts[AROUND..AROUND + text.len()], &more[3..3 + ends.len()], &mut out[AROUND..AROUND + bytes]);
    let around = pattern(bytes + 2 * AROUND);
    let kept = out[..AROUND] == around[..AROUND]
        && out[AROUND + bytes..] == around[AROUND + bytes..]
        && texts[AROUND..AROUND + text.len()] == *text
        && more[3..3 + ends.len()] == *ends;
    Outcome { listing, buffer: out[AROUND..AROUND + bytes].to_vec(), kept }
}

/// Both outcomes of a case, the witness's first.
pub fn both(subject: Subject, case: &Case) -> (Outcome, Outcome) {
    let lines = paper::lines(&case.text, &case.ends);
    let bytes = resolve(case.room, lines.iter().map(Vec::len).sum());
    (witness(&lines, bytes), outcome(subject, &case.text, &case.ends, bytes))
}

/// Whether the call over separate texts, where there is one and the ends are those of texts, leaves what it should.
fn by_texts(subject: Subject, text: &[u8], ends: &[usize], wanted: &Outcome) -> bool {
    let Some(call) = subject.texts else { return true };
    let rising = ends.windows(2).all(|w| w[0] <= w[1]) && ends.last() == Some(&text.len());
    if ends.len() < 2 || !rising {
        return true;
    }
    let streams: Vec<&[u8]> = ends[1..].windows(2).map(|w| &text[w[0]..w[1]]).collect();
    let mut buffer = pattern(wanted.buffer.len());
    let listing = call(&text[..ends[0]], &text[ends[0]..ends[1]], &streams, &mut buffer);
    listing == wanted.listing && buffer == wanted.buffer
}

/// Whether the subject differs from the witness on this case.
pub fn differs(subject: Subject, case: &Case) -> bool {
    let (wanted, got) = both(subject, case);
    wanted != got || !by_texts(subject, &case.text, &case.ends, &wanted)
}
