//! Random bytes, and jobs with bytes changed, for a fixed time.

use crate::bench::{Bench, Held, Room};
use crate::make;
use crate::rng::Rng;
use cedarlash::join;
use std::time::{Duration, Instant};

/// Bytes that lines are made of, some twice, and some that they are not.
const ALPHABET: &[u8] = b"ab\t\t\t\n\n\n0011259#\r -\0\xff";

/// How long: CEDARLASH_FUZZ_SECONDS, or 10.
fn seconds() -> u64 {
    std::env::var("CEDARLASH_FUZZ_SECONDS").ok().and_then(|s| s.parse().ok()).unwrap_or(10)
}

/// Jobs of bytes until the time is over.
pub fn bytes(b: &mut Bench) -> Held {
    let until = Instant::now() + Duration::from_secs(seconds());
    let mut rng = Rng(b.seed ^ 0xf022);
    while Instant::now() < until {
        for _ in 0..64 {
            let (text, ends) = if rng.one_in(4) { noise(&mut rng) } else { mutant(&mut rng) };
            let room = match rng.below(8) {
                0 => Room::Some(rng.next()),
                1 => Room::Bytes(rng.below(100)),
                _ => Room::Ample,
            };
            b.ends(&text, &ends, room)?;
        }
    }
    Ok(())
}

/// Random bytes with random ends, mostly rising.
fn noise(rng: &mut Rng) -> (Vec<u8>, Vec<usize>) {
    let length = rng.below(60);
    let text: Vec<u8> = (0..length).map(|_| *rng.pick(ALPHABET)).collect();
    let count = if rng.one_in(10) { rng.below(14) } else { rng.from(3, 5) };
    let mut ends: Vec<usize> = (0..count).map(|_| rng.below(length + 1)).collect();
    if !rng.one_in(10) {
        ends.sort();
        ends.pop();
        ends.push(length);
    }
    (text, ends)
}

/// A random job with one to four changes.
fn mutant(rng: &mut Rng) -> (Vec<u8>, Vec<usize>) {
    let damage = rng.below(4);
    let texts = make::job(rng, damage);
    let parts: Vec<&[u8]> = texts.iter().map(Vec::as_slice).collect();
    let (mut text, mut ends) = join(parts[0], parts[1], &parts[2..]);
    for _ in 0..rng.from(1, 4) {
        change(rng, &mut text, &mut ends);
    }
    (text, ends)
}

/// One change: a byte set, put in, taken out; a stretch twice or gone; an end moved, gone or there again.
fn change(rng: &mut Rng, text: &mut Vec<u8>, ends: &mut Vec<usize>) {
    let at = rng.below(text.len() + 1);
    let to = text.len().min(at + rng.below(12));
    match rng.below(20) {
        0..=5 if at < text.len() => text[at] = *rng.pick(ALPHABET),
        6..=9 => put(text, ends, at, &[*rng.pick(ALPHABET)]),
        10..=12 => take(text, ends, at, text.len().min(at + 1)),
        13 | 14 => {
            let again = text[at..to].to_vec();
            put(text, ends, at, &again);
        }
        15 | 16 => take(text, ends, at, to),
        17 if !ends.is_empty() => {
            let k = rng.below(ends.len());
            ends[k] = *rng.pick(&[0, at, to, text.len(), text.len() + 1, usize::MAX, ends[k].wrapping_sub(1)]);
        }
        18 if !ends.is_empty() => {
            ends.remove(rng.below(ends.len()));
        }
        _ => ends.push(text.len()),
    }
}

/// Puts bytes in; the ends behind move along.
fn put(text: &mut Vec<u8>, ends: &mut [usize], at: usize, bytes: &[u8]) {
    text.splice(at..at, bytes.iter().copied());
    ends.iter_mut().filter(|e| **e >= at && **e < usize::MAX / 2).for_each(|e| *e += bytes.len());
}

/// Takes bytes out; the ends behind move along.
pub fn take(text: &mut Vec<u8>, ends: &mut [usize], from: usize, to: usize) {
    text.drain(from..to);
    for e in ends.iter_mut().filter(|e| **e > from) {
        *e = if *e >= to { *e - (to - from) } else { from };
    }
}
