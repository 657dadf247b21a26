//! Makes a case that differs as small as can be.

use crate::bench::{differs, Case, Room, Subject};
use crate::fuzz::take;
use std::time::{Duration, Instant};

/// The smallest case that was found to differ within so many seconds.
pub fn smallest(subject: Subject, case: &Case, seconds: u64) -> Case {
    let mut s = Shrink { subject, best: case.clone(), until: Instant::now() + Duration::from_secs(seconds) };
    s.keep(|c| c.room = Room::Ample);
    loop {
        let before = s.best.clone();
        s.drop_texts();
        s.drop_lines();
        s.drop_bytes();
        s.lower_numbers();
        s.lower_ends_and_room();
        if s.best == before || Instant::now() > s.until {
            return s.best;
        }
    }
}

struct Shrink {
    subject: Subject,
    best: Case,
    until: Instant,
}

impl Shrink {
    /// Takes the change if the case still differs.
    fn keep(&mut self, change: impl Fn(&mut Case)) -> bool {
        let mut next = self.best.clone();
        change(&mut next);
        let better = next != self.best && Instant::now() < self.until && differs(self.subject, &next);
        if better {
            self.best = next;
        }
        better
    }

    /// Whole texts, with their ends.
    fn drop_texts(&mut self) {
        for k in (0..self.best.ends.len()).rev() {
            let ends = &self.best.ends;
            let from = if k == 0 { 0 } else { ends[k - 1] };
            let (from, to) = (from.min(self.best.text.len()), ends[k].min(self.best.text.len()));
            self.keep(|c| {
                c.ends.remove(k);
                if from < to {
                    take(&mut c.text, &mut c.ends, from, to);
                }
            });
        }
    }

    /// Lines, many at once first.
    fn drop_lines(&mut self) {
        let mut many = self.starts().len().next_power_of_two();
        while many > 0 {
            let mut k = 0;
            while k < self.starts().len() - 1 {
                let starts = self.starts();
                let (from, to) = (starts[k], starts[(k + many).min(starts.len() - 1)]);
                if !self.keep(|c| take(&mut c.text, &mut c.ends, from, to)) {
                    k += many;
                }
            }
            many /= 2;
        }
    }

    /// Where lines and texts begin, and the text's end.
    fn starts(&self) -> Vec<usize> {
        let text = &self.best.text;
        let mut starts: Vec<usize> =
            (0..text.len()).filter(|&i| i == 0 || text[i - 1] == b'\n' || self.best.ends.contains(&i)).collect();
        starts.push(text.len());
        starts
    }

    /// Bytes, a few at once first; of long texts only the front.
    fn drop_bytes(&mut self) {
        for many in [64, 16, 4, 1] {
            let mut from = 0;
            while from < self.best.text.len().min(3000) {
                let to = self.best.text.len().min(from + many);
                if !self.keep(|c| take(&mut c.text, &mut c.ends, from, to)) {
                    from += many;
                }
            }
        }
    }

    /// Each number as 0, as its half, as one less.
    fn lower_numbers(&mut self) {
        let mut at = 0;
        while at < self.best.text.len().min(3000) {
            let digits = self.best.text[at..].iter().take_while(|b| b.is_ascii_digit()).count();
            let number: Option<u128> =
                std::str::from_utf8(&self.best.text[at..at + digits]).ok().and_then(|t| t.parse().ok());
            for less in number.iter().flat_map(|&n| [0, n / 2, n.saturating_sub(1)]) {
                let less = less.to_string().into_bytes();
                let stay = less.len() <= digits && less[..] < self.best.text[at..at + digits] || less.len() < digits;
                if stay && self.keep(|c| replace(c, at, digits, &less)) {
                    break;
                }
            }
            at += self.best.text[at..].iter().take_while(|b| b.is_ascii_digit()).count() + 1;
        }
    }

    /// Ends and a buffer's length as 0, halved, one less.
    fn lower_ends_and_room(&mut self) {
        for k in (0..self.best.ends.len()).rev() {
            self.keep(|c| {
                c.ends.remove(k);
            });
        }
        for k in 0..self.best.ends.len() {
            let e = self.best.ends[k];
            let _ = [0, e / 2, e.saturating_sub(1)].iter().any(|&less| self.keep(|c| c.ends[k] = less));
        }
        while let Room::Bytes(n) = self.best.room {
            if ![0, n / 2, n.saturating_sub(1)].iter().any(|&less| self.keep(|c| c.room = Room::Bytes(less))) {
                return;
            }
        }
    }
}

/// Other bytes in the place of some; the ends behind move along.
fn replace(c: &mut Case, at: usize, old: usize, new: &[u8]) {
    let keep = new.len().min(old);
    take(&mut c.text, &mut c.ends, at + keep, at + old);
    c.text[at..at + keep].copy_from_slice(&new[..keep]);
}
