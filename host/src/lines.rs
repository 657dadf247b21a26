//! The lines of the listing, added to a buffer of bytes.

/// More than the longest line but for a name, which is a mark, four numbers, tabs and the LF: 86 bytes. A power of two, so that
/// the compiler sees that no place modulo it lies outside.
const MOST: usize = 128;

/// Two digits each of 00 to 99.
const PAIRS: [[u8; 2]; 100] = {
    let mut pairs = [[0; 2]; 100];
    let mut n = 0;
    while n < 100 {
        pairs[n] = [b'0' + (n / 10) as u8, b'0' + (n % 10) as u8];
        n += 1;
    }
    pairs
};

/// A line, written from its end to its front.
struct Line {
    bytes: [u8; MOST],
    at: usize,
}

impl Line {
    /// A line with nothing but its LF.
    fn new() -> Self {
        Line { bytes: [b'\n'; MOST], at: MOST - 1 }
    }

    fn byte(&mut self, byte: u8) {
        self.at = self.at.wrapping_sub(1) % MOST;
        self.bytes[self.at] = byte;
    }

    /// Two digits ahead of what is there.
    fn pair(&mut self, n: u32) {
        let [tens, ones] = PAIRS[n as usize];
        self.byte(ones);
        self.byte(tens);
    }

    /// A tab and a number, ahead of what is there.
    fn number(&mut self, mut n: u64) {
        // Four digits at a time: a division takes longer than all else here.
        while n >= 10_000 {
            let four = (n % 10_000) as u32;
            n /= 10_000;
            self.pair(four % 100);
            self.pair(four / 100);
        }
        let mut n = n as u32;
        if n >= 100 {
            self.pair(n % 100);
            n /= 100;
        }
        match n {
            0..10 => self.byte(b'0' + n as u8),
            _ => self.pair(n),
        }
        self.byte(b'\t');
    }

    /// A mark and its numbers.
    fn put(out: &mut Vec<u8>, mark: u8, numbers: &[u64]) {
        let mut line = Line::new();
        numbers.iter().rev().for_each(|&n| line.number(n));
        line.byte(mark);
        out.extend_from_slice(&line.bytes[line.at..]);
    }
}

/// `B`, the chromosome's name, start, stop and the count of records.
pub fn base(out: &mut Vec<u8>, name: &[u8], start: u64, stop: u64, count: usize) {
    let mut line = Line::new();
    line.number(count as u64);
    line.number(stop);
    line.number(start);
    out.extend_from_slice(b"B\t");
    out.extend_from_slice(name);
    out.extend_from_slice(&line.bytes[line.at..]);
}

/// `R`, stream, row, start and stop.
pub fn record(out: &mut Vec<u8>, stream: usize, row: usize, start: u64, stop: u64) {
    Line::put(out, b'R', &[stream as u64, row as u64, start, stop]);
}

/// `X`, the refusal and the base's row; for 7 and 8 the stream and row of the record.
pub fn refused(out: &mut Vec<u8>, number: u64, row: u64, record: Option<(usize, usize)>) {
    match record {
        None => Line::put(out, b'X', &[number, row]),
        Some((stream, at)) => Line::put(out, b'X', &[number, row, stream as u64, at as u64]),
    }
}

/// `X`, the refusal, the text (0 the list, 1 the bases, 2 and up the streams) and the rows ahead.
pub fn fault(out: &mut Vec<u8>, number: u64, text: usize, rows: u64) {
    Line::put(out, b'X', &[number, text as u64, rows]);
}
