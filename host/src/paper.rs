//! The listing, written from the scope document (01) alone and as simply as can be: the witness of the differential
//! tests. It shares no code with the proved crates. Quoted sentences are 01's.
//!
//! It holds no queue and no heads: it merges the streams once, keeps a count of how many records were taken, and finds
//! everything else by going through the records taken so far.

use crate::Listing;

/// "The program uses Q = 1,024, at most 65,536 bytes of text in all (else 1) and 1,024 rows a text (else 12)."
const ROOM: usize = 1024;
const BYTES: usize = 65_536;
const ROWS: usize = 1024;

/// A line of a BED text: a base or a record. A name that is not on the list has the number after the last.
#[derive(Clone, Copy, PartialEq)]
struct Row {
    chrom: usize,
    start: u64,
    stop: u64,
}

/// A line of the chromosome list.
struct Chrom {
    name: Vec<u8>,
    length: Option<u64>,
}

/// "A fault before the run gives one line: X, number, text [..], rows ahead".
struct Fault {
    number: u64,
    text: usize,
    rows: usize,
}

/// All texts, read.
struct Job {
    chroms: Vec<Chrom>,
    bases: Vec<Row>,
    streams: Vec<Vec<Row>>,
}

/// A record of the merged list: its stream, its row there, and what it says.
#[derive(Clone, Copy)]
struct Record {
    stream: usize,
    row: usize,
    at: Row,
}

/// Why a base has no records: the number, and for 7 and 8 the stream and row.
struct Refusal {
    number: u64,
    place: Option<(usize, usize)>,
}

/// The listing of `text`, cut at `ends`, written to `out`.
pub fn list(text: &[u8], ends: &[usize], out: &mut [u8]) -> Listing {
    put(&lines(text, ends), out)
}

/// Writes whole lines while they fit, and gives 14 if one doesn't.
pub fn put(lines: &[Vec<u8>], out: &mut [u8]) -> Listing {
    let mut length = 0;
    for line in lines {
        if line.len() > out.len() - length {
            return Listing { number: 14, length };
        }
        out[length..length + line.len()].copy_from_slice(line);
        length += line.len();
    }
    Listing { number: 0, length }
}

/// The lines of the listing, each with its LF.
pub fn lines(text: &[u8], ends: &[usize]) -> Vec<Vec<u8>> {
    match judge(text, ends) {
        Err(f) => vec![format!("X\t{}\t{}\t{}\n", f.number, f.text, f.rows).into_bytes()],
        Ok(job) => run(&job),
    }
}

// Before the run.

/// Reads and judges every text in order, up to the first fault.
fn judge(text: &[u8], ends: &[usize]) -> Result<Job, Fault> {
    // "First 1 for text size or stream count"
    let texts = cut(text, ends).ok_or(Fault { number: 1, text: 0, rows: 0 })?;
    // "after the list's 11 and 12, 1 for its count of names, then 2"
    let chroms = rows_of(texts[0], 0, chrom_line)?;
    if chroms.is_empty() || chroms.len() > 256 {
        return Err(Fault { number: 1, text: 0, rows: 0 });
    }
    if !names_are_good(&chroms) {
        return Err(Fault { number: 2, text: 0, rows: 0 });
    }
    // "text (0 list, 1 bases, 2 and up streams, judged in that order)"
    let bases = rows_of(texts[1], 1, |line| bed_line(line, &chroms))?;
    let mut streams = Vec::new();
    for (k, text) in texts[2..].iter().enumerate() {
        streams.push(rows_of(text, k + 2, |line| bed_line(line, &chroms))?);
    }
    Ok(Job { chroms, bases, streams })
}

/// The texts, or none if the sizes are broken: 1 to 8 streams, not too many bytes, ends that rise to the end of the text.
fn cut<'a>(text: &'a [u8], ends: &[usize]) -> Option<Vec<&'a [u8]>> {
    if text.len() > BYTES || ends.len() < 3 || ends.len() > 10 || *ends.last()? != text.len() {
        return None;
    }
    let mut texts = Vec::new();
    let mut from = 0;
    for &end in ends {
        texts.push(text.get(from..end)?);
        from = end;
    }
    Some(texts)
}

/// "Lines end in LF; the last may lack it. Empty lines and lines starting with `#` are passed by." A line that can't be
/// read is 11, one good row too many is 12; the rows ahead are counted.
fn rows_of<T>(text: &[u8], number: usize, read: impl Fn(&[u8]) -> Option<T>) -> Result<Vec<T>, Fault> {
    let mut rows = Vec::new();
    for line in text.split(|&b| b == b'\n') {
        if line.is_empty() || line[0] == b'#' {
            continue;
        }
        let row = read(line).ok_or(Fault { number: 11, text: number, rows: rows.len() })?;
        if rows.len() == ROWS {
            return Err(Fault { number: 12, text: number, rows: rows.len() });
        }
        rows.push(row);
    }
    Ok(rows)
}

/// "Fields part at tabs".
fn fields(line: &[u8]) -> Vec<&[u8]> {
    line.split(|&b| b == b'\t').collect()
}

/// "A chromosome line is a name and, where known, a length; a bad length or a third field is 11".
fn chrom_line(line: &[u8]) -> Option<Chrom> {
    match fields(line)[..] {
        [name] => Some(Chrom { name: name.to_vec(), length: None }),
        [name, length] => Some(Chrom { name: name.to_vec(), length: Some(number(length)?) }),
        _ => None,
    }
}

/// "Fields part at tabs: name, start, stop, further ones ignored. [..] Fewer than three fields, an empty name or a bad
/// number is 11. [..] A name not on the list is kept as the number after the last".
fn bed_line(line: &[u8], chroms: &[Chrom]) -> Option<Row> {
    let fields = fields(line);
    if fields.len() < 3 || fields[0].is_empty() {
        return None;
    }
    let chrom = chroms.iter().position(|c| c.name == fields[0]).unwrap_or(chroms.len());
    Some(Row { chrom, start: number(fields[1])?, stop: number(fields[2])? })
}

/// "A number is 1 to 20 digits, at most 18,446,744,073,709,551,615, no sign."
fn number(field: &[u8]) -> Option<u64> {
    if field.is_empty() || field.len() > 20 || !field.iter().all(|b| b.is_ascii_digit()) {
        return None;
    }
    let mut value = 0u128;
    for b in field {
        value = value * 10 + u128::from(b - b'0');
    }
    u64::try_from(value).ok()
}

/// Names have 1 to 255 bytes and none is there twice.
fn names_are_good(chroms: &[Chrom]) -> bool {
    let sized = chroms.iter().all(|c| !c.name.is_empty() && c.name.len() <= 255);
    let twice = (0..chroms.len()).any(|i| chroms[..i].iter().any(|c| c.name == chroms[i].name));
    sized && !twice
}

// The run.

/// Gives all bases to one run and writes down what it says of each.
fn run(job: &Job) -> Vec<Vec<u8>> {
    let merged = merge(job);
    let mut lines = Vec::new();
    let mut taken = 0;
    let mut last = None;
    for (n, &base) in job.bases.iter().enumerate() {
        // A base that is not let in leaves the run as it was.
        if let Some(refused) = not_let_in(job, base, last) {
            lines.push(format!("X\t{refused}\t{n}\n").into_bytes());
            continue;
        }
        let loaded = if last.is_none() { load(job) } else { Ok(()) };
        last = Some(base);
        match loaded.and_then(|()| pull(job, &merged, &mut taken, base)) {
            Ok(records) => {
                let head = format!("\t{}\t{}\t{}\n", base.start, base.stop, records.len());
                lines.push([b"B\t", &job.chroms[base.chrom].name[..], head.as_bytes()].concat());
                for r in records {
                    lines.push(format!("R\t{}\t{}\t{}\t{}\n", r.stream, r.row, r.at.start, r.at.stop).into_bytes());
                }
            }
            Err(Refusal { number, place: None }) => {
                lines.push(format!("X\t{number}\t{n}\n").into_bytes());
                return lines;
            }
            Err(Refusal { number, place: Some((stream, row)) }) => {
                lines.push(format!("X\t{number}\t{n}\t{stream}\t{row}\n").into_bytes());
                return lines;
            }
        }
    }
    lines
}

/// "then 4, 6, 3, 5": the first of them that the base earns. `last` is the last accepted base.
fn not_let_in(job: &Job, base: Row, last: Option<Row>) -> Option<u64> {
    if base.chrom == job.chroms.len() {
        return Some(4);
    }
    if base.start > base.stop {
        return Some(6);
    }
    if job.chroms[base.chrom].length.is_some_and(|length| base.stop > length) {
        return Some(3);
    }
    let key = |b: Row| (b.chrom, b.start, b.stop);
    if last.is_some_and(|last| key(base) < key(last)) {
        return Some(5);
    }
    None
}

/// The fault of row `row` of stream `stream`, if it has one: 7 before 8.
fn fault(job: &Job, stream: usize, row: usize) -> Option<Refusal> {
    let rows = &job.streams[stream];
    let at = *rows.get(row)?;
    let place = Some((stream, row));
    if at.chrom == job.chroms.len() || at.start > at.stop {
        return Some(Refusal { number: 7, place });
    }
    let key = |r: Row| (r.chrom, r.start);
    if row > 0 && key(at) < key(rows[row - 1]) {
        return Some(Refusal { number: 8, place });
    }
    None
}

/// "The merged list comes from taking, again and again, the least head by chromosome, start, stop, stream number. For
/// faulty streams, only the rows ahead of each stream's first fault count."
fn merge(job: &Job) -> Vec<Record> {
    let mut next = vec![0; job.streams.len()];
    let mut merged = Vec::new();
    loop {
        let heads = (0..next.len()).filter(|&s| next[s] < job.streams[s].len() && fault(job, s, next[s]).is_none());
        let heads = heads.map(|s| Record { stream: s, row: next[s], at: job.streams[s][next[s]] });
        let Some(least) = heads.min_by_key(|r| (r.at.chrom, r.at.start, r.at.stop, r.stream)) else {
            return merged;
        };
        next[least.stream] += 1;
        merged.push(least);
    }
}

/// "Heads are loaded at the first accepted base, stream 0 first, each checked; the first fault ends the run."
fn load(job: &Job) -> Result<(), Refusal> {
    match (0..job.streams.len()).find_map(|s| fault(job, s, 0)) {
        Some(refusal) => Err(refusal),
        None => Ok(()),
    }
}

/// Takes what is due at `base` and gives its records, in merged order.
fn pull(job: &Job, merged: &[Record], taken: &mut usize, base: Row) -> Result<Vec<Record>, Refusal> {
    // "is live for b if it is on b's chromosome and ends after b.start"
    let live = |r: &Record| r.at.chrom == base.chrom && r.at.stop > base.start;
    // "heads are taken while they lie on an earlier chromosome, or on b's with start < b.stop"
    let due = |r: &Record| r.at.chrom < base.chrom || r.at.chrom == base.chrom && r.at.start < base.stop;
    while *taken < merged.len() && due(&merged[*taken]) {
        let r = merged[*taken];
        // "For each one taken, its successor is read and checked (7, 8)."
        if let Some(refusal) = fault(job, r.stream, r.row + 1) {
            return Err(refusal);
        }
        // "Then, if [live], it is queued (9 if Q live records are queued already)"
        if live(&r) && merged[..*taken].iter().filter(|q| live(q)).count() >= ROOM {
            return Err(Refusal { number: 9, place: None });
        }
        *taken += 1;
    }
    let overlaps = |r: &&Record| live(r) && r.at.start < base.stop;
    Ok(merged[..*taken].iter().filter(overlaps).copied().collect())
}
