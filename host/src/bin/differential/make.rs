//! Random jobs as texts.

use crate::rng::Rng;

/// Rows crowd around one of these points, so that ends meet.
const POINTS: &[u64] = &[0, 0, 0, 3, 95, 100, 990, 99_990, 1 << 32, (1 << 63) - 4, u64::MAX - 5, u64::MAX - 40];
const NAMES: &[&str] =
    &["a", "b", "ab", "abc", "one", "two", "chr1", "chr2", "chrX", "x y", "\u{e9}", "-", "a#", "0", "A", "a\r"];

/// What the rows of one job have in common.
struct Shape {
    names: Vec<Vec<u8>>,
    point: u64,
    span: usize,
    /// One row in so many has a fault of its own; 0: none has.
    faulty: usize,
}

type Row = (usize, u64, u64);

/// The texts of a job: list, bases, streams. `damage` is 0 for valid jobs, 1 for some refused bases and records, 2 for
/// also damaged lines, 3 for also bad counts and names.
pub fn job(rng: &mut Rng, damage: usize) -> Vec<Vec<u8>> {
    let chroms = match rng.below(20) {
        0 => rng.from(3, 12),
        1 if damage == 3 => *rng.pick(&[0, 255, 256, 257]),
        _ => rng.from(1, 3),
    };
    let mut names: Vec<Vec<u8>> = (0..chroms).map(|i| name(rng, i)).collect();
    let list = list(rng, &mut names, damage);
    let faulty = if damage == 0 || rng.one_in(3) { 0 } else { rng.from(2, 20) };
    let shape = Shape { names, point: *rng.pick(POINTS), span: *rng.pick(&[3, 6, 6, 12, 40]), faulty };
    let streams = match rng.below(10) {
        0 if damage == 3 => *rng.pick(&[0, 8, 9]),
        0 | 1 => rng.from(3, 8),
        n => 1 + n % 2,
    };
    let mut texts = vec![list];
    let bases = rng.below(8);
    texts.push(text(rng, &shape, bases, true, damage));
    for _ in 0..streams {
        let rows = rng.below(12);
        texts.push(text(rng, &shape, rows, false, damage));
    }
    texts
}

fn name(rng: &mut Rng, i: usize) -> Vec<u8> {
    if rng.one_in(200) {
        let long = if rng.one_in(2) { 253 } else { rng.from(2, 250) };
        return format!("{i:02}{}", "n".repeat(long)).into_bytes();
    }
    if i < 4 {
        NAMES[(i * 5 + rng.below(4)) % NAMES.len()].into()
    } else {
        format!("c{i}").into_bytes()
    }
}

/// The chromosome list, with a length for some. `names` is what the rows then use.
fn list(rng: &mut Rng, names: &mut [Vec<u8>], damage: usize) -> Vec<u8> {
    let mut lines: Vec<Vec<u8>> = Vec::new();
    for name in names.iter() {
        let mut line = name.clone();
        if rng.one_in(3) {
            let length = *rng.pick(&[5, 10, 100, 1000, 100_000, u64::MAX - 3, u64::MAX]);
            line.extend(format!("\t{length}").bytes());
        }
        lines.push(line);
    }
    if damage == 3 && rng.one_in(12) && !lines.is_empty() {
        let again = rng.pick(names).clone();
        lines.push(again);
    }
    if damage == 3 && rng.one_in(15) {
        lines.push(rng.piece(&[b"\t7", b"\t", b"x\ty", b"x\t1\t", b"x\t18446744073709551616", b"\t7\t8"]).to_vec());
    }
    if damage == 3 && rng.one_in(30) {
        lines.push(vec![b'n'; 256]);
    }
    spread(rng, lines)
}

/// A BED text of `count` rows.
fn text(rng: &mut Rng, shape: &Shape, count: usize, bases: bool, damage: usize) -> Vec<u8> {
    let mut rows: Vec<Row> = (0..count).map(|_| row(rng, shape)).collect();
    // Streams leave the stop free; bases don't.
    if bases {
        rows.sort()
    } else {
        rows.sort_by_key(|r| (r.0, r.1))
    }
    if shape.faulty > 0 {
        for i in 0..rows.len() {
            if rng.one_in(shape.faulty) {
                match rng.below(5) {
                    0 => rows[i] = (rows[i].0, rows[i].2, rows[i].1),
                    1 => rows[i].0 = shape.names.len(),
                    2 => rows[i] = row(rng, shape),
                    3 => rows[i] = (shape.names.len(), rows[i].2, rows[i].1),
                    _ => rows.swap(i, 0),
                }
            }
        }
    }
    let mut lines: Vec<Vec<u8>> = rows.iter().map(|r| line(rng, shape, r)).collect();
    if damage >= 2 && rng.one_in(12) && !lines.is_empty() {
        let i = rng.below(lines.len());
        lines[i] = broken(rng, &lines[i]);
    }
    spread(rng, lines)
}

/// A row with start at or before stop, on one of the first chromosomes mostly.
fn row(rng: &mut Rng, shape: &Shape) -> Row {
    let chrom = if shape.names.is_empty() { 0 } else { rng.below(shape.names.len()).min(rng.below(4)) };
    let start = shape.point.saturating_add(rng.below(shape.span) as u64);
    let stop = match rng.below(12) {
        0 => start,
        1 => u64::MAX,
        2 => start.saturating_add(rng.below(1000) as u64),
        _ => start.saturating_add(rng.from(1, 5) as u64),
    };
    (chrom, start, stop)
}

fn line(rng: &mut Rng, shape: &Shape, &(chrom, start, stop): &Row) -> Vec<u8> {
    let mut line = shape
        .names
        .get(chrom)
        .cloned()
        .unwrap_or_else(|| rng.piece(&[b"z", b"aa", b"on", b" ", b"A", b"One"]).to_vec());
    for n in [start, stop] {
        let width = if rng.one_in(30) { rng.from(1, 20) } else { 0 };
        line.extend(format!("\t{n:0width$}").bytes());
    }
    if rng.one_in(8) {
        line.extend_from_slice(rng.piece(&[b"\t", b"\tx\t7", b"\t\t", b"\t#", b"\t-1"]));
    }
    line
}

/// A line that can't be read, mostly.
fn broken(rng: &mut Rng, line: &[u8]) -> Vec<u8> {
    let fields: Vec<&[u8]> = line.split(|&b| b == b'\t').collect();
    let past = rng.piece(&[
        b"",
        b"18446744073709551616",
        b"000000000000000000000",
        b"-1",
        b"+1",
        b"1x",
        b" 1",
        b"1\r",
        b"99999999999999999999",
    ]);
    match rng.below(6) {
        0 => fields[..2].join(&b'\t'),
        1 => fields[0].to_vec(),
        2 => [&b""[..], fields[1], fields[2]].join(&b'\t'),
        3 => [fields[0], past, fields[2]].join(&b'\t'),
        4 => [fields[0], fields[1], past].join(&b'\t'),
        _ => fields.join(&b' '),
    }
}

/// The lines as one text, with some empty lines and comments, and the last LF there or not.
fn spread(rng: &mut Rng, lines: Vec<Vec<u8>>) -> Vec<u8> {
    let some = rng.one_in(4);
    let mut text = Vec::new();
    for line in lines {
        if some && rng.one_in(3) {
            text.extend_from_slice(rng.piece(&[b"\n", b"#\n", b"#a\t0\t9\n", b"\n\n", b"##\t\n"]));
        }
        text.extend(line);
        text.push(b'\n');
    }
    if rng.one_in(4) {
        text.pop();
    }
    text
}
