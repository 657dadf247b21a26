//! Whole listings: by the API and by the command, against the witness, and past its limits against a plain search.

use crate::batches;
use crate::files::{tabs, Folder};
use crate::make;
use crate::rng::Rng;
use cedarlash::blocks::Blocks;
use cedarlash::{join, lines, paper, Answer, BadText, Base, Columns, Genome, ReadError, Rows, Sweep};

/// The listing that the command is to give and its status: 01's, but for the bases' bad lines, which it meets in the run.
fn wanted(texts: &[Vec<u8>]) -> (i32, Vec<u8>) {
    if !(1..=8).contains(&(texts.len() - 2)) {
        return (2, Vec::new());
    }
    let listing = witness(texts);
    let Some(rows) = listing.strip_prefix(b"X\t11\t1\t") else {
        return (status(&listing), listing);
    };
    // The rows ahead of the bad line, listed; then the line of the fault, if the run did not end before it.
    let rows: usize = String::from_utf8_lossy(rows).trim().parse().unwrap();
    let mut texts = texts.to_vec();
    texts[1] = ahead(&texts[1], rows);
    let (status, ahead) = wanted(&texts);
    let last = ahead.split(|&b| b == b'\n').rev().nth(1).unwrap_or_default();
    let ended = [&b"X\t7\t"[..], b"X\t8\t", b"X\t9\t"].iter().any(|mark| last.starts_with(mark));
    if status == 2 || ended {
        return (status, ahead);
    }
    (2, [ahead, listing].concat())
}

fn witness(texts: &[Vec<u8>]) -> Vec<u8> {
    let streams: Vec<&[u8]> = texts[2..].iter().map(Vec::as_slice).collect();
    let (text, ends) = join(&texts[0], &texts[1], &streams);
    paper::lines(&text, &ends).concat()
}

/// 2 for a fault before the run (four fields, the second none that a run gives), 1 if there is another X, else 0.
fn status(listing: &[u8]) -> i32 {
    let marks = |mark: &[u8]| listing.starts_with(mark);
    if marks(b"X\t1\t") || marks(b"X\t2\t") || marks(b"X\t11\t") || marks(b"X\t12\t") {
        return 2;
    }
    i32::from(listing.split(|&b| b == b'\n').any(|line| line.starts_with(b"X")))
}

/// The lines ahead of row `rows`.
fn ahead(text: &[u8], rows: usize) -> Vec<u8> {
    let mut left = rows;
    let mut out = Vec::new();
    for line in text.split_inclusive(|&b| b == b'\n') {
        let is_row = line[0] != b'\n' && line[0] != b'#';
        if is_row && left == 0 {
            break;
        }
        left -= usize::from(is_row);
        out.extend_from_slice(line);
    }
    out
}

/// The listing and the status by the API, as the command has them, with the bases cut into blocks of about `size` bytes.
fn listed(texts: &[Vec<u8>], room: usize, size: usize) -> (i32, Vec<u8>) {
    let mut out = Vec::new();
    let status = list_to(&mut out, texts, room, size).unwrap_or_else(|(text, ahead, bad)| {
        lines::fault(&mut out, bad.number, text, (ahead + bad.rows) as u64);
        2
    });
    (status, out)
}

fn list_to(out: &mut Vec<u8>, texts: &[Vec<u8>], room: usize, size: usize) -> Result<i32, (usize, usize, BadText)> {
    let genome = Genome::read(texts[0].clone()).map_err(|bad| (0, 0, bad))?;
    let mut columns = Columns::new();
    for (k, text) in texts[2..].iter().enumerate() {
        columns.add_text(&genome, text).map_err(|bad| (k + 2, 0, bad))?;
    }
    let mut sweep = Sweep::begin(&genome, &columns, room).expect("good sizes");
    let mut blocks = Blocks::new(&texts[1][..], size);
    let (mut rows, mut row, mut status) = (Rows::default(), 0, 0);
    while let Some(block) = blocks.next_block().unwrap() {
        rows.truncate(0);
        let read = rows.read(&genome, block);
        let ahead = row;
        for base in rows.iter() {
            match sweep.give(base) {
                Answer::Found { records, .. } => {
                    lines::base(out, genome.name(base.chrom).unwrap(), base.start, base.stop, records.len());
                    for (stream, row) in records.iter() {
                        let at = columns.get(stream, row).unwrap();
                        lines::record(out, stream, row, at.start, at.stop);
                    }
                }
                Answer::Refused(number) => {
                    lines::refused(out, number, row as u64, None);
                    status = 1;
                }
                Answer::Ended(end) => {
                    lines::refused(out, end.number, row as u64, end.record);
                    return Ok(1);
                }
            }
            row += 1;
        }
        read.map_err(|bad| (1, ahead, bad))?;
    }
    Ok(status)
}

fn show(texts: &[Vec<u8>]) -> String {
    texts.iter().map(|t| format!("{:?}\n", String::from_utf8_lossy(t))).collect()
}

#[test]
fn random_jobs_by_the_api() {
    let mut rng = Rng(11);
    for n in 0..30_000 {
        let texts = make::job(&mut rng, n % 4);
        if (1..=8).contains(&(texts.len() - 2)) {
            let size = rng.from(1, 60);
            assert!(listed(&texts, 1024, size) == wanted(&texts), "{}", show(&texts));
        }
    }
}

/// Both archives in one program: the listing's one call and the run over columns give the same bytes.
#[cfg(feature = "library")]
#[test]
fn the_proved_listing() {
    let mut rng = Rng(16);
    let mut out = vec![0; 1 << 20];
    for n in 0..20_000 {
        let texts = make::job(&mut rng, n % 4);
        let streams: Vec<&[u8]> = texts[2..].iter().map(Vec::as_slice).collect();
        let told = cedarlash::list(&texts[0], &texts[1], &streams, &mut out);
        let listing = &out[..told.length];
        assert!(told.number == 0 && listing == witness(&texts), "{}", show(&texts));
        if (1..=8).contains(&streams.len()) && !listing.starts_with(b"X\t11\t1\t") {
            assert!(listed(&texts, 1024, 64).1 == listing, "{}", show(&texts));
        }
    }
}

#[test]
fn random_jobs_by_the_command() {
    let mut rng = Rng(12);
    let folder = Folder::new();
    let mut met = [0; 3];
    for n in 0..800 {
        let texts = make::job(&mut rng, n % 4);
        let mut words = folder.job(&texts);
        words.extend(["-q".to_string(), "1024".to_string()]);
        let output = folder.sweep(&words).output().unwrap();
        let (status, listing) = wanted(&texts);
        assert!(output.stdout == listing && output.status.code() == Some(status), "{}", show(&texts));
        assert_eq!(output.stderr.is_empty(), status == 0, "{}", show(&texts));
        met[status as usize] += 1;
    }
    assert!(met.iter().all(|&n| n > 30), "every status is met: {met:?}");
}

/// The texts of a job of hundreds of bases, with comments and empty lines among them and now and then a line that can't be
/// read.
fn long_job(rng: &mut Rng) -> Vec<Vec<u8>> {
    let job = batches::job(rng, 900);
    let bad = rng.one_in(4).then(|| rng.below(job.bases.len() + 1));
    let mut texts = vec![batches::LIST.into()];
    for (k, rows) in [job.bases].iter().chain(&job.streams).enumerate() {
        let mut text = String::new();
        for (n, r) in rows.iter().enumerate() {
            let name = ["a", "b", "c", "d", "e"][r.chrom as usize];
            text += if rng.one_in(20) { "\n#\n" } else { "" };
            text += if k == 0 && bad == Some(n) { "a\t1\tx\n" } else { "" };
            text += &format!("{name}\t{}\t{}\n", r.start, r.stop);
        }
        texts.push(text.into());
    }
    texts
}

/// The line (from 1) of the base that the command speaks of: the last X where the run ended or a line is bad, else the first.
fn blamed(texts: &[Vec<u8>], listing: &[u8]) -> Option<usize> {
    let listing = String::from_utf8_lossy(listing);
    let mut marks = listing.lines().filter(|l| l.starts_with('X')).map(|l| l.split('\t').skip(1).collect::<Vec<_>>());
    let (first, last) = (marks.next()?, marks.next_back());
    let row = match last.as_ref().unwrap_or(&first)[..] {
        ["11", "1", row] => row,
        ["7" | "8" | "9", row, ..] => row,
        _ => first[1],
    };
    let text = String::from_utf8_lossy(&texts[1]);
    let mut rows = text.lines().enumerate().filter(|(_, l)| !l.is_empty() && !l.starts_with('#'));
    rows.nth(row.parse().unwrap()).map(|(n, _)| n + 1)
}

/// Bases refused, bad lines and ends far into a block, where bases go in batches.
#[test]
fn long_jobs_by_the_command() {
    let mut rng = Rng(17);
    let folder = Folder::new();
    let mut met = [0; 3];
    for _ in 0..150 {
        let texts = long_job(&mut rng);
        let mut words = folder.job(&texts);
        words.extend(["-q".to_string(), "1024".to_string()]);
        let (status, out, said) = folder.run(&words);
        let (wanted, listing) = wanted(&texts);
        assert!(out.as_bytes() == listing && status == wanted, "{}", show(&texts));
        match blamed(&texts, &listing) {
            None => assert_eq!((status, said.as_str()), (0, "")),
            Some(line) => assert!(said.contains(&format!(" a: line {line}")), "{line}: {said}"),
        }
        met[status as usize] += 1;
    }
    assert!(met.iter().all(|&n| n > 10), "every status is met: {met:?}");
}

/// Sorted rows of a large job.
fn rows(rng: &mut Rng, count: usize, bases: bool) -> Vec<Base> {
    let row = |rng: &mut Rng| {
        let start = rng.below(400_000) as u64;
        let length = if rng.one_in(500) { rng.below(60_000) } else { rng.below(90) };
        Base { chrom: rng.below(3) as u64, start, stop: start + length as u64 }
    };
    let mut rows: Vec<Base> = (0..count).map(|_| row(rng)).collect();
    rows.sort_by_key(|r| (r.chrom, r.start, if bases { r.stop } else { 0 }));
    rows
}

/// As BED text, with comments and empty lines among them; one is longer than a block.
fn text(rng: &mut Rng, rows: &[Base]) -> Vec<u8> {
    let mut text = Vec::new();
    for (k, r) in rows.iter().enumerate() {
        if k == 700 {
            text.extend(vec![b'#'; 300_000]);
            text.push(b'\n');
        }
        if rng.one_in(50) {
            text.extend_from_slice(rng.piece(&[b"\n", b"#c0\t1\t2\n", b"\n\n"]));
        }
        text.extend(format!("c{}\t{}\t{}\n", r.chrom, r.start, r.stop).bytes());
    }
    text
}

/// The listing by a plain search: the streams merged head by head, and for each base the records that overlap it.
fn searched(bases: &[Base], streams: &[Vec<Base>]) -> String {
    let mut next = vec![0; streams.len()];
    let mut merged = Vec::new();
    let head = |next: &[usize], s: usize| streams[s].get(next[s]).map(|r| (r.chrom, r.start, r.stop, s));
    while let Some((_, _, _, s)) = (0..streams.len()).filter_map(|s| head(&next, s)).min() {
        merged.push((s, next[s], streams[s][next[s]]));
        next[s] += 1;
    }
    let mut listing = String::new();
    for b in bases {
        let overlaps = |r: &Base| r.chrom == b.chrom && r.start < b.stop && r.stop > b.start;
        let hits: Vec<_> = merged.iter().filter(|(_, _, r)| overlaps(r)).collect();
        listing += &format!("B\tc{}\t{}\t{}\t{}\n", b.chrom, b.start, b.stop, hits.len());
        hits.iter().for_each(|(s, k, r)| listing += &format!("R\t{s}\t{k}\t{}\t{}\n", r.start, r.stop));
    }
    listing
}

#[test]
fn jobs_past_the_limits() {
    let mut rng = Rng(13);
    for count in [1, 3, 8] {
        let bases = rows(&mut rng, 4_000, true);
        let streams: Vec<Vec<Base>> = (0..count).map(|_| rows(&mut rng, 40_000 / count, false)).collect();
        let mut texts = vec![b"c0\nc1\t500000\nc2\n".to_vec(), text(&mut rng, &bases)];
        texts.extend(streams.iter().map(|s| text(&mut rng, s)));
        let folder = Folder::new();
        let (status, listing, said) = folder.run(&folder.job(&texts));
        assert_eq!((status, said.as_str()), (0, ""));
        assert!(listing == searched(&bases, &streams), "{count} streams");
    }
}

#[test]
fn the_paper() {
    let texts = ["one 1000\ntwo\n", "one 25 35\none 40 30\n", "one 0 100\none 10 20\none 30 40\n"].map(tabs);
    let listing = tabs("B one 25 35 2\nR 0 0 0 100\nR 0 2 30 40\nX 6 1\n");
    assert_eq!(listed(&texts, 1024, 9), (1, listing.clone()));
    let folder = Folder::new();
    let (status, out, said) = folder.run(&folder.job(&texts));
    assert_eq!((status, out.into_bytes()), (1, listing));
    assert_eq!(said, "cedarlash sweep: a: line 2: refusal 6: base start > stop\n");
}

#[test]
fn numbers_are_written_as_format_does() {
    let mut rng = Rng(14);
    let mut numbers = vec![0, 1, u64::MAX, u64::MAX - 1];
    (0..20).for_each(|k| (0..3).for_each(|d| numbers.push((10u64.pow(k) + d).wrapping_sub(1))));
    (0..64).for_each(|k| (0..20).for_each(|_| numbers.push(rng.next() >> k)));
    for (k, &n) in numbers.iter().enumerate() {
        let (m, i, j) = (numbers[(k * 7 + 3) % numbers.len()], k % 8, n as usize / 3);
        let mut out = Vec::new();
        lines::record(&mut out, i, j, n, m);
        lines::base(&mut out, b"chr1", n, m, j);
        lines::refused(&mut out, 8, n, Some((i, j)));
        lines::refused(&mut out, 9, m, None);
        lines::fault(&mut out, 11, i, m);
        let wanted =
            format!("R\t{i}\t{j}\t{n}\t{m}\nB\tchr1\t{n}\t{m}\t{j}\nX\t8\t{n}\t{i}\t{j}\nX\t9\t{m}\nX\t11\t{i}\t{m}\n");
        assert_eq!(String::from_utf8(out).unwrap(), wanted);
    }
    let mut longest = Vec::new();
    lines::record(&mut longest, usize::MAX, usize::MAX, u64::MAX, u64::MAX);
    assert_eq!(longest.len(), 86);
}

#[test]
fn blocks_are_whole_lines() {
    let mut rng = Rng(15);
    for _ in 0..20_000 {
        let text: Vec<u8> = (0..rng.below(40)).map(|_| *rng.pick(b"\n\n#a\ta1")).collect();
        let mut blocks = Blocks::new(&text[..], rng.from(1, 12));
        let (mut all, mut lines) = (Vec::new(), 0);
        while let Some(block) = blocks.next_block().unwrap() {
            assert_eq!(block.ahead, lines);
            assert_eq!(block.lines, block.text.split_inclusive(|&b| b == b'\n').count());
            lines += block.lines as u64;
            all.extend_from_slice(block.text);
            assert!(block.text.ends_with(b"\n") || all.len() == text.len());
        }
        assert_eq!(all, text);
    }
}

#[test]
fn a_bad_line_adds_no_stream() {
    let genome = Genome::read("one\n").unwrap();
    let mut columns = Columns::new();
    assert_eq!(columns.add_text(&genome, &tabs("one 1 2\n")), Ok(1));
    let bad = BadText { number: 11, rows: 1, line: Some(4) };
    assert_eq!(columns.add_text(&genome, &tabs("#\none 3 4\n\none x 5\n")), Err(bad));
    match columns.add_reader(&genome, &tabs("#\none 3 4\n\none x 5\n")[..], |_| {}) {
        Err(ReadError::Bad(b)) => assert_eq!(b, bad),
        other => panic!("{other:?}"),
    }
    assert_eq!(columns.add_reader(&genome, &tabs("one 7 8\none 8 9")[..], |_| {}).unwrap(), 2);
    assert_eq!((columns.streams(), columns.rows(0), columns.rows(1), columns.rows(2)), (2, Some(1), Some(2), None));
    assert_eq!(columns.get(1, 1), Some(Base { chrom: 0, start: 8, stop: 9 }));
    assert_eq!((columns.get(1, 2), columns.get(0, 1), columns.get(2, 0)), (None, None, None));
}
