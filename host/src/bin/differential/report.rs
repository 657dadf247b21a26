//! What is printed: a line for each family, each difference made small, the table; and cases as text.

use crate::bench::{both, differs, Bench, Case, Outcome, Room, Subject, Tally};
use crate::{shrink, Family, FAMILIES};
use std::path::PathBuf;
use std::time::Instant;

/// The seed of the random jobs: CEDARLASH_SEED, or 1.
pub fn seed() -> u64 {
    std::env::var("CEDARLASH_SEED").ok().and_then(|s| s.parse().ok()).unwrap_or(1)
}

/// What a full run must have met: each refusal number that a listing can hold and, for 11 and 12, in each kind of text.
const MUST: &[(u64, Option<usize>)] = &[
    (1, Some(0)),
    (2, Some(0)),
    (3, None),
    (4, None),
    (5, None),
    (6, None),
    (7, None),
    (8, None),
    (9, None),
    (11, Some(0)),
    (11, Some(1)),
    (11, Some(2)),
    (12, Some(0)),
    (12, Some(1)),
    (12, Some(2)),
    (14, None),
];

/// Runs the families named, or all, and prints the table; with `page` as the text of a page. 0 if nothing differs.
pub fn test(subject: Subject, names: &[String], page: bool) -> u8 {
    if let Some(name) = names.iter().find(|n| FAMILIES.iter().all(|f| f.name != n.as_str())) {
        eprintln!("differential: no family '{name}'");
        return 2;
    }
    let chosen: Vec<&Family> =
        FAMILIES.iter().filter(|f| names.is_empty() || names.iter().any(|n| n == f.name)).collect();
    let mut bench = Bench::new(subject, seed(), false);
    let mut rows = Vec::new();
    let begun = Instant::now();
    for family in &chosen {
        let (before, start) = (bench.tally.clone(), Instant::now());
        bench.family = family.name;
        let _ = (family.run)(&mut bench);
        let row = Row { family, before, after: bench.tally.clone(), seconds: start.elapsed().as_secs_f64() };
        if !page {
            eprintln!("{:12}{:>9} jobs {:>6.1} s", family.name, row.after.calls - row.before.calls, row.seconds);
        }
        rows.push(row);
    }
    let missing: Vec<String> = MUST.iter().filter(|m| !bench.tally.refusals.contains_key(m)).map(kind).collect();
    let failed = bench.tally.differences > 0 || names.is_empty() && !missing.is_empty();
    if page {
        println!("{PAGE}");
    }
    print_tables(&bench.tally, &rows, begun.elapsed().as_secs_f64());
    for (n, d) in bench.differences.iter().enumerate() {
        println!("\nDifference in {}:", d.family);
        explain(subject, &shrink::smallest(subject, &d.case, 10), Some(n));
    }
    if names.is_empty() && !missing.is_empty() {
        println!("\nNever reached: {}", missing.join(", "));
    }
    println!("\n{} jobs, {} differences", bench.tally.calls, bench.tally.differences);
    u8::from(failed)
}

const PAGE: &str = "# The listing against a second implementation

A full run of `differential record`, unchanged: the proved library, compiled and linked into the Rust host, against
`host/src/paper.rs`, which was written from the scope document and, for how texts are handed over, from what the call says. Both are given the same bytes, and number, length
and every byte of the buffer must agree. `host/slips.txt` names the mistakes that these tests were seen to catch.
";

struct Row<'a> {
    family: &'a Family,
    before: Tally,
    after: Tally,
    seconds: f64,
}

/// The families with their counts, and the refusals by number.
fn print_tables(all: &Tally, rows: &[Row], seconds: f64) {
    println!("Seed {}.\n", seed());
    println!("| family | has | jobs | bases | records | differences | seconds |\n|---|---|---|---|---|---|---|");
    for Row { family, before, after, seconds } in rows {
        println!(
            "| {} | {} | {} | {} | {} | {} | {seconds:.1} |",
            family.name,
            family.what,
            after.calls - before.calls,
            after.bases - before.bases,
            after.records - before.records,
            after.differences - before.differences
        );
    }
    println!("| all | | {} | {} | {} | {} | {seconds:.1} |", all.calls, all.bases, all.records, all.differences);
    println!("\n| refusal | times reached |\n|---|---|");
    for (key, count) in &all.refusals {
        println!("| {} | {count} |", kind(key));
    }
    println!("\n10 can't come: the program lends as many answer rows as the queue has room.");
}

/// A refusal in words.
fn kind(key: &(u64, Option<usize>)) -> String {
    match key {
        (n @ (11 | 12), Some(text)) => format!("{n} in {}", ["the list", "the bases", "a stream"][*text]),
        (n, _) => n.to_string(),
    }
}

/// Prints a case, what was wanted and what came; `keep` also writes the case to a file of this number.
fn explain(subject: Subject, case: &Case, keep: Option<usize>) {
    let (wanted, got) = both(subject, case);
    let line = to_line(case);
    println!("  {}", if line.len() < 4000 { &line } else { "(long; in the file named below)" });
    println!("  wanted {}", tell(&wanted));
    println!("  got    {}", tell(&got));
    let Some(n) = keep else { return };
    let file = PathBuf::from(env!("CARGO_MANIFEST_DIR")).join(format!("../target/host/differs-{n}.case"));
    match std::fs::write(&file, line + "\n") {
        Ok(()) => println!("  again: differential case {}", file.display()),
        Err(e) => println!("  {}: {e}", file.display()),
    }
}

/// An outcome in words: the number, the length, the listing, and whether the rest is as it was.
fn tell(o: &Outcome) -> String {
    let length = o.listing.length.min(o.buffer.len());
    let shown = escape(&o.buffer[..length.min(1500)]);
    let behind = escape(&o.buffer[length..o.buffer.len().min(length + 8)]);
    format!(
        "number {} length {} listing {shown} then {behind}{}",
        o.listing.number,
        o.listing.length,
        if o.kept { "" } else { "; something outside the buffer changed" }
    )
}

/// The cases of the files, one a line. 0 if none differs.
pub fn cases(subject: Subject, files: &[String]) -> u8 {
    let mut status = 0;
    for file in files {
        let text = std::fs::read_to_string(file).unwrap_or_else(|e| panic!("{file}: {e}"));
        for line in text.lines().filter(|l| !l.is_empty()) {
            let case = from_line(line).unwrap_or_else(|| panic!("{file}: no case: {line}"));
            let bad = differs(subject, &case);
            println!("{}", if bad { "differs" } else { "agrees" });
            explain(subject, &case, None);
            status |= u8::from(bad);
        }
    }
    status
}

/// A case as one line of text.
fn to_line(case: &Case) -> String {
    let room = match case.room {
        Room::Bytes(n) => n.to_string(),
        _ => "ample".into(),
    };
    let ends: Vec<String> = case.ends.iter().map(usize::to_string).collect();
    format!("room={room} ends={} text={}", ends.join(","), escape(&case.text))
}

/// The same, cut where it is long.
#[cfg(feature = "slips")]
pub fn short(case: &Case) -> String {
    let line = to_line(case);
    match line.char_indices().nth(160) {
        Some((cut, _)) => format!("{}.. ({} bytes of text)", &line[..cut], case.text.len()),
        None => line,
    }
}

/// The case that a line stands for.
fn from_line(line: &str) -> Option<Case> {
    let (room, rest) = line.strip_prefix("room=")?.split_once(" ends=")?;
    let (ends, text) = rest.split_once(" text=")?;
    let room = if room == "ample" { Room::Ample } else { Room::Bytes(room.parse().ok()?) };
    let ends = ends.split(',').filter(|e| !e.is_empty()).map(|e| e.parse().ok()).collect::<Option<Vec<usize>>>()?;
    Some(Case { text: unescape(text)?, ends, room })
}

/// Bytes as printable text: \t, \n, \\ and \xNN.
fn escape(bytes: &[u8]) -> String {
    let one = |b: &u8| match b {
        b'\t' => "\\t".into(),
        b'\n' => "\\n".into(),
        b'\\' => "\\\\".into(),
        0x20..=0x7e => char::from(*b).to_string(),
        _ => format!("\\x{b:02x}"),
    };
    bytes.iter().map(one).collect()
}

/// The bytes of such text.
fn unescape(text: &str) -> Option<Vec<u8>> {
    let mut bytes = Vec::new();
    let mut rest = text.bytes();
    while let Some(b) = rest.next() {
        bytes.push(match b {
            b'\\' => match rest.next()? {
                b't' => b'\t',
                b'n' => b'\n',
                b'\\' => b'\\',
                b'x' => u8::from_str_radix(std::str::from_utf8(&[rest.next()?, rest.next()?]).ok()?, 16).ok()?,
                _ => return None,
            },
            b => b,
        });
    }
    Some(bytes)
}
