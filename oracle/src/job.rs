//! Jobs and answers as plain values, and the text that they are read from and written to.

/// A row of a stream or a base: chromosome number, start, stop.
#[derive(Clone, Copy, PartialEq, Eq, Debug, PartialOrd, Ord)]
pub struct Row {
    pub chrom: u64,
    pub start: u64,
    pub stop: u64,
}

/// A whole run: the chromosome list (lengths where known), the streams and the bases.
/// `skip` is 0 for skip-ahead off, 1 for on with a base table that is read on regardless,
/// 2 for on with a base table that leaves out what an offered place permits.
#[derive(Clone, PartialEq, Eq, Debug)]
pub struct Sweep {
    pub lengths: Vec<Option<u64>>,
    pub room: usize,
    pub skip: u8,
    pub streams: Vec<Vec<Row>>,
    pub bases: Vec<Row>,
}

/// A record of an answer: stream number and row number.
pub type Hit = (usize, usize);

pub type Span = (u64, u64);

/// One base, one stream's records, and the two choices, numbered
/// 0 None, 1 Whole, 2 WholeWide, 3 Piece, 4 Inverse.
#[derive(Clone, PartialEq, Eq, Debug)]
pub struct Parts {
    pub a: usize,
    pub b: usize,
    pub base: Span,
    pub records: Vec<Span>,
}

#[derive(Clone, PartialEq, Eq, Debug)]
pub struct Fragment {
    pub base: Option<Span>,
    pub pieces: Vec<Span>,
}

/// A whole report of the Rust: the records of several streams, and the least overlap in bases that it demands.
#[derive(Clone, Debug)]
pub struct Whole {
    pub a: usize,
    pub b: usize,
    pub least: u64,
    pub not: bool,
    pub base: Span,
    pub streams: Vec<Vec<Span>>,
}

pub enum Job {
    Sweep(Sweep),
    Parts(Parts),
    Report(Whole),
    Genome(String),
}

pub const CHOICES: [&str; 5] = ["None", "Whole", "WholeWide", "Piece", "Inverse"];

/// The numbers of a line, taken one after the other.
struct Numbers<'a> {
    words: std::iter::Peekable<std::str::SplitWhitespace<'a>>,
}

impl Numbers<'_> {
    fn next(&mut self) -> Result<u64, String> {
        let w = self.words.next().ok_or("line ends too soon")?;
        w.parse().map_err(|_| format!("not a number: {w}"))
    }

    fn count(&mut self) -> Result<usize, String> {
        let n = self.next()?;
        if n > 10_000_000 {
            return Err(format!("count too large: {n}"));
        }
        Ok(n as usize)
    }

    fn rows(&mut self) -> Result<Vec<Row>, String> {
        let n = self.count()?;
        (0..n).map(|_| Ok(Row { chrom: self.next()?, start: self.next()?, stop: self.next()? })).collect()
    }

    fn spans(&mut self) -> Result<Vec<Span>, String> {
        let n = self.count()?;
        (0..n).map(|_| Ok((self.next()?, self.next()?))).collect()
    }

    fn choice(&mut self) -> Result<usize, String> {
        let n = self.count()?;
        if n < CHOICES.len() {
            Ok(n)
        } else {
            Err(format!("no such choice: {n}"))
        }
    }

    fn end(&mut self) -> Result<(), String> {
        match self.words.next() {
            None => Ok(()),
            Some(w) => Err(format!("more than expected: {w}")),
        }
    }
}

/// Reads the numbers of a sweep: `chroms streams`, each stream as `rows c s e ..`, then `bases c s e ..`.
fn read_sweep(n: &mut Numbers) -> Result<Sweep, String> {
    let chroms = n.count()?;
    let count = n.count()?;
    let streams = (0..count).map(|_| n.rows()).collect::<Result<_, _>>()?;
    let bases = n.rows()?;
    Ok(Sweep { lengths: vec![None; chroms], room: 1024, skip: 0, streams, bases })
}

/// Reads the numbers of a parts job: `A B base_start base_stop n s1 e1 ..`.
fn read_parts(n: &mut Numbers) -> Result<Parts, String> {
    Ok(Parts { a: n.choice()?, b: n.choice()?, base: (n.next()?, n.next()?), records: n.spans()? })
}

fn numbers(text: &str) -> Numbers<'_> {
    Numbers { words: text.split_whitespace().peekable() }
}

/// Sets one `key=value` of a job line.
fn option(job: &mut Job, key: &str, value: &str) -> Result<(), String> {
    let bad = || format!("bad option {key}={value}");
    match (job, key) {
        (Job::Sweep(s), "room") => s.room = value.parse().map_err(|_| bad())?,
        (Job::Sweep(s), "skip") => s.skip = value.parse().map_err(|_| bad())?,
        (Job::Sweep(s), "lengths") => {
            let given: Vec<&str> = value.split(',').collect();
            if given.len() != s.lengths.len() {
                return Err(bad());
            }
            for (slot, v) in s.lengths.iter_mut().zip(given) {
                *slot = if v == "-" { None } else { Some(v.parse().map_err(|_| bad())?) };
            }
        }
        (Job::Report(w), "least") => w.least = value.parse().map_err(|_| bad())?,
        (Job::Report(w), "not") => w.not = value == "1",
        _ => return Err(bad()),
    }
    Ok(())
}

/// Reads one job line: a kind, options as `key=value`, then numbers.
/// A genome job is the text of a chromosome list with `\t`, `\n`, `\r` written so.
pub fn read_job(line: &str) -> Result<Job, String> {
    let (kind, rest) = line.split_once(' ').unwrap_or((line, ""));
    if kind == "genome" {
        return Ok(Job::Genome(rest.replace("\\t", "\t").replace("\\n", "\n").replace("\\r", "\r")));
    }
    let options: Vec<&str> = rest.split_whitespace().filter(|w| w.contains('=')).collect();
    let plain: Vec<&str> = rest.split_whitespace().filter(|w| !w.contains('=')).collect();
    let text = plain.join(" ");
    let mut n = numbers(&text);
    let mut job = match kind {
        "sweep" => Job::Sweep(read_sweep(&mut n)?),
        "parts" => Job::Parts(read_parts(&mut n)?),
        "report" => {
            let (a, b) = (n.choice()?, n.choice()?);
            let base = (n.next()?, n.next()?);
            let count = n.count()?;
            let streams = (0..count).map(|_| n.spans()).collect::<Result<_, _>>()?;
            Job::Report(Whole { a, b, least: 1, not: false, base, streams })
        }
        _ => return Err(format!("no such kind of job: {kind}")),
    };
    n.end()?;
    for o in options {
        let (key, value) = o.split_once('=').expect("it contains one");
        option(&mut job, key, value)?;
    }
    Ok(job)
}

/// Reads a line of recorded/sweep.txt: a job and, for each base, its records.
pub fn read_recorded_sweep(line: &str) -> Result<(Sweep, Vec<Vec<Hit>>), String> {
    let mut n = numbers(line);
    let job = read_sweep(&mut n)?;
    let mut answers = Vec::new();
    for _ in &job.bases {
        answers.push(n.spans()?.into_iter().map(|(s, r)| (s as usize, r as usize)).collect());
    }
    n.end()?;
    Ok((job, answers))
}

/// Reads a line of recorded/parts.txt: a job and its fragments.
pub fn read_recorded_parts(line: &str) -> Result<(Parts, Vec<Fragment>), String> {
    let mut n = numbers(line);
    let job = read_parts(&mut n)?;
    let count = n.count()?;
    let mut fragments = Vec::new();
    for _ in 0..count {
        let present = n.next()?;
        let span = (n.next()?, n.next()?);
        let base = match (present, span) {
            (1, s) => Some(s),
            (0, (0, 0)) => None,
            _ => return Err("a base part is marked wrongly".into()),
        };
        fragments.push(Fragment { base, pieces: n.spans()? });
    }
    n.end()?;
    Ok((job, fragments))
}

fn put_rows(out: &mut Vec<u64>, rows: &[Row]) {
    out.push(rows.len() as u64);
    for r in rows {
        out.extend([r.chrom, r.start, r.stop]);
    }
}

fn put_spans(out: &mut Vec<u64>, spans: &[Span]) {
    out.push(spans.len() as u64);
    for s in spans {
        out.extend([s.0, s.1]);
    }
}

fn join(numbers: &[u64]) -> String {
    let words: Vec<String> = numbers.iter().map(|n| n.to_string()).collect();
    words.join(" ")
}

/// The numbers of a sweep job, as `read_sweep` takes them.
pub fn write_sweep(job: &Sweep) -> String {
    let mut out = vec![job.lengths.len() as u64, job.streams.len() as u64];
    for s in &job.streams {
        put_rows(&mut out, s);
    }
    put_rows(&mut out, &job.bases);
    join(&out)
}

/// The numbers of a parts job, as `read_parts` takes them.
pub fn write_parts(job: &Parts) -> String {
    let mut out = vec![job.a as u64, job.b as u64, job.base.0, job.base.1];
    put_spans(&mut out, &job.records);
    join(&out)
}

/// A recorded line of the sweep: the job, then for each base `n stream row ..`.
pub fn record_sweep(job: &Sweep, answers: &[Vec<Hit>]) -> String {
    let mut out = Vec::new();
    for a in answers {
        let spans: Vec<Span> = a.iter().map(|h| (h.0 as u64, h.1 as u64)).collect();
        put_spans(&mut out, &spans);
    }
    let tail = join(&out);
    if tail.is_empty() {
        write_sweep(job)
    } else {
        format!("{} {}", write_sweep(job), tail)
    }
}

/// A recorded line of the parts: the job, the number of fragments, then each fragment.
pub fn record_parts(job: &Parts, fragments: &[Fragment]) -> String {
    let mut out = vec![fragments.len() as u64];
    for f in fragments {
        match f.base {
            Some((s, e)) => out.extend([1, s, e]),
            None => out.extend([0, 0, 0]),
        }
        put_spans(&mut out, &f.pieces);
    }
    format!("{} {}", write_parts(job), join(&out))
}
