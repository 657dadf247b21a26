//! Files in, the listing out.

use crate::progress::Progress;
use crate::usage::{self, Job};
use cedarlash::blocks::{Block, Blocks};
use cedarlash::{lines, words, Answer, BadText, Base, Columns, End, Genome, ReadError, Records, Rows, Sweep};
use std::convert::Infallible;
use std::ffi::OsStr;
use std::fs::File;
use std::io::{self, ErrorKind, Read, Write};
use std::os::fd::AsFd;

/// Why the command ends with 2.
pub enum Trouble {
    Said(String),
    /// Nobody reads the listing any more.
    Silent,
}

/// How much of the bases is read at a time, and about how much of the listing is written at a time.
const BASES: usize = 64 * 1024;
const WRITE: usize = 256 * 1024;

/// The listing on its way to standard output.
struct Out {
    file: File,
    lines: Vec<u8>,
}

impl Out {
    fn new() -> Result<Self, Trouble> {
        let file = io::stdout().as_fd().try_clone_to_owned().map_err(unwritten)?;
        Ok(Out { file: File::from(file), lines: Vec::with_capacity(WRITE + 512) })
    }

    /// Writes what there is.
    fn flush(&mut self) -> Result<(), Trouble> {
        self.file.write_all(&self.lines).map_err(unwritten)?;
        self.lines.clear();
        Ok(())
    }

    /// Writes if there is enough.
    fn relieve(&mut self) -> Result<(), Trouble> {
        if self.lines.len() < WRITE {
            return Ok(());
        }
        self.flush()
    }
}

fn unwritten(e: io::Error) -> Trouble {
    match e.kind() {
        ErrorKind::BrokenPipe => Trouble::Silent,
        _ => Trouble::Said(format!("standard output: {e}")),
    }
}

/// A file's name as it is spoken of.
fn called(file: &OsStr) -> String {
    if file == "-" {
        return "standard input".to_string();
    }
    file.display().to_string()
}

fn open(file: &OsStr) -> Result<File, Trouble> {
    let opened = match file == "-" {
        true => io::stdin().as_fd().try_clone_to_owned().map(File::from),
        false => File::open(file),
    };
    opened.map_err(|e| unread(file, e))
}

fn unread(file: &OsStr, e: io::Error) -> Trouble {
    Trouble::Said(format!("{}: {e}", called(file)))
}

/// A fault of a text: its line in the listing, and the words for standard error.
fn fault(out: &mut Out, file: &OsStr, text: usize, ahead: u64, bad: BadText) -> Trouble {
    lines::fault(&mut out.lines, bad.number, text, ahead + bad.rows as u64);
    match out.flush() {
        Err(trouble) => trouble,
        Ok(()) => Trouble::Said(format!("{}: {bad}", called(file))),
    }
}

/// Writes the help.
pub fn help() -> Result<bool, Trouble> {
    let mut out = Out::new()?;
    out.lines.extend_from_slice(usage::HELP.as_bytes());
    out.flush()?;
    Ok(true)
}

/// Lists the job; whether every base was answered.
pub fn run(job: &Job) -> Result<bool, Trouble> {
    let mut out = Out::new()?;
    let mut progress = Progress::new();
    // Every file is opened first: a name mistyped is said before the work.
    let mut list = open(&job.list)?;
    let bases = open(&job.bases)?;
    let streams: Vec<File> = job.streams.iter().map(|s| open(s)).collect::<Result<_, _>>()?;
    let mut text = Vec::new();
    list.read_to_end(&mut text).map_err(|e| unread(&job.list, e))?;
    let genome = Genome::read(text).map_err(|bad| fault(&mut out, &job.list, 0, 0, bad))?;
    let mut columns = Columns::new();
    for (k, source) in streams.into_iter().enumerate() {
        let file = &job.streams[k];
        let heed = |rows| progress.tell(|| format!("{}: {rows} rows", called(file)));
        match columns.add_reader(&genome, source, heed) {
            Ok(_) => {}
            Err(ReadError::Io(e)) => return Err(unread(file, e)),
            Err(ReadError::Bad(bad)) => return Err(fault(&mut out, file, k + 2, 0, bad)),
        }
    }
    let sweep = Sweep::begin(&genome, &columns, job.room).map_err(|no| Trouble::Said(no.to_string()))?;
    let walk = Walk { job, sweep, out, progress, row: 0, refused: 0, first: None };
    walk.all(bases)
}

/// The lines of a base and its records.
fn answered(out: &mut Vec<u8>, genome: &Genome, columns: &Columns, base: Base, records: Records) {
    lines::base(out, genome.name(base.chrom).unwrap_or_default(), base.start, base.stop, records.len());
    for (stream, row) in records.iter() {
        let at = columns.get(stream, row).expect("a record of an answer is a row of the columns");
        lines::record(out, stream, row, at.start, at.stop);
    }
}

/// The bases of a job on their way through the run.
struct Walk<'a> {
    job: &'a Job,
    sweep: Sweep<'a>,
    out: Out,
    progress: Progress,
    /// The next base's row.
    row: u64,
    /// How many were refused, and the first of them: its line and the number.
    refused: u64,
    first: Option<(u64, u64)>,
}

impl Walk<'_> {
    /// Gives all bases, block by block; whether every one was answered.
    fn all(mut self, bases: File) -> Result<bool, Trouble> {
        let mut blocks = Blocks::new(bases, BASES);
        let mut rows = Rows::default();
        loop {
            // What is known is told before more is waited for.
            self.out.flush()?;
            let (row, job) = (self.row, self.job);
            self.progress.tell(|| format!("{row} bases"));
            let Some(block) = blocks.next_block().map_err(|e| unread(&job.bases, e))? else {
                return self.close();
            };
            rows.truncate(0);
            let read = rows.read(self.sweep.genome(), block);
            if let Some(end) = self.block(&rows, block)? {
                self.out.flush()?;
                return self.ended(end);
            }
            if let Err(bad) = read {
                return Err(fault(&mut self.out, &job.bases, 1, row, bad));
            }
        }
    }

    /// Gives the bases of a block, many at once; the end, with the line of its base, if the run has ended.
    fn block(&mut self, rows: &Rows, block: Block) -> Result<Option<(u64, End)>, Trouble> {
        let mut next = 0;
        while next < rows.len() {
            let (behind, stopped) = self.batch(rows, next)?;
            next = behind;
            match stopped {
                None => continue,
                Some(Answer::Refused(number)) => {
                    lines::refused(&mut self.out.lines, number, self.row, None);
                    self.refused += 1;
                    self.first.get_or_insert_with(|| (block.line_of(behind - 1), number));
                }
                Some(Answer::Ended(end)) => {
                    lines::refused(&mut self.out.lines, end.number, self.row, end.record);
                    return Ok(Some((block.line_of(behind - 1), end)));
                }
            }
            self.row += 1;
            self.out.relieve()?;
        }
        Ok(None)
    }

    /// Gives bases from this row on and writes the lines of those that are answered; where to go on, and what the one ahead of
    /// that got, if not records.
    fn batch(&mut self, rows: &Rows, from: usize) -> Result<(usize, Option<Answer<Infallible>>), Trouble> {
        let (genome, columns) = (self.sweep.genome(), self.sweep.columns());
        let batch = self.sweep.give_all(rows, from);
        for (base, records) in batch.iter() {
            answered(&mut self.out.lines, genome, columns, base, records);
            self.row += 1;
            self.out.relieve()?;
        }
        Ok((batch.behind(), batch.stopped))
    }

    /// All bases were given: says how many were refused.
    fn close(self) -> Result<bool, Trouble> {
        drop(self.progress);
        let Some((line, number)) = self.first else {
            return Ok(true);
        };
        let file = called(&self.job.bases);
        let more = if self.refused > 1 { format!(" ({} bases were refused)", self.refused) } else { String::new() };
        eprintln!("cedarlash sweep: {file}: line {line}: refusal {number}: {}{more}", words(number));
        Ok(false)
    }

    /// The run has ended: says at which base, and by which record.
    fn ended(self, (line, end): (u64, End)) -> Result<bool, Trouble> {
        drop(self.progress);
        let base = format!("{}: line {line}", called(&self.job.bases));
        let why = format!("refusal {}: {}", end.number, words(end.number));
        match end.record.and_then(|(stream, row)| Some((self.job.streams.get(stream)?, row))) {
            Some((file, row)) => {
                eprintln!("cedarlash sweep: {}: row {row} (from 0): {why}; the run ended at {base}", called(file))
            }
            None => eprintln!("cedarlash sweep: {base}: {why} (-q {}); the run ended", self.job.room),
        }
        Ok(false)
    }
}
