//! The words of the command line.

use cedarlash::MOST_ROOM;
use std::ffi::{OsStr, OsString};

pub const SHORT: &str = "usage: ./cedarlash sweep -g LIST -a BASES -b STREAM... [-q ROOM]   (--help says more)";

pub const HELP: &str = "usage: ./cedarlash sweep -g LIST -a BASES -b STREAM... [-q ROOM]

Lists, for each base, the records of the streams that overlap it.

  -g LIST       the chromosomes in their order: a name and, where known, a tab and the length
  -a BASES      the bases, BED: name, start, stop parted by tabs; by chromosome, start and stop
  -b STREAM...  one to eight streams of records, BED, by chromosome and start. Stream 0 is the first
  -q ROOM       how many records may wait for later bases, 1 to 65536 (default 65536)
  --help        this text

'-' is standard input, for one of the files. Files have no limit of size or rows; the streams are held in memory, 24 bytes
a row, the bases are not. The listing, fields parted by tabs:

  B NAME START STOP COUNT       a base and how many records overlap it
  R STREAM ROW START STOP       each of these, in merged order; rows count from 0
  X NUMBER BASE                 base number BASE (from 0) was refused, or the run ended there
  X NUMBER BASE STREAM ROW      the same, by this record (7 and 8)
  X NUMBER TEXT ROWS            this text (0 the list, 1 the bases, 2 and up the streams) has a fault behind ROWS good rows

A base's lines are written before the next bases are waited for. A malformed line of the bases is met when it is reached:
the lines ahead of it stand, and X is the last.

Exit status: 0 every base was answered; 1 a base was refused or the run ended; 2 the command line or a file is at fault, or
the listing could not be written (standard error says which file and line; a closed pipe is not spoken of).
";

/// What the command line asks for.
pub enum Asked {
    Help,
    Job(Job),
}

pub struct Job {
    pub list: OsString,
    pub bases: OsString,
    pub streams: Vec<OsString>,
    pub room: usize,
}

/// Whether a word is an option; `-` alone is a file.
fn is_option(word: &OsStr) -> bool {
    word.as_encoded_bytes().starts_with(b"-") && word != "-"
}

/// Reads the words, or says what is wrong with them.
pub fn read(words: Vec<OsString>) -> Result<Asked, String> {
    let (mut list, mut bases, mut room, mut streams) = (None, None, None, Vec::new());
    let mut words = words.into_iter().peekable();
    while let Some(word) = words.next() {
        let mut file = || words.next_if(|w| !is_option(w)).ok_or(format!("{} needs a word after it", word.display()));
        match word.as_encoded_bytes() {
            b"--help" | b"-h" => return Ok(Asked::Help),
            b"-g" => once(&mut list, &word, file()?)?,
            b"-a" => once(&mut bases, &word, file()?)?,
            b"-q" => once(&mut room, &word, file()?)?,
            b"-b" => {
                streams.push(file()?);
                while let Some(more) = words.next_if(|w| !is_option(w)) {
                    streams.push(more);
                }
            }
            _ => return Err(format!("'{}' is no option, and no option takes it", word.display())),
        }
    }
    let job = Job {
        list: list.ok_or("-g LIST is missing")?,
        bases: bases.ok_or("-a BASES is missing")?,
        streams,
        room: room.map_or(Ok(MOST_ROOM), |word| room_of(&word))?,
    };
    judged(job).map(Asked::Job)
}

fn once(slot: &mut Option<OsString>, word: &OsStr, value: OsString) -> Result<(), String> {
    match slot.replace(value) {
        None => Ok(()),
        Some(_) => Err(format!("{} is there twice", word.display())),
    }
}

fn room_of(word: &OsStr) -> Result<usize, String> {
    let room = word.to_str().and_then(|w| w.parse().ok()).filter(|room| (1..=MOST_ROOM).contains(room));
    room.ok_or(format!("-q takes a number from 1 to {MOST_ROOM}, not '{}'", word.display()))
}

/// Counts streams, and files that are standard input.
fn judged(job: Job) -> Result<Job, String> {
    match job.streams.len() {
        0 => return Err("-b STREAM is missing".to_string()),
        1..=8 => {}
        n => return Err(format!("{n} streams; there may be 8")),
    }
    let files = [&job.list, &job.bases].into_iter().chain(&job.streams);
    if files.filter(|f| *f == "-").count() > 1 {
        return Err("only one file can be '-', standard input".to_string());
    }
    Ok(job)
}
