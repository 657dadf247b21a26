//! The command's words, statuses and messages.

use crate::files::{said, tabs, Folder};
use std::fs::File;
use std::io::{BufRead, BufReader, Read, Write};
use std::process::{Command, Stdio};
use std::sync::mpsc;
use std::time::Duration;

/// A folder with 01's example: g, a, b.
fn sample() -> Folder {
    let folder = Folder::new();
    folder.put("g", tabs("one 1000\ntwo\n"));
    folder.put("a", tabs("one 25 35\n"));
    folder.put("b", tabs("one 0 100\none 10 20\none 30 40\n"));
    folder
}

const LISTING: &str = "B\tone\t25\t35\t2\nR\t0\t0\t0\t100\nR\t0\t2\t30\t40\n";

fn fine(folder: &Folder, words: &str, wanted: &str) {
    let words: Vec<&str> = words.split(' ').collect();
    assert_eq!(folder.run(&words), (0, wanted.to_string(), String::new()), "{words:?}");
}

/// The status is 2, nothing is listed but `listed`, and standard error has `why` in it.
fn fails(folder: &Folder, words: &str, listed: &str, why: &str) {
    let words: Vec<&str> = words.split(' ').filter(|w| !w.is_empty()).collect();
    let (status, out, said) = folder.run(&words);
    assert_eq!((status, out), (2, listed.replace(' ', "\t")), "{words:?}");
    assert!(said.starts_with("cedarlash sweep: ") && said.contains(why), "{words:?}: {said}");
}

#[test]
fn words_in_any_order() {
    let folder = sample();
    fine(&folder, "-g g -a a -b b", LISTING);
    fine(&folder, "-b b -q 2 -a a -g g", LISTING);
    let twice = "B\tone\t25\t35\t4\nR\t0\t0\t0\t100\nR\t1\t0\t0\t100\nR\t0\t2\t30\t40\nR\t1\t2\t30\t40\n";
    fine(&folder, "-g g -b b b -a a", twice);
    fine(&folder, "-b b -g g -b b -a a", twice);
    fine(&folder, "-g g -a b -b /dev/null", "B\tone\t0\t100\t0\nB\tone\t10\t20\t0\nB\tone\t30\t40\t0\n");
    fine(&folder, "-g g -a /dev/null -b b", "");
}

#[test]
fn bad_usage() {
    let folder = sample();
    for (words, why) in [
        ("", "-g LIST is missing"),
        ("-g g -b b", "-a BASES is missing"),
        ("-g g -a a", "-b STREAM is missing"),
        ("-g g -a a -b", "-b needs a word after it"),
        ("-g -a a -b b", "-g needs a word after it"),
        ("-g g -g g -a a -b b", "-g is there twice"),
        ("g -a a -b b", "'g' is no option"),
        ("-g g -a a -b b --frob", "'--frob' is no option"),
        ("-g g -a a -b b -q 0", "-q takes a number from 1 to 65536"),
        ("-g g -a a -b b -q 65537", "-q takes a number from 1 to 65536"),
        ("-g g -a a -b b -q x", "not 'x'"),
        ("-g g -a a -b b b b b b b b b b", "9 streams"),
        ("-g g -a - -b b -b -", "only one file"),
    ] {
        fails(&folder, words, "", why);
        fails(&folder, words, "", "usage: ./cedarlash sweep -g LIST -a BASES -b STREAM...");
    }
}

#[test]
fn help() {
    let (status, out, said) = Folder::new().run(&["--help"]);
    assert!(status == 0 && said.is_empty() && out.starts_with("usage: ./cedarlash sweep"));
}

#[test]
fn files_that_cannot_be_read() {
    let folder = sample();
    for words in ["-g no -a a -b b", "-g g -a no -b b", "-g g -a a -b b no"] {
        fails(&folder, words, "", "no: No such file");
    }
    for words in ["-g . -a a -b b", "-g g -a . -b b", "-g g -a a -b ."] {
        fails(&folder, words, "", ".: Is a directory");
    }
}

#[test]
fn malformed_lines() {
    let folder = sample();
    folder.put("bad", tabs("#\n\none 1 2\n#\none 3\none 4 5\n"));
    fails(&folder, "-g bad -a a -b b", "X 11 0 0\n", "bad: line 3: refusal 11: text line malformed");
    fails(&folder, "-g g -a a -b b bad", "X 11 3 1\n", "bad: line 5: refusal 11: text line malformed");
    fails(&folder, "-g g -a bad -b b", "B one 1 2 1\nR 0 0 0 100\nX 11 1 1\n", "bad: line 5: refusal 11: text line");
    folder.put("twice", "one\n\none\n");
    fails(&folder, "-g twice -a a -b b", "X 2 0 0\n", "twice: line 3: refusal 2: a chromosome name is empty");
    fails(&folder, "-g /dev/null -a a -b b", "X 1 0 0\n", "/dev/null: refusal 1: a size is broken");
    // Far behind the first block, with lines of all kinds ahead.
    let good = "one\t1\t2\n\n#\n".repeat(30_000);
    folder.put("far", format!("{good}one\t1\t-2\n{good}"));
    fails(&folder, "-g g -a a -b far", "X 11 2 30000\n", "far: line 90001: refusal 11");
    let (status, out, said) = folder.run(&["-g", "g", "-a", "far", "-b", "/dev/null"]);
    assert_eq!((status, said.as_str()), (2, "cedarlash sweep: far: line 90001: refusal 11: text line malformed\n"));
    assert_eq!(out, "B\tone\t1\t2\t0\n".repeat(30_000) + "X\t11\t1\t30000\n");
}

#[test]
fn refused_bases_and_ended_runs() {
    let folder = sample();
    folder.put("refused", tabs("one 25 35\n\none 1 2\n#\nthree 1 2\ntwo 1 1\n"));
    let (status, out, said) = folder.run(&["-g", "g", "-a", "refused", "-b", "b"]);
    assert_eq!((status, out), (1, format!("{LISTING}X\t5\t1\nX\t4\t2\nB\ttwo\t1\t1\t0\n")));
    assert_eq!(said, "cedarlash sweep: refused: line 3: refusal 5: base out of order (2 bases were refused)\n");
    folder.put("unsorted", tabs("one 1 2\n#\none 9 9\none 8 8\n"));
    folder.put("bases", tabs("#\none 0 3\none 9 10\none x\n"));
    let (status, out, said) = folder.run(&["-g", "g", "-a", "bases", "-b", "b", "unsorted"]);
    assert_eq!((status, out), (1, "B\tone\t0\t3\t2\nR\t0\t0\t0\t100\nR\t1\t0\t1\t2\nX\t8\t1\t1\t2\n".to_string()));
    let why = "unsorted: row 2 (from 0): refusal 8: stream record out of order; the run ended at bases: line 3\n";
    assert_eq!(said, format!("cedarlash sweep: {why}"));
    let (status, out, said) = folder.run(&["-g", "g", "-a", "a", "-b", "b", "-q", "1"]);
    assert_eq!((status, out.as_str()), (1, "X\t9\t0\n"));
    assert_eq!(said, "cedarlash sweep: a: line 1: refusal 9: no room in the queue (-q 1); the run ended\n");
}

/// The room is what `-q` says, or as large as it can be.
#[test]
fn room() {
    let folder = sample();
    let wait = |count: usize, words: &[&str]| {
        folder.put("wait", "one\t0\t1000\n".repeat(count));
        let (status, out, _) = folder.run(&[&["-g", "g", "-a", "a", "-b", "wait"], words].concat());
        match status {
            0 => {
                let records = (0..count).map(|row| format!("R\t0\t{row}\t0\t1000\n"));
                assert_eq!(out, format!("B\tone\t25\t35\t{count}\n") + &records.collect::<String>());
            }
            _ => assert_eq!((status, out.as_str()), (1, "X\t9\t0\n")),
        }
        status == 0
    };
    assert!(wait(3000, &["-q", "3000"]) && !wait(3001, &["-q", "3000"]));
    assert!(wait(65_536, &[]) && !wait(65_537, &[]) && wait(1, &["-q", "1"]));
}

#[test]
fn standard_input() {
    let folder = sample();
    for (words, file) in [("-g - -a a -b b", "g"), ("-g g -a - -b b", "a"), ("-g g -a a -b -", "b")] {
        let words: Vec<&str> = words.split(' ').collect();
        let output = folder.sweep(&words).stdin(File::open(folder.0.join(file)).unwrap()).output().unwrap();
        assert_eq!(said(output), (0, LISTING.to_string(), String::new()));
    }
    let mut child = folder.sweep(&["-g", "g", "-a", "-", "-b", "b"]).stdin(Stdio::piped()).spawn().unwrap();
    child.stdin.take().unwrap().write_all(&tabs("one 1\n")).unwrap();
    let (status, _, why) = said(child.wait_with_output().unwrap());
    assert_eq!(
        (status, why.as_str()),
        (2, "cedarlash sweep: standard input: line 1: refusal 11: text line malformed\n")
    );
}

/// A base's lines come before the next base is there.
#[test]
fn output_begins_before_the_last_base() {
    let folder = sample();
    let mut child = folder.sweep(&["-g", "g", "-a", "-", "-b", "b"]).stdin(Stdio::piped()).spawn().unwrap();
    let (mut bases, listing) = (child.stdin.take().unwrap(), BufReader::new(child.stdout.take().unwrap()));
    let (send, listed) = mpsc::channel();
    std::thread::spawn(move || listing.lines().for_each(|line| drop(send.send(line.unwrap()))));
    let lines = |count: usize| -> Vec<String> {
        let next = || listed.recv_timeout(Duration::from_secs(10)).expect("a line before the next base is there");
        (0..count).map(|_| next()).collect()
    };
    bases.write_all(b"one\t0\t5\none\t7").unwrap();
    assert_eq!(lines(2), ["B\tone\t0\t5\t1", "R\t0\t0\t0\t100"]);
    bases.write_all(b"0\t80\nthree\t1\t2\n").unwrap();
    assert_eq!(lines(3), ["B\tone\t70\t80\t1", "R\t0\t0\t0\t100", "X\t4\t2"]);
    bases.write_all(b"two\t0\t5").unwrap();
    drop(bases);
    assert_eq!(lines(1), ["B\ttwo\t0\t5\t0"]);
    assert_eq!(child.wait().unwrap().code(), Some(1));
}

#[test]
fn a_closed_pipe_is_not_spoken_of() {
    let folder = sample();
    folder.put("many", "one\t5\t6\n".repeat(200_000));
    let mut child = folder.sweep(&["-g", "g", "-a", "many", "-b", "b"]).spawn().unwrap();
    let mut listing = child.stdout.take().unwrap();
    listing.read_exact(&mut [0; 100]).unwrap();
    drop(listing);
    let mut why = String::new();
    child.stderr.take().unwrap().read_to_string(&mut why).unwrap();
    assert_eq!((child.wait().unwrap().code(), why.as_str()), (Some(2), ""));
}

#[test]
fn a_failed_write_is_reported() {
    let folder = sample();
    for words in ["-g g -a a -b b", "-g a -a a -b b", "--help"] {
        let words: Vec<&str> = words.split(' ').collect();
        let full = File::create("/dev/full").unwrap();
        let (status, _, why) = said(folder.sweep(&words).stdout(full).output().unwrap());
        assert_eq!(status, 2);
        assert!(why.starts_with("cedarlash sweep: standard output: No space left on device"), "{why}");
    }
}

/// The front door takes the user's own relative paths.
#[test]
fn by_the_script() {
    let door = concat!(env!("CARGO_MANIFEST_DIR"), "/../cedarlash");
    let folder = sample();
    let output = Command::new(door).args(["sweep", "-g", "g", "-a", "a", "-b", "b"]).current_dir(&folder.0).output();
    assert_eq!(said(output.unwrap()), (0, LISTING.to_string(), String::new()));
}
