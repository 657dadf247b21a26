//! Jobs that are written down: 01's cases, sizes at their limits, bad ends, the Rust's recorded jobs, buffers.
//!
//! In the texts and listings of this file a space stands for a tab. A listing written here is held to the witness, and
//! the subject to the witness.

use crate::bench::{Bench, Held, Room};
use crate::make;
use crate::rng::Rng;
use cedarlash::{join, paper};

const LIST: &str = "one 1000\ntwo\n";

/// Spaces as tabs.
fn tabs(text: &str) -> Vec<u8> {
    text.replace(' ', "\t").into_bytes()
}

/// Tries the job of `texts` (the list, the bases, the streams), whose listing is `wanted`.
fn hold(b: &mut Bench, texts: &[&str], wanted: &str) -> Held {
    let texts: Vec<Vec<u8>> = texts.iter().map(|t| tabs(t)).collect();
    hold_bytes(b, &texts, &tabs(wanted))
}

/// The same with bytes as they stand.
fn hold_bytes(b: &mut Bench, texts: &[Vec<u8>], wanted: &[u8]) -> Held {
    let texts: Vec<&[u8]> = texts.iter().map(Vec::as_slice).collect();
    let (text, ends) = join(texts[0], texts[1], &texts[2..]);
    let listing = paper::lines(&text, &ends).concat();
    assert!(listing == wanted, "the witness leaves the written listing {:?}: {:?}", show(wanted), show(&listing));
    b.ends(&text, &ends, Room::Ample)
}

fn show(bytes: &[u8]) -> String {
    String::from_utf8_lossy(&bytes[..bytes.len().min(300)]).into_owned()
}

/// `n` lines, each made of its number.
fn lines(n: usize, line: impl Fn(usize) -> String) -> String {
    (0..n).map(|i| line(i) + "\n").collect()
}

/// 01's example and those of its boundary cases that a listing shows (Q = 1,024, offers and fragments aside).
pub fn paper(b: &mut Bench) -> Held {
    let three = "one 0 100\none 10 20\none 30 40\n";
    hold(b, &[LIST, "one 25 35\none 40 30\n", three], "B one 25 35 2\nR 0 0 0 100\nR 0 2 30 40\nX 6 1\n")?;
    hold(b, &[LIST, "one 10 20\n", "one 0 10\none 20 30\n"], "B one 10 20 0\n")?;
    hold(b, &[LIST, "one 25 35\n", three], "B one 25 35 2\nR 0 0 0 100\nR 0 2 30 40\n")?;
    hold(b, &[LIST, "one 5 5\n", "one 3 8\none 5 5\n"], "B one 5 5 1\nR 0 0 3 8\n")?;
    hold(b, &[LIST, "one 3 8\n", "one 5 5\n"], "B one 3 8 1\nR 0 0 5 5\n")?;
    hold(b, &[LIST, "one 0 6\n", "one 5 9\n", "one 5 9\none 5 7\n"], "B one 0 6 3\nR 0 0 5 9\nR 1 0 5 9\nR 1 1 5 7\n")?;
    hold(b, &[LIST, "one 10 30\none 10 20\none 10 30\n", ""], "B one 10 30 0\nX 5 1\nB one 10 30 0\n")?;
    hold(b, &[LIST, "one 990 1000\none 990 1001\n", ""], "B one 990 1000 0\nX 3 1\n")?;
    hold(b, &[LIST, "two 990 1000\ntwo 990 1001\n", ""], "B two 990 1000 0\nB two 990 1001 0\n")?;
    hold(
        b,
        &[LIST, "one 0 5\none 25 35\none 32 60\n", "one 0 100\none 10 20\none 30 40\none 50 60\n"],
        "B one 0 5 1\nR 0 0 0 100\nB one 25 35 2\nR 0 0 0 100\nR 0 2 30 40\nB one 32 60 3\nR 0 0 0 100\nR 0 2 30 40\nR 0 3 50 60\n",
    )?;
    hold(
        b,
        &[LIST, "one 0 100\none 1 2\n", "one 10 12\none 50 60\n"],
        "B one 0 100 2\nR 0 0 10 12\nR 0 1 50 60\nB one 1 2 0\n",
    )?;
    hold(b, &[LIST, "two 0 10\n", "two 100011 100020\n"], "B two 0 10 0\n")?;
    hold(
        b,
        &[LIST, "two 0 10\ntwo 60 70\n", "two 5 50\ntwo 200000 200010\ntwo 900000 900010\n"],
        "B two 0 10 1\nR 0 0 5 50\nB two 60 70 0\n",
    )?;
    hold(b, &[LIST, "two 0 10\n", "two 5 9\none 10 12\n"], "X 8 0 0 1\n")
}

/// Every size at its limit and past it, and the order in which things are judged.
pub fn edges(b: &mut Bench) -> Held {
    sizes(b)?;
    names(b)?;
    numbers(b)?;
    row_counts(b)?;
    forms(b)?;
    order_before(b)?;
    order_in_run(b)?;
    nines(b)?;
    longest(b)
}

/// Streams and bytes in all.
fn sizes(b: &mut Bench) -> Held {
    for streams in 0..13 {
        let mut texts = vec![LIST, "one 0 9\n"];
        texts.resize(2 + streams, "one 5 6\n");
        let answer = format!("B one 0 9 {streams}\n") + &lines(streams, |s| format!("R {s} 0 5 6"));
        hold(b, &texts, if (1..=8).contains(&streams) { &answer } else { "X 1 0 0\n" })?;
    }
    for total in [65_535, 65_536, 65_537, 65_538, 70_000, 140_000] {
        let answer = if total > 65_536 { "X 1 0 0\n" } else { "B one 0 9 1\nR 0 0 5 6\n" };
        let fill = |used: usize| "#".repeat(total - used);
        // The bytes stand in the list, the bases and the stream in turn; "one 0 9" and the others have 7 bytes each.
        hold(b, &[&("one\n".to_string() + &fill(18)), "one 0 9", "one 5 6"], answer)?;
        hold(b, &["one", &("one 0 9\n".to_string() + &fill(18)), "one 5 6"], answer)?;
        hold(b, &["one", "one 0 9", &("one 5 6\n".to_string() + &fill(18))], answer)?;
        hold(b, &["one", "one 0 9", "one 5 6", &fill(17)], answer)?;
    }
    Ok(())
}

/// Counts and lengths of names.
fn names(b: &mut Bench) -> Held {
    for n in [0, 1, 2, 255, 256, 257, 258, 1023, 1024] {
        let list = lines(n, |i| format!("n{i}"));
        let last = n.max(1) - 1;
        let answer = format!("B n{last} 0 9 1\nR 0 0 5 6\n");
        let answer = if (1..=256).contains(&n) { &answer } else { "X 1 0 0\n" };
        hold(b, &[&list, &format!("n{last} 0 9"), &format!("n{last} 5 6")], answer)?;
    }
    hold(b, &["#\n\n#one\n", "", ""], "X 1 0 0\n")?;
    for n in [1, 2, 254, 255, 256, 257, 1000] {
        let name = "n".repeat(n);
        let answer = format!("B {name} 0 9 1\nR 0 0 5 6\n");
        let answer = if n <= 255 { &answer } else { "X 2 0 0\n" };
        hold(b, &[&name, &format!("{name} 0 9"), &format!("{name} 5 6")], answer)?;
        // Long names elsewhere are only names that are not on the list.
        hold(b, &["one", &format!("{name}x 0 9\none 0 9"), ""], "X 4 0\nB one 0 9 0\n")?;
        hold(b, &["one", "one 0 9", &format!("{name}x 0 9\none 0 9")], "X 7 0 0 0\n")?;
    }
    hold(b, &["a\nA\n", "A 0 1\nB 0 1", "a 0 1\nA 0 1"], "B A 0 1 1\nR 0 1 0 1\nX 4 1\n")?;
    hold(b, &["a\nb\na\n", "a 0 1\n", ""], "X 2 0 0\n")?;
    hold(b, &["a 5\nb\na 7\n", "a 0 1\n", ""], "X 2 0 0\n")?;
    hold(b, &["a\n 5\n", "a 0 1\n", ""], "X 2 0 0\n")?;
    // A name is the whole field.
    hold(
        b,
        &["a\nab\nabc\n", "ab 0 1\nabc 0 1\nabcd 0 1\nb 0 1\n", "a 0 1\nab 0 1\nabc 0 2\n"],
        "B ab 0 1 1\nR 0 1 0 1\nB abc 0 1 1\nR 0 2 0 2\nX 4 2\nX 4 3\n",
    )?;
    let bytes: Vec<u8> = (0..=255).filter(|b| !b"\t\n#".contains(b)).collect();
    let base = [&bytes[..], b"\t0\t9\n"].concat();
    let answer = [b"B\t", &bytes[..], b"\t0\t9\t1\nR\t0\t0\t0\t9\n"].concat();
    hold_bytes(b, &[bytes, base.clone(), base], &answer)
}

/// Numbers: 0, the largest, one more, and how many digits.
fn numbers(b: &mut Bench) -> Held {
    let good = [
        "0",
        "7",
        "00",
        "007",
        "9999999999999999999",
        "10000000000000000000",
        "18446744073709551614",
        "18446744073709551615",
        "00000000000000000000",
        "00000000000000000012",
    ];
    for text in good {
        let n: u64 = text.parse().expect("a good number");
        hold(b, &["a", &format!("a 0 {text}"), ""], &format!("B a 0 {n} 0\n"))?;
        hold(b, &["a", &format!("a {text} {text}"), ""], &format!("B a {n} {n} 0\n"))?;
        hold(b, &[&format!("a {text}"), &format!("a 0 {text}"), ""], &format!("B a 0 {n} 0\n"))?;
        let record = format!("a 0 18446744073709551615\na {text} {text}");
        let found = if n == 0 || n == u64::MAX { String::new() } else { format!("R 0 1 {n} {n}\n") };
        let count = 1 + usize::from(!found.is_empty());
        hold(
            b,
            &["a", "a 0 18446744073709551615", &record],
            &format!("B a 0 18446744073709551615 {count}\nR 0 0 0 18446744073709551615\n{found}"),
        )?;
    }
    let bad = [
        "",
        "18446744073709551616",
        "18446744073709551620",
        "18446744073709551625",
        "20000000000000000000",
        "99999999999999999999",
        "000000000000000000000",
        "000000000000000000001",
        "100000000000000000000",
        "184467440737095516150",
        "340282366920938463463374607431768211456",
        "-1",
        "+1",
        "0x1",
        "1_0",
        "1.0",
        "1e3",
        "a",
        "1a",
        "a1",
        "/",
        ":",
        "1/",
        "1:",
        "1\r",
        "\u{661}",
        "1,0",
    ];
    for text in bad {
        hold(b, &["a", &format!("a 0 1\na 0 {text}"), ""], "X 11 1 1\n")?;
        hold(b, &["a", &format!("a {text} 1"), ""], "X 11 1 0\n")?;
        hold(b, &["a", "a 0 1", "", &format!("a 0 {text}")], "X 11 3 0\n")?;
        hold(b, &["a", "a 0 1", &format!("a 0 1\n#\na {text} 5 6 7\n")], "X 11 2 1\n")?;
        hold(b, &[&format!("a\nb {text}"), "a 0 1", ""], "X 11 0 1\n")?;
    }
    let top = "18446744073709551615";
    hold(
        b,
        &[&format!("a {top}"), &format!("a 0 {top}\na {top} {top}"), &format!("a 0 {top}\na {top} {top}")],
        &format!("B a 0 {top} 1\nR 0 0 0 {top}\nB a {top} {top} 0\n"),
    )?;
    hold(b, &["a 0", "a 0 0\na 0 1", ""], "B a 0 0 0\nX 3 1\n")
}

/// 1,024 rows a text and one more.
fn row_counts(b: &mut Bench) -> Held {
    let rows = |n: usize| lines(n, |_| "a 0 0".into());
    for n in [1023, 1024, 1025, 1026, 2000] {
        let past = n > 1024;
        let answer = |text: usize| format!("X 12 {text} 1024\n");
        let bases = lines(n, |_| "B a 0 0 0".into());
        hold(b, &["a", &rows(n), ""], &if past { answer(1) } else { bases })?;
        hold(b, &["a", "a 0 0", &rows(n)], &if past { answer(2) } else { "B a 0 0 0\n".into() })?;
        let last = format!("a\na 0 0\n{}", rows(n));
        let texts: Vec<&str> = last.splitn(3, '\n').collect();
        let eight = [&texts[..2], &[""; 7], &texts[2..]].concat();
        hold(b, &eight, &if past { answer(9) } else { "B a 0 0 0\n".into() })?;
        // Passed lines are no rows; a bad line behind the row slots is not reached, one ahead of them is 11.
        let spread = rows(n).replace('\n', "\n\n#a 1 1 1 1\n#\n");
        hold(b, &["a", "a 0 0", &spread], &if past { answer(2) } else { "B a 0 0 0\n".into() })?;
        hold(b, &["a", &(rows(n) + "a"), ""], &if past { answer(1) } else { format!("X 11 1 {n}\n") })?;
        hold(b, &["a", &("a\n".to_string() + &rows(n)), ""], "X 11 1 0\n")?;
        // The list's rows count like any text's, and only then its names.
        let list = lines(n, |i| format!("n{i}"));
        hold(b, &[&list, "", ""], &if past { answer(0) } else { "X 1 0 0\n".into() })?;
        hold(b, &[&(list.clone() + "b x"), "", ""], &if past { answer(0) } else { format!("X 11 0 {n}\n") })?;
        hold(b, &[&lines(n, |_| " 5".into()), "", ""], &if past { answer(0) } else { "X 1 0 0\n".into() })?;
    }
    Ok(())
}

/// How lines and fields are read.
fn forms(b: &mut Bench) -> Held {
    let one = "B a 0 9 1\nR 0 0 5 6\n";
    hold(b, &["a", "a 0 9", "a 5 6"], one)?;
    hold(b, &["a\n", "a 0 9\n", "a 5 6\n"], one)?;
    hold(b, &["\n\na\n\n#b\n\n", "\n\n\na 0 9\n\n", "#\n\n#a 1 2\na 5 6\n\n#"], one)?;
    hold(b, &["a", "a 0 9 x y z", "a 5 6 "], one)?;
    hold(b, &["a", "a 0 9  ", "a 5 6 #"], one)?;
    hold(b, &["a 10", "a 0 9", "a 5 6 -1 18446744073709551616"], one)?;
    hold(b, &["a ", "", ""], "X 11 0 0\n")?;
    hold(b, &["a 5 ", "", ""], "X 11 0 0\n")?;
    hold(b, &["a 5 6", "", ""], "X 11 0 0\n")?;
    hold(b, &["b\na  ", "", ""], "X 11 0 1\n")?;
    hold(b, &[" ", "", ""], "X 11 0 0\n")?;
    hold(b, &["a", " 0 9", ""], "X 11 1 0\n")?;
    hold(b, &["a", "a", ""], "X 11 1 0\n")?;
    hold(b, &["a", "a 0", ""], "X 11 1 0\n")?;
    hold(b, &["a", "a 0 ", ""], "X 11 1 0\n")?;
    hold(b, &["a", "a  9", ""], "X 11 1 0\n")?;
    hold(b, &["a", "  ", ""], "X 11 1 0\n")?;
    hold(b, &["a", "", ""], "")?;
    hold(b, &["a", "#a 0 9", "x y z"], "X 11 2 0\n")?;
    hold(b, &["a", "", "z 9 1\na 5 6\na 0 1\n"], "")?;
    // BED v1's spaces part nothing here, and a carriage return is a byte like others.
    hold_bytes(b, &[b"a b\r\n".to_vec(), b"a b\r\t0\t9".to_vec(), b"a b\t5\t6".to_vec()], b"X\t7\t0\t0\t0\n")?;
    hold_bytes(
        b,
        &[b"a b\r\n".to_vec(), b"a b\r\t0\t9".to_vec(), b"a b\r\t5\t6".to_vec()],
        b"B\ta b\r\t0\t9\t1\nR\t0\t0\t5\t6\n",
    )?;
    hold_bytes(b, &[b"a".to_vec(), b"a 0 9\n".to_vec(), vec![]], b"X\t11\t1\t0\n")?;
    hold_bytes(b, &[b"a".to_vec(), b"a\t0\t9\r\n".to_vec(), vec![]], b"X\t11\t1\t0\n")?;
    hold_bytes(b, &[b"a".to_vec(), b"\r\n".to_vec(), vec![]], b"X\t11\t1\t0\n")
}

/// Which fault comes first before the run.
fn order_before(b: &mut Bench) -> Held {
    let many = lines(257, |i| format!("n{i}"));
    let bad = "a";
    hold(b, &["a x", bad, bad], "X 11 0 0\n")?;
    hold(b, &[" 5\na\na x", bad, bad], "X 11 0 2\n")?;
    hold(b, &["a\na\nb x", bad, bad], "X 11 0 2\n")?;
    hold(b, &[&(many.clone() + "n0\n 5"), bad, bad], "X 1 0 0\n")?;
    hold(b, &[&(many + "n0 x"), bad, bad], "X 11 0 257\n")?;
    hold(b, &["a\na", bad, bad], "X 2 0 0\n")?;
    hold(b, &[" 5", bad, bad], "X 2 0 0\n")?;
    hold(b, &["a", bad, bad], "X 11 1 0\n")?;
    hold(b, &["a", "a 0 9", "a 0 9\nb", bad], "X 11 2 1\n")?;
    hold(b, &["a", "a 0 9", "a 0 9\n", bad], "X 11 3 0\n")?;
    let rows = lines(1025, |_| "a 0 0".into());
    hold(b, &["a", &rows, bad], "X 12 1 1024\n")?;
    hold(b, &["a", bad, &rows], "X 11 1 0\n")?;
    hold(b, &["a", "", &rows, bad], "X 12 2 1024\n")?;
    hold(b, &["a", "", bad, &rows], "X 11 2 0\n")?;
    hold(b, &["a\na", &rows, ""], "X 2 0 0\n")?;
    // A fault of a text comes before every refusal of the run.
    hold(b, &["a", "z 0 9\na 9 0", "a 0 9\nb"], "X 11 2 1\n")
}

/// Which refusal comes first in the run, what it is measured from, and when the run ends.
fn order_in_run(b: &mut Bench) -> Held {
    let list = "one 1000\ntwo\nthree 10";
    // 4, 6, 3, 5
    hold(
        b,
        &[list, "z 9 1\none 2000 1500\none 5 9\none 0 1001\none 0 4", ""],
        "X 4 0\nX 6 1\nB one 5 9 0\nX 3 3\nX 5 4\n",
    )?;
    hold(
        b,
        &[list, "one 900 1001\none 5 9\none 4 3\none 4 1001\nz 0 0", ""],
        "X 3 0\nB one 5 9 0\nX 6 2\nX 3 3\nX 4 4\n",
    )?;
    // 5 is measured from the last accepted base: refused ones don't move it.
    hold(
        b,
        &[list, "one 5 9\none 900 1001\none 6 9\ntwo 7 6\none 6 10\none 6 9", ""],
        "B one 5 9 0\nX 3 1\nB one 6 9 0\nX 6 3\nB one 6 10 0\nX 5 5\n",
    )?;
    hold(
        b,
        &[list, "two 5 9\none 5 9\ntwo 5 8\ntwo 4 9\ntwo 5 9\nthree 0 1\ntwo 6 6", ""],
        "B two 5 9 0\nX 5 1\nX 5 2\nX 5 3\nB two 5 9 0\nB three 0 1 0\nX 5 6\n",
    )?;
    // Refused bases load nothing; heads are loaded and judged at the first accepted one, stream 0 first.
    hold(
        b,
        &[list, "z 0 1\none 9 8\none 0 1001\none 0 1\none 0 1", "", "one 5 4", "z 0 0"],
        "X 4 0\nX 6 1\nX 3 2\nX 7 3 1 0\n",
    )?;
    hold(b, &[list, "z 0 1\none 9 8", "", "one 5 4", "z 0 0"], "X 4 0\nX 6 1\n")?;
    // A fault shows when the row ahead of it is taken, not sooner, and 7 before 8.
    hold(b, &[list, "one 0 5\none 0 6\none 0 7", "one 5 9\nz 0 0"], "B one 0 5 0\nX 7 1 0 1\n")?;
    hold(
        b,
        &[list, "one 0 5\none 5 5\none 0 7\none 5 6", "one 5 9\none 5 9\none 4 9"],
        "B one 0 5 0\nB one 5 5 0\nX 5 2\nX 8 3 0 2\n",
    )?;
    hold(b, &[list, "two 0 5\ntwo 5 9", "two 5 9\none 6 5\n"], "B two 0 5 0\nX 7 1 0 1\n")?;
    hold(b, &[list, "one 0 9", "one 5 9\ntwo 3 2"], "X 7 0 0 1\n")?;
    hold(b, &[list, "one 0 9", "one 5 9\none 4 6"], "X 8 0 0 1\n")?;
    hold(b, &[list, "one 0 9", "one 5 9\none 5 6"], "B one 0 9 2\nR 0 0 5 9\nR 0 1 5 6\n")?;
    hold(b, &[list, "one 0 9\ntwo 0 9", "two 9 9\nz 0 0", "one 9 9\none 8 9"], "B one 0 9 0\nX 8 1 1 1\n")?;
    // Chromosomes passed by: their faults are met, their records are not.
    hold(
        b,
        &[list, "three 0 9\n", "one 5 9\ntwo 5 9\nthree 5 9\nthree 9 9", "two 0 9\nthree 0 9\n"],
        "B three 0 9 2\nR 1 1 0 9\nR 0 2 5 9\n",
    )?;
    hold(b, &[list, "three 0 9\n", "one 5 9\ntwo 5 9\none 5 9"], "X 8 0 0 2\n")?;
    hold(b, &[list, "one 0 9\n", "two 5 9\none 5 9"], "B one 0 9 0\n")?;
    // A record on the list's last chromosome and a stop past a known length are fine for a stream.
    hold(b, &[list, "three 0 9\n", "three 5 900"], "B three 0 9 1\nR 0 0 5 900\n")
}

/// 1,024 live records and one more.
fn nines(b: &mut Bench) -> Held {
    let many = |n: usize, line: &str| lines(n, |_| line.into());
    let found = |stream: usize, n: usize, at: &str| lines(n, |i| format!("R {stream} {i} {at}"));
    let full = many(1024, "a 0 9");
    hold(b, &["a", "a 0 1", &full, ""], &format!("B a 0 1 1024\n{}", found(0, 1024, "0 9")))?;
    hold(b, &["a", "a 0 1\na 0 1", &full, "a 0 9"], "X 9 0\n")?;
    // A record that ends at the base's start takes no room, taken before the others or after them.
    hold(b, &["a", "a 1 2\n", &full, "a 0 1"], &format!("B a 1 2 1024\n{}", found(0, 1024, "0 9")))?;
    hold(b, &["a", "a 2 3\n", &full, "a 1 2\na 2 2"], &format!("B a 2 3 1024\n{}", found(0, 1024, "0 9")))?;
    hold(b, &["a", "a 2 3\n", &full, "a 1 2\na 2 3"], "X 9 0\n")?;
    hold(
        b,
        &["a", "a 0 1\na 9 10", &full, "a 5 20"],
        &format!("B a 0 1 1024\n{}B a 9 10 1\nR 1 0 5 20\n", found(0, 1024, "0 9")),
    )?;
    hold(
        b,
        &["a", "a 0 1\na 8 10\na 9 10", &full, "a 5 20"],
        &format!("B a 0 1 1024\n{}X 9 1\n", found(0, 1024, "0 9")),
    )?;
    hold(
        b,
        &["a", "a 0 9\na 1 2\na 8 10", &many(1024, "a 5 9"), "a 9 20"],
        &format!("B a 0 9 1024\n{}B a 1 2 0\nX 9 2\n", found(0, 1024, "5 9")),
    )?;
    // Expired records take no room wherever they stand: here behind one that is still live.
    let behind = "a 0 90\n".to_string() + &many(1023, "a 0 9");
    let first = "B a 0 1 1024\nR 0 0 0 90\n".to_string() + &lines(1023, |i| format!("R 0 {} 0 9", i + 1));
    let answer = format!("{first}B a 50 60 1024\nR 0 0 0 90\n{}", found(1, 1023, "50 51"));
    hold(b, &["a", "a 0 1\na 50 60", &behind, &many(1023, "a 50 51")], &answer)?;
    hold(b, &["a", "a 0 1\na 50 60", &behind, &many(1024, "a 50 51")], &format!("{first}X 9 1\n"))?;
    // Another chromosome's records take no room either.
    hold(
        b,
        &["a\nb", "a 0 1\nb 0 1", &full, &many(1024, "b 0 9")],
        &format!("B a 0 1 1024\n{}B b 0 1 1024\n{}", found(0, 1024, "0 9"), found(1, 1024, "0 9")),
    )?;
    // The fault of a successor comes before the room.
    hold(b, &["a", "a 0 1", &full, "a 0 9\na 5 4"], "X 7 0 1 1\n")?;
    hold(b, &["a", "a 5 6", &many(1024, "a 5 9"), "a 5 9\na 4 9"], "X 8 0 1 1\n")
}

/// The longest listing that these tests make: 1,024 bases with 1,024 records each, some 15 megabytes.
fn longest(b: &mut Bench) -> Held {
    let rows = lines(1024, |_| "a 0 9".into());
    let answer = lines(1024, |i| format!("R 0 {i} 0 9"));
    let answer = format!("B a 0 9 1024\n{answer}").repeat(1024);
    hold(b, &["a\n", &rows, &rows], &answer)
}

/// Ends that cut nothing properly, and some that just do.
pub fn bad_ends(b: &mut Bench) -> Held {
    let text = b"a\na\t0\t9\na\t5\t6\na\t7\t8\n";
    let n = text.len();
    for ends in [
        vec![2, 8, n],
        vec![2, 8, 14, n],
        vec![0, 0, n],
        vec![2, 2, n],
        vec![2, n, n],
        vec![n, n, n],
        vec![2, 8, 8, 14, n, n],
    ] {
        b.ends(text, &ends, Room::Ample)?;
    }
    let far = [usize::MAX, usize::MAX - 1, 1 << 63, 1 << 32, n + 1, n + 2, n - 1, 0];
    let mut bad =
        vec![vec![], vec![n], vec![2, n], vec![0, n], vec![8, 2, n], vec![2, 8, 7, n], vec![n, 0, n], vec![2, 8, 0]];
    for f in far {
        bad.extend([
            vec![2, 8, f],
            vec![2, f, if f == 0 { 1 } else { f }],
            vec![f, f, f],
            vec![2, 8, n, f],
            vec![f, 8, 1],
        ]);
        if f > n {
            bad.extend([vec![2, f, n], vec![f, 8, n], vec![f]]);
        }
    }
    bad.extend((10..40).map(|k| [vec![2, 8], vec![n; k - 1]].concat()));
    for ends in bad {
        let listing = paper::lines(text, &ends).concat();
        assert!(listing == b"X\t1\t0\t0\n", "the witness takes the ends {ends:?}");
        b.ends(text, &ends, Room::Ample)?;
        (0..12).try_for_each(|bytes| b.ends(text, &ends, Room::Bytes(bytes)))?;
    }
    for ends in [vec![0, 0, 0], vec![0; 10], vec![0; 11], vec![0; 2], vec![1, 0, 0], vec![0, 0, 1]] {
        b.ends(b"", &ends, Room::Ample)?;
    }
    // Every way to cut a short text, well and badly.
    let text = b"a\na\t0\t1";
    for code in 0..10_usize.pow(4) {
        let ends = [code % 10, code / 10 % 10, code / 100 % 10, code / 1000];
        b.ends(text, &ends[..3], Room::Ample)?;
        b.ends(text, &ends, Room::Ample)?;
    }
    Ok(())
}

/// The jobs of oracle/recorded/sweep.txt as texts. The witness is held to the Rust's answers, records of equal start
/// being an unordered group, and the subject to the witness.
pub fn recorded(b: &mut Bench) -> Held {
    let file = include_str!("../../../../oracle/recorded/sweep.txt");
    for line in file.lines().filter(|l| !l.starts_with('#')) {
        let mut numbers = line.split(' ').map(|n| n.parse::<u64>().expect("a recorded number"));
        let mut next = || numbers.next().expect("a recorded job is whole");
        let (chroms, streams) = (next(), next());
        let mut texts = vec![lines(chroms as usize, |c| format!("c{c}"))];
        let mut rows = || -> Vec<[u64; 3]> { (0..next()).map(|_| [next(), next(), next()]).collect() };
        let streams: Vec<Vec<[u64; 3]>> = (0..streams).map(|_| rows()).collect();
        let bases = rows();
        for part in [&bases].into_iter().chain(&streams) {
            texts.push(part.iter().map(|[c, s, e]| format!("c{c} {s} {e}\n")).collect());
        }
        let mut wanted = String::new();
        for [c, s, e] in &bases {
            let found: Vec<(u64, u64)> = (0..next()).map(|_| (next(), next())).collect();
            wanted += &format!("B c{c} {s} {e} {}\n", found.len());
            for (stream, row) in found {
                let [_, s, e] = streams[stream as usize][row as usize];
                wanted += &format!("R {stream} {row} {s} {e}\n");
            }
        }
        let texts: Vec<Vec<u8>> = texts.iter().map(|t| tabs(t)).collect();
        let texts: Vec<&[u8]> = texts.iter().map(Vec::as_slice).collect();
        let (text, ends) = join(texts[0], texts[1], &texts[2..]);
        let listing = paper::lines(&text, &ends);
        assert!(
            grouped(listing) == grouped(tabs(&wanted).split_inclusive(|&b| b == b'\n').map(<[u8]>::to_vec).collect()),
            "the witness leaves the Rust's answer: {line}"
        );
        b.ends(&text, &ends, Room::Ample)?;
    }
    Ok(())
}

/// The lines with each run of R lines of equal start sorted by stream and row.
fn grouped(mut lines: Vec<Vec<u8>>) -> Vec<Vec<u8>> {
    let field = |line: &[u8], n: usize| -> u64 {
        let field = line.split(|&b| b == b'\t' || b == b'\n').nth(n).expect("a field");
        String::from_utf8_lossy(field).parse().expect("a number")
    };
    let group = |a: &Vec<u8>, b: &Vec<u8>| a[0] == b'R' && b[0] == b'R' && field(a, 3) == field(b, 3);
    lines.chunk_by_mut(group).for_each(|of| {
        if of[0][0] == b'R' {
            of.sort_by_key(|l| (field(l, 1), field(l, 2)))
        }
    });
    lines
}

/// Every buffer length from 0 to one past the listing's, for a choice of jobs.
pub fn buffers(b: &mut Bench) -> Held {
    let three = "one 0 100\none 10 20\none 30 40\n";
    let long = "n".repeat(255);
    let jobs = [
        [LIST, "one 25 35\none 40 30\n", three],
        [LIST, "one 25 35\none 0 1\nz 0 1\none 0 1001\none 30 40", three],
        [LIST, "one 0 99\none 1 2", "one 5 18446744073709551615\none 7 8\none 4 9"],
        [LIST, "one 0 9\ntwo 0 9", "one 5 9\ntwo 5 4"],
        [LIST, "one 0 99\ntwo 0 18446744073709551615", three],
        [&long, &format!("{long} 0 9\n{long} 5 18446744073709551615"), &format!("{long} 5 9\n{long} 5 9")],
        ["a\na", "", ""],
        ["a x", "", ""],
        ["a", "a 0 1\na", ""],
        ["a", "", ""],
        ["a", "z 0 1\nz 0 1\nz 0 1", ""],
    ];
    for job in &jobs {
        let texts: Vec<Vec<u8>> = job.iter().map(|t| tabs(t)).collect();
        every_length(b, &texts)?;
    }
    let mut rng = Rng(b.seed ^ 0xb0ff);
    for n in 0..60 {
        every_length(b, &make::job(&mut rng, if n % 3 == 0 { 0 } else { 1 + n % 3 }))?;
    }
    Ok(())
}

fn every_length(b: &mut Bench, texts: &[Vec<u8>]) -> Held {
    let texts: Vec<&[u8]> = texts.iter().map(Vec::as_slice).collect();
    let (text, ends) = join(texts[0], texts[1], &texts[2..]);
    let need: usize = paper::lines(&text, &ends).iter().map(Vec::len).sum();
    (0..=need + 1).try_for_each(|bytes| b.ends(&text, &ends, Room::Bytes(bytes)))
}
