//! Every job of a small kind.

use crate::bench::{Bench, Held, Room};

/// Whether CEDARLASH_DEEP asks for the larger families.
fn deep() -> bool {
    std::env::var_os("CEDARLASH_DEEP").is_some_and(|v| v != "0")
}

/// Calls `f` with every sequence of 0 to `most` of the pieces.
fn each(pieces: &[&[u8]], most: usize, f: &mut impl FnMut(&[u8]) -> Held) -> Held {
    let mut text = Vec::new();
    each_after(&mut text, pieces, most, f)
}

fn each_after(text: &mut Vec<u8>, pieces: &[&[u8]], more: usize, f: &mut impl FnMut(&[u8]) -> Held) -> Held {
    f(text)?;
    if more > 0 {
        for piece in pieces {
            text.extend_from_slice(piece);
            each_after(text, pieces, more - 1, f)?;
            text.truncate(text.len() - piece.len());
        }
    }
    Ok(())
}

/// Every short text as the list, as the bases and as a stream, the rest being fixed.
pub fn texts(b: &mut Bench) -> Held {
    let bytes: &[&[u8]] = &[b"a", b"\t", b"\n", b"0", b"1", b"#"];
    let most = if deep() { 8 } else { 6 };
    let list = b"a\n1\t1\n0\n";
    let rows = b"a\t0\t1\n1\t0\t1\n";
    each(bytes, most, &mut |t| b.texts(&[t, b"a\t0\t1\n1\t0\t1", rows], Room::Ample))?;
    each(bytes, most, &mut |t| b.texts(&[list, t, rows], Room::Ample))?;
    each(bytes, most, &mut |t| b.texts(&[list, rows, t], Room::Ample))?;
    // Pieces of lines: rows one after the other, with fields missing, too many, or out of order.
    let most = if deep() { 6 } else { 4 };
    let pieces: &[&[u8]] = &[b"a", b"1\t1\n", b"0\n", b"\n", b"\t", b"#", b"1", b"a\n", b"18446744073709551615", b" "];
    each(pieces, most, &mut |t| b.texts(&[t, b"a\t0\t1\n1\t0\t2", rows], Room::Ample))?;
    let pieces: &[&[u8]] =
        &[b"a\t0\t1\n", b"a\t1\t", b"1\t1\t0\n", b"1\t0\t2\n", b"z\t0\t0\n", b"0", b"1\n", b"\t", b"\n", b"#"];
    each(pieces, most, &mut |t| b.texts(&[list, t, rows], Room::Ample))?;
    each(pieces, most, &mut |t| b.texts(&[list, b"a\t0\t1\n1\t0\t1\n1\t1\t1", t], Room::Ample))
}

/// Every job of up to 2 bases and up to 3 records over a choice of rows, the records in one stream or parted over two.
pub fn grid(b: &mut Bench) -> Held {
    // One chromosome, coordinates 0 to 2, start past stop among them.
    let line = |top: usize, faulty: bool| -> Vec<Vec<u8>> {
        let mut rows = Vec::new();
        for s in 0..=top {
            for e in (if faulty { 0 } else { s })..=top {
                rows.push(format!("a\t{s}\t{e}\n").into_bytes());
            }
        }
        rows
    };
    jobs(b, b"a\n", &line(2, true))?;
    // One chromosome, coordinates 0 to 3.
    jobs(b, b"a\t3\n", &line(3, deep()))?;
    // Two chromosomes, one of length 1, and one that is not on the list.
    let rows = [
        "a\t0\t0\n",
        "a\t0\t1\n",
        "a\t1\t1\n",
        "a\t0\t2\n",
        "a\t1\t0\n",
        "b\t0\t1\n",
        "b\t1\t2\n",
        "b\t1\t0\n",
        "z\t1\t0\n",
    ];
    let rows: Vec<Vec<u8>> = rows.iter().map(|r| r.as_bytes().to_vec()).collect();
    jobs(b, b"a\t1\nb\n", &rows)
}

/// All of them over these rows.
fn jobs(b: &mut Bench, list: &[u8], rows: &[Vec<u8>]) -> Held {
    let rows: Vec<&[u8]> = rows.iter().map(Vec::as_slice).collect();
    let width = rows[0].len();
    each(&rows, 2, &mut |bases| {
        each(&rows, 3, &mut |records| {
            b.texts(&[list, bases, records], Room::Ample)?;
            let count = records.len() / width;
            (0..count)
                .try_for_each(|k| b.texts(&[list, bases, &records[..k * width], &records[k * width..]], Room::Ample))
        })
    })
}
