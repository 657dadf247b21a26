//! Random jobs from a seed.

use crate::bench::{Bench, Held, Room};
use crate::make;
use crate::rng::Rng;

/// How the buffer is chosen: mostly ample.
fn room(rng: &mut Rng) -> Room {
    if rng.one_in(6) {
        Room::Some(rng.next())
    } else {
        Room::Ample
    }
}

/// Small jobs, a quarter of them valid.
pub fn jobs(b: &mut Bench) -> Held {
    let mut rng = Rng(b.seed);
    for n in 0..120_000 {
        let texts = make::job(&mut rng, n % 4);
        let texts: Vec<&[u8]> = texts.iter().map(Vec::as_slice).collect();
        let room = room(&mut rng);
        b.texts(&texts, room)?;
    }
    Ok(())
}

/// Jobs of some hundred rows: long waits, long answers, every text up to its limit.
pub fn large(b: &mut Bench) -> Held {
    let mut rng = Rng(b.seed ^ 0x1a_46e);
    for _ in 0..400 {
        let streams = rng.from(1, 8);
        let span = *rng.pick(&[20, 300, 5000]);
        let far = *rng.pick(&[3, 30, 2000]);
        let chroms = rng.from(1, 3);
        let mut texts = vec![(0..chroms).map(|c| format!("c{c}\n")).collect::<String>().into_bytes()];
        for text in 0..=streams {
            let most = if rng.one_in(6) { 1026 } else { 4000 / (streams + 1) };
            let count = rng.from(most / 2, most).min(1026);
            let mut rows: Vec<(usize, usize, usize)> = (0..count)
                .map(|_| {
                    let start = rng.below(span);
                    let length = if rng.one_in(20) { rng.below(far) } else { rng.below(4) };
                    (rng.below(chroms), start, start + length)
                })
                .collect();
            rows.sort_by_key(|r| (r.0, r.1, if text == 0 { r.2 } else { 0 }));
            if text > 0 && rng.one_in(10) && count > 9 {
                rows.swap(count / 2, count - 3);
            }
            texts.push(rows.iter().map(|(c, s, e)| format!("c{c}\t{s}\t{e}\n")).collect::<String>().into_bytes());
        }
        let texts: Vec<&[u8]> = texts.iter().map(Vec::as_slice).collect();
        let room = room(&mut rng);
        b.texts(&texts, room)?;
    }
    Ok(())
}

/// Jobs near the room of 1,024: long records that fill it, short ones that come and go among them.
pub fn queue(b: &mut Bench) -> Held {
    let mut rng = Rng(b.seed ^ 0x99e);
    for n in 0..240 {
        let streams = rng.from(2, 5);
        let chroms = rng.from(1, 2);
        // In every other job all long records stand at the front, so that the room is just full, or not, for the rest.
        let front = n % 2 == 0;
        let long = if front { rng.from(1021, 1026) } else { rng.from(980, 1060) };
        let total = long + if front { rng.from(5, 60) } else { rng.from(20, streams * 1000 - long) };
        let stay = rng.from(40, 400);
        let mut rows = vec![Vec::new(); streams];
        for i in 0..total {
            let start = if front && i < long { rng.below(10) } else { rng.below(100) };
            let length = if i < long { stay } else { rng.below(5) };
            let chrom = if front { 0 } else { rng.below(chroms) };
            rows[rng.below(streams)].push((chrom, start, start + length));
        }
        let mut bases: Vec<(usize, usize, usize)> = (0..rng.from(1, 12))
            .map(|_| {
                let start = if front { rng.from(8, 60) } else { rng.below(150) };
                (rng.below(chroms), start, start + rng.below(if front { 5 } else { 60 }))
            })
            .collect();
        bases.sort();
        let mut texts = vec![(0..chroms).map(|c| format!("c{c}\n")).collect::<String>().into_bytes()];
        rows.iter_mut().for_each(|rows| rows.sort_by_key(|r| (r.0, r.1)));
        for rows in std::iter::once(&bases).chain(&rows) {
            texts.push(rows.iter().map(|(c, s, e)| format!("c{c}\t{s}\t{e}\n")).collect::<String>().into_bytes());
        }
        let texts: Vec<&[u8]> = texts.iter().map(Vec::as_slice).collect();
        b.texts(&texts, Room::Ample)?;
    }
    Ok(())
}
