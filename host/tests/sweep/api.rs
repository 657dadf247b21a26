//! The run by itself: 01's boundary cases of room and offers, leaving out, refusals at the start.

use crate::rng::Rng;
use cedarlash::{Answer, Base, Bases, Columns, End, Genome, LeavingOut, Place, Refusal, Sweep};

type Given = Answer<Vec<(usize, usize)>>;

fn genome() -> Genome {
    Genome::read("one\t1000\ntwo\n").unwrap()
}

fn columns(streams: &[Vec<Base>]) -> Columns {
    let mut columns = Columns::new();
    streams.iter().for_each(|s| {
        columns.add_rows(s.iter().copied());
    });
    columns
}

fn on(chrom: u64, rows: &[(u64, u64)]) -> Vec<Base> {
    rows.iter().map(|&(start, stop)| Base { chrom, start, stop }).collect()
}

/// What all bases get, none left out.
fn answers(streams: &[Vec<Base>], room: usize, bases: &[Base]) -> Vec<Given> {
    let (genome, columns) = (genome(), columns(streams));
    let sweep = Sweep::begin(&genome, &columns, room).unwrap();
    sweep.answers(bases.iter().copied()).map(|(_, answer)| answer).collect()
}

fn found(rows: &[usize], offer: Option<(u64, u64)>) -> Given {
    let records = rows.iter().map(|&row| (0, row)).collect();
    Answer::Found { records, offer: offer.map(|(chrom, stop)| Place { chrom, stop }) }
}

fn ended(number: u64, record: Option<(usize, usize)>) -> Given {
    Answer::Ended(End { number, record })
}

#[test]
fn room() {
    let records = [on(0, &[(0, 100), (10, 20), (30, 40), (50, 60)])];
    let bases = on(0, &[(0, 5), (25, 35), (32, 60)]);
    let two = [found(&[0], None), found(&[0, 2], None), ended(9, None)];
    assert_eq!(answers(&records, 2, &bases), two);
    let three = [found(&[0], None), found(&[0, 2], None), found(&[0, 2, 3], None)];
    assert_eq!(answers(&records, 3, &bases), three);
    let records = [on(0, &[(10, 12), (50, 60)])];
    assert_eq!(answers(&records, 1, &on(0, &[(0, 100)])), [ended(9, None)]);
    assert_eq!(answers(&records, 2, &on(0, &[(0, 100), (1, 2)])), [found(&[0, 1], None), found(&[], None)]);
}

#[test]
fn offers() {
    assert_eq!(answers(&[on(1, &[(100010, 100020)])], 9, &on(1, &[(0, 10)])), [found(&[], None)]);
    assert_eq!(answers(&[on(1, &[(100011, 100020)])], 9, &on(1, &[(0, 10)])), [found(&[], Some((1, 100010)))]);
    let records = [on(1, &[(5, 50), (200000, 200010), (900000, 900010)])];
    let wanted = [found(&[0], None), found(&[], Some((1, 199999)))];
    assert_eq!(answers(&records, 9, &on(1, &[(0, 10), (60, 70)])), wanted);
    assert_eq!(answers(&[on(1, &[(5, 9)])], 9, &on(0, &[(0, 10)])), [found(&[], Some((1, 5)))]);
    assert_eq!(answers(&[on(1, &[(5, 9)])], 9, &on(0, &[(4, 4)])), [found(&[], None)]);
}

#[test]
fn an_end_is_told_again_to_every_base_but_once_by_the_iterator() {
    let faulty = vec![Base { chrom: 1, start: 5, stop: 9 }, Base { chrom: 0, start: 10, stop: 12 }];
    let bases = on(1, &[(0, 10), (0, 11), (0, 9)]);
    assert_eq!(answers(std::slice::from_ref(&faulty), 9, &bases), [ended(8, Some((0, 1)))]);
    let (genome, columns) = (genome(), columns(&[faulty]));
    let mut sweep = Sweep::begin(&genome, &columns, 9).unwrap();
    bases.iter().for_each(|&base| assert_eq!(sweep.give(base).to_owned(), ended(8, Some((0, 1)))));
}

#[test]
fn refused_bases_leave_the_run_as_it_was() {
    let records = [on(0, &[(5, 995)])];
    let bad = |base: Base, number| {
        let (first, last) = (Base { chrom: 0, start: 10, stop: 30 }, Base { chrom: 0, start: 10, stop: 40 });
        let wanted = [found(&[0], None), Answer::Refused(number), found(&[0], None)];
        assert_eq!(answers(&records, 4, &[first, base, last]), wanted);
    };
    bad(Base { chrom: 2, start: 9, stop: 3 }, 4);
    bad(Base { chrom: u64::MAX, start: 0, stop: 3 }, 4);
    bad(Base { chrom: 0, start: 2000, stop: 3 }, 6);
    bad(Base { chrom: 0, start: 5, stop: 1001 }, 3);
    bad(Base { chrom: 0, start: 10, stop: 20 }, 5);
}

#[test]
fn starts_that_are_refused() {
    let genome = genome();
    let begin = |streams: usize, room| Sweep::begin(&genome, &columns(&vec![vec![]; streams]), room).err();
    for streams in 0..11 {
        assert_eq!(begin(streams, 5), (!(1..=8).contains(&streams)).then_some(Refusal(1)));
    }
    for (room, number) in [(0, Some(1)), (1, None), (65_536, None), (65_537, Some(1)), (usize::MAX, Some(1))] {
        assert_eq!(begin(1, room), number.map(Refusal));
    }
}

#[test]
fn lists() {
    let genome = Genome::read("#\none\t1000\n\ntwo\nthree\t0").unwrap();
    assert_eq!(genome.names().collect::<Vec<_>>(), [&b"one"[..], b"two", b"three"]);
    assert_eq!((genome.count(), genome.number(b"two"), genome.number(b"tw")), (3, Some(1), None));
    assert_eq!([0, 1, 2, 3].map(|c| genome.length(c)), [Some(1000), None, Some(0), None]);
    assert_eq!([0, 3, u64::MAX].map(|c| genome.name(c)), [Some(&b"one"[..]), None, None]);
    let no = |text: String| Genome::read(text).map(|_| ()).map_err(|b| (b.number, b.rows, b.line)).unwrap_err();
    assert_eq!(no("one\n#\ntwo\tx\n".into()), (11, 1, Some(3)));
    assert_eq!(no("".into()), (1, 0, None));
    assert_eq!(no((0..257).map(|n| format!("c{n}\n")).collect()), (1, 0, None));
    assert_eq!(no((0..5000).map(|n| format!("c{n}\n")).collect()), (1, 0, None));
    assert_eq!(no("one\n\ntwo\none\n".into()), (2, 0, Some(4)));
    assert_eq!(no("one\n\t5\n".into()), (2, 0, Some(2)));
    assert_eq!(no(format!("#\n{}\n", "n".repeat(256))), (2, 0, Some(2)));
}

/// A source that leaves out what it may, or not, as it likes, and keeps what it left out.
struct Moody<'a> {
    bases: &'a [Base],
    at: usize,
    rng: &'a mut Rng,
    left_out: Vec<usize>,
}

impl Bases for &mut Moody<'_> {
    fn next_base(&mut self, place: Option<Place>) -> Option<Base> {
        while let Some(&base) = self.bases.get(self.at) {
            self.at += 1;
            if !place.is_some_and(|p| p.permits(base)) || self.rng.one_in(3) {
                return Some(base);
            }
            self.left_out.push(self.at - 1);
        }
        None
    }
}

/// Three bases, of which the second has length zero and is offered nothing. The places are kept.
struct Noting(Vec<Option<Place>>);

impl Bases for &mut Noting {
    fn next_base(&mut self, place: Option<Place>) -> Option<Base> {
        self.0.push(place);
        on(0, &[(0, 10), (20, 20), (30, 40)]).get(self.0.len() - 1).copied()
    }
}

/// "it holds until the next offer"
#[test]
fn a_place_holds_until_the_next_offer() {
    let (genome, columns) = (genome(), columns(&[on(1, &[(5, 9)])]));
    let mut noting = Noting(Vec::new());
    assert_eq!(Sweep::begin(&genome, &columns, 4).unwrap().answers(&mut noting).count(), 3);
    let place = Some(Place { chrom: 1, stop: 5 });
    assert_eq!(noting.0, [None, place, place, place]);
}

/// Rows in order, far apart now and then.
fn far_rows(rng: &mut Rng, most: usize, chroms: usize) -> Vec<Base> {
    let mut rows: Vec<Base> = (0..rng.below(most + 1))
        .map(|_| {
            let start = (rng.below(12) * 70_000 + rng.below(4)) as u64;
            let length = if rng.one_in(6) { rng.below(300_000) } else { rng.below(5) };
            Base { chrom: rng.below(chroms) as u64, start, stop: start + length as u64 }
        })
        .collect();
    rows.sort();
    rows
}

/// 01's demand 3: "Leaving out bases never changes a report."
#[test]
fn leaving_out_changes_no_other_answer() {
    let mut rng = Rng(21);
    let genome = Genome::read("a\nb\nc\nd\n").unwrap();
    let mut left_out = 0;
    for _ in 0..20_000 {
        let streams: Vec<Vec<Base>> = (0..rng.from(1, 3)).map(|_| far_rows(&mut rng, 4, 4)).collect();
        let bases = far_rows(&mut rng, 14, 4);
        let columns = columns(&streams);
        let begin = || Sweep::begin(&genome, &columns, 64).unwrap();
        let full: Vec<(Base, Given)> = begin().answers(bases.iter().copied()).collect();
        assert_eq!(full.len(), bases.len());
        // All that may be left out.
        let mut rest = full.iter();
        for (base, answer) in begin().answers(LeavingOut(bases.iter().copied())) {
            assert!(rest.any(|(b, a)| (b, a) == (&base, &answer)), "{streams:?} {bases:?}");
        }
        // Some of it, and what is left out has no record.
        let mut moody = Moody { bases: &bases, at: 0, rng: &mut rng, left_out: Vec::new() };
        let some: Vec<(Base, Given)> = begin().answers(&mut moody).collect();
        let out = moody.left_out;
        let kept = (0..full.len()).filter(|k| !out.contains(k)).map(|k| full[k].clone());
        assert_eq!(some, kept.collect::<Vec<_>>());
        for &k in &out {
            assert!(matches!(&full[k].1, Answer::Found { records, .. } if records.is_empty()));
        }
        left_out += out.len();
    }
    assert!(left_out > 20_000, "bases were left out: {left_out}");
}
