//! The README's examples, run; and the README has them as they stand here.

use cedarlash::{Answer, Columns, Genome, LeavingOut, Rows, Sweep};

const README: &str = include_str!("../../../README.md");
const HERE: &str = include_str!("example.rs");

fn overlaps(list: &str, targets: &str, calls: &str) -> Result<String, Box<dyn std::error::Error>> {
    let mut report = String::new();
    // README: from here
    let genome = Genome::read(list)?; // the chromosomes' names and lengths
    let mut columns = Columns::new();
    columns.add_text(&genome, calls.as_bytes())?; // or add_reader: a file, block by block
    let bases = Rows::from_text(&genome, targets.as_bytes())?;
    let sweep = Sweep::begin(&genome, &columns, 65_536)?; // at most so many records wait
    for (base, answer) in sweep.answers(LeavingOut(bases.iter())) {
        match answer {
            Answer::Found { records, .. } => report += &format!("{}-{}: {records:?}\n", base.start, base.stop),
            Answer::Refused(number) => report += &format!("refused: {}\n", cedarlash::words(number)),
            Answer::Ended(end) => report += &format!("ended: {end}\n"),
        }
    }
    // README: to here
    Ok(report)
}

fn counts(list: &str, targets: &str, calls: &str) -> Result<String, Box<dyn std::error::Error>> {
    let genome = Genome::read(list)?;
    let mut columns = Columns::new();
    columns.add_text(&genome, calls.as_bytes())?;
    let bases = Rows::from_text(&genome, targets.as_bytes())?;
    let mut report = String::new();
    // README: from here
    let mut sweep = Sweep::begin(&genome, &columns, 65_536)?;
    let mut next = 0;
    while next < bases.len() {
        let batch = sweep.give_all(&bases, next); // hundreds of bases in one call
        for (base, records) in batch.iter() {
            report += &format!("{}-{}: {} records\n", base.start, base.stop, records.len());
        }
        match batch.stopped {
            None => {}
            Some(Answer::Refused(number)) => report += &format!("refused: {}\n", cedarlash::words(number)),
            Some(Answer::Ended(end)) => return Err(end.to_string().into()),
        }
        next = batch.behind(); // a base that was refused is behind us, too
    }
    // README: to here
    Ok(report)
}

#[test]
fn readme() {
    let report = overlaps("one\t1000\n", "one\t25\t35\none\t40\t30\n", "one\t0\t100\none\t10\t20\none\t30\t40\n");
    assert_eq!(report.unwrap(), "25-35: [(0, 0), (0, 2)]\nrefused: base start > stop\n");
    let list = "one\t1000\n";
    let targets = "one\t25\t35\none\t40\t30\none\t60\t70\n";
    let report = counts(list, targets, "one\t0\t100\none\t10\t20\none\t30\t40\n");
    assert_eq!(report.unwrap(), "25-35: 2 records\nrefused: base start > stop\n60-70: 1 records\n");
    let ended = counts(list, targets, "one\t5\t6\none\t4\t6\n").unwrap_err().to_string();
    assert_eq!(ended, "refusal 8: stream record out of order (stream 0, row 1)");
    let shown: Vec<String> = shown();
    assert_eq!(shown.len(), 2);
    for code in shown {
        assert!(code.lines().count() > 9 && README.contains(&code), "README.md shows the examples as they are run");
    }
}

/// What stands between two marks here.
fn shown() -> Vec<String> {
    let parts = HERE.split("    // README: from here\n").skip(1);
    parts.filter_map(|part| Some(part.split_once("    // README: to here\n")?.0.to_string())).collect()
}
