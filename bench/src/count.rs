//! Instructions, counted by callgrind over this program itself: they don't depend on the machine's load.

use crate::sweeps::Who;
use std::process::{Command, Stdio};

/// The instructions of one run, what is made ahead of it not counted.
pub fn instructions(folder: &str, who: Who, recipe: &str, size: &str) -> f64 {
    let me = std::env::current_exe().expect("this program has a path");
    let out = format!("{folder}/callgrind.out");
    let mut command = Command::new("valgrind");
    command.args(["--tool=callgrind", "--toggle-collect=bench_measured", &format!("--callgrind-out-file={out}")]);
    command.arg(me).args(["count", who.name(), recipe, size]).stdout(Stdio::null()).stderr(Stdio::null());
    let status = command.status().expect("valgrind runs");
    assert!(status.success(), "valgrind ended with {status}");
    let text = std::fs::read_to_string(&out).expect("callgrind writes its counts");
    let total = text.lines().find_map(|l| l.strip_prefix("totals: ").or(l.strip_prefix("summary: ")));
    total.and_then(|t| t.trim().parse().ok()).expect("callgrind tells the sum")
}
