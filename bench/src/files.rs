//! Part (b): files in, text out, by whole commands.

use crate::clock::{self, Cost};
use std::process::Command;

/// A command line, and one that writes how many pairs of base and record it finds.
pub struct Tool {
    pub name: &'static str,
    pub line: String,
    count: String,
}

/// The product's command, and the program that it starts once it has seen that this is built.
pub const OURS: [(&str, &str); 2] =
    [("cedarlash sweep", "./cedarlash sweep"), ("its program alone", "target/host/release/sweep")];

/// The commands over the files of a folder, ours first.
pub fn tools(folder: &str, streams: usize) -> Vec<Tool> {
    let files: Vec<String> = (0..streams).map(|k| format!("{folder}/stream{k}.bed")).collect();
    let files = files.join(" ");
    let (list, bases) = (format!("{folder}/genome.txt"), format!("{folder}/bases.bed"));
    let mut tools = Vec::new();
    for (name, command) in OURS {
        let line = format!("{command} -g {list} -a {bases} -b {files}");
        let count = format!("{line} | grep -c ^R");
        tools.push(Tool { name, line, count });
    }
    let line = format!("bedtools intersect -sorted -g {list} -wa -wb -a {bases} -b {files}");
    let count = format!("{line} | wc -l");
    tools.push(Tool { name: "bedtools intersect", line, count });
    let merged = format!("bedops -u {files}");
    let line = format!("{merged} | bedmap --echo --echo-map {bases} -");
    let count = format!("{merged} | bedmap --count {bases} - | awk '{{ n += $1 }} END {{ print n }}'");
    tools.push(Tool { name: "bedmap", line, count });
    tools
}

impl Tool {
    /// How many pairs of base and record it finds.
    pub fn found(&self) -> usize {
        let out = Command::new("sh").args(["-c", &self.count]).output().expect("sh runs");
        let text = String::from_utf8_lossy(&out.stdout);
        text.trim().parse().unwrap_or_else(|_| panic!("'{}' wrote '{text}'", self.count))
    }

    pub fn cost(&self) -> Cost {
        clock::run(&self.line).unwrap_or_else(|why| panic!("{why}"))
    }
}
