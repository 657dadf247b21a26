//! Finds the proved archives that the features ask for, and makes the wrong witnesses of `differential selfcheck`.

use std::path::{Path, PathBuf};
use std::{env, fs};

fn main() {
    if env::var_os("CARGO_FEATURE_LIBRARY").is_some() {
        link("listing");
    }
    if env::var_os("CARGO_FEATURE_INPLACE").is_some() {
        link("inplace");
    }
    if env::var_os("CARGO_FEATURE_SLIPS").is_some() {
        let out = PathBuf::from(env::var_os("OUT_DIR").expect("cargo names OUT_DIR"));
        fs::write(out.join("slips.rs"), slips()).expect("OUT_DIR can be written");
    }
}

/// Tells the linker where the archive of this crate is, or says what to run.
fn link(name: &str) {
    println!("cargo:rerun-if-env-changed=CEDARLASH_LIB");
    let here = PathBuf::from(env::var_os("CARGO_MANIFEST_DIR").expect("cargo names the folder"));
    let folder = match env::var_os("CEDARLASH_LIB") {
        Some(folder) => here.join(folder),
        None => here.join("../target/staticlib"),
    };
    let archive = folder.join(format!("lib{name}.a"));
    println!("cargo:rerun-if-changed={}", archive.display());
    if !archive.is_file() {
        stop(&format!(
            "{} is not there. Run 'rt lib' in crates/{name}_c, which proves the library and writes it to \
             crates/{name}_c/out/lib{name}_c.a, and copy that file there, or let CEDARLASH_LIB name the folder that has it. \
             ('--no-default-features' builds without it.)",
            archive.display()
        ));
    }
    println!("cargo:rustc-link-search=native={}", folder.display());
    println!("cargo:rustc-link-lib=static={name}");
}

/// Ends the build with a plain line.
fn stop(why: &str) -> ! {
    eprintln!("cedarlash: {why}");
    std::process::exit(1);
}

/// A module for each slip: src/paper.rs with the slip's edits, and a table of them all.
fn slips() -> String {
    println!("cargo:rerun-if-changed=slips.txt");
    println!("cargo:rerun-if-changed=src/paper.rs");
    let paper = read("src/paper.rs");
    let mut modules = String::new();
    let mut table = String::new();
    for (n, block) in read("slips.txt").split("\n\n").filter(|b| !b.trim().is_empty()).enumerate() {
        let (name, what, edits) = slip(block);
        let wrong = edited(name, &paper, &edits);
        modules += &format!("#[allow(warnings)]\nmod slip_{n} {{\n{wrong}\n}}\n");
        table += &format!("    Slip {{ name: {name:?}, what: {what:?}, list: slip_{n}::list }},\n");
    }
    format!("{modules}\n/// Every slip of slips.txt.\npub const SLIPS: &[Slip] = &[\n{table}];\n")
}

fn read(path: &str) -> String {
    fs::read_to_string(Path::new(path)).unwrap_or_else(|e| stop(&format!("host/{path}: {e}")))
}

/// A block of slips.txt: '# NAME: what is wrong', then pairs of 'old: ' and 'new: ' lines.
fn slip(block: &str) -> (&str, &str, Vec<(&str, &str)>) {
    let bad = || -> ! { stop(&format!("slips.txt: this is no slip:\n{block}")) };
    let mut lines = block.trim_matches('\n').lines();
    let head = lines.next().and_then(|l| l.strip_prefix("# ")).and_then(|l| l.split_once(": "));
    let (name, what) = head.unwrap_or_else(|| bad());
    let mut edits = Vec::new();
    while let Some(line) = lines.next() {
        let old = line.strip_prefix("old: ").unwrap_or_else(|| bad());
        let new = lines.next().and_then(|l| l.strip_prefix("new:")).unwrap_or_else(|| bad());
        edits.push((old, new.strip_prefix(' ').unwrap_or(new)));
    }
    if edits.is_empty() {
        bad();
    }
    (name, what, edits)
}

/// The witness with each old text, which must stand there exactly once, replaced.
fn edited(name: &str, paper: &str, edits: &[(&str, &str)]) -> String {
    let mut wrong = paper.to_string();
    for (old, new) in edits {
        if wrong.matches(old).count() != 1 {
            stop(&format!("slips.txt, {name}: '{old}' stands {} times in src/paper.rs", wrong.matches(old).count()));
        }
        wrong = wrong.replace(old, new);
    }
    wrong
}
