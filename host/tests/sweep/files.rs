//! Texts as files, and the command run on them.

use std::path::PathBuf;
use std::process::{Command, Output, Stdio};
use std::sync::atomic::{AtomicUsize, Ordering};

/// A folder of its own, removed afterwards.
pub struct Folder(pub PathBuf);

impl Folder {
    pub fn new() -> Self {
        static COUNT: AtomicUsize = AtomicUsize::new(0);
        let name = format!("cedarlash-{}-{}", std::process::id(), COUNT.fetch_add(1, Ordering::Relaxed));
        let folder = std::env::temp_dir().join(name);
        std::fs::create_dir(&folder).expect("a folder can be made");
        Folder(folder)
    }

    pub fn put(&self, name: &str, text: impl AsRef<[u8]>) {
        std::fs::write(self.0.join(name), text).expect("a file can be written");
    }

    /// A job's texts: g, a, b0, b1, ..; and the words that name them.
    pub fn job(&self, texts: &[Vec<u8>]) -> Vec<String> {
        let mut words: Vec<String> = ["-g", "g", "-a", "a"].map(String::from).to_vec();
        self.put("g", &texts[0]);
        self.put("a", &texts[1]);
        for (k, text) in texts[2..].iter().enumerate() {
            self.put(&format!("b{k}"), text);
            words.extend((k == 0).then(|| "-b".to_string()));
            words.push(format!("b{k}"));
        }
        words
    }

    /// The command in this folder.
    pub fn sweep<S: AsRef<std::ffi::OsStr>>(&self, words: &[S]) -> Command {
        let mut command = Command::new(env!("CARGO_BIN_EXE_sweep"));
        command.args(words).current_dir(&self.0).stdin(Stdio::null()).stdout(Stdio::piped()).stderr(Stdio::piped());
        command
    }

    /// The same, run: the status, standard output and standard error.
    pub fn run<S: AsRef<std::ffi::OsStr>>(&self, words: &[S]) -> (i32, String, String) {
        said(self.sweep(words).output().expect("the command runs"))
    }
}

impl Drop for Folder {
    fn drop(&mut self) {
        let _ = std::fs::remove_dir_all(&self.0);
    }
}

/// What a command that has ended gave.
pub fn said(output: Output) -> (i32, String, String) {
    let text = |bytes| String::from_utf8_lossy(bytes).into_owned();
    (output.status.code().expect("a status"), text(&output.stdout), text(&output.stderr))
}

/// A space stands for a tab.
pub fn tabs(text: &str) -> Vec<u8> {
    text.replace(' ', "\t").into_bytes()
}
