//! Runs of the tool, from the repository's root, and a folder for the files that they need.

use std::ffi::OsStr;
use std::io::Write;
use std::path::{Path, PathBuf};
use std::process::{Command, Stdio};
use std::sync::atomic::{AtomicUsize, Ordering};

/// The repository's root, from where cargo runs tests.
pub const ROOT: &str = "../..";

/// What a run said, and its status.
#[derive(Debug, PartialEq)]
pub struct Ran {
    pub status: i32,
    pub bytes: Vec<u8>,
    pub err: String,
}

impl Ran {
    /// Standard output as text.
    pub fn out(&self) -> &str {
        std::str::from_utf8(&self.bytes).expect("text on standard output")
    }

    /// Standard output of a run that was done, and said nothing else.
    pub fn done(self) -> String {
        assert_eq!((self.status, self.err.as_str()), (0, ""), "{}", self.out());
        self.out().to_string()
    }

    /// A refusal: its line alone on standard output, and on standard error what it means, with what would mend it.
    pub fn refused(&self, (number, offset): (u8, usize)) {
        assert_eq!((self.status, self.out()), (1, &*format!("refused {number} at {offset}\n")), "{}", self.err);
        self.explains(number);
    }

    pub fn explains(&self, number: u8) {
        let refusal = ward::Refusal::from_number(number.into()).expect("a refusal");
        let lines: Vec<&str> = self.err.lines().collect();
        assert_eq!(lines.len(), 2, "{}", self.err);
        assert!(lines[0].starts_with("ward: ") && lines[0].ends_with(refusal.meaning()), "{}", lines[0]);
        assert!(lines[1].starts_with("ward: to mend it: ") && lines[1].len() > 40 && !lines[1].contains("defect"), "{}", lines[1]);
    }

    /// Wrong usage, or a file that cannot be read or written: nothing on standard output, and words of it on standard error.
    pub fn wrong(&self, words: &str) {
        assert_eq!((self.status, self.out()), (2, ""), "{}", self.err);
        assert!(self.err.contains(words), "{words} is not in {}", self.err);
    }
}

/// The tool with arguments.
pub fn command(arguments: &[impl AsRef<OsStr>]) -> Command {
    let mut command = Command::new(env!("CARGO_BIN_EXE_ward"));
    command.args(arguments).current_dir(ROOT).stdin(Stdio::null());
    command
}

pub fn run(command: &mut Command) -> Ran {
    let ran = command.output().expect("the tool runs");
    Ran { status: ran.status.code().expect("a status"), bytes: ran.stdout, err: String::from_utf8(ran.stderr).expect("text on standard error") }
}

pub fn ward(arguments: &[impl AsRef<OsStr>]) -> Ran {
    run(&mut command(arguments))
}

/// A run that is fed these bytes on standard input.
pub fn fed(arguments: &[impl AsRef<OsStr>], input: &[u8]) -> Ran {
    let mut child = command(arguments).stdin(Stdio::piped()).stdout(Stdio::piped()).stderr(Stdio::piped()).spawn().expect("the tool runs");
    // it may have seen enough before it has read all
    let _ = child.stdin.take().expect("a pipe").write_all(input);
    let ran = child.wait_with_output().expect("the tool ends");
    Ran { status: ran.status.code().expect("a status"), bytes: ran.stdout, err: String::from_utf8(ran.stderr).expect("text on standard error") }
}

/// A folder that goes when it is dropped.
pub struct Folder(PathBuf);

impl Folder {
    pub fn new() -> Folder {
        static NEXT: AtomicUsize = AtomicUsize::new(0);
        let name = format!("ward-{}-{}", std::process::id(), NEXT.fetch_add(1, Ordering::Relaxed));
        let folder = std::env::temp_dir().join(name);
        std::fs::create_dir(&folder).expect("a new folder");
        Folder(folder)
    }

    pub fn path(&self) -> &Path {
        &self.0
    }

    /// The path of a file in it, as an argument.
    pub fn at(&self, name: &str) -> String {
        self.0.join(name).to_str().expect("a path in UTF-8").to_string()
    }

    /// A file in it with these bytes.
    pub fn file(&self, name: &str, bytes: &[u8]) -> String {
        std::fs::write(self.at(name), bytes).expect("a file");
        self.at(name)
    }
}

impl Drop for Folder {
    fn drop(&mut self) {
        let _ = std::fs::remove_dir_all(&self.0);
    }
}
