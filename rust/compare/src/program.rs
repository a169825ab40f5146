//! Runs the programs, `assign` (DILBRETH_ASSIGN, or crates/assign/out/assign of the repository) and `change_form`
//! (DILBRETH_CHANGE_FORM, or crates/change_form/out/change_form).

use std::fs::File;
use std::io::{Read, Write};
use std::path::{Path, PathBuf};
use std::process::{Child, Command, Output, Stdio};
use std::sync::atomic::{AtomicU32, Ordering};
use std::thread;
use std::time::Duration;

use crate::archive;

/// How a text reaches the program.
#[derive(Clone, Copy, Debug, PartialEq)]
pub enum Feed {
    Pipe,
    /// A pipe that gives so many bytes at a time.
    Pieces(usize),
    File,
}

#[derive(Clone, Copy, Debug, PartialEq)]
pub enum Program {
    Assign,
    ChangeForm,
}

pub const PROGRAMS: [Program; 2] = [Program::Assign, Program::ChangeForm];

/// A file of its own for the text; removed when dropped.
pub struct TextFile(PathBuf);

impl TextFile {
    pub fn new(text: &[u8]) -> TextFile {
        static NEXT: AtomicU32 = AtomicU32::new(0);
        let name = format!("dilbreth-{}-{}", std::process::id(), NEXT.fetch_add(1, Ordering::Relaxed));
        let path = std::env::temp_dir().join(name);
        std::fs::write(&path, text).expect("a file for the text");
        TextFile(path)
    }

    pub fn path(&self) -> &Path {
        &self.0
    }

    pub fn open(&self) -> File {
        File::open(&self.0).expect("the file of the text")
    }
}

impl Drop for TextFile {
    fn drop(&mut self) {
        let _ = std::fs::remove_file(&self.0);
    }
}

impl Program {
    pub fn name(self) -> &'static str {
        match self {
            Program::Assign => "assign",
            Program::ChangeForm => "change_form",
        }
    }

    pub fn path(self) -> PathBuf {
        let variable = match self {
            Program::Assign => "DILBRETH_ASSIGN",
            Program::ChangeForm => "DILBRETH_CHANGE_FORM",
        };
        match std::env::var_os(variable) {
            Some(given) => PathBuf::from(given),
            None => archive::root().join("crates").join(self.name()).join("out").join(self.name()),
        }
    }

    pub fn command(self) -> Command {
        Command::new(self.path())
    }

    /// Starts the program with its outputs caught.
    pub fn start(self, input: Stdio) -> Child {
        self.command()
            .stdin(input)
            .stdout(Stdio::piped())
            .stderr(Stdio::piped())
            .spawn()
            .unwrap_or_else(|e| panic!("{}: {e}", self.path().display()))
    }

    /// One whole run.
    pub fn run(self, text: &[u8], feed: Feed) -> Output {
        if feed == Feed::File {
            let file = TextFile::new(text);
            return self.start(Stdio::from(file.open())).wait_with_output().expect("the program's output");
        }
        let mut child = self.start(Stdio::piped());
        let mut to = child.stdin.take().expect("a pipe");
        let text = text.to_vec();
        let writer = thread::spawn(move || {
            // A program that has seen enough may stop reading.
            match feed {
                Feed::Pieces(size) => {
                    for piece in text.chunks(size) {
                        if to.write_all(piece).is_err() {
                            break;
                        }
                        thread::sleep(Duration::from_micros(150));
                    }
                }
                _ => drop(to.write_all(&text)),
            }
        });
        let output = child.wait_with_output().expect("the program's output");
        writer.join().expect("the writing thread");
        output
    }

    /// What the separate version prints for a text.
    pub fn expected(self, text: &[u8]) -> Vec<u8> {
        match self {
            Program::Assign => reference::printed(text),
            Program::ChangeForm => reference::printed_change(text),
        }
    }

    /// What stands on standard error beside what is printed: the words for a refusal, or nothing.
    pub fn spoken(self, printed: &[u8]) -> String {
        let Some(number) = printed.strip_prefix(b"refused\n") else { return String::new() };
        let number = String::from_utf8_lossy(number);
        let number = number.trim_end();
        let words = dilbreth::explain(number.parse().expect("a number"));
        format!("{}: refused, {number}: {words}\n", self.name())
    }

    /// One run, compared; answers whether the text was refused by nothing.
    pub fn compare(self, text: &[u8], feed: Feed) -> Result<bool, String> {
        let expected = self.expected(text);
        let spoken = self.spoken(&expected);
        let found = self.run(text, feed);
        if found.stdout == expected && found.stderr == spoken.as_bytes() && found.status.code().is_some() {
            return Ok(spoken.is_empty());
        }
        Err(format!(
            "{}\n  by {feed:?}: expected {:?} and {spoken:?}, found {:?}, standard error {:?}, {}",
            crate::cases::program(self, text, feed),
            String::from_utf8_lossy(&expected),
            String::from_utf8_lossy(&found.stdout),
            String::from_utf8_lossy(&found.stderr),
            found.status
        ))
    }
}

/// All that a started program writes: standard output, standard error.
pub fn finish(child: Child) -> (Vec<u8>, Vec<u8>) {
    let output = child.wait_with_output().expect("the program's output");
    assert!(output.status.code().is_some(), "ended by a signal: {}", output.status);
    (output.stdout, output.stderr)
}

/// Reads a stream to its end.
pub fn all(mut from: impl Read) -> Vec<u8> {
    let mut bytes = Vec::new();
    from.read_to_end(&mut bytes).expect("a stream that can be read");
    bytes
}
