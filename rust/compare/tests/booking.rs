// The script that has only whole lists booked: its arguments, files that cannot be read, texts from a pipe, and texts that
// were cut off. `examples.rs` has the lists that it takes.

use std::io::Write;
use std::path::{Path, PathBuf};
use std::process::{Command, Output, Stdio};

use compare::archive;
use compare::program::{Program::Assign, TextFile};

fn example(name: &str) -> Vec<u8> {
    std::fs::read(archive::root().join("examples").join(name)).expect(name)
}

fn script() -> Command {
    let mut command = Command::new("sh");
    command.arg(archive::root().join("examples/book.sh")).env("ASSIGN", Assign.path()).env("LC_ALL", "C");
    command
}

// Exit status, standard output and standard error.
fn outcome(found: Output) -> (Option<i32>, String, String) {
    let text = |bytes| String::from_utf8(bytes).unwrap();
    (found.status.code(), text(found.stdout), text(found.stderr))
}

fn book(text: &Path) -> (Option<i32>, String, String) {
    outcome(script().arg(text).output().unwrap())
}

// With the text on standard input, from a file or from a pipe.
fn book_from_file(text: &[u8], name: &str) -> (Option<i32>, String, String) {
    let file = TextFile::new(text);
    outcome(script().arg(name).stdin(Stdio::from(file.open())).output().unwrap())
}

fn book_from_pipe(text: &[u8], name: &str) -> (Option<i32>, String, String) {
    let mut command = script();
    command.arg(name).stdin(Stdio::piped()).stdout(Stdio::piped()).stderr(Stdio::piped());
    let mut child = command.spawn().unwrap();
    child.stdin.take().unwrap().write_all(text).unwrap();
    outcome(child.wait_with_output().unwrap())
}

// The amounts that the separate version has for a text, where it refuses nothing.
fn amounts(text: &[u8]) -> Option<String> {
    let printed = String::from_utf8(reference::printed(text)).unwrap();
    let amounts = printed.split("account,first,").next().unwrap();
    printed.starts_with("account,assigned\n").then(|| amounts.to_string())
}

#[test]
fn another_number_of_arguments() {
    let lottery = archive::root().join("examples/lottery.txt");
    for arguments in [vec![], vec![&lottery, &lottery], vec![&lottery; 3]] {
        let found = outcome(script().args(&arguments).output().unwrap());
        assert_eq!(found, (Some(2), String::new(), "usage: book.sh SERIES\n".to_string()), "{arguments:?}");
    }
}

#[test]
fn a_file_that_cannot_be_read() {
    let missing = PathBuf::from(env!("CARGO_TARGET_TMPDIR")).join("no-such-series.txt");
    for (file, words) in [(missing, "No such file"), (archive::root().join("examples"), "Is a directory")] {
        let (status, printed, spoken) = book(&file);
        assert_eq!((status, printed.as_str()), (Some(1), ""), "{spoken}");
        assert_eq!(spoken.lines().count(), 1, "{spoken}");
        assert!(spoken.contains(file.to_str().unwrap()) && spoken.contains(words), "{spoken}");
    }
}

#[test]
fn a_text_on_standard_input() {
    for name in ["wheel", "pro-rata", "lottery", "remainder-draw", "codes", "last-numbers", "tens"] {
        let text = example(&format!("{name}.txt"));
        let expected = (Some(0), amounts(&text).expect(name), String::new());
        assert_eq!(book_from_file(&text, "/dev/stdin"), expected, "{name}");
        assert_eq!(book_from_pipe(&text, "/dev/stdin"), expected, "{name}");
        assert_eq!(book_from_pipe(&text, "-"), expected, "{name}");
    }
    let spoken = format!("refused\n9\nassign: refused, 9: {}\n", dilbreth::explain(9));
    assert_eq!(book_from_pipe(&example("refused.txt"), "/dev/stdin"), (Some(1), String::new(), spoken));
}

// A text that was cut off is booked only where what came is a series of its own, and then with that one's amounts.
#[test]
fn a_text_that_was_cut_off() {
    for name in ["lottery.txt", "last-numbers.txt", "codes.txt", "remainder-draw.txt", "tens.txt"] {
        let text = example(name);
        let mut booked = 0;
        for cut in (0..text.len()).map(|end| &text[..end]) {
            let (status, printed, spoken) = book(TextFile::new(cut).path());
            let expected = amounts(cut);
            assert!(expected.is_none() || cut.ends_with(b"\n"), "{name}, {} bytes", cut.len());
            assert_eq!((status == Some(0), spoken.is_empty()), (expected.is_some(), expected.is_some()));
            assert_eq!(printed, expected.unwrap_or_default(), "{name}, {} bytes", cut.len());
            booked += usize::from(status == Some(0));
        }
        let expected = match name {
            "codes.txt" | "tens.txt" => 1,
            "remainder-draw.txt" => 8,
            _ => 3,
        };
        assert_eq!(booked, expected, "{name}");
    }
}
