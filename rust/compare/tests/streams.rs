// The programs `assign` and `change_form` where signals interrupt their reads and writes, where these move a few bytes at
// a time, and where they fail: tests/c/streams.c is preloaded and follows a plan for each stream.

use std::path::PathBuf;
use std::process::{Command, Stdio};
use std::sync::OnceLock;

use compare::program::Program::{Assign, ChangeForm};
use compare::program::{self, Program, TextFile, PROGRAMS};

const M: &[u8] = include_bytes!("../../../examples/lottery.txt");
const M_ASSIGNED: &[u8] = include_bytes!("../../../examples/lottery.out");
const M_LASTS: &[u8] = include_bytes!("../../../examples/last-numbers.txt");
const EXHIBIT: &[u8] = include_bytes!("../../../examples/remainder-draw.txt");
const EXHIBIT_PRINTED: &[u8] = include_bytes!("../../../examples/remainder-draw.out");

// What a program prints for M.
fn printed_for_m(program: Program) -> &'static [u8] {
    match program {
        Assign => M_ASSIGNED,
        ChangeForm => M_LASTS,
    }
}

fn not_read(program: Program) -> String {
    format!("{}: the input could not be read\n", program.name())
}

fn not_written(program: Program) -> String {
    format!("{}: the output could not be written\n", program.name())
}

fn not_whole(program: Program) -> &'static str {
    match program {
        Assign => "assign: the list on standard output is not whole and must not be booked\n",
        ChangeForm => "change_form: the text on standard output is not whole and must not be used\n",
    }
}

fn preloaded() -> &'static PathBuf {
    static LIBRARY: OnceLock<PathBuf> = OnceLock::new();
    LIBRARY.get_or_init(|| {
        let library = PathBuf::from(env!("CARGO_TARGET_TMPDIR")).join("streams.so");
        let built = Command::new("gcc")
            .args(["-std=c11", "-Wall", "-Wextra", "-Werror", "-O1", "-shared", "-fPIC", "-o"])
            .arg(&library)
            .arg(concat!(env!("CARGO_MANIFEST_DIR"), "/../../tests/c/streams.c"))
            .status()
            .expect("gcc");
        assert!(built.success());
        library
    })
}

// What the program writes to standard output and standard error under the plans of its reads and writes.
fn run(program: Program, text: &[u8], reads: &str, writes: &str, errors: &str) -> (Vec<u8>, String) {
    let file = TextFile::new(text);
    let child = program
        .command()
        .env("LD_PRELOAD", preloaded())
        .env("STREAM_0", reads)
        .env("STREAM_1", writes)
        .env("STREAM_2", errors)
        .stdin(Stdio::from(file.open()))
        .stdout(Stdio::piped())
        .stderr(Stdio::piped())
        .spawn()
        .unwrap();
    let (out, err) = program::finish(child);
    (out, String::from_utf8(err).unwrap())
}

fn whole(reads: &str, writes: &str) {
    for (program, text, printed) in [
        (Assign, M, M_ASSIGNED),
        (Assign, M_LASTS, M_ASSIGNED),
        (Assign, EXHIBIT, EXHIBIT_PRINTED),
        (ChangeForm, M, M_LASTS),
        (ChangeForm, M_LASTS, M),
    ] {
        let found = run(program, text, reads, writes, "");
        assert_eq!(found, (printed.to_vec(), String::new()), "{program:?}, reads {reads}, writes {writes}");
    }
}

#[test]
fn interrupted_and_short() {
    whole("", "");
    whole("-4", "");
    whole("", "-4");
    whole("-4,-4,-4,5,-4,1*20,-4,-4,3", "-4,-4,-4,5,-4,1*9,-4,-4,3");
    whole("1*100", "1*100");
    whole("-4*5000,1,-4*5000", "-4*5000,1,-4*5000");
}

// The count of interruptions begins anew with each byte, and every loop ends.
#[test]
fn interrupted_without_end() {
    whole("-4*999999,1,-4*999999", "-4*999999,1,-4*999999");
    for program in PROGRAMS {
        assert_eq!(run(program, M, "-4*1000000", "", ""), (vec![], not_read(program)));
        assert_eq!(run(program, M, "", "-4*1000000", ""), (vec![], not_written(program)));
    }
}

#[test]
fn a_read_that_fails() {
    // 5 is EIO, 11 is EAGAIN. The first 50 bytes are a whole, shorter series.
    for program in PROGRAMS {
        for reads in ["-5", "-11", "-4,-4,-5", "50,-5", "1*50,-4,-5", "68,-5"] {
            assert_eq!(run(program, M, reads, "", ""), (vec![], not_read(program)), "{reads}");
        }
    }
}

#[test]
fn a_write_that_fails() {
    for program in PROGRAMS {
        // 28 is ENOSPC.
        for writes in ["-28", "-5", "-4,-4,-28"] {
            assert_eq!(run(program, M, "", writes, ""), (vec![], not_written(program)), "{writes}");
        }
        let last = printed_for_m(program).len() - 1;
        for (writes, written) in [("5,-28", 5), ("5,-5", 5), ("5,-4,-4,6,-28", 11), ("25,-28", 25), ("36,-5", 36)]
            .map(|(writes, written)| (writes.to_string(), written))
            .into_iter()
            .chain([(format!("{last},-28"), last)])
        {
            let expected = (printed_for_m(program)[..written].to_vec(), not_whole(program).to_string());
            assert_eq!(run(program, M, "", &writes, ""), expected, "{writes}");
        }
        let refused = (b"refused\n".to_vec(), not_whole(program).to_string());
        assert_eq!(run(program, b"", "", "8,-28", ""), refused);
    }
}

// Cut within the amounts, after them, within the ranges and before the last byte.
#[test]
fn ranges_that_cannot_be_written() {
    let amounts = EXHIBIT_PRINTED.windows(14).position(|part| part == b"account,first,").expect("ranges");
    for written in [1, 17, amounts - 1, amounts, amounts + 1, amounts + 32, EXHIBIT_PRINTED.len() - 1] {
        let found = run(Assign, EXHIBIT, "", &format!("{written},-28"), "");
        assert_eq!(found, (EXHIBIT_PRINTED[..written].to_vec(), not_whole(Assign).to_string()), "{written}");
    }
    assert_eq!(run(Assign, EXHIBIT, "", "-28", ""), (vec![], not_written(Assign)));
}

#[test]
fn an_interrupted_explanation() {
    for program in PROGRAMS {
        let line = format!("{}: refused, 12: line 1 or line 3 is missing or not exact\n", program.name());
        for errors in ["", "-4,-4,3,-4,1*9,-4", "1*100", "17,-4,1,-4,1,-4,5,-4"] {
            let expected = (b"refused\n12\n".to_vec(), line.clone());
            assert_eq!(run(program, b"", "", "", errors), expected, "{errors}");
        }
    }
}
