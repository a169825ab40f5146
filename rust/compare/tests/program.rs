// The programs `assign` and `change_form`, from pipes, files and streams that fail.

use std::fs::File;
use std::io::Write;
use std::os::fd::OwnedFd;
use std::os::unix::net::UnixStream;
use std::process::{Child, Command, Output, Stdio};

use compare::program::Program::{Assign, ChangeForm};
use compare::program::{self, Feed, Program, TextFile, PROGRAMS};
use compare::random::Random;
use compare::{make, Count, Form, DEFAULT_INCREMENT, FORMS};

const M: &[u8] = b"method,exercised,draw\nL,13,4855\naccount,short\n1,5\n2,8\n3,2\n4,10\n5,11\n";
const M_LASTS: &[u8] = b"method,exercised,draw\nL,13,4855\naccount,last\n1,5\n2,13\n3,15\n4,25\n5,36\n";
const M_ASSIGNED: &[u8] = b"account,assigned\n1,0\n2,0\n3,0\n4,8\n5,5\n";

const EXHIBIT: &str = include_str!("../../../examples/remainder-draw.txt");
const EXHIBIT_PRINTED: &str = include_str!("../../../examples/remainder-draw.out");

// Nothing on standard output, one line on standard error.
fn failed(program: Program, what: &str, words: &str, (out, err): (Vec<u8>, Vec<u8>)) {
    let [out, err] = [out, err].map(|bytes| String::from_utf8_lossy(&bytes).to_string());
    let spoken = format!("{}: {words}\n", program.name());
    assert_eq!((out.as_str(), err), ("", spoken), "{what}");
}

fn not_read(program: Program, what: &str, child: Child) {
    failed(program, what, "the input could not be read", program::finish(child));
}

// Runs the program with the text by each feed; it has to print what is expected, as the separate version does.
fn prints(program: Program, text: &str, feeds: &[Feed], expected: &str) {
    for &feed in feeds {
        let Output { stdout, .. } = program.run(text.as_bytes(), feed);
        assert_eq!(String::from_utf8_lossy(&stdout), expected, "{text}");
        assert_eq!(program.compare(text.as_bytes(), feed), Ok(!expected.starts_with("refused")));
    }
}

// `assign` prints the same for the text in the other form, where it has one, and `change_form` changes between them.
fn prints_in_both_forms(text: &str, feeds: &[Feed], expected: &str) {
    prints(Assign, text, feeds, expected);
    for &feed in feeds {
        let Ok(true) = ChangeForm.compare(text.as_bytes(), feed) else {
            assert_eq!(ChangeForm.compare(text.as_bytes(), feed), Ok(false));
            continue;
        };
        let changed = String::from_utf8(ChangeForm.run(text.as_bytes(), feed).stdout).expect("ASCII");
        assert_ne!(make::has_form(changed.as_bytes()), make::has_form(text.as_bytes()));
        prints(Assign, &changed, &[feed], expected);
    }
}

#[test]
fn case_m_in_full() {
    for feed in [Feed::Pipe, Feed::File, Feed::Pieces(1)] {
        for (from, to) in [(M, M_LASTS), (M_LASTS, M)] {
            for (program, expected) in [(Assign, M_ASSIGNED), (ChangeForm, to)] {
                assert_eq!(program.run(from, feed).stdout, expected);
                assert_eq!(program.compare(from, feed), Ok(true));
            }
        }
    }
}

#[test]
fn the_exhibit_in_full() {
    let (text, printed) = (EXHIBIT, EXHIBIT_PRINTED);
    let amounts = printed.split("account,first,").next().unwrap();
    for (text, expected) in [
        (text, printed),
        // Other draws to the same place, and L from it: it prints no ranges.
        (&text.replace(",395\n", ",1581\n"), printed),
        (&text.replace("50,395\n", "0050,4294966563\n"), printed),
        (&text.replace("R,50,395\n", "L,50,3338\n"), amounts),
        (&text.replace("account,short\n1,", "account,short\n0,"), "refused\n5\n"),
        (&text.replace("R,50,", "R,1187,"), "refused\n9\n"),
        (&text.replace("R,50,", "R,0,"), "refused\n8\n"),
        (&text.replace("R,50,", "r,50,"), "refused\n14\n"),
        (&text.replace("R,50,395", "R,50,4294967296"), "refused\n13\n"),
    ] {
        prints_in_both_forms(text, &[Feed::Pipe, Feed::File, Feed::Pieces(7)], expected);
    }
}

// A with codes, and the same in the order of the accounts, which the wheel does not ask for.
#[test]
fn codes() {
    let by_code = "method,exercised,draw\nW,175,1\ncode,account,short\n3,20,60\n7,4,200\n4294967295,11,95\n";
    let falling = "method,exercised,draw\nW,175,1\ncode,account,short\n7,4,200\n3,20,60\n";
    let assigned = "account,assigned\n20,35\n4,97\n11,43\n";
    for (text, printed) in [
        (by_code, assigned),
        (&by_code.replace("7,4,", "0007,0000000004,"), assigned),
        (&by_code.replace("code,account,short\n3,20", "account,short\n3"), "refused\n13\n"),
        (&by_code.replace("code,", ""), "refused\n13\n"),
        (&by_code.replace("7,4,200", "4,200"), "refused\n13\n"),
        (falling, "refused\n5\n"),
        (&by_code.replace(",11,", ",20,"), "refused\n19\n"),
        (&by_code.replace(",4,", ",0,"), "refused\n19\n"),
        (&by_code.replace("7,4,", "3,20,"), "refused\n5\n"),
        (&by_code.replace("W,", "P,"), "refused\n5\n"),
        (&by_code.replace("W,", "L,").replace("20,", "2,"), "account,assigned\n2,60\n4,115\n11,0\n"),
        (&by_code.replace("short", "last"), "refused\n20\n"),
    ] {
        prints_in_both_forms(text, &[Feed::Pipe, Feed::File], printed);
    }
}

const TENS: &str = include_str!("../../../examples/tens.txt");
const TENS_PRINTED: &str = include_str!("../../../examples/tens.out");

#[test]
fn increments() {
    let wheel = "account,assigned\n1,25\n2,40\n3,0\n";
    for (text, printed) in [
        (TENS, TENS_PRINTED),
        (&TENS.replace(",10\n", ",0000000010\n"), TENS_PRINTED),
        (&TENS.replace(",10\n", ",0\n"), "refused\n23\n"),
        (&TENS.replace(",10\n", ",1000\n"), "account,assigned\n1,60\n2,5\n3,0\n"),
        (&TENS.replace(",10\n", ",1001\n"), "refused\n23\n"),
        (&TENS.replace(",10\n", ",4294967295\n"), "refused\n23\n"),
        (&TENS.replace(",10\n", ",4294967296\n"), "refused\n13\n"),
        (&TENS.replace(",10\n", ",\n"), "refused\n13\n"),
        (&TENS.replace(",10\n", "\n"), "refused\n13\n"),
        (&TENS.replace(",increment\n", "\n"), "refused\n13\n"),
        (&TENS.replace(",increment\n", ",increments\n"), "refused\n12\n"),
        (&TENS.replace(",increment\n", "\n").replace(",10\n", "\n"), wheel),
        (&TENS.replace(",10\n", ",25\n"), wheel),
        (&TENS.replace("W,65,1,10\n", "W,355,0,0\n"), "refused\n23\n"),
        (&TENS.replace("W,65,1,10\n", "W,356,0,0\n"), "refused\n9\n"),
        (&TENS.replace("W,65,1,10\n", "W,65,0,10\n"), "refused\n10\n"),
        (&TENS.replace("W,65,1,10\n", "L,65,1,0\n"), "account,assigned\n1,60\n2,5\n3,0\n"),
        (&TENS.replace("W,65,1,10\n", "W,1000001,1,1\n").replace(",200\n", ",1000000\n"), "refused\n24\n"),
    ] {
        prints_in_both_forms(text, &[Feed::Pipe, Feed::File], printed);
    }
}

#[test]
fn leading_zeros() {
    let m = "method,exercised,draw\nL,0013,0000004855\naccount,short\n0001,5\n0002,08\n03,002\n4,10\n0000000005,11\n";
    let [in_ten, lasts_in_ten] =
        [M, M_LASTS].map(|text| String::from_utf8(make::spelled(text, |_, _| 10)).expect("ASCII"));
    let assigned = std::str::from_utf8(M_ASSIGNED).unwrap();
    for (text, printed) in [
        (m, assigned),
        (&in_ten, assigned),
        (&lasts_in_ten, assigned),
        (&m.replace("0001,", "00000000001,"), "refused\n13\n"),
        (&in_ten.replace("4855", "04855"), "refused\n13\n"),
        (&lasts_in_ten.replace("4855", "04855"), "refused\n13\n"),
        (&m.replace("0002,", "01,"), "refused\n5\n"),
    ] {
        prints_in_both_forms(text, &[Feed::Pipe, Feed::File], printed);
    }
}

// What only `change_form` takes: S and a draw that `assign` refuses.
#[test]
fn changes_of_any_terms() {
    let (m, lasts) = (String::from_utf8_lossy(M), String::from_utf8_lossy(M_LASTS));
    for (terms, number) in [("L,0,1", 8), ("W,37,1", 9), ("L,13,0", 10), ("W,13,4294967295", 10), ("P,4294967295,0", 9)]
    {
        let [m, lasts] = [&m, &lasts].map(|text| text.replace("L,13,4855", terms));
        for (from, to) in [(&m, &lasts), (&lasts, &m)] {
            prints(Assign, from, &[Feed::Pipe], &format!("refused\n{number}\n"));
            prints(ChangeForm, from, &[Feed::Pipe], to);
        }
    }
    for (text, number) in [
        (m.replace("2,8\n", "2,0\n"), 6),
        (lasts.replace("2,13\n", "2,5\n"), 20),
        (lasts.replace("5,36\n", "5,10000001\n"), 7),
        (m.replace("2,8\n", "1,8\n"), 5),
        (lasts.replace("account,last\n", "account,last\n\n"), 13),
        (lasts.replace("last", "Last"), 12),
    ] {
        for program in PROGRAMS {
            prints(program, &text, &[Feed::Pipe, Feed::File], &format!("refused\n{number}\n"));
        }
    }
}

#[test]
fn random_texts() {
    let mut random = Random::new(0xA551_0001);
    let mut counts = [Count::new("assign, random texts"), Count::new("change_form, random texts")];
    let (mut coded, mut ranged, mut by_increment, mut lasts) = (0, 0, 0, 0);
    for case in 0..600 {
        let lines = make::lines(&mut random);
        let mut text = make::text(&mut random, lines);
        if case % 3 != 0 {
            for _ in 0..random.pick(&[1, 1, 2]) {
                make::damage(&mut random, &mut text);
            }
        }
        let feed = if case % 4 == 0 { Feed::File } else { Feed::Pipe };
        let [assigning, changing] = &mut counts;
        changing.case(ChangeForm.compare(&text, feed));
        if assigning.case(Assign.compare(&text, feed)) {
            let series = reference::read_text(&text).expect("a series");
            assigning.allocated(series.terms, series.list());
            coded += u32::from(series.codes != series.accounts);
            ranged += u32::from(series.terms.method == b'R');
            by_increment += u32::from(series.terms.method == b'W' && series.terms.increment != DEFAULT_INCREMENT);
            lasts += u32::from(series.form == Form::LastNumbers);
        }
    }
    counts.iter().for_each(Count::print);
    println!(
        "assign, random texts: {coded} allocated with codes, {ranged} with ranges, {by_increment} under W by another \
         increment than 25, {lasts} by last numbers"
    );
    assert!(!counts[0].undrawn().contains(&0));
    assert!(coded > 20 && ranged > 20 && by_increment > 10 && lasts > 50);
}

#[test]
fn a_few_bytes_at_a_time() {
    let mut random = Random::new(0xA551_0002);
    let mut count = Count::new("programs, in pieces");
    for program in PROGRAMS {
        for size in [1, 1, 1, 2, 3, 7] {
            let text = make::text(&mut random, 12);
            count.case(program.compare(&text, Feed::Pieces(size)));
        }
        for size in [100, 1_000, 4_096, 8_191] {
            let text = make::text(&mut random, 1_024);
            count.case(program.compare(&text, Feed::Pieces(size)));
        }
        count.case(program.compare(&vec![b'1'; 32_768], Feed::Pieces(4_095)));
        count.case(program.compare(&vec![b'1'; 32_769], Feed::Pieces(4_096)));
        count.case(program.compare(&M[..40], Feed::Pieces(1)));
    }
    count.print();
}

#[test]
fn empty_and_too_long() {
    let mut count = Count::new("programs, empty and long");
    for (program, feed) in PROGRAMS.into_iter().flat_map(|program| [(program, Feed::Pipe), (program, Feed::File)]) {
        count.case(program.compare(b"", feed));
        count.case(program.compare(b"\n", feed));
        for (method, lines) in [1_023, 1_024, 1_025].into_iter().flat_map(|lines| [('P', lines), ('R', lines)]) {
            let mut text = format!("method,exercised,draw\n{method},400,7\naccount,short\n").into_bytes();
            for account in 0..lines {
                text.extend(format!("{},{}\n", 4_294_960_000u32 + account, 1 + account % 3).bytes());
            }
            count.case(program.compare(&text, feed));
        }
        for length in [32_767, 32_768, 32_769, 32_770, 65_535, 65_536, 65_537, 300_000] {
            let mut text = M.to_vec();
            text.resize(length, b'\n');
            count.case(program.compare(&text, feed));
        }
        for (form, length) in FORMS.into_iter().flat_map(|form| [32_767, 32_768, 32_769].map(|length| (form, length))) {
            let text = make::text_of_length(form, length);
            assert_eq!(program.compare(&text, feed), Ok(length <= 32_768));
        }
    }
    count.print();
}

#[test]
fn a_failed_read() {
    for program in PROGRAMS {
        not_read(program, "a folder", program.start(Stdio::from(File::open("/").unwrap())));
        let closed = Command::new("/bin/sh")
            .args(["-c", "exec \"$0\" <&-"])
            .arg(program.path())
            .stdout(Stdio::piped())
            .stderr(Stdio::piped())
            .spawn()
            .unwrap();
        not_read(program, "closed", closed);
        let write_only = File::options().write(true).open("/dev/null").unwrap();
        not_read(program, "not open for reading", program.start(Stdio::from(write_only)));
    }
}

// A stream that fails after its first bytes, cut at a line's end: what came is a valid, shorter text.
#[test]
fn a_read_that_fails_midway() {
    for program in PROGRAMS {
        for end in [0, 22, 32, 46, 50, 54, 58, 63, M.len()] {
            let (mut ours, mut theirs) = UnixStream::pair().unwrap();
            ours.write_all(&M[..end]).unwrap();
            // A byte that is never read: closing our end then resets the stream.
            theirs.write_all(b"x").unwrap();
            drop(ours);
            let child = program.start(Stdio::from(OwnedFd::from(theirs)));
            not_read(program, &format!("reset after {end} bytes"), child);
        }
    }
}

#[test]
fn a_failed_write() {
    for (program, text) in PROGRAMS.into_iter().flat_map(|program| [(program, M), (program, &b""[..])]) {
        let file = TextFile::new(text);
        let full = File::options().write(true).open("/dev/full").unwrap();
        let mut child = program
            .command()
            .stdin(Stdio::from(file.open()))
            .stdout(Stdio::from(full))
            .stderr(Stdio::piped())
            .spawn()
            .unwrap();
        let err = program::all(child.stderr.take().unwrap());
        assert!(child.wait().unwrap().code().is_some());
        let lines = err.iter().filter(|&&b| b == 10).count();
        // After an allocation or a change there is nothing else to say; a refusal may have its own line.
        assert!(lines >= 1 && lines <= if text.is_empty() { 2 } else { 1 }, "{:?}", String::from_utf8_lossy(&err));
        assert!(err.ends_with(b"\n"));
    }
    for program in PROGRAMS {
        let file = TextFile::new(M);
        let closed = Command::new("/bin/sh")
            .args(["-c", "exec \"$0\" >&-"])
            .arg(program.path())
            .stdin(Stdio::from(file.open()))
            .stdout(Stdio::null())
            .stderr(Stdio::piped())
            .spawn()
            .unwrap();
        failed(program, "standard output closed", "the output could not be written", program::finish(closed));
    }
}
