// The examples: what the programs print for each, that docs/GUIDE.md shows it, the script that has only whole lists
// booked, and the programs of the day's activity, of a broker's book and of two branches.

use std::fs::{self, File};
use std::os::unix::fs::PermissionsExt;
use std::path::{Path, PathBuf};
use std::process::{Command, Output, Stdio};
use std::sync::OnceLock;

use compare::make;
use compare::program::Program::{Assign, ChangeForm};
use compare::program::{Feed, TextFile};
use compare::{Form, List, Terms};

const GUIDE: &str = include_str!("../../../docs/GUIDE.md");

fn folder() -> PathBuf {
    PathBuf::from(concat!(env!("CARGO_MANIFEST_DIR"), "/../../examples"))
}

fn file(name: &str) -> String {
    fs::read_to_string(folder().join(name)).expect(name)
}

// The first indented block of the guide after the words, which stand in it once.
fn shown_after(words: &str) -> String {
    let parts: Vec<&str> = GUIDE.split(words).collect();
    let [_, rest] = parts[..] else { panic!("docs/GUIDE.md has {words:?} {} times", parts.len() - 1) };
    let block = rest.lines().skip(1).skip_while(|line| !line.starts_with("    "));
    block.map_while(|line| line.strip_prefix("    ")).map(|line| format!("{line}\n")).collect()
}

// What the guide shows for an example: the block after `examples/NAME.txt` (..) gives, or that of another one, which it
// names.
fn shown_for(name: &str) -> String {
    let words = format!("`examples/{name}.txt` (");
    let rest_of_line = GUIDE.split_once(&words).and_then(|(_, rest)| rest.lines().next()).unwrap_or("");
    let same = rest_of_line.split_once("gives what `examples/").and_then(|(_, rest)| rest.split_once(".txt` gives"));
    match same {
        Some((other, _)) => shown_for(other),
        None => {
            assert!(rest_of_line.ends_with(" gives"), "docs/GUIDE.md does not show what examples/{name}.txt gives");
            shown_after(&words)
        }
    }
}

// The names of the texts, and whether each is refused.
fn examples() -> Vec<(String, bool)> {
    let paths = fs::read_dir(folder()).unwrap().map(|entry| entry.unwrap().path());
    let texts = paths.filter(|path| path.extension().is_some_and(|e| e == "txt"));
    let names = texts.map(|path| path.file_stem().unwrap().to_str().unwrap().to_string());
    names.map(|name| (name.clone(), file(&format!("{name}.out")).starts_with("refused\n"))).collect()
}

#[test]
fn every_example_prints_what_is_stored_and_shown() {
    let examples = examples();
    for (name, refused) in &examples {
        let stored = file(&format!("{name}.out"));
        let found = Assign.run(file(&format!("{name}.txt")).as_bytes(), Feed::Pipe);
        assert_eq!(String::from_utf8(found.stdout).unwrap(), stored, "{name}");
        assert_eq!(found.stderr.is_empty(), !refused, "{name}");
        assert_eq!(shown_for(name), stored, "{name}");
    }
    let names = [
        "wheel",
        "tens",
        "pro-rata",
        "five-decimals",
        "lottery",
        "remainder-draw",
        "leading-zeros",
        "last-numbers",
        "whole",
        "codes",
        "account",
        "sub-accounts",
        "after-day",
        "refused",
    ];
    for name in names {
        assert!(examples.contains(&(name.to_string(), name == "refused")), "{name}");
    }
    assert_eq!(shown_after("## The text of a series"), file("lottery.txt"));
    assert_eq!(shown_after("### With codes"), file("codes.txt"));
    assert_eq!(shown_after("### With last numbers"), file("last-numbers.txt"));
    assert_eq!(shown_after("### With an increment"), file("tens.txt"));
    let after_day = shown_after("so these four give three positions");
    assert_eq!(format!("method,exercised,draw\nL,13,4855\n{after_day}"), file("after-day.txt"));
}

fn change(text: &str) -> String {
    let found = ChangeForm.run(text.as_bytes(), Feed::Pipe);
    assert!(found.stderr.is_empty());
    String::from_utf8(found.stdout).unwrap()
}

// The table of the source, in its shape and by its shorts.
#[test]
fn the_source_table_as_last_numbers() {
    let text = file("last-numbers.txt");
    let series = reference::read_text(text.as_bytes()).unwrap();
    assert_eq!((series.form, &series.numbers[..]), (Form::LastNumbers, &[5, 13, 15, 25, 36][..]));
    assert_eq!(series.accounts, [1, 2, 3, 4, 5]);
    assert_eq!(series.terms, Terms::new(b'L', 13, 4855));
    assert_eq!(file("last-numbers.changed"), file("lottery.txt"));
    assert_eq!(file("last-numbers.out"), file("lottery.out"));
    assert_eq!(change(&text), file("last-numbers.changed"));
    assert_eq!(change(&file("last-numbers.changed")), text);
}

// Each example that the change takes, there and back: the same bytes, or the same series where it has leading zeros.
#[test]
fn every_example_there_and_back() {
    for (name, _) in examples() {
        let text = file(&format!("{name}.txt"));
        let changed = change(&text);
        let printed = [&text, &changed].map(|text| Assign.run(text.as_bytes(), Feed::File).stdout);
        assert_eq!(printed[0], printed[1], "{name}");
        let back = change(&changed);
        assert_eq!(reference::read_text(back.as_bytes()), reference::read_text(text.as_bytes()), "{name}");
        assert_eq!(back == text, name != "leading-zeros", "{name}");
    }
}

// The list of examples/wheel.txt, assigned by tens.
#[test]
fn an_example_assigns_by_tens() {
    let [tens, wheel] = ["tens.txt", "wheel.txt"].map(|name| reference::read_text(file(name).as_bytes()).unwrap());
    assert_eq!(tens.terms, Terms::new(b'W', 65, 1).by(10));
    assert_eq!((&tens.accounts, &tens.numbers), (&wheel.accounts, &wheel.numbers));
    // 1 has 1–10 and 51–60; 2 has 102–111, 153–162, 203–212 and 254–260; 3 has 261–263 and 305–309.
    assert_eq!(file("tens.out"), "account,assigned\n1,20\n2,37\n3,8\n");
    assert_eq!(reference::printed(file("tens.txt").as_bytes()), file("tens.out").as_bytes());
}

// The source's exhibit: all 50 contracts to the seventh, whose ranges are 156 to 1155 and 1342 to 2341.
#[test]
fn the_exhibit() {
    let printed = file("remainder-draw.out");
    assert_eq!(printed.as_bytes(), reference::printed(file("remainder-draw.txt").as_bytes()));
    let lines: Vec<&str> = printed.lines().collect();
    assert_eq!((lines.len(), lines[0], lines[11]), (22, "account,assigned", "account,first,last,first2,last2"));
    for (line, expected) in [(1, "1,0"), (7, "7,50"), (10, "10,0"), (18, "7,156,1155,1342,2341")] {
        assert_eq!(lines[line], expected);
    }
}

// An account before it is split and its sub-accounts after: the others keep their amounts, and the sub-accounts together
// get what the account got.
#[test]
fn sub_accounts_change_nothing_for_others() {
    let [before, after] =
        ["account.txt", "sub-accounts.txt"].map(|name| reference::read_text(file(name).as_bytes()).unwrap());
    assert_eq!(before.terms, Terms::new(b'W', 175, 1));
    assert_eq!((&before.accounts[..], &before.numbers[..]), (&[10, 20, 30][..], &[60, 200, 95][..]));
    assert_eq!(after.terms, before.terms);
    assert_eq!((&after.accounts[..], &after.numbers[..]), (&[10, 21, 22, 23, 30][..], &[60, 120, 50, 30, 95][..]));
    let [before, after] = ["account.out", "sub-accounts.out"].map(|name| {
        let amount = |line: &str| line.split_once(',').unwrap().1.parse::<u32>().unwrap();
        file(name).lines().skip(1).map(amount).collect::<Vec<_>>()
    });
    assert_eq!(before, [35, 97, 43]);
    assert_eq!([after[0], after[1] + after[2] + after[3], after[4]], before[..]);
}

// One example has its positions in another order than that of their accounts.
#[test]
fn an_example_has_codes() {
    let mut by_code = 0;
    for (name, _) in examples() {
        let series = reference::read_text(file(&format!("{name}.txt")).as_bytes());
        by_code += u32::from(series.is_ok_and(|series| !series.accounts.is_sorted() && series.codes.is_sorted()));
    }
    assert!(by_code > 0);
}

// What is booked of a list: the amounts without the ranges.
fn amounts(printed: &str) -> &str {
    printed.split("account,first,").next().unwrap()
}

// Runs the script with the program, or one that stands in for it.
fn book_with(shell: &mut Command, text: &Path) -> Output {
    shell.arg(folder().join("book.sh")).arg(text).output().unwrap()
}

fn book(text: &Path) -> Output {
    book_with(Command::new("sh").env("ASSIGN", Assign.path()), text)
}

// A program that prints the file LIST, and then runs the command THEN.
fn stand_in() -> &'static PathBuf {
    static SCRIPT: OnceLock<PathBuf> = OnceLock::new();
    SCRIPT.get_or_init(|| {
        let script = PathBuf::from(env!("CARGO_TARGET_TMPDIR")).join("stand-in");
        fs::write(&script, "#!/bin/sh\ncat \"$LIST\"\neval \"$THEN\"\n").unwrap();
        fs::set_permissions(&script, fs::Permissions::from_mode(0o755)).unwrap();
        script
    })
}

// Runs the script over a program that prints the list and then runs the command; exit status and standard output.
fn book_list(list: &str, then: &str, text: &Path) -> (Option<i32>, String) {
    let file = TextFile::new(list.as_bytes());
    let mut shell = Command::new("sh");
    let found = book_with(shell.env("ASSIGN", stand_in()).env("LIST", file.path()).env("THEN", then), text);
    assert_eq!(found.stderr.is_empty(), found.status.success());
    (found.status.code(), String::from_utf8(found.stdout).unwrap())
}

// The list is not booked for the text, and nothing is printed.
#[track_caller]
fn not_booked(list: &str, text: &Path) {
    assert_eq!(book_list(list, "", text), (Some(1), String::new()), "{list:?}");
}

#[test]
fn only_a_whole_list_is_booked() {
    for (name, _) in examples().iter().filter(|(_, refused)| !refused) {
        let found = book(&folder().join(format!("{name}.txt")));
        assert!(found.status.success() && found.stderr.is_empty(), "{name}");
        assert_eq!(String::from_utf8(found.stdout).unwrap(), amounts(&file(&format!("{name}.out"))), "{name}");
    }
    let refused = book(&folder().join("refused.txt"));
    assert_eq!((refused.status.code(), refused.stdout.len()), (Some(1), 0));
}

// A text whose line 2 has three fields, or four with the increment.
fn with_head(terms: &str, lines: &str) -> String {
    format!("{}{terms}\n{lines}", make::names_1(terms.matches(',').count() == 3))
}

#[test]
fn a_whole_list_of_every_method_is_booked() {
    let exhibit = file("remainder-draw.txt");
    let (_, lines) = exhibit.split_once("R,50,395\n").unwrap();
    for (terms, lines) in [
        ("W,50,395", lines),
        ("P,50,395", lines),
        ("L,50,395", lines),
        ("R,50,0", lines),
        ("R,0000000050,4294967295", lines),
        ("R,1186,0", lines),
        ("R,7,0", "account,short\n9,9\n"),
        ("R,9,0", "account,short\n0009,9\n"),
        ("R,9999999,5", "account,short\n4294967294,1\n4294967295,9999999\n"),
        ("R,7,11", "code,account,short\n0,8,5\n0,9,6\n"),
        ("W,30,5", "account,last\n1,5\n2,13\n3,36\n"),
        ("P,30,5", "account,last\n1,5\n2,13\n3,36\n"),
        ("L,30,5", "account,last\n1,5\n2,13\n3,36\n"),
        ("R,30,5", "account,last\n1,5\n2,13\n3,36\n"),
        ("R,36,0", "account,last\n0001,0005\n2,13\n3,36\n"),
        ("W,30,5", "code,account,last\n7,9,5\n8,2,13\n9,3,36\n"),
        ("R,7,11", "code,account,last\n0,8,5\n0,9,11\n"),
        ("W,50,395,10", lines),
        ("W,1186,0,1", lines),
        ("P,50,395,0", lines),
        ("R,50,395,4294967295", lines),
        ("W,0030,5,0007", "code,account,last\n7,9,5\n8,2,13\n9,3,36\n"),
    ] {
        let text = with_head(terms, lines);
        let found = book(TextFile::new(text.as_bytes()).path());
        assert!(found.status.success() && found.stderr.is_empty(), "{text}");
        let printed = String::from_utf8(reference::printed(text.as_bytes())).unwrap();
        assert!(printed.starts_with("account,assigned\n"), "{text}");
        assert_eq!(String::from_utf8(found.stdout).unwrap(), amounts(&printed), "{text}");
    }
    for terms in [
        "R,0,395",
        "R,1187,395",
        "R,50,x",
        "r,50,395",
        "L,50,0",
        "W,50,1187",
        "W,50,395,0",
        "W,50,395,1001",
        "R,50,395,x",
    ] {
        let text = with_head(terms, lines);
        let found = book(TextFile::new(text.as_bytes()).path());
        assert_eq!((found.status.code(), found.stdout.len()), (Some(1), 0), "{text}");
    }
}

// Whole to look at, and yet the program said something or did not end by itself.
fn not_booked_as_spoken(list: &str, text: &Path) {
    for then in ["echo not whole >&2", "kill -9 $$", "exit 1"] {
        assert_eq!(book_list(list, then, text), (Some(1), String::new()), "{then}");
    }
}

#[test]
fn any_other_list_is_not_booked() {
    let (list, text) = (file("lottery.out"), folder().join("lottery.txt"));
    for end in 0..list.len() {
        not_booked(&list[..end], &text);
    }
    assert_eq!(book_list(&list, "", &text), (Some(0), list.clone()));
    // Another names line, another sum, another number of lines.
    for other in [list.replace("assigned", "short"), list.replace("5,5", "5,4"), format!("{list}6,0\n")] {
        not_booked(&other, &text);
    }
    not_booked_as_spoken(&list, &text);
}

#[test]
fn no_list_without_its_whole_ranges_is_booked() {
    let (list, text) = (file("remainder-draw.out"), folder().join("remainder-draw.txt"));
    for end in 0..list.len() {
        not_booked(&list[..end], &text);
    }
    assert_eq!(book_list(&list, "", &text), (Some(0), amounts(&list).to_string()));
    let (amounts, names) = (amounts(&list), "account,first,last,first2,last2\n");
    let ranges = list.strip_prefix(amounts).unwrap();
    let rows = ranges.strip_prefix(names).unwrap();
    let of_others: String = (11..)
        .zip(rows.lines())
        .map(|(n, row)| row.replacen(&(n - 10).to_string(), &n.to_string(), 1) + "\n")
        .collect();
    let turned: String = rows.lines().rev().map(|row| format!("{row}\n")).collect();
    let (all_but_last, last) = rows.trim_end().rsplit_once('\n').unwrap();
    for other in [
        // Ranges that are missing, stand twice or first, or have a line too few or too many.
        amounts.to_string(),
        format!("{amounts}{amounts}"),
        format!("{ranges}{amounts}"),
        format!("{list}{ranges}"),
        format!("{list}\n"),
        format!("{list}x"),
        format!("{list}11,1187,1187,2374,2374\n"),
        format!("{list}11,1187,1187,2374,2374"),
        format!("{list},,1,,2"),
        format!("{amounts}{names}{all_but_last}\n"),
        format!("{amounts}{rows}{last}\n"),
        // As many lines in all, but one of the amounts too few or too many.
        format!("{}{ranges}{last}\n", amounts.replace("3,0\n", "")),
        format!("{amounts}11,0\n{names}{all_but_last}\n"),
        // Another names line, amounts of another sum.
        list.replace("last2", "last"),
        list.replace("account,first", "account,First"),
        list.replace("first2,last2\n", "first2,last2,\n"),
        list.replace("assigned", "short"),
        list.replace("7,50\n", "7,49\n"),
        // Of another list: other accounts, another order, other ends.
        format!("{amounts}{names}{of_others}"),
        format!("{amounts}{names}{turned}"),
        format!("{amounts}{names}{}", rows.replace("4,152,153,", "5,152,153,")),
        list.replace("2353,2372\n", "2353,2371\n"),
        list.replace("1167,1186,", "1167,1185,"),
        list.replace("1167,1186,2353,2372\n", "1167,1186\n"),
        list.replace("6,155,155,", "6,155,155,155,"),
        "refused\n9\n".to_string(),
    ] {
        assert_ne!(other, list);
        not_booked(&other, &text);
    }
    not_booked_as_spoken(&list, &text);
}

// Ranges after the amounts of another method, and lists of one position, which are the shortest.
#[test]
fn no_list_with_more_than_the_amounts_is_booked() {
    let (list, text) = (file("lottery.out"), folder().join("lottery.txt"));
    let names = "account,first,last,first2,last2\n";
    let rows = "1,1,5,37,41\n2,6,13,42,49\n3,14,15,50,51\n4,16,25,52,61\n5,26,36,62,72\n";
    for more in [&format!("{names}{rows}"), names, names.trim_end(), "\n", "x"] {
        not_booked(&format!("{list}{more}"), &text);
    }
    for method in ["W", "P", "L", "R"] {
        let text = TextFile::new(format!("method,exercised,draw\n{method},2,1\naccount,short\n8,3\n").as_bytes());
        let short = "account,assigned\n8,2\n".to_string();
        let long = format!("{short}{names}8,1,3,4,6\n");
        let (whole, other) = if method == "R" { (&long, &short) } else { (&short, &long) };
        assert_eq!(book_list(whole, "", text.path()), (Some(0), short.clone()), "{method}");
        for list in [other.as_str(), "refused\n9\n", ""] {
            not_booked(list, text.path());
        }
    }
}

// A C program of the folder over the archive: DILBRETH_LIB, or crates/dilbreth/out of the repository.
fn c_program(name: &str) -> PathBuf {
    let program = PathBuf::from(env!("CARGO_TARGET_TMPDIR")).join(name);
    let lib = match std::env::var_os("DILBRETH_LIB") {
        Some(given) => PathBuf::from(given),
        None => folder().join("../crates/dilbreth/out"),
    };
    let built = Command::new("gcc")
        .args(["-std=c99", "-Wall", "-Wextra", "-Werror", "-pedantic", "-O1", "-I"])
        .arg(folder().join("../include"))
        .arg(folder().join(format!("{name}.c")))
        .arg(lib.join("libdilbreth.a"))
        .arg("-o")
        .arg(&program)
        .status()
        .expect("gcc");
    assert!(built.success());
    program
}

fn day_program() -> &'static PathBuf {
    static PROGRAM: OnceLock<PathBuf> = OnceLock::new();
    PROGRAM.get_or_init(|| c_program("day"))
}

// Exit status, standard output and standard error of a command.
fn said(command: &mut Command) -> (Option<i32>, String, String) {
    let found = command.output().unwrap();
    let text = |bytes| String::from_utf8(bytes).unwrap();
    (found.status.code(), text(found.stdout), text(found.stderr))
}

// What a program that cannot write its output says; its exit status is 1.
fn with_a_full_output(command: &mut Command) -> String {
    let full = File::options().write(true).open("/dev/full").unwrap();
    let found = command.stdout(Stdio::from(full)).output().unwrap();
    assert_eq!(found.status.code(), Some(1));
    String::from_utf8(found.stderr).unwrap()
}

fn day(words: &str) -> (Option<i32>, String, String) {
    said(Command::new(day_program()).args(words.split(' ').filter(|word| !word.is_empty())))
}

#[test]
fn days_of_the_circular() {
    for (words, printed) in [
        ("investor ordinary 15 0 20 0 0 10 0", "limit,long,short\n35,25,0\n"),
        ("investor ordinary 15 0 20 0 0 10 35", "limit,long,short\n35,0,10\n"),
        ("investor final 15 0 20 0 0 10 25", "limit,long,short\n25,0,0\n"),
        ("investor ordinary 0 20 20 0 0 0 0", "limit,long,short\n20,20,20\n"),
        ("investor ordinary 0 20 20 0 0 0 20", "limit,long,short\n20,0,20\n"),
        ("investor final 0 20 20 0 0 0 0", "limit,long,short\n0,0,0\n"),
        ("market-maker ordinary 0 100 100 100", "limit\n100\n"),
        ("market-maker final 0 100 100 100", "limit\n0\n"),
        // Each count in its place.
        ("investor ordinary 1000 200 30 4 5 60 700", "limit,long,short\n1030,270,199\n"),
        ("investor final 1000 200 30 4 5 60 700", "limit,long,short\n771,71,0\n"),
        ("investor ordinary 1000 200 30 4 204 400 700", "limit,long,short\n1030,0,70\n"),
        ("investor final 0 200 30 4 5 60 0", "limit,long,short\n0,0,229\n"),
        ("market-maker ordinary 1000 20 300 4", "limit\n1300\n"),
        ("market-maker final 1000 20 300 4", "limit\n1276\n"),
        // The largest counts, and leading zeros.
        ("market-maker ordinary 10000000 0 0010000000 0", "limit\n20000000\n"),
        ("investor ordinary 0000000015 00 020 0 0 10 035", "limit,long,short\n35,0,10\n"),
    ] {
        assert_eq!(day(words), (Some(0), printed.to_string(), String::new()), "{words}");
    }
}

#[test]
fn refused_days() {
    for (words, number) in [
        ("investor ordinary 15 0 20 0 0 10 36", 18),
        ("investor final 15 0 20 0 0 10 26", 18),
        ("investor final 0 20 20 0 0 0 1", 18),
        ("investor ordinary 0 2 0 3 6 9 1", 17),
        ("investor final 0 2 0 3 6 9 1", 17),
        ("investor ordinary 10000001 0 0 0 1 0 0", 16),
        ("investor ordinary 0 0 0 0 0 0 4294967295", 16),
        ("market-maker ordinary 0 10000001 0 0", 16),
        ("market-maker final 0 0 0 4294967295", 16),
    ] {
        let spoken = format!("day: refused, {number}: {}\n", dilbreth::explain(number));
        assert_eq!(day(words), (Some(1), format!("refused\n{number}\n"), spoken), "{words}");
    }
}

#[test]
fn wrong_arguments_of_a_day() {
    let mut wrong = [
        "",
        "investor",
        "investor ordinary",
        "investor ordinary 15 0 20 0 0 10",
        "investor ordinary 15 0 20 0 0 10 35 0",
        "market-maker ordinary 0 100 100",
        "market-maker ordinary 0 100 100 100 0",
        "Investor ordinary 15 0 20 0 0 10 35",
        "firm ordinary 15 0 20 0 0 10 35",
        "investor 0 15 0 20 0 0 10 35",
        "investor finally 15 0 20 0 0 10 35",
        "final investor 15 0 20 0 0 10 35",
    ]
    .map(String::from)
    .to_vec();
    // As each count of both commands.
    for count in ["-1", "+1", "1x", "x", "0x1", "1.0", "1,0", "4294967296", "4294967311", "9999999999", "00000000001"] {
        for (name, counts) in [("investor", 7), ("market-maker", 4)] {
            for at in 0..counts {
                let mut given = vec!["1"; counts];
                given[at] = count;
                wrong.push(format!("{name} ordinary {}", given.join(" ")));
            }
        }
    }
    for words in wrong {
        let (status, printed, spoken) = day(&words);
        assert_eq!((status, printed.as_str()), (Some(2), ""), "{words}");
        assert!(spoken.starts_with("usage: day investor ordinary|final OPENING_LONG "), "{words}: {spoken}");
    }
    for count in ["", " 1", "1 ", "1\n", "\u{661}"] {
        let found = Command::new(day_program()).args(["market-maker", "final", "1", "1", count, "1"]).output().unwrap();
        assert_eq!((found.status.code(), found.stdout.len()), (Some(2), 0), "{count:?}");
    }
}

#[test]
fn a_day_that_cannot_be_written() {
    for words in ["market-maker final 9 1 1 1", "investor ordinary 0 0 0 0 0 0 0", "market-maker final 9 1 1 10000001"]
    {
        let spoken = with_a_full_output(Command::new(day_program()).args(words.split(' ')));
        assert_eq!(spoken, "day: the output could not be written\n");
    }
}

// The third series is refused, and the others stand as if there were no such.
#[test]
fn a_brokers_book() {
    let program = c_program("broker");
    let refused = format!("broker: series 3: refused, 9: {}\n", dilbreth::explain(9));
    assert_eq!(said(&mut Command::new(&program)), (Some(1), file("broker.out"), refused));
    for (series, text) in [("1", "wheel"), ("2", "lottery")] {
        let printed = file(&format!("{text}.out"));
        let lines = printed.lines().skip(1).map(|line| format!("{series},{line}\n"));
        assert!(file("broker.out").contains(&lines.collect::<String>()), "{text}");
    }
    assert!(with_a_full_output(&mut Command::new(program)).ends_with("broker: the output could not be written\n"));
}

// The list of two branches, by hand and as the separate version merges it, and its amounts; then a refused one.
#[test]
fn the_lists_of_two_branches() {
    let program = c_program("branches");
    let printed = file("branches.out");
    let refused = format!("branches: north and west: refused, 5: {}\n", dilbreth::explain(5));
    assert_eq!(said(&mut Command::new(&program)), (Some(1), printed.clone(), refused));
    let merged = reference::merge::merge([(&[2, 5, 9], &[30, 8, 1]), (&[1, 5, 7], &[4, 12, 20])], [5; 2]).unwrap();
    let list = List::by_account(&merged.accounts, &merged.shorts);
    let assigned = reference::allocate(Terms::new(b'P', 40, 0), list, 5).unwrap();
    let lines = |name: &str, numbers: &[u32]| {
        let lines = merged.accounts.iter().zip(numbers).map(|(account, number)| format!("{account},{number}\n"));
        format!("account,{name}\n{}", lines.collect::<String>())
    };
    assert_eq!(printed, lines("short", &[4, 30, 20, 20, 1]) + &lines("assigned", &[2, 16, 11, 11, 0]));
    assert_eq!(printed, lines("short", &merged.shorts) + &lines("assigned", &assigned.amounts));
    assert!(with_a_full_output(&mut Command::new(program)).ends_with("branches: the output could not be written\n"));
}

// The commands `./day ..` of the guide, each with the lines below it.
fn shown_days() -> Vec<(&'static str, String)> {
    let mut shown: Vec<(&str, String)> = Vec::new();
    let mut below = false;
    for line in GUIDE.lines() {
        let Some(line) = line.strip_prefix("    ") else {
            below = false;
            continue;
        };
        if let Some(words) = line.strip_prefix("./day ") {
            shown.push((words, String::new()));
            below = true;
        } else if below {
            shown.last_mut().unwrap().1 += &format!("{line}\n");
        }
    }
    shown
}

#[test]
fn every_day_of_the_guide() {
    let shown = shown_days();
    assert!(shown.len() >= 7, "docs/GUIDE.md has {} commands `./day`", shown.len());
    for (words, printed) in shown {
        assert!(!printed.is_empty(), "./day {words}");
        assert_eq!(day(words).1, printed, "./day {words}");
    }
}
