// What README.md and docs/GUIDE.md say: each command, README's tables, the guide's blocks of the wheel and its split
// account, how the programs end, and the files that the documents name. The outputs of the guide's examples are in
// examples.rs, its table of refusals in words.rs.

use std::collections::BTreeSet;
use std::fs;
use std::os::unix::process::ExitStatusExt;
use std::path::{Path, PathBuf};
use std::process::{Command, Output, Stdio};

use compare::program::Program::{Assign, ChangeForm};
use compare::program::{Feed, TextFile, PROGRAMS};

const README: &str = include_str!("../../../README.md");
const GUIDE: &str = include_str!("../../../docs/GUIDE.md");
const GATE: &str = include_str!("../../../.ci/run");

fn root() -> PathBuf {
    PathBuf::from(concat!(env!("CARGO_MANIFEST_DIR"), "/../.."))
}

fn example(name: &str) -> String {
    fs::read_to_string(root().join("examples").join(name)).expect(name)
}

// The indented blocks of a document, each with its lines.
fn blocks(document: &str) -> Vec<Vec<&str>> {
    let mut blocks = Vec::new();
    let mut block = Vec::new();
    for line in document.lines().chain([""]) {
        match line.strip_prefix("    ") {
            Some(line) => block.push(line.trim_start()),
            None if block.is_empty() => {}
            None => blocks.push(std::mem::take(&mut block)),
        }
    }
    blocks
}

// The commands of a document: lines of indented blocks that a shell is to run, without a remark at the end.
fn commands(document: &str) -> Vec<&str> {
    let starts = ["(cd ", "rt ", "gcc ", "./", ".ci/", "crates/", "examples/", "cargo ", "sh ", "bash "];
    let lines = blocks(document).concat().into_iter();
    let commands = lines.filter(|line| starts.iter().any(|start| line.starts_with(start)));
    commands.map(|line| line.split("    #").next().unwrap().trim_end()).collect()
}

// Every command is one that a test runs: those of a day in examples.rs, the script of booking there too, the archive, the
// proofs and the links of the programs in the gate, and the others below.
#[test]
fn every_command_is_tested() {
    let first = "(cd crates/assign && rt run) < examples/lottery.txt";
    let archive = "(cd crates/dilbreth && rt lib)";
    let book = "examples/book.sh SERIES.txt > list.csv";
    assert_eq!(commands(README), [first, book, ".ci/run"]);
    let of_guide = commands(GUIDE).into_iter().filter(|command| !command.starts_with("./day "));
    let expected = [
        archive,
        "gcc -I include examples/day.c crates/dilbreth/out/libdilbreth.a -o day",
        first,
        book,
        "(cd crates/change_form && rt run) < examples/last-numbers.txt",
        archive,
        "gcc -I include tests/c/dilbreth_test.c crates/dilbreth/out/libdilbreth.a -o dilbreth_test",
    ];
    assert_eq!(of_guide.collect::<Vec<_>>(), expected);
    for step in ["rt ci", archive, "bash tests/run.sh"] {
        assert!(GATE.contains(&format!("{step}\n")), ".ci/run has no {step:?}");
    }
}

// The command with which README begins prints what stands below it.
#[test]
fn the_first_allocation() {
    let blocks = blocks(README);
    assert_eq!(blocks[0], ["(cd crates/assign && rt run) < examples/lottery.txt"]);
    assert_eq!(blocks[1].join("\n") + "\n", example("lottery.out"));
    assert_eq!(blocks[2].join("\n") + "\n", example("lottery.txt"));
    let found = Assign.run(example("lottery.txt").as_bytes(), Feed::File);
    assert_eq!((found.status.code(), found.stderr.len()), (Some(0), 0));
    assert_eq!(String::from_utf8(found.stdout).unwrap(), example("lottery.out"));
}

// README shows the two lines that have the increment.
#[test]
fn the_lines_with_the_increment() {
    let shown = blocks(README).remove(3);
    assert_eq!(shown.len(), 2);
    assert!(example("tens.txt").starts_with(&(shown.join("\n") + "\naccount,short\n")));
}

#[test]
fn the_change_prints_the_first_text() {
    let found = ChangeForm.run(example("last-numbers.txt").as_bytes(), Feed::File);
    assert_eq!((found.status.code(), found.stderr.len()), (Some(0), 0));
    assert_eq!(String::from_utf8(found.stdout).unwrap(), example("lottery.txt"));
}

// Runs the commands of gcc as they stand, over the archive that is tested (DILBRETH_LIB), in a folder of their own.
#[test]
fn the_programs_in_c_are_built_as_shown() {
    let folder = PathBuf::from(env!("CARGO_TARGET_TMPDIR")).join("as-shown");
    fs::create_dir_all(&folder).unwrap();
    let archive = match std::env::var_os("DILBRETH_LIB") {
        Some(given) => PathBuf::from(given).join("libdilbreth.a"),
        None => root().join("crates/dilbreth/out/libdilbreth.a"),
    };
    let shown: Vec<&str> = commands(GUIDE).into_iter().filter(|command| command.starts_with("gcc ")).collect();
    assert_eq!(shown.len(), 2);
    for command in shown {
        let output = command.rsplit(' ').next().unwrap();
        let words = command.split(' ').map(|word| match word {
            "crates/dilbreth/out/libdilbreth.a" => archive.clone(),
            word if word == output => folder.join(word),
            word => PathBuf::from(word),
        });
        let words: Vec<PathBuf> = words.collect();
        let built = Command::new(&words[0]).args(&words[1..]).current_dir(root()).output().unwrap();
        assert!(built.status.success(), "{command}: {}", String::from_utf8_lossy(&built.stderr));
        assert!(folder.join(output).is_file(), "{command}");
    }
}

#[test]
fn the_readme_is_short() {
    assert!(README.len() <= 9_000, "README.md has {} bytes", README.len());
}

// The cells of a table's rows below its head.
fn rows(document: &'static str, head: &str) -> Vec<Vec<&'static str>> {
    let (_, table) = document.split_once(head).expect(head);
    let rows = table.lines().skip(2).take_while(|line| line.starts_with('|'));
    rows.map(|line| line.trim_matches('|').split('|').map(str::trim).collect()).collect()
}

// README's book is that of examples/broker.c: the amounts of each series that is not refused stand in broker.out.
#[test]
fn the_book_of_a_broker() {
    let printed = example("broker.out");
    let lines: Vec<Vec<&str>> = printed.lines().skip(1).map(|line| line.split(',').collect()).collect();
    let books = rows(README, "| Series | First, positions |");
    assert_eq!(books.len(), 3);
    for (i, row) in books.iter().enumerate() {
        let series = (i + 1).to_string();
        let amounts: Vec<&str> = lines.iter().filter(|line| line[0] == series).map(|line| line[2]).collect();
        let stretch = numbers(row[1]);
        assert_eq!(numbers(row[0].strip_prefix("shorts ").unwrap()).len(), stretch[1] as usize);
        match row[3].starts_with("0, ") {
            true => assert_eq!(row[4], amounts.join(", ")),
            false => assert!(row[3].starts_with("9: ") && amounts.is_empty()),
        }
    }
}

// README's two branches are those of examples/branches.c: the merged list stands in branches.out, each of its shorts the
// sum of both.
#[test]
fn the_lists_of_two_branches() {
    let printed = example("branches.out");
    let merged: Vec<&str> = printed.lines().skip(1).take_while(|line| !line.starts_with("account")).collect();
    let rows = rows(README, "| Account | First branch | Second branch | Merged |");
    let shown: Vec<String> = rows.iter().map(|row| format!("{},{}", row[0], row[3])).collect();
    assert_eq!(shown, merged);
    let of = |cell: &str| if cell.is_empty() { 0 } else { numbers(cell)[0] };
    for row in &rows {
        assert_eq!(of(row[1]) + of(row[2]), of(row[3]), "{row:?}");
    }
}

// README's accounts before and after a split are those of the two examples.
#[test]
fn the_sub_accounts_of_the_readme() {
    let rows = rows(README, "| Accounts | Assigned |");
    assert_eq!(rows.len(), 2);
    for (row, name) in rows.iter().zip(["account", "sub-accounts"]) {
        let list = reference::read_text(example(&format!("{name}.txt")).as_bytes()).unwrap();
        let printed = example(&format!("{name}.out"));
        let amounts = printed.lines().skip(1).map(|line| line.split_once(',').unwrap().1);
        let assigned: Vec<String> =
            amounts.zip(&list.numbers).map(|(amount, short)| format!("{amount} of {short}")).collect();
        assert_eq!((numbers(row[0]), row[1]), (list.accounts, &assigned.join(", ")[..]), "{name}");
    }
}

fn numbers(words: &str) -> Vec<u32> {
    words.split(", ").map(|word| word.parse().expect(words)).collect()
}

// Each row of README's table of methods: the example's method, shorts, S and draw, and the amounts that it is given.
#[test]
fn the_methods_of_the_readme() {
    let rows = rows(README, "| Method | What it does | Example | Amounts |");
    let mut methods = Vec::new();
    for row in &rows {
        let [method, _, shown, amounts] = row[..] else { panic!("{row:?}") };
        let (name, terms) = shown.strip_prefix("`examples/").unwrap().split_once(".txt`: shorts ").expect(shown);
        let (shorts, terms) = terms.split_once("; S = ").expect(shown);
        let (exercised, draw) = terms.split_once("; draw ").expect(shown);
        let series = reference::read_text(example(&format!("{name}.txt")).as_bytes()).unwrap();
        assert_eq!(series.list().shorts(), numbers(shorts), "{name}");
        let terms = reference::Terms::new(series.terms.method, numbers(exercised)[0], numbers(draw)[0]);
        assert_eq!(series.terms, terms, "{name}");
        assert_eq!(Some(char::from(terms.method)), method.chars().next(), "{name}");
        let printed = example(&format!("{name}.out"));
        let lines = printed.lines().skip(1).take(series.accounts.len());
        let found: Vec<&str> = lines.map(|line| line.split_once(',').unwrap().1).collect();
        assert_eq!(found.join(", "), amounts, "{name}");
        methods.push(char::from(terms.method));
    }
    assert_eq!(methods, ['W', 'P', 'L', 'R']);
}

// T of an example under W, and the first and last place of each block.
fn blocks_of(name: &str) -> (u32, Vec<(u32, u32)>) {
    let series = reference::read_text(example(name).as_bytes()).unwrap();
    let total = series.list().shorts().iter().sum();
    let mut ends: Vec<(u32, u32)> = Vec::new();
    let blocks = reference::turn(series.terms, total, |block, place| {
        if ends.len() < block as usize {
            ends.push((place, place));
        }
        ends[block as usize - 1].1 = place;
    });
    assert_eq!(ends.len(), blocks as usize);
    (total, ends)
}

// The guide's table of the blocks of examples/wheel.txt, row by row.
#[test]
fn the_blocks_of_the_guide() {
    let rows = rows(GUIDE, "| Block | Interval plus reserve | Skipped | Reserved | Contracts |");
    let (total, ends) = blocks_of("wheel.txt");
    assert_eq!(rows.len(), ends.len());
    let interval = reference::skip_interval(total, ends.len() as u32, 25);
    assert!(GUIDE.contains("355 / 7 − 25 = 25.714286") && interval == 25_714_286);
    let mut reserve = 0;
    for (at, (row, (first, last))) in rows.iter().zip(ends).enumerate() {
        assert_eq!((row[0], row[4]), (&*format!("{}", at + 1), &*format!("{first}–{last}")));
        if at == 0 {
            assert_eq!(row[1..4], ["", "", "0"]);
            continue;
        }
        let skip = interval + reserve;
        reserve = skip % 1_000_000;
        let whole = (skip / 1_000_000).to_string();
        assert_eq!(row[1..4], [format!("{whole}.{reserve:06}"), whole, format!(".{reserve:06}")]);
    }
}

// The guide's blocks of examples/tens.txt, which begin where those of examples/wheel.txt do.
#[test]
fn the_blocks_by_tens() {
    let ((total, ends), (_, of_wheel)) = (blocks_of("tens.txt"), blocks_of("wheel.txt"));
    let shown: Vec<String> = ends.iter().map(|(first, last)| format!("{first}–{last}")).collect();
    let (last, others) = shown.split_last().unwrap();
    let shown = format!("{} and {last}", others.join(", "));
    assert!(GUIDE.contains(&shown), "{shown}");
    assert_eq!(reference::skip_interval(total, ends.len() as u32, 10), 40_714_286);
    assert!(GUIDE.contains("355 / 7 − 10 = 40.714286"));
    assert!(ends.iter().zip(&of_wheel).all(|(ten, block)| ten.0 == block.0) && ends.len() == of_wheel.len());
}

// The guide's starting places under L.
#[test]
fn starting_places_are_rounded_up() {
    for (total, exact, place) in [(36, "0.4855 × 36 is 17.478", 18), (40, "0.4855 × 40 is 19.42", 20)] {
        assert!(GUIDE.contains(exact), "{exact}");
        assert_eq!(reference::starting_place(total, 4855), place);
    }
}

// The guide's case of an account that is split under P.
#[test]
fn the_split_account_of_the_guide() {
    let rows = rows(GUIDE, "| Shorts | Amounts |");
    assert_eq!(rows.len(), 2);
    for row in rows {
        let shorts = numbers(row[0]);
        let accounts: Vec<u32> = (1..).take(shorts.len()).collect();
        let list = reference::List::by_account(&accounts, &shorts);
        let found = reference::allocate(reference::Terms::new(b'P', 2, 0), list, shorts.len()).unwrap();
        assert_eq!(found.amounts, numbers(row[1]));
    }
}

// A program's output under a command of the shell, which has the text as standard input: how the program ended, and what
// stands on standard error.
fn under(shell: &str, text: &str) -> Output {
    let file = TextFile::new(text.as_bytes());
    let mut command = Command::new("sh");
    command.args(["-c", shell]).stdin(Stdio::from(file.open()));
    let out = PathBuf::from(env!("CARGO_TARGET_TMPDIR")).join(format!("out-{}", std::process::id()));
    command.env("OUT", &out).output().unwrap()
}

// The exit status is 0 where the program ends by itself, also where the reader of its output has gone; a signal that ends
// it leaves standard error silent.
#[test]
fn how_a_program_ends() {
    let text = example("lottery.txt");
    for program in PROGRAMS {
        let path = program.path();
        let path = path.to_str().unwrap();
        // A refusal, an output that is full, an input that is a folder.
        for (shell, text) in [
            (format!("exec '{path}'"), "refused\n"),
            (format!("exec '{path}' >/dev/full"), &*text),
            (format!("exec '{path}' </"), &*text),
        ] {
            let found = under(&shell, text);
            assert_eq!(found.status.code(), Some(0), "{shell}");
            assert!(!found.stderr.is_empty(), "{shell}");
        }
        // 25 is SIGXFSZ: the file-size limit.
        let found = under(&format!("ulimit -f 0; exec '{path}' >\"$OUT\""), &text);
        assert_eq!((found.status.signal(), found.stderr.len()), (Some(25), 0), "{path}");
        // The reader has gone before the program is started.
        let mut gone = Command::new("true").stdin(Stdio::piped()).spawn().unwrap();
        let pipe = gone.stdin.take().unwrap();
        gone.wait().unwrap();
        let file = TextFile::new(text.as_bytes());
        let mut command = program.command();
        command.stdin(Stdio::from(file.open())).stdout(Stdio::from(pipe)).stderr(Stdio::piped());
        let found = command.spawn().unwrap().wait_with_output().unwrap();
        let said = format!("{}: the output could not be written\n", program.name());
        assert_eq!((found.status.code(), String::from_utf8(found.stderr).unwrap()), (Some(0), said), "{path}");
        // A shell shows a signal as 128 and its number.
        assert!(
            GUIDE.contains("a shell shows 153 at a file-size limit") && GUIDE.contains("the reader of a pipe has gone")
        );
    }
}

// What a script compares: a changed text has as many lines as the text that went in. Cut at a line's end it begins like a
// whole one, and is the text of a shorter series.
#[test]
fn a_changed_text_has_as_many_lines() {
    for entry in fs::read_dir(root().join("examples")).unwrap() {
        let path = entry.unwrap().path();
        if path.extension().is_none_or(|extension| extension != "txt") {
            continue;
        }
        let text = fs::read(&path).unwrap();
        let changed = ChangeForm.run(&text, Feed::Pipe).stdout;
        let lines = |text: &[u8]| text.iter().filter(|&&byte| byte == b'\n').count();
        assert_eq!(lines(&changed), lines(&text), "{}", path.display());
        let ends = (0..changed.len()).filter(|&at| changed[at] == b'\n').map(|at| at + 1);
        for end in ends.skip(2) {
            let cut = &changed[..end];
            assert!(cut.starts_with(b"method"));
            let series = reference::read_text(cut).unwrap();
            assert_eq!(series.accounts.len() + 3, lines(cut), "{}", path.display());
        }
    }
}

// The words between backquotes.
fn quoted(document: &str) -> impl Iterator<Item = &str> {
    document.split('`').skip(1).step_by(2)
}

// The files that the documents name are there: a path is that of the repository, begins with a crate, or is one within a
// crate (`src/..`, `specs/..`, `proofs/..`).
#[test]
fn every_file_that_is_named() {
    let root = root();
    let crates: Vec<PathBuf> = fs::read_dir(root.join("crates")).unwrap().map(|entry| entry.unwrap().path()).collect();
    let within = |word: &str| {
        let part = ["src/", "specs/", "proofs/"].iter().any(|part| word.starts_with(part));
        part && crates.iter().any(|of| of.join(word).is_file())
    };
    let mut documents = vec![root.join("README.md")];
    let others = fs::read_dir(root.join("docs")).unwrap().map(|entry| entry.unwrap().path());
    documents.extend(others.filter(|path| path.extension().is_some_and(|extension| extension == "md")));
    let mut missing = BTreeSet::new();
    let mut named = 0;
    for document in documents {
        let text = fs::read_to_string(&document).unwrap();
        for word in quoted(&text) {
            let file = Path::new(word);
            let has_kind = file.extension().is_some_and(|kind| {
                ["antt", "rt", "rs", "md", "sh", "c", "h", "pas", "txt"].iter().any(|known| kind == *known)
            });
            if !has_kind || !word.contains('/') || word.contains([' ', '*', '\n']) {
                continue;
            }
            // `F`, `NAME` and `N` stand for any name.
            if file.components().any(|part| ["F", "NAME", "N"].iter().any(|any| part.as_os_str() == *any)) {
                continue;
            }
            named += 1;
            if !root.join(word).is_file() && !root.join("crates").join(word).is_file() && !within(word) {
                missing.insert(format!("{}: {word}", document.file_name().unwrap().to_string_lossy()));
            }
        }
    }
    assert!(named > 50, "{named} files");
    assert!(missing.is_empty(), "{missing:#?}");
}
