// The words for the refusals: docs/GUIDE.md and the header show those of the library.

use compare::make::METHODS;
use compare::Count;
use dilbreth::{Day, Form, Method};

const GUIDE: &str = include_str!("../../../docs/GUIDE.md");
const HEADER: &str = include_str!("../../../include/dilbreth.h");
const UNIT: &str = include_str!("../../../include/dilbreth.pas");

// The words of the guide's table of refusals: rows `| number | words | what to do |`.
fn guide_table() -> Vec<(u32, String)> {
    let (_, table) = GUIDE.split_once("| Number | What is wrong | What to do |\n").expect("the table of refusals");
    let row = |line: &str| {
        let cells: Vec<&str> = line.strip_prefix('|')?.split('|').map(str::trim).collect();
        let number = cells[0].parse().ok()?;
        assert!(!cells[2].is_empty(), "{number} has no remedy");
        Some((number, cells[1].to_string()))
    };
    table.lines().take_while(|line| line.starts_with('|')).filter_map(row).collect()
}

// The words of the header's table: lines ` *   number  words`.
fn header_table() -> Vec<(u32, String)> {
    let row = |line: &str| {
        let (number, words) = line.strip_prefix(" * ")?.trim_start().split_once("  ")?;
        Some((number.parse().ok()?, words.to_string()))
    };
    HEADER.lines().filter_map(row).collect()
}

// The value of a constant of the header.
fn header_constant(name: &str) -> u32 {
    let start = format!("#define {name} ");
    HEADER.lines().find_map(|line| line.strip_prefix(&start)).expect(name).parse().unwrap()
}

#[test]
fn tables_show_the_words() {
    let words: Vec<(u32, String)> = (1..=24).map(|number| (number, dilbreth::explain(number))).collect();
    assert_eq!(guide_table(), words);
    assert_eq!(header_table(), words);
}

// 21 and 22 are those of a book; 25 and above are no refusals.
#[test]
fn words_for_a_book() {
    assert_eq!(dilbreth::explain(21), "there are more than 64 jobs");
    assert_eq!(dilbreth::explain(22), "a stretch ends past the list or begins too early");
    for number in [0, 25, 26, u32::MAX] {
        assert_eq!(dilbreth::explain(number), "no refusal has this number");
    }
}

#[test]
fn every_number_and_output() {
    let mut count = Count::new("words");
    let table = header_table();
    let mut longest = 0;
    for number in (0..=40).chain([u32::MAX - 1, u32::MAX]) {
        let found = table.iter().find(|(n, _)| *n == number);
        let line = format!("{}\n", found.map_or("no refusal has this number", |(_, words)| words));
        longest = longest.max(line.len());
        for room in (0..=line.len() + 2).chain([100, 4_096]) {
            count.case(compare::explain(number, line.as_bytes(), room));
        }
    }
    assert_eq!(longest as u32, header_constant("DILBRETH_LONGEST_EXPLANATION"));
    count.print();
}

// The letters of the methods, as the header, the Pascal unit and the Rust wrapper have them.
#[test]
fn one_letter_for_each_method() {
    let methods = [
        ("WHEEL", Method::Wheel),
        ("PRO_RATA", Method::ProRata),
        ("LOTTERY", Method::Lottery),
        ("REMAINDER_DRAW", Method::RemainderDraw),
    ];
    for ((name, method), letter) in methods.into_iter().zip(METHODS) {
        assert_eq!((method.byte(), Method::from_byte(letter)), (letter, Some(method)));
        let letter = char::from(letter);
        let [line, of_unit] = [
            format!("#define DILBRETH_{name} ((uint8_t)'{letter}')\n"),
            format!("  DILBRETH_{name} = Ord('{letter}');\n"),
        ];
        assert!(HEADER.contains(&line) && UNIT.contains(&of_unit), "{line}{of_unit}");
    }
    assert_eq!((0..=255).filter(|&byte| Method::from_byte(byte).is_some()).count(), METHODS.len());
}

// What the header says is always enough for what `assign` prints, and for a changed text.
#[test]
fn room_for_all_that_is_written() {
    assert_eq!((reference::MOST_PRINTED, reference::MOST_CHANGED), (70_705, 31_830));
    for length in ["70,705", "31,830"] {
        assert!(HEADER.contains(&format!("the length of output ({length} is always enough)")));
    }
}

// The constants that the header, the Pascal unit and the Rust wrapper each have.
#[test]
fn one_version() {
    assert_eq!(header_constant("DILBRETH_VERSION"), dilbreth::VERSION);
    assert_eq!(header_constant("DILBRETH_DEFAULT_INCREMENT"), dilbreth::DEFAULT_INCREMENT);
    assert_eq!(header_constant("DILBRETH_MOST_JOBS") as usize, dilbreth::MOST_JOBS);
    assert_eq!(reference::jobs::MOST_JOBS, dilbreth::MOST_JOBS);
    assert_eq!(header_constant("DILBRETH_ORDINARY_DAY"), Day::Ordinary.number());
    assert_eq!(header_constant("DILBRETH_FINAL_DAY"), Day::Final.number());
    for (name, form) in [("DILBRETH_SHORTS", Form::Shorts), ("DILBRETH_LAST_NUMBERS", Form::LastNumbers)] {
        assert_eq!(header_constant(name), form.number());
        assert_eq!(Form::from_number(form.number()), form);
    }
    for number in [2, 255, 256, 65_536, 1 << 31, u32::MAX] {
        assert_eq!(Form::from_number(number), Form::LastNumbers);
    }
    let names = [
        "DILBRETH_VERSION",
        "DILBRETH_SHORTS",
        "DILBRETH_LAST_NUMBERS",
        "DILBRETH_DEFAULT_INCREMENT",
        "DILBRETH_MOST_JOBS",
        "DILBRETH_ORDINARY_DAY",
        "DILBRETH_FINAL_DAY",
        "DILBRETH_LONGEST_EXPLANATION",
    ];
    for name in names {
        let line = format!("  {name} = {};\n", header_constant(name));
        assert!(UNIT.contains(&line), "include/dilbreth.pas has no {line:?}");
    }
}
