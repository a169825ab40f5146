// Texts, two of three damaged, through reading, writing, changing and responding.

use compare::library::respond;
use compare::make::{self, Columns, Field, Series, COLUMNS};
use compare::random::Random;
use compare::{library_form, Count, Form, List, Terms, DEFAULT_INCREMENT, FORMS, LAST_REFUSAL};
use dilbreth::Refused;

// Rooms around what is needed.
fn rooms(random: &mut Random, needed: usize) -> [usize; 3] {
    [needed, needed + 1 + random.index(9), needed - random.between(0, needed.min(3) as u64) as usize]
}

struct Counts {
    reading: Count,
    writing: Count,
    changing: Count,
    responding: Count,
}

fn through(random: &mut Random, text: &[u8], counts: &mut Counts) {
    let Counts { reading, writing, changing, responding } = counts;
    let series = reference::read_text(text);
    let positions = series.as_ref().map_or(3, |s| s.numbers.len());
    reading.case(compare::read(text, [positions; 3]));
    let [_, enough, fewer] = rooms(random, positions);
    reading.case(compare::read(text, [enough, positions, enough]));
    for list in 0..3 {
        let mut rooms = [enough; 3];
        rooms[list] = fewer;
        reading.case(compare::read(text, rooms));
    }
    let printed = reference::printed(text);
    for room in rooms(random, printed.len()) {
        responding.case(compare::respond(text, room));
    }
    let changed = reference::change(text, usize::MAX);
    for room in rooms(random, changed.as_ref().map_or(60, Vec::len)) {
        changing.case(compare::change(text, room));
    }
    if let Ok(changed) = changed {
        assert_eq!(reference::printed(&changed), printed);
        responding.case(compare::respond(&changed, printed.len()));
    }
    if let Ok(s) = series {
        if !printed.starts_with(b"refused") {
            responding.allocated(s.terms, s.list());
        }
        let written = reference::write(s.terms, s.list(), usize::MAX).unwrap();
        for room in rooms(random, written.len()) {
            writing.case(compare::write(s.terms, s.list(), room));
        }
        written_shorter(text, &written);
        assert_eq!(reference::read_text(&written), Ok(s));
        if written != text {
            reading.case(compare::read(&written, [positions; 3]));
            assert_eq!(reference::printed(&written), printed);
            responding.case(compare::respond(&written, printed.len()));
        }
    }
}

// What is written for a text that reads is the text itself, or shorter where that has leading zeros, a column of codes
// that are the accounts, or one with the increment 25.
fn written_shorter(text: &[u8], written: &[u8]) {
    let shown = String::from_utf8_lossy(text);
    let left_out = make::columns(text) != make::columns(written);
    assert!(!make::leading_zeros(written).contains(&true), "{shown}");
    if make::leading_zeros(text).contains(&true) || left_out {
        assert!(written.len() < text.len(), "{shown}");
    } else {
        assert_eq!(written, text, "{shown}");
    }
    assert_eq!(make::columns(written), columns_to_write(&reference::read_text(text).expect("a series")), "{shown}");
}

fn columns_to_write(series: &reference::Series) -> Columns {
    let increment = series.terms.increment != DEFAULT_INCREMENT;
    Columns { increment, codes: series.codes != series.accounts }
}

// Counts the spellings of whole texts.
#[derive(Default)]
struct Spellings {
    // By the columns of the text.
    zeros: [[u32; make::FIELDS]; COLUMNS.len()],
    none: u32,
    all_in_ten: u32,
    // By shorts and by last numbers: without the column of codes, with one that is left out in writing, and with one that
    // is written; and the same of the increment.
    codes: [[u32; 3]; 2],
    increments: [[u32; 3]; 2],
}

impl Spellings {
    fn add(&mut self, text: &[u8]) {
        let zeros = make::leading_zeros(text);
        let columns = make::columns(text);
        let at = COLUMNS.iter().position(|of| *of == columns).expect("columns");
        for (count, found) in self.zeros[at].iter_mut().zip(zeros) {
            *count += u32::from(found);
        }
        self.none += u32::from(!zeros.contains(&true));
        self.all_in_ten += u32::from(make::numbers(text).iter().all(|(from, to)| to - from == 10));
        let series = reference::read_text(text).expect("a series");
        let to_write = columns_to_write(&series);
        let form = library_form(series.form).number() as usize;
        self.codes[form][usize::from(columns.codes) + usize::from(to_write.codes)] += 1;
        self.increments[form][usize::from(columns.increment) + usize::from(to_write.increment)] += 1;
    }

    // How many texts have leading zeros in each field that there is.
    fn zeros(&self) -> impl Iterator<Item = (Columns, Field, u32)> + '_ {
        make::fields().map(|(columns, field)| {
            let at = COLUMNS.iter().position(|of| *of == columns).expect("columns");
            (columns, field, self.zeros[at][field as usize])
        })
    }

    fn print(&self) {
        println!("whole texts: every number in ten digits {}; no leading zero {}", self.all_in_ten, self.none);
        for of in COLUMNS {
            let fields = self.zeros().filter(|(columns, ..)| *columns == of);
            let shown: Vec<String> = fields.map(|(_, field, texts)| format!("{field:?} {texts}")).collect();
            println!("whole texts with {of:?} and leading zeros: {}", shown.join(", "));
        }
        for (what, counts) in [("codes that are the accounts", self.codes), ("increment 25", self.increments)] {
            for (form, [without, left_out, written]) in FORMS.into_iter().zip(counts) {
                println!(
                    "whole texts, {form:?}: {without} without the column, {left_out} with {what}, {written} with others"
                );
            }
        }
    }
}

// How many texts reading and changing refuse by each number.
#[derive(Default)]
struct Refusals {
    reading: [u32; LAST_REFUSAL + 1],
    changing: [u32; LAST_REFUSAL + 1],
    responding: [u32; LAST_REFUSAL + 1],
}

impl Refusals {
    fn add(&mut self, text: &[u8]) {
        let met = |answer: Option<u32>| answer.unwrap_or(0) as usize;
        self.reading[met(reference::read_text(text).err())] += 1;
        self.changing[met(reference::change(text, usize::MAX).err())] += 1;
        let printed = String::from_utf8(reference::printed(text)).expect("ASCII");
        let number = printed.strip_prefix("refused\n").map(|number| number.trim_end().parse().expect("a number"));
        self.responding[met(number)] += 1;
    }

    fn print(&self) {
        let shown = |met: &[u32]| {
            let met = (1..).zip(&met[1..]).filter(|(_, &texts)| texts > 0);
            met.map(|(number, texts)| format!("{number}: {texts}")).collect::<Vec<_>>().join(", ")
        };
        println!("texts refused in reading by {}", shown(&self.reading));
        println!("texts refused in changing by {}", shown(&self.changing));
        println!("texts refused in responding by {}", shown(&self.responding));
    }
}

#[test]
fn random_texts() {
    let mut random = Random::new(0x7E87_0001);
    let mut counts = Counts {
        reading: Count::new("texts read"),
        writing: Count::new("texts written"),
        changing: Count::new("texts changed"),
        responding: Count::new("texts responded to"),
    };
    let (mut whole, mut damaged, mut ranged) = (0, 0, 0);
    let mut spellings = Spellings::default();
    let mut refusals = Refusals::default();
    while whole + damaged < 45_000 {
        let lines = make::lines(&mut random);
        let mut text = make::text(&mut random, lines);
        if (whole + damaged) % 3 == 0 {
            whole += 1;
            spellings.add(&text);
        } else {
            let before = text.clone();
            for _ in 0..random.pick(&[1, 1, 1, 2, 3]) {
                make::damage(&mut random, &mut text);
            }
            if text == before {
                continue;
            }
            damaged += 1;
        }
        refusals.add(&text);
        let under_r = reference::read_text(&text).is_ok_and(|series| series.terms.method == b'R');
        ranged += u32::from(under_r && reference::printed(&text).starts_with(b"account"));
        through(&mut random, &text, &mut counts);
    }
    println!("texts: {whole} whole, {damaged} damaged, {ranged} print ranges");
    refusals.print();
    assert!(ranged > 1_000);
    assert!([11, 12, 13, 14, 15].iter().all(|&number| refusals.reading[number] > 50));
    let of_list = [0, 3, 5, 6, 7, 11, 12, 13, 14, 15, 19, 20];
    assert!(of_list.iter().all(|&number| refusals.changing[number] > 50));
    assert!(of_list.iter().chain(&[8, 9, 10, 23]).all(|&number| refusals.responding[number] > 50));
    // The change judges no increment.
    assert_eq!(refusals.changing[23..], [0, 0]);
    spellings.print();
    let Spellings { none, all_in_ten, codes, increments, .. } = spellings;
    assert!(spellings.zeros().all(|(.., texts)| texts > 500));
    assert!([none, all_in_ten].into_iter().chain([codes, increments].concat().concat()).all(|texts| texts > 1_000));
    let Counts { reading, writing, changing, responding } = counts;
    for count in [&reading, &writing, &changing, &responding] {
        count.print();
    }
    assert!(!responding.undrawn().contains(&0));
}

const M: &[u8] = b"method,exercised,draw\nL,13,4855\naccount,short\n1,5\n2,8\n3,2\n4,10\n5,11\n";
const CODED: &[u8] = b"method,exercised,draw\nW,13,4\ncode,account,short\n3,21,6\n7,4,20\n12,11,9\n";
const RANGED: &[u8] = b"method,exercised,draw\nR,13,49\naccount,short\n1,5\n20,8\n300,12\n";
const LASTS: &[u8] = b"method,exercised,draw\nR,13,49\naccount,last\n1,5\n20,13\n300,25\n";
const CODED_LASTS: &[u8] = b"method,exercised,draw\nW,13,4\ncode,account,last\n3,21,6\n7,4,26\n12,11,35\n";
const BY_TENS: &[u8] = b"method,exercised,draw,increment\nW,26,7,10\naccount,short\n1,5\n20,38\n";
const CODED_BY_ONES: &[u8] = b"method,exercised,draw,increment\nW,13,4,1\ncode,account,last\n3,21,6\n7,4,35\n";
const TEXTS: [&[u8]; 7] = [M, CODED, RANGED, LASTS, CODED_LASTS, BY_TENS, CODED_BY_ONES];

#[test]
fn cut_at_every_place() {
    let mut count = Count::new("texts cut");
    for text in TEXTS {
        for end in 0..=text.len() {
            for start in [0, 1, 22, 32] {
                let part = &text[start.min(end)..end];
                count.case(compare::read(part, [5; 3]));
                count.case(compare::read(part, [1, 1, 0]));
                count.case(compare::change(part, 100));
                count.case(compare::change(part, 50));
                count.case(compare::respond(part, 300));
            }
        }
    }
    count.print();
}

fn every_byte_at(count: &mut Count, text: &[u8], at: usize) {
    let mut run = |text: &[u8]| {
        count.case(compare::read(text, [6; 3]));
        count.case(compare::change(text, 100));
        count.case(compare::respond(text, 300));
    };
    for byte in 0..=255 {
        run(&[&text[..at], &[byte], &text[at..]].concat());
        if at < text.len() {
            run(&[&text[..at], &[byte], &text[at + 1..]].concat());
        }
    }
    if at < text.len() {
        run(&[&text[..at], &text[at + 1..]].concat());
    }
}

#[test]
fn every_byte_at_every_place() {
    let mut count = Count::new("texts with one byte changed, put in or removed");
    for text in TEXTS {
        for at in 0..=text.len() {
            every_byte_at(&mut count, text, at);
        }
    }
    count.print();
}

// Each line 1, and lines that are nearly one, over line 2 with two to five fields.
#[test]
fn line_1_and_its_columns() {
    let mut count = Count::new("line 1 and its columns");
    let columns = ["method", "exercised", "draw", "increment", "increments", "Increment", "", " ", "draw "];
    let mut names = ["method,exercised,draw\r\n", "method,exercised,draw", "method,exercised,draw,increment\r\n"]
        .map(String::from)
        .to_vec();
    names.extend(["method,exercised,draw,increment".to_string(), "method,exercised,draw,increment,\n".to_string()]);
    for a in columns {
        names.push(format!("{a}\n"));
        names.push(format!("method,exercised,{a}\n"));
        for b in columns {
            names.push(format!("{a},{b}\n"));
            names.push(format!("method,{a},{b}\n"));
            names.push(format!("method,exercised,{a},{b}\n"));
            names.push(format!("{a},exercised,draw,{b}\n"));
            names.push(format!("method,exercised,draw,{a},{b}\n"));
        }
    }
    names.sort();
    names.dedup();
    let mut exact = [0; 2];
    for line_1 in &names {
        for line_2 in ["W,1", "W,1,1", "W,1,1,1", "W,1,1,25", "W,1,1,1,1", "X,1,1", "X,1,1,1", "X,1,1,1,1", "W,1,1,"] {
            let text = format!("{line_1}{line_2}\naccount,short\n1,5\n");
            let read = count.case(compare::read(text.as_bytes(), [4; 3]));
            exact[usize::from(make::has_increment(text.as_bytes()))] += u32::from(read);
            count.case(compare::change(text.as_bytes(), 80));
            count.case(compare::respond(text.as_bytes(), 60));
        }
    }
    count.print();
    // Three fields under the one, four under the other.
    assert_eq!(exact, [1, 2]);
}

// Each line 3, and lines that are nearly one, over position lines with two, three and four numbers.
#[test]
fn names_lines_and_columns() {
    let mut count = Count::new("names lines and columns");
    let columns = ["code", "account", "short", "last", "codes", "Code", "Last", "lasts", "", " ", "code "];
    let mut names =
        ["code,account,short\r\n", "code,account,short", "account,last\r\n", "account,last"].map(String::from).to_vec();
    for a in columns {
        names.push(format!("{a}\n"));
        for b in columns {
            names.push(format!("{a},{b}\n"));
            for c in columns {
                names.push(format!("{a},{b},{c}\n"));
                names.push(format!("code,{a},{b},{c}\n"));
            }
        }
    }
    let mut exact = 0;
    for line_3 in &names {
        for lines in ["", "5\n", "1,5\n", "1,2,5\n", "1,2,3,5\n", "1,2,5\n3,4\n", "1,5\n3,4,5\n", "2,1,5\n3,2,5\n"] {
            let text = format!("method,exercised,draw\nW,1,1\n{line_3}{lines}");
            exact += u32::from(count.case(compare::read(text.as_bytes(), [4; 3])));
            count.case(compare::change(text.as_bytes(), 60));
            count.case(compare::respond(text.as_bytes(), 60));
        }
    }
    count.print();
    // In either form: with codes and without no line; two numbers in one line; three in one, and in two.
    assert_eq!(exact, 2 * (2 + 1 + 2));
}

// Numbers well and badly spelled, and what is none.
const NUMBERS: &[&str] = &[
    "",
    "0",
    "1",
    "9",
    "00",
    "01",
    "10",
    "007",
    "0001",
    "0005",
    "0010",
    "000000000",
    "0000000000",
    "0000000001",
    "0000000007",
    "0999999999",
    "00000000000",
    "00000000001",
    "00999999999",
    "000000000001",
    "00000000000000000001",
    "4294967294",
    "4294967295",
    "4294967296",
    "4294967299",
    "4294967300",
    "4300000000",
    "9999999999",
    "04294967295",
    "04294967296",
    "0004294967295",
    "8589934592",
    "8589934593",
    "10000000000",
    "42949672950",
    "18446744073709551615",
    "18446744073709551616",
    "18446744073709551617",
    "340282366920938463463374607431768211457",
    "1844674407370955161600000000000000000001",
    "+1",
    "-1",
    "1.",
    "1e3",
    "0x1",
    " 1",
    "1 ",
    "1\r",
    "\x001",
    "1\0",
    "١",
    "0+1",
    "-01",
    "0x01",
    "01 ",
    "000000001\r",
    "0000000001\r",
    "00000000001x",
    "000000000١",
];

#[test]
fn numbers_in_every_field() {
    let mut count = Count::new("numbers");
    let long = ["9".repeat(30_000), "0".repeat(30_000), "0".repeat(30_000) + "1"];
    let three_fields = [
        ("X,", ",5\naccount,short\n1,7\n"),
        ("W,", ",5\naccount,short\n1,7\n"),
        ("P,1,", "\naccount,short\n1,7\n"),
        ("W,1,", "\naccount,short\n1,7\n"),
        ("W,7,", "\naccount,short\n1,7\n"),
        ("L,1,", "\naccount,short\n1,7\n"),
        ("L,1,", "\naccount,short\n1,7\n2,1\n"),
        ("R,1,", "\naccount,short\n1,7\n"),
        ("R,1,", "\naccount,short\n1,7\n2,1\n"),
        ("R,", ",5\naccount,short\n1,7\n2,1\n"),
        ("R,1,5\naccount,short\n1,7\n2,", "\n3,3\n"),
        ("W,1,5\naccount,short\n", ",7\n"),
        ("L,1,5\naccount,short\n1,7\n2,", "\n3,3\n"),
        ("W,1,5\ncode,account,short\n", ",2,7\n"),
        ("P,1,5\ncode,account,short\n9,2,7\n", ",3,7\n"),
        ("W,1,5\ncode,account,short\n9,", ",7\n"),
        ("W,1,5\ncode,account,short\n8,1,7\n9,", ",7\n10,2,7\n"),
        ("W,1,5\ncode,account,short\n9,2,", "\n"),
    ];
    let four_fields = [
        ("X,1,5,", "\naccount,short\n1,7\n"),
        ("W,1,5,", "\naccount,short\n1,7\n"),
        ("W,7,5,", "\naccount,short\n1,7\n"),
        ("W,1,0,", "\naccount,short\n1,7\n"),
        ("W,8,5,", "\naccount,short\n1,7\n"),
        ("L,1,5,", "\naccount,short\n1,7\n2,1\n"),
        ("R,1,", ",9\ncode,account,short\n9,2,7\n"),
        ("W,", ",5,3\ncode,account,short\n9,2,7\n"),
    ];
    let places = three_fields.map(|place| (false, place)).into_iter().chain(four_fields.map(|place| (true, place)));
    for number in NUMBERS.iter().copied().chain(long.iter().map(String::as_str)) {
        for (increments, (before, after)) in places.clone() {
            let text = [make::names_1(increments), before, number, after].concat();
            for text in [text.replace("short", "last"), text] {
                count.case(compare::read(text.as_bytes(), [4; 3]));
                count.case(compare::read(text.as_bytes(), [4, 0, 4]));
                count.case(compare::change(text.as_bytes(), 100));
                count.case(compare::respond(text.as_bytes(), 200));
            }
        }
    }
    count.print();
}

// What the library reads for a number in a field of a text.
fn read_in_field(form: Form, columns: Columns, field: Field, number: &str) -> Result<u32, Refused> {
    let ([mut codes, mut accounts, mut numbers], text) = ([[0]; 3], make::in_field(form, columns, field, number));
    let terms = dilbreth::read(&text, &mut codes, &mut accounts, &mut numbers)?;
    assert_eq!(terms.form, library_form(form));
    if !columns.codes {
        assert_eq!(codes, accounts);
    }
    if !columns.increment {
        assert_eq!(terms.increment, DEFAULT_INCREMENT);
    }
    Ok(match field {
        Field::Exercised => terms.exercised,
        Field::Draw => terms.draw,
        Field::Increment => terms.increment,
        Field::Code => codes[0],
        Field::Account => accounts[0],
        Field::Number => numbers[0],
    })
}

fn in_every_field(count: &mut Count, number: &str, expected: Result<u32, Refused>) {
    for form in FORMS {
        for (columns, field) in make::fields() {
            let found = read_in_field(form, columns, field, number);
            assert_eq!(found, expected, "{number} in {field:?}, {columns:?}, {form:?}");
            let text = make::in_field(form, columns, field, number);
            count.case(compare::read(&text, [1; 3]));
            count.case(compare::read(&text, [0, 1, 1]));
            count.case(compare::change(&text, 100));
            count.case(compare::respond(&text, 60));
        }
    }
}

#[test]
fn every_spelling() {
    let mut count = Count::new("numbers with leading zeros");
    for value in [0, 1, 9, 10, 255, 65_536, 10_000_000, 999_999_999, 1_000_000_000, u32::MAX] {
        for zeros in 0..=12 {
            let number = format!("{}{value}", "0".repeat(zeros));
            in_every_field(&mut count, &number, if number.len() <= 10 { Ok(value) } else { Err(Refused(13)) });
        }
    }
    count.print();
}

#[test]
fn ten_digits_past_32_bits() {
    let mut count = Count::new("numbers of ten digits");
    let most = u64::from(u32::MAX);
    for last in [most, most + 21, 2 * (most + 1) + 20, 9_999_999_999] {
        for value in last - 20..=last {
            let expected = u32::try_from(value).map_err(|_| Refused(13));
            in_every_field(&mut count, &value.to_string(), expected);
        }
    }
    count.print();
}

#[test]
fn zero_in_every_spelling() {
    for (form, none) in FORMS.into_iter().zip([6, 20]) {
        for (columns, field) in make::fields() {
            let refusal = match field {
                Field::Exercised => 8,
                Field::Draw => 10,
                Field::Increment => 23,
                Field::Account if columns.codes => 19,
                Field::Code | Field::Account => 5,
                Field::Number => none,
            };
            for digits in 1..=12 {
                let text = make::in_field(form, columns, field, &"0".repeat(digits));
                let number = if digits <= 10 { refusal } else { 13 };
                assert_eq!(respond(&text), format!("refused\n{number}\n"), "{digits} digits in {field:?}, {columns:?}");
            }
        }
    }
}

#[test]
fn spelling_changes_no_answer() {
    let mut count = Count::new("texts spelled otherwise");
    let mut accounts = make::upward(10);
    accounts.extend([99, 100, 65_536, 10_000_000, 999_999_999, 1_000_000_000, u32::MAX]);
    let shorts = make::upward(accounts.len());
    let codes: Vec<u32> = shorts.iter().map(|n| n * n * n).collect();
    let lists = FORMS.map(|form| Series::by_account(accounts.clone(), shorts.clone()).in_form(form));
    let kinds = make::METHODS.into_iter().flat_map(|method| COLUMNS.map(|columns| (method, columns)));
    for ((method, columns), list) in kinds.flat_map(|kind| lists.each_ref().map(|list| (kind, list))) {
        let list = List { codes: if columns.codes { &codes } else { &accounts }, ..list.list() };
        let terms = Terms::new(method, 60, 7).by(if columns.increment { 10 } else { DEFAULT_INCREMENT });
        let text = reference::write(terms, list, usize::MAX).unwrap();
        assert_eq!(make::columns(&text), columns);
        let printed = respond(&text);
        assert!(printed.starts_with("account,assigned\n1,"));
        for turn in 0..10 {
            let width = |i: usize, digits: usize| digits + (i / 2 + turn) % (11 - digits);
            let only = |field| {
                make::spelled(&text, |i, digits| if columns.field(i) == field { width(i, digits) } else { digits })
            };
            let everywhere = [make::spelled(&text, width), make::spelled(&text, |_, _| turn + 1)];
            for other in [only(Field::Account), only(Field::Increment)].into_iter().chain(everywhere) {
                assert_eq!(respond(&other), printed, "{}", String::from_utf8_lossy(&other));
                count.case(compare::read(&other, [accounts.len(); 3]));
                count.case(compare::change(&other, 2 * text.len()));
                count.case(compare::respond(&other, printed.len()));
            }
        }
    }
    count.print();
}

// Two positions, whose lines begin with what is given, with 3 and 4 contracts; by last numbers the same is printed.
fn respond_to_pair(count: &mut Count, terms: &str, coded: bool, first: &str, second: &str) -> String {
    let [printed, by_last] = FORMS.map(|form| {
        let last = if form == Form::Shorts { 4 } else { 7 };
        let names = make::names_3(coded, form);
        let text = format!("method,exercised,draw\n{terms}\n{names}{first},3\n{second},{last}\n");
        let printed = respond(text.as_bytes());
        count.case(compare::read(text.as_bytes(), [2; 3]));
        count.case(compare::change(text.as_bytes(), 100));
        count.case(compare::respond(text.as_bytes(), printed.len()));
        printed
    });
    assert_eq!(printed, by_last);
    printed
}

// A number and one above it, each in every spelling; `run` is handed the two, and the first again in another.
fn pairs(mut run: impl FnMut(u32, u32, &str, &str, &str)) {
    for (number, above) in [(1, 2), (9, 10), (99_999, 100_000), (999_999_999, 1_000_000_000)] {
        for width in 1..=10 {
            for other in 1..=10 {
                let one = format!("{number:0width$}");
                let [same, next] = [number, above].map(|n| format!("{n:0other$}"));
                run(number, above, &one, &same, &next);
            }
        }
    }
}

#[test]
fn two_spellings_are_one_account() {
    let mut count = Count::new("accounts in two spellings");
    pairs(|account, above, one, same, next| {
        let rising = format!("account,assigned\n{account},0\n{above},1\n");
        let ranges = format!("account,first,last,first2,last2\n{account},1,3,8,10\n{above},4,7,11,14\n");
        for terms in ["W,1,7", "P,1,0", "L,1,10000", "R,1,4294967291"] {
            let expected = if terms.starts_with('R') { format!("{rising}{ranges}") } else { rising.clone() };
            assert_eq!(respond_to_pair(&mut count, terms, false, one, next), expected, "{terms} {one} {next}");
            for (first, second) in [(one, same), (next, one)] {
                let found = respond_to_pair(&mut count, terms, false, first, second);
                assert_eq!(found, "refused\n5\n", "{terms} {first} {second}");
            }
        }
    });
    count.print();
}

#[test]
fn two_spellings_are_one_code() {
    let mut count = Count::new("codes in two spellings");
    pairs(|number, above, one, same, next| {
        let mut wheel = |first: &str, second: &str| respond_to_pair(&mut count, "W,1,7", true, first, second);
        // As codes over accounts that fall, and as accounts.
        let code = |number: &str, account: u32| format!("{number},{account}");
        assert_eq!(wheel(&code(one, 8), &code(next, 7)), "account,assigned\n8,0\n7,1\n", "{one} {next}");
        assert_eq!(wheel(&code(one, 8), &code(same, 7)), "refused\n5\n", "{one} {same}");
        assert_eq!(wheel(&code(next, 8), &code(one, 7)), "refused\n5\n", "{next} {one}");
        let account = |code: u32, number: &str| format!("{code},{number}");
        let falling = format!("account,assigned\n{above},0\n{number},1\n");
        assert_eq!(wheel(&account(7, next), &account(8, one)), falling, "{next} {one}");
        assert_eq!(wheel(&account(7, one), &account(8, same)), "refused\n19\n", "{one} {same}");
    });
    count.print();
}

// Up to and past 1,024 lines, and a fault in the last line that may stand or past it; `line` has the line of a number.
fn lines_at_the_limit(count: &mut Count, head: &[u8], lines: usize, line: impl Fn(usize) -> String) {
    let body: String = (1..=lines).map(&line).collect();
    let last = line(9_999);
    let ends =
        ["", "\n", "x", "0", &last[..last.len() - 1], &last, &format!("000000{last}"), &format!("0000000{last}")];
    for end in ends {
        let text = [head, body.as_bytes(), end.as_bytes()].concat();
        for room in [0, 1_023, 1_024, 1_025] {
            for list in 0..3 {
                let mut rooms = [1_025; 3];
                rooms[list] = room;
                count.case(compare::read(&text, rooms));
            }
        }
        let needed = reference::printed(&text).len();
        for room in [0, needed - 1, needed, needed + 3] {
            count.case(compare::respond(&text, room));
        }
        let needed = reference::change(&text, usize::MAX).map_or(60, |changed| changed.len());
        for room in [0, needed - 1, needed, needed + 3] {
            count.case(compare::change(&text, room));
        }
    }
    let (good, bad) = (line(5), line(5).replace('\n', ",\n"));
    for at in [lines.saturating_sub(1), lines / 2] {
        let text = [head, good.repeat(at).as_bytes(), bad.as_bytes(), good.repeat(lines - at).as_bytes()].concat();
        count.case(compare::read(&text, [1_025; 3]));
        count.case(compare::change(&text, 40_000));
        count.case(compare::respond(&text, 20));
    }
}

#[test]
fn lines_and_bytes_at_the_limit() {
    let mut count = Count::new("texts at the limits");
    let head = b"method,exercised,draw\nW,26,7\naccount,short\n";
    let coded = b"method,exercised,draw\nW,26,7\ncode,account,short\n";
    let ranged = b"method,exercised,draw\nR,26,7\naccount,short\n";
    let lasts = b"method,exercised,draw\nL,26,7\naccount,last\n";
    let coded_lasts = b"method,exercised,draw\nW,26,7\ncode,account,last\n";
    let by_tens = b"method,exercised,draw,increment\nW,26,7,10\naccount,short\n";
    for lines in [0, 1, 1_023, 1_024, 1_025, 1_026, 2_000] {
        lines_at_the_limit(&mut count, head, lines, |account| format!("{account},3\n"));
        lines_at_the_limit(&mut count, ranged, lines, |account| format!("{account},3\n"));
        lines_at_the_limit(&mut count, by_tens, lines, |account| format!("{account},3\n"));
        lines_at_the_limit(&mut count, coded, lines, |code| format!("{code},{},3\n", 10_000 - code));
        lines_at_the_limit(&mut count, coded, lines, |code| format!("{code},{code},3\n"));
        lines_at_the_limit(&mut count, lasts, lines, |account| format!("{account},{}\n", 3 * account));
        lines_at_the_limit(&mut count, coded_lasts, lines, |code| format!("{code},{},{code}\n", 10_000 - code));
    }
    for length in [32_766, 32_767, 32_768, 32_769, 32_770, 40_000, 65_536, 65_537, 100_000, 1_000_000] {
        for fill in [b'x', b'0', b'9', b'\n', b',', 0] {
            for start in [
                &b""[..],
                b"method,exercised,draw\n",
                b"method,exercised,draw\nW,1,",
                b"method,exercised,draw,increment\n",
                b"method,exercised,draw,increment\nW,1,1,",
                by_tens,
                head,
                coded,
                lasts,
                b"method,exercised,draw\nW,26,7\naccount,last\n1,3\n2,",
                b"method,exercised,draw\nW,26,7\naccount,short\n1,3\n2,",
                b"method,exercised,draw\nW,26,7\ncode,account,short\n1,2,3\n2,",
                &M[..60],
            ] {
                let mut text = start.to_vec();
                text.resize(length, fill);
                count.case(compare::read(&text, [1_024; 3]));
                count.case(compare::read(&text, [0; 3]));
                count.case(compare::change(&text, 20));
                count.case(compare::respond(&text, 20));
                count.case(compare::respond(&text, 9));
            }
        }
    }
    count.print();
}

// Whole series with codes whose text has, or would have, 32,768 bytes, or one or two more or less.
#[test]
fn exactly_32_768_bytes() {
    let mut count = Count::new("texts of about 32,768 bytes");
    for (form, length) in FORMS.into_iter().flat_map(|form| (32_766..=32_770).map(move |length| (form, length))) {
        let fits = length <= 32_768;
        let text = make::text_of_length(form, length);
        assert_eq!((text.len(), make::columns(&text)), (length, Columns { increment: true, codes: true }));
        assert_eq!(count.case(compare::read(&text, [1_024; 3])), fits);
        assert!(!count.case(compare::read(&text, [1_023, 1_024, 1_024])));
        assert_eq!(respond(&text).starts_with("account,assigned\n"), fits);
        assert_eq!(count.case(compare::change(&text, 32_768)), fits);
        count.case(compare::respond(&text, 32_768));
        let series = make::list_of_length(form, length);
        for method in make::METHODS {
            for room in [0, 100, 32_766, 32_767, 32_768, 32_769, 32_770, 40_000] {
                let written = count.case(compare::write(Terms::new(method, 1, 1), series.list(), room));
                assert_eq!(written, fits && room >= length);
            }
            // A column of one digit for the increment has 12 bytes.
            for (increment, column) in [(1, 12), (10, 13), (u32::MAX, 21)] {
                let shorter = make::list_of_length(form, length - column);
                let terms = Terms::new(method, 1, 1).by(increment);
                for room in [32_766, 32_767, 32_768, 32_769, 32_770] {
                    let written = count.case(compare::write(terms, shorter.list(), room));
                    assert_eq!(written, fits && room >= length, "{increment}");
                }
            }
        }
        // S or draw with more digits, and the same without codes, which is far shorter.
        for (exercised, draw) in [(10, 1), (1, 10), (u32::MAX, u32::MAX)] {
            count.case(compare::write(Terms::new(b'W', exercised, draw), series.list(), 40_000));
        }
        let short = List { codes: &series.accounts, ..series.list() };
        assert!(count.case(compare::write(Terms::new(b'W', 1, 1), short, 32_768)));
    }
    count.print();
}

// Three lists of the lengths; the codes are the accounts at times, or nearly.
fn three_lists(random: &mut Random, lengths: [usize; 3]) -> Series {
    let wide = random.one_in(4);
    let mut number = || match random.below(5) {
        _ if wide => u32::MAX - random.spread(3_400_000_000) as u32,
        0 => 0,
        1 => u32::MAX,
        2 => 10u32.pow(random.between(0, 9) as u32) - random.below(2) as u32,
        3 => random.spread(u64::from(u32::MAX)) as u32,
        _ => random.bits() as u32,
    };
    let [mut codes, accounts, numbers] = lengths.map(|length| (0..length).map(|_| number()).collect::<Vec<u32>>());
    if random.one_in(3) {
        codes = accounts.clone();
    }
    if random.one_in(3) && !codes.is_empty() {
        let at = random.index(codes.len());
        codes[at] ^= 1;
    }
    Series { form: random.pick(&FORMS), codes, accounts, numbers }
}

#[test]
fn random_writing() {
    let mut random = Random::new(0x7E87_0002);
    let mut count = Count::new("random series written");
    let mut met = [0; 16];
    for _ in 0..8_000 {
        let mut lengths = [make::lines(&mut random); 3];
        match random.below(20) {
            0..=2 => {
                let list = random.index(3);
                lengths[list] = lengths[list].saturating_sub(1);
            }
            3 => lengths[random.index(3)] += 1,
            4 => lengths = [random.pick(&[1_024, 1_025, 1_026, 4_096, 5_000]); 3],
            _ => {}
        }
        let series = three_lists(&mut random, lengths);
        let [draw, any] = [(); 2].map(|_| random.spread(u64::from(u32::MAX)) as u32);
        let (method, exercised) = (random.pick(b"WPLRWPLRWPLRwX"), random.bits() as u32);
        let increment = make::increment(&mut random);
        let increment = random.pick(&[DEFAULT_INCREMENT, increment, any]);
        let terms = Terms { method, exercised, draw, increment };
        let answer = reference::write(terms, series.list(), usize::MAX);
        met[answer.as_ref().err().map_or(0, |&number| number as usize)] += 1;
        let needed = answer.map_or(60, |text| text.len());
        for room in rooms(&mut random, needed) {
            count.case(compare::write(terms, series.list(), room));
        }
        count.case(compare::write(terms, series.list(), random.index(60)));
    }
    count.print();
    println!("random series written: refused by 1 {}, by 11 {}, by 14 {}, by 15 {}", met[1], met[11], met[14], met[15]);
    assert!([1, 11, 14, 15].iter().all(|&number| met[number] > 5));
}
