// The two forms of a list, and the change of a text from one to the other, by the library's own answers.

use compare::library::{self, change, respond, write, Read};
use compare::make::{self, Series, METHODS};
use compare::random::Random;
use compare::{Count, Form, List, Terms, DEFAULT_INCREMENT, FORMS};
use dilbreth::{calls, Refused};

const MOST: u32 = 10_000_000;

// Numbers that stand for last numbers.
const LAST_NUMBERS: [u32; 9] = [1, 2, 254, 255, 256, 65_536, 1 << 24, 1 << 31, u32::MAX];

#[test]
fn both_forms_are_allocated_alike() {
    let mut random = Random::new(0xF024_0001);
    let mut calls = [0; 2];
    for case in 0..3_000 {
        let positions = if case % 50 == 0 { random.between(1_000, 4_096) } else { random.spread(60) };
        let most = random.between(positions, if case % 20 == 0 { u64::from(MOST) } else { 40 * positions });
        let exact = random.one_in(2);
        let list = make::series(&mut random, positions as usize, most, exact);
        for method in METHODS {
            let list = make::coded(&mut random, method, &list);
            let lasts = list.in_form(Form::LastNumbers);
            assert_eq!(lasts.total(), list.total());
            let terms = make::terms(&mut random, method, positions as usize, list.total());
            let found = library::allocate(terms, 0, &list);
            assert_eq!(library::allocate(terms, random.pick(&LAST_NUMBERS), &lasts), found, "{terms:?} {list:?}");
            calls[usize::from(found.0 == 0)] += 1;
        }
    }
    let [refused, accepted] = calls;
    println!("forms: {accepted} allocated and {refused} refused alike");
    assert!(accepted > 8_000 && refused > 500);
}

#[test]
fn any_number_but_0_stands_for_last_numbers() {
    let list = Series::by_account(vec![2, 3, 7, 8], vec![1, 2, 4, 5]);
    let Series { codes, accounts, numbers, .. } = &list;
    let written = |form: u32| {
        let (mut text, mut length) = ([0; 80], 0);
        assert_eq!(calls::write(b'L', 4, 2, 25, form, codes, accounts, numbers, &mut text, &mut length), 0);
        String::from_utf8_lossy(&text[..length]).to_string()
    };
    assert!(written(0).contains("\naccount,short\n2,1\n"));
    for form in LAST_NUMBERS {
        assert_eq!(written(form), written(0).replace("short", "last"), "{form}");
        for terms in METHODS.map(|method| Terms::new(method, 4, 2)) {
            assert_eq!(library::allocate(terms, 0, &list).1, 12);
            let found = library::allocate(terms, form, &list);
            assert_eq!((found.0, found.1), (0, 5), "{form}");
            assert_eq!(found, library::allocate(terms, 1, &list), "{form}");
        }
    }
}

// What one position meets with a last number in the place of its own, the ones before being accepted.
fn met(before: u32, last: u32) -> u32 {
    match last {
        _ if last <= before => 20,
        _ if last > MOST => 7,
        _ => 0,
    }
}

#[test]
fn last_numbers_are_judged_at_each_position() {
    let mut count = Count::new("forms, last numbers at each position");
    for positions in [1, 2, 3, 10, 1_024, 4_096] {
        for step in [1, 7, MOST / positions as u32] {
            let shorts = vec![step; positions];
            let list = Series::by_account(make::upward(positions), shorts).in_form(Form::LastNumbers);
            for at in [0, 1, positions / 2, positions - 1].into_iter().filter(|&at| at < positions) {
                let before = if at == 0 { 0 } else { list.numbers[at - 1] };
                let near = [before.saturating_sub(1), before, before + 1, before / 2];
                for last in [0, 1, MOST - 1, MOST, MOST + 1, 2 * MOST, u32::MAX].into_iter().chain(near) {
                    let mut other = list.clone();
                    other.numbers[at] = last;
                    // The positions after it rise from there on, where they can.
                    for after in at + 1..positions {
                        other.numbers[after] = other.numbers[after].max(last.saturating_add((after - at) as u32));
                    }
                    let highest = other.numbers[positions - 1];
                    let expected = [met(before, last), if highest > MOST { 7 } else { 0 }];
                    let expected = expected.into_iter().find(|&number| number > 0).unwrap_or(0);
                    for method in METHODS {
                        let found = library::allocate(Terms::new(method, 1, 1), 1, &other).0;
                        assert_eq!(found, expected, "{last} at {at} of {positions}, {before} before");
                    }
                    count.allocate(Terms::new(b'P', 1, 1), other.list(), positions);
                }
            }
        }
    }
    count.print();
    assert!(!count.met([0, 7, 20]).contains(&0));
}

// 20 in the place of 6: after 5 and 19, of the same position and of earlier ones, and before all of later ones.
#[test]
fn twenty_stands_in_the_place_of_six() {
    let good = Series::coded(vec![3, 5, 8], vec![7, 2, 9], vec![10, 30, 60]);
    let faults: [fn(&mut Series, usize); 4] = [
        |list, at| list.codes[at] = 0,
        |list, at| list.accounts[at] = 0,
        |list, at| list.numbers[at] = 0,
        |list, at| list.numbers[at] = MOST + 1,
    ];
    let numbers = [[5, 5, 5], [19, 19, 19], [6, 20, 20], [7, 7, 7]];
    for (first, second) in (0..4).flat_map(|first| (0..4).map(move |second| (first, second))) {
        for (at, later) in [(0, 0), (0, 1), (0, 2), (1, 1), (1, 2), (2, 2)] {
            let mut list = good.clone();
            faults[second](&mut list, later);
            faults[first](&mut list, at);
            let earliest = if at < later || first < second { first } else { second };
            // At one position a number is either 0 or too large: the one put in last.
            let earliest = if at == later && first.min(second) >= 2 { first } else { earliest };
            for (form, by_form) in [(0, 0), (1, 1), (2, 2)] {
                let found = library::allocate(Terms::new(b'W', 1, 1), form, &list).0;
                assert_eq!(found, numbers[earliest][by_form], "{list:?}");
            }
        }
    }
}

#[track_caller]
fn read(text: &[u8]) -> Read {
    library::read(text).expect("a series")
}

// What a changed text has of the series: all but the form and the numbers, which add up or are differences.
fn is_in_the_other_form(before: &Read, after: &Read) {
    let (shorts, lasts) = match before.terms.form {
        dilbreth::Form::Shorts => (before, after),
        dilbreth::Form::LastNumbers => (after, before),
    };
    assert_eq!(shorts.terms, dilbreth::Terms { form: dilbreth::Form::Shorts, ..lasts.terms });
    assert_eq!((&shorts.codes, &shorts.accounts), (&lasts.codes, &lasts.accounts));
    let mut last = 0;
    for (short, found) in shorts.numbers.iter().zip(&lasts.numbers) {
        last += short;
        assert_eq!(last, *found);
    }
}

// How a text is changed: refused, or there and back to the same series, or to the same bytes.
#[derive(Clone, Copy, PartialEq)]
enum Changed {
    Refused,
    Series,
    Bytes,
}

// Changes a text, and changes it back; each text that is written is held against what the other calls have of it.
#[track_caller]
fn there_and_back(text: &[u8]) -> Changed {
    let shown = || String::from_utf8_lossy(text);
    let Ok(changed) = change(text) else { return Changed::Refused };
    let (before, after) = (read(text), read(&changed));
    is_in_the_other_form(&before, &after);
    assert_eq!(write(&after), changed, "{}", shown());
    assert_eq!(respond(&changed), respond(text), "{}", shown());
    let back = change(&changed).expect("a change that can be changed back");
    assert_eq!(read(&back), before, "{}", shown());
    assert_eq!(change(&back).as_ref(), Ok(&changed), "{}", shown());
    // A text that the library wrote.
    if write(&before) == text {
        assert_eq!(back, text, "{}", shown());
        return Changed::Bytes;
    }
    assert!(back.len() < text.len());
    Changed::Series
}

#[test]
fn every_small_text_there_and_back() {
    let mut texts = 0;
    for list in (1..=7).flat_map(make::lists) {
        let total = list.total() as u32;
        for (method, form) in METHODS.into_iter().flat_map(|method| FORMS.map(|form| (method, form))) {
            for (exercised, draw) in [(0, 0), (1, 1), (total, 3), (total + 1, total + 1)] {
                let list = list.in_form(form);
                for increment in [DEFAULT_INCREMENT, exercised, u32::MAX] {
                    let terms = Terms::new(method, exercised, draw).by(increment);
                    let text = reference::write(terms, list.list(), usize::MAX).expect("a text");
                    assert!(there_and_back(&text) == Changed::Bytes);
                    assert!(there_and_back(&make::with_codes(&text)) == Changed::Series);
                    if increment == DEFAULT_INCREMENT {
                        assert!(there_and_back(&make::with_increment(&text)) == Changed::Series);
                    }
                    texts += 1;
                }
            }
        }
    }
    println!("forms: {texts} small texts there and back");
}

#[test]
fn random_texts_there_and_back() {
    let mut random = Random::new(0xF024_0002);
    let mut count = Count::new("forms, random texts changed");
    // By the form of the text: refused, the same series, the same bytes.
    let mut kinds = [[0; 3]; 2];
    for case in 0..15_000 {
        let lines = make::lines(&mut random);
        let mut text = make::text(&mut random, lines);
        if case % 2 == 0 {
            make::damage(&mut random, &mut text);
        }
        let changed = there_and_back(&text);
        if let Some(form) = make::has_form(&text) {
            kinds[usize::from(form == Form::LastNumbers)][changed as usize] += 1;
        }
        // Outputs exactly long enough, longer, and a byte too short; after a refusal any.
        let needed = change(&text).map_or(60, |changed| changed.len());
        for room in [needed, needed + 1, needed + 40, needed - 1, random.index(needed)] {
            let written = count.case(compare::change(&text, room));
            assert_eq!(written, changed != Changed::Refused && room >= needed);
        }
    }
    count.print();
    println!("forms: refused, the same series, the same bytes: {kinds:?} by shorts and last numbers");
    assert!(kinds.iter().flatten().all(|&texts| texts > 800));
}

// The text with line 3 of the other form and its numbers as they are: changed or refused as these are in that form.
#[test]
fn the_same_numbers_in_either_form() {
    let mut random = Random::new(0xF024_0003);
    let mut count = Count::new("forms, the same numbers");
    let mut differ = [0; 3];
    for _ in 0..6_000 {
        let lines = random.between(1, 12) as usize;
        let text = make::text(&mut random, lines);
        let other = make::read_otherwise(&text).expect("line 3");
        let (one, two) = (read(&text), read(&other));
        assert_eq!((&one.codes, &one.accounts, &one.numbers), (&two.codes, &two.accounts, &two.numbers));
        assert_ne!(one.terms.form, two.terms.form);
        for text in [&text, &other] {
            count.case(compare::change(text, 500));
            count.case(compare::respond(text, 800));
        }
        let changed = [&text, &other].map(|text| there_and_back(text) != Changed::Refused);
        differ[usize::from(changed[0]) + usize::from(changed[1])] += 1;
    }
    count.print();
    let [none, one, both] = differ;
    println!("forms, the same numbers: {both} changed in both forms, {one} in one, {none} in none");
    assert!(differ.iter().all(|&texts| texts > 200));
}

const SHORTS: &str = "account,short\n1,5\n2,8\n3,2\n4,10\n5,11\n";
const LASTS: &str = "account,last\n1,5\n2,13\n3,15\n4,25\n5,36\n";

// Line 2 has three fields, or four where it has the increment.
fn text(line_2: &str, rest: &str) -> String {
    format!("{}{line_2}\n{rest}", make::names_1(line_2.matches(',').count() == 3))
}

fn changed(text: &str) -> Result<String, u32> {
    change(text.as_bytes()).map(|bytes| String::from_utf8(bytes).expect("ASCII")).map_err(|Refused(number)| number)
}

// T is 36: S that is 0 or above T, and draws and increments out of every range.
#[test]
fn terms_are_not_judged() {
    for method in METHODS.map(char::from) {
        for exercised in [0, 1, 13, 35, 36, 37, MOST, MOST + 1, u32::MAX] {
            for draw in [0, 1, 36, 37, 10_000, 10_001, u32::MAX] {
                for increment in ["", ",0", ",1", ",26", ",1000", ",1001", ",4294967295"] {
                    let line_2 = format!("{method},{exercised},{draw}{increment}");
                    let [shorts, lasts] = [SHORTS, LASTS].map(|rest| text(&line_2, rest));
                    assert_eq!(changed(&shorts).as_ref(), Ok(&lasts));
                    assert_eq!(changed(&lasts), Ok(shorts));
                }
            }
        }
    }
}

#[test]
fn unknown_letters() {
    for byte in (0..=255u8).filter(|byte| !METHODS.contains(byte) && *byte != b'\n' && *byte != b',') {
        for rest in [SHORTS, LASTS, "account,last\n", "account,last\n0,0\n", "account,lasts\n"] {
            let text = [b"method,exercised,draw\n", &[byte][..], b",1,1\n", rest.as_bytes()].concat();
            assert_eq!(change(&text), Err(Refused(14)), "{byte}");
            assert_eq!(respond(&text), "refused\n14\n", "{byte}");
        }
    }
}

// The refusals of a change, in their order: the text's, the list's, a short output.
#[test]
fn refusals_of_a_change() {
    let mut count = Count::new("forms, refused changes");
    let many = "1,1\n".repeat(1_025);
    for (line_2, rest, number) in [
        ("L,1,1", "".to_string(), 12),
        ("L,1,1", "account,short".to_string(), 12),
        ("L,1,1", "account,lasts\n1,0\n".to_string(), 12),
        ("L,1,x", "account,lasts\n1,0\n".to_string(), 13),
        ("X,1,x", "account,lasts\n1,0\n".to_string(), 14),
        ("L,1", "account,last\n1,0\n".to_string(), 13),
        ("L,1,1,x", "account,lasts\n1,0\n".to_string(), 13),
        ("X,1,1,x", "account,last\n1,0\n".to_string(), 14),
        ("W,1,1,0", "account,last\n1,0\n".to_string(), 20),
        ("W,0,0,1001", "account,short\n1,0\n".to_string(), 6),
        // What is wrong with the text comes before what is wrong with an earlier position.
        ("L,1,1", "account,last\n1,0\n2,x\n".to_string(), 13),
        ("L,1,1", "account,last\n0,0\n1,1,1\n".to_string(), 13),
        ("L,1,1", "account,short\n1,10000001\n2".to_string(), 13),
        ("L,1,1", format!("account,last\n{many}"), 15),
        ("L,1,1", format!("account,short\n0,0\n{many}"), 15),
        ("L,0,0", "account,last\n".to_string(), 3),
        ("L,0,0", "code,account,short\n".to_string(), 3),
        ("L,0,0", "account,short\n0,0\n".to_string(), 5),
        ("L,0,0", "account,last\n0,0\n".to_string(), 5),
        ("P,0,0", "account,last\n2,5\n1,5\n".to_string(), 5),
        ("R,0,0", "account,last\n2,5\n1,10000001\n".to_string(), 5),
        ("L,0,0", "account,short\n1,0\n".to_string(), 6),
        ("L,0,0", "account,last\n1,0\n".to_string(), 20),
        ("L,0,0", "account,last\n1,5\n2,5\n".to_string(), 20),
        ("L,0,0", "account,last\n1,5\n2,4\n".to_string(), 20),
        ("L,0,0", "account,last\n1,10000000\n2,10000000\n".to_string(), 20),
        ("L,0,0", "account,last\n1,10000000\n2,10000001\n".to_string(), 7),
        ("L,0,0", "account,last\n1,10000001\n2,0\n".to_string(), 7),
        ("L,0,0", "account,last\n1,4294967295\n".to_string(), 7),
        ("L,0,0", "account,short\n1,10000000\n2,0\n".to_string(), 6),
        ("L,0,0", "account,short\n1,10000000\n2,1\n".to_string(), 7),
        ("L,0,0", "account,short\n1,4294967295\n2,4294967295\n".to_string(), 7),
        // By the method: W looks at codes, and at accounts that stand earlier.
        ("W,0,0", "code,account,last\n2,1,5\n1,2,6\n".to_string(), 5),
        ("L,0,0", "code,account,last\n1,2,5\n2,1,6\n".to_string(), 5),
        ("W,0,0", "code,account,last\n1,9,5\n2,9,5\n".to_string(), 19),
        ("W,0,0", "code,account,short\n1,0,0\n".to_string(), 19),
        ("W,0,0", "code,account,last\n1,9,5\n2,8,5\n3,9,5\n".to_string(), 20),
    ] {
        let text = text(line_2, &rest);
        assert_eq!(changed(&text), Err(number), "{line_2} {rest}");
        // Outputs of any length, the text's own among them.
        for room in [0, 1, 22, 60, text.len(), reference::MOST_CHANGED, 40_000] {
            assert!(!count.case(compare::change(text.as_bytes(), room)), "{line_2} {rest}");
        }
    }
    for length in [32_769, 40_000] {
        assert_eq!(change(&vec![b'1'; length]), Err(Refused(11)));
        assert_eq!(change(&make::text_of_length(Form::LastNumbers, 32_769)), Err(Refused(11)));
    }
    count.print();
}

// The lists that W takes and the others do not, and the other way round.
#[test]
fn changes_go_by_the_method() {
    for (rest, by_code, by_account) in [
        ("code,account,last\n1,9,5\n2,8,6\n", true, false),
        ("code,account,short\n4294967294,2,5\n4294967295,1,1\n", true, false),
        ("code,account,last\n0,8,5\n0,9,6\n", false, true),
        ("code,account,short\n2,8,5\n1,9,1\n", false, true),
        ("account,last\n8,5\n9,6\n", true, true),
    ] {
        for method in METHODS {
            let text = text(&format!("{},1,1", char::from(method)), rest);
            let expected = if method == b'W' { by_code } else { by_account };
            assert_eq!(there_and_back(text.as_bytes()) == Changed::Bytes, expected, "{text}");
        }
    }
}

#[test]
fn outputs_of_every_length() {
    let mut count = Count::new("forms, outputs of every length");
    let coded = "code,account,last\n3,20,60\n7,4,260\n9,11,355\n";
    for (line_2, rest) in [
        ("L,13,4855", SHORTS),
        ("L,13,4855", LASTS),
        ("W,0,4294967295", coded),
        ("W,1,1", ""),
        ("W,13,4,10", SHORTS),
        ("W,0,4294967295,4294967295", coded),
        ("L,13,4855,25", LASTS),
    ] {
        let text = text(line_2, rest);
        let needed = changed(&text).map_or(usize::MAX, |changed| changed.len());
        for room in 0..130 {
            assert_eq!(count.case(compare::change(text.as_bytes(), room)), room >= needed, "{room} of {needed}");
        }
    }
    count.print();
}

// With leading zeros, which are not written, and with codes that are the accounts and an increment of 25, which are left
// out.
#[test]
fn what_is_not_written() {
    for (from, to) in [
        ("account,short\n01,5\n0000000002,0008\n", "account,last\n1,5\n2,13\n"),
        ("account,last\n01,05\n2,0000000013\n", "account,short\n1,5\n2,8\n"),
        ("code,account,short\n1,1,5\n02,2,8\n", "account,last\n1,5\n2,13\n"),
        ("code,account,last\n1,01,5\n2,2,13\n", "account,short\n1,5\n2,8\n"),
        ("code,account,last\n1,1,5\n2,3,13\n", "code,account,short\n1,1,5\n2,3,8\n"),
        ("code,account,short\n003,1,5\n4,02,8\n", "code,account,last\n3,1,5\n4,2,13\n"),
    ] {
        for method in ["W", "P", "L", "R"] {
            for (terms, written) in [
                ("0000000007,0", "7,0"),
                ("7,0,25", "7,0"),
                ("7,0,0000000025", "7,0"),
                ("7,0,0000000026", "7,0,26"),
                ("007,0,0000000000", "7,0,0"),
            ] {
                let [from, to] =
                    [(from, terms), (to, written)].map(|(rest, terms)| text(&format!("{method},{terms}"), rest));
                assert_eq!(changed(&from).as_ref(), Ok(&to));
                assert!(there_and_back(from.as_bytes()) == Changed::Series);
                assert!(there_and_back(to.as_bytes()) == Changed::Bytes);
            }
        }
    }
}

// 1,024 positions with ten digits in each code and account, and in S, draw and increment, and a first position of so many
// contracts that each last number has seven digits; only T can have eight.
fn longest(method: u8) -> Vec<u8> {
    let high: Vec<u32> = (u32::MAX - 1_023..=u32::MAX).collect();
    let low: Vec<u32> = (1_000_000_000..1_000_001_024).rev().collect();
    let (codes, accounts) = if method == b'W' { (high, low) } else { (low, high) };
    let mut shorts = vec![1; 1_024];
    (shorts[0], shorts[1_023]) = (1_000_000, MOST - 1_000_000 - 1_022);
    let list = List { codes: &codes, ..List::by_account(&accounts, &shorts) };
    let terms = Terms { method, exercised: u32::MAX, draw: 1_000_000_000, increment: 3_000_000_000 };
    reference::write(terms, list, usize::MAX).expect("a text")
}

#[test]
fn the_longest_changed_text() {
    let mut count = Count::new("forms, the longest text");
    const LONGEST: usize = 32 + 35 + 18 + 1_023 * 30 + 31;
    assert_eq!((LONGEST, reference::MOST_CHANGED), (30_806, 31_830));
    for text in METHODS.map(longest) {
        let lasts = change(&text).expect("a changed text");
        assert_eq!(lasts.len(), LONGEST);
        assert!(there_and_back(&text) == Changed::Bytes && there_and_back(&lasts) == Changed::Bytes);
        // In ten digits each number, which is the longest text that can be read of these.
        let spelled = make::stretched(&text, 32_768);
        assert!(there_and_back(&spelled) == Changed::Series);
        for (from, needed) in [(&text, LONGEST), (&spelled, LONGEST), (&lasts, text.len())] {
            for room in [0, 22, 60, needed - 1, needed, needed + 1, reference::MOST_CHANGED, 32_768, 40_000] {
                assert_eq!(count.case(compare::change(from, room)), room >= needed);
            }
        }
    }
    count.print();
}

// Texts of 1,024 lines whose numbers are as long as can be: none changes into more bytes.
#[test]
fn no_changed_text_is_longer() {
    let mut random = Random::new(0xF024_0004);
    let mut most = [0; 2];
    for case in 0..300 {
        let (form, exact) = (random.pick(&FORMS), random.one_in(2));
        let mut list = make::series(&mut random, 1_024, u64::from(MOST), exact);
        let high: Vec<u32> = (u32::MAX - 1_023..=u32::MAX).collect();
        (list.codes, list.accounts) = (high.clone(), high);
        if case % 2 == 0 {
            make::shuffle(&mut random, &mut list.accounts);
        }
        let terms = Terms::new(b'W', u32::MAX, u32::MAX).by(u32::MAX);
        let text = reference::write(terms, list.in_form(form).list(), usize::MAX).expect("a text");
        assert!(there_and_back(&text) == Changed::Bytes);
        let length = change(&text).expect("a changed text").len();
        let most = &mut most[usize::from(form == Form::LastNumbers)];
        *most = length.max(*most);
    }
    println!("forms: the longest changed texts have {most:?} bytes, to last numbers and to shorts");
    assert!(most.iter().all(|&most| most > 25_000 && most <= 30_806));
}

// At the limits: 1,024 lines and 32,768 bytes, or one more.
#[test]
fn the_largest_texts() {
    let mut count = Count::new("forms, the largest texts");
    for (form, method) in FORMS.into_iter().flat_map(|form| METHODS.map(|method| (form, method))) {
        for lines in [1, 1_023, 1_024, 1_025] {
            let list = Series::by_account(make::upward(lines), vec![9_000; lines]).in_form(form);
            let head = text(&format!("{},1,1", char::from(method)), make::names_3(false, form));
            let lines_of =
                list.accounts.iter().zip(&list.numbers).map(|(account, number)| format!("{account},{number}\n"));
            let text = head + &lines_of.collect::<String>();
            assert_eq!(count.case(compare::change(text.as_bytes(), 40_000)), lines <= 1_024);
        }
    }
    for (form, length) in FORMS.into_iter().flat_map(|form| (32_766..=32_770).map(move |length| (form, length))) {
        let text = make::text_of_length(form, length);
        assert_eq!(there_and_back(&text) == Changed::Series, length <= 32_768);
        assert_eq!(count.case(compare::change(&text, 40_000)), length <= 32_768);
    }
    count.print();
}

// What reading hands back, for every line 3, with positions and without, and for both lines 1.
#[test]
fn reading_hands_back_the_form() {
    for (rest, form) in [
        ("account,short\n", Form::Shorts),
        ("account,last\n", Form::LastNumbers),
        ("code,account,short\n", Form::Shorts),
        ("code,account,last\n", Form::LastNumbers),
        (SHORTS, Form::Shorts),
        (LASTS, Form::LastNumbers),
        ("account,last\n0,0\n0,0\n", Form::LastNumbers),
        ("account,last\n3,4294967295\n2,1\n", Form::LastNumbers),
        ("code,account,last\n0,0,7\n9,9,7\n", Form::LastNumbers),
        ("code,account,short\n0,0,7\n9,9,7\n", Form::Shorts),
    ] {
        for (method, column) in METHODS.into_iter().flat_map(|method| [(method, ""), (method, ",26")]) {
            let text = text(&format!("{},0,0{column}", char::from(method)), rest);
            let [mut codes, mut accounts, mut numbers] = [[0; 5]; 3];
            let mut terms = Terms::new(0, 9, 9).by(9);
            let (mut found, mut positions) = (9, 9);
            let number = calls::read(
                text.as_bytes(),
                &mut terms.method,
                &mut terms.exercised,
                &mut terms.draw,
                &mut terms.increment,
                &mut found,
                &mut codes,
                &mut accounts,
                &mut numbers,
                &mut positions,
            );
            assert_eq!((number, found), (0, u32::from(form == Form::LastNumbers)), "{text}");
            assert_eq!(terms, Terms::new(method, 0, 0).by(if column.is_empty() { 25 } else { 26 }));
            assert_eq!(positions, text.lines().count() - 3);
            // It can be written again, whatever its numbers are.
            let again = write(&read(text.as_bytes()));
            assert_eq!(make::has_form(&again), Some(form));
        }
    }
}
