// What the benchmarks measure against gives the same answers.

use compare::random::Random;
use compare::{branches, cases, days, make, plain, Count, Form, List, Terms, FORMS, LAST_REFUSAL};
use reference::{Allocation, Series};

type Plain = fn(Terms, List, &mut [u32]) -> Result<(u32, u32), u32>;

// Holds an allocation by plain Rust against the separate version; `room` is the length of the output.
#[track_caller]
fn hold(what: &str, (terms, list, room): (Terms, List, usize), allocate: Plain) -> Result<Allocation, u32> {
    let expected = reference::allocate(terms, list, room);
    let mut amounts = vec![77; room];
    let found = allocate(terms, list, &mut amounts);
    let found = found.map(|(total, further)| Allocation { amounts, total, further });
    assert_eq!(found, expected, "{what}: {}", cases::allocate(terms, list, room));
    expected
}

#[test]
fn plain_allocation() {
    let mut random = Random::new(0xBE7C_0001);
    let mut count = Count::new("plain");
    let mut met = [0; LAST_REFUSAL + 1];
    for case in 0..20_000 {
        let (positions, most) = match case % 200 {
            0 => (4_096, 10_000_000),
            100 => (4_096, 300_000),
            _ => (40, 2_000),
        };
        let positions = random.between(1, positions);
        let most = random.between(positions, most);
        let list = make::series(&mut random, positions as usize, most, false);
        let method = random.pick(&make::METHODS);
        let mut list = make::coded(&mut random, method, &list);
        let terms = make::terms(&mut random, method, positions as usize, list.total());
        list = list.in_form(random.pick(&FORMS));
        if random.one_in(10) {
            make::spoil(&mut random, &mut list);
        }
        let room = list.accounts.len().saturating_sub(usize::from(random.one_in(20)));
        let call = (terms, list.list(), room);
        let answer = hold("plain", call, plain::allocate);
        let other = match method {
            b'W' => plain::allocate_wheel_by_division,
            _ => plain::allocate_pro_rata_by_bisection,
        };
        if b"WP".contains(&method) {
            let _ = hold("the other way", call, other);
        }
        met[answer.as_ref().err().map_or(0, |&number| number as usize)] += 1;
        if count.case(Ok(answer.is_ok())) {
            count.allocated(terms, list.list());
        }
    }
    count.print();
    assert!(!count.undrawn().contains(&0));
    println!("plain: refused by 5 {}, by 19 {}, by 6 {}, by 20 {}", met[5], met[19], met[6], met[20]);
    println!("plain: refused by 23 {}, by 24 {}", met[23], met[24]);
    assert!([0, 1, 4, 5, 6, 7, 8, 9, 10, 19, 20, 23, 24].iter().all(|&number| met[number] > 0));
}

#[test]
fn plain_merging() {
    let mut random = Random::new(0xBE7C_0006);
    let mut count = Count::new("plain merging");
    let mut met = [0; LAST_REFUSAL + 1];
    for case in 0..20_000 {
        let positions = if case % 200 == 0 { 6_000 } else { 60 };
        let mut pair = branches::branches(&mut random, branches::Size { positions, total: 10_000_000 });
        for list in &mut pair.lists {
            if random.one_in(4) {
                branches::damage(&mut random, list);
            }
        }
        let expected = reference::merge::merge(pair.positions(), pair.rooms);
        let [first, second] = pair.positions().map(|(accounts, shorts)| List::by_account(accounts, shorts));
        let want = expected.as_ref().map(|merged| (merged.accounts.len(), merged.total)).map_err(|&number| number);
        let lists = expected.map_or_else(|_| [vec![], vec![]], |merged| [merged.accounts, merged.shorts]);
        for merge in [plain::merge, plain::merge_without_branches] {
            let [mut accounts, mut shorts] = pair.rooms.map(|room| vec![77; room]);
            assert_eq!(merge(first, second, &mut accounts, &mut shorts), want, "{}", cases::merge(&pair));
            for (output, list) in [accounts, shorts].iter().zip(&lists) {
                let rest = vec![77; output.len() - list.len()];
                assert_eq!(*output, [&list[..], &rest].concat(), "{}", cases::merge(&pair));
            }
        }
        met[want.err().map_or(0, |number| number as usize)] += 1;
        count.case(Ok(want.is_ok()));
    }
    count.print();
    assert!([0, 1, 2, 3, 4, 5, 6, 7].iter().all(|&number| met[number] > 50), "{met:?}");
}

// Holds the reading of a text against the separate version; the series, where there is one.
fn read(text: &[u8], rooms: [usize; 3]) -> Result<Series, u32> {
    let [mut codes, mut accounts, mut numbers] = rooms.map(|room| vec![0; room]);
    let found = plain::read(text, &mut codes, &mut accounts, &mut numbers);
    let found = found.map(|plain::Head { terms, form, count }| {
        for list in [&mut codes, &mut accounts, &mut numbers] {
            list.truncate(count);
        }
        Series { terms, form, codes, accounts, numbers }
    });
    assert_eq!(found, reference::read(text, rooms), "{}", cases::read(text, rooms));
    found
}

// Holds the writing of a list against the separate version; the text, where there is one.
fn write(terms: Terms, list: List, room: usize) -> Result<Vec<u8>, u32> {
    let mut text = vec![0; room];
    let found = plain::write(terms, list, &mut text).map(|length| text[..length].to_vec());
    assert_eq!(found, reference::write(terms, list, room), "{}", cases::write(terms, list, room));
    found
}

#[test]
fn plain_texts() {
    let mut random = Random::new(0xBE7C_0002);
    let mut count = Count::new("plain texts");
    let (mut otherwise, mut coded, mut by_increment) = (0, 0, 0);
    for _ in 0..15_000 {
        let lines = make::lines(&mut random);
        let mut text = make::text(&mut random, lines);
        if random.one_in(2) {
            make::damage(&mut random, &mut text);
        }
        let rooms = [(); 3].map(|_| if random.one_in(8) { lines.saturating_sub(1) } else { 1_024.max(lines) });
        let found = read(&text, rooms);
        count.case(Ok(found.is_ok()));
        if let Ok(s) = found {
            let written = write(s.terms, s.list(), 32_768).unwrap();
            assert_eq!(write(s.terms, s.list(), written.len() - 1), Err(4));
            otherwise += u32::from(written != text);
            coded += u32::from(make::has_codes(&written));
            by_increment += u32::from(make::has_increment(&written));
        }
    }
    count.print();
    println!(
        "plain texts: {otherwise} accepted and written otherwise, {coded} with codes, {by_increment} with an increment"
    );
    assert!(otherwise > 1_000 && coded > 1_000 && by_increment > 1_000);
}

// Holds what is written to an output of the length against the bytes expected; answers whether anything is.
fn hold_bytes(
    expected: Result<Vec<u8>, u32>,
    room: usize,
    write: impl FnOnce(&mut [u8]) -> Result<usize, u32>,
    case: &str,
) -> bool {
    let mut output = vec![0xEE; room];
    let found = write(&mut output);
    assert_eq!(found, expected.as_ref().map(Vec::len).map_err(|&number| number), "{case}");
    let written = expected.unwrap_or_default();
    let rest = vec![0xEE; room - written.len()];
    assert_eq!(output, [written, rest].concat(), "{case}");
    found.is_ok()
}

// Holds what is printed for a text against the separate version; answers whether it fits.
fn respond(text: &[u8], room: usize) -> bool {
    let expected = reference::respond(text, room);
    hold_bytes(expected, room, |output| plain::respond(text, output), &cases::respond(text, room))
}

// Holds the change of a text, both ways, against the separate version; answers whether it is written.
fn change(text: &[u8], room: usize) -> bool {
    let (expected, case) = (reference::change(text, room), cases::change(text, room));
    hold_bytes(expected.clone(), room, |output| plain::change(text, output), &case);
    hold_bytes(expected, room, |output| plain::change_by_copying(text, output), &case)
}

#[test]
fn plain_changes() {
    let mut random = Random::new(0xBE7C_0005);
    let mut count = Count::new("plain changes");
    let mut kinds = [[0; 2]; 2];
    for _ in 0..15_000 {
        let lines = make::lines(&mut random);
        let mut text = make::text(&mut random, lines);
        if random.one_in(3) {
            make::damage(&mut random, &mut text);
        }
        count.case(Ok(change(&text, 40_000)));
        if let Ok(changed) = reference::change(&text, usize::MAX) {
            assert!(change(&text, changed.len()) && !change(&text, changed.len() - 1));
            assert!(change(&changed, reference::MOST_CHANGED));
            let form = reference::read_text(&changed).expect("a series").form;
            kinds[usize::from(form == Form::Shorts)][usize::from(make::has_codes(&changed))] += 1;
        }
    }
    count.print();
    println!("plain changes: to last numbers and to shorts, without codes and with them: {kinds:?}");
    assert!(kinds.iter().flatten().all(|&n| n > 1_000));
}

#[test]
fn plain_printing() {
    let mut random = Random::new(0xBE7C_0004);
    let mut count = Count::new("plain printing");
    let mut ranged = 0;
    for _ in 0..12_000 {
        let lines = make::lines(&mut random);
        let mut text = make::text(&mut random, lines);
        if random.one_in(3) {
            make::damage(&mut random, &mut text);
        }
        let printed = reference::printed(&text);
        count.case(Ok(!printed.starts_with(b"refused")));
        ranged += u32::from(printed.windows(7).any(|part| part == b",first,"));
        assert!(respond(&text, printed.len()) && respond(&text, printed.len() + 9));
        assert!(!respond(&text, printed.len() - 1) && !respond(&text, random.index(printed.len())));
    }
    count.print();
    println!("plain printing: {ranged} with ranges");
    assert!(ranged > 1_000);
}

#[test]
fn plain_writing() {
    for (lengths, answer) in [([1, 2, 2], 1), ([2, 1, 2], 1), ([2, 2, 1], 1), ([1_025; 3], 15), ([1_024; 3], 11)] {
        let [codes, accounts, numbers] = lengths.map(|length| vec![u32::MAX; length]);
        let accounts: Vec<u32> = accounts.iter().map(|account| account - 1).collect();
        for (form, room) in FORMS.into_iter().flat_map(|form| [(form, 0), (form, 40_000)]) {
            let list = List { form, codes: &codes, accounts: &accounts, numbers: &numbers };
            assert_eq!(write(Terms::new(b'P', 1, 1), list, room), Err(answer), "{lengths:?}");
            assert_eq!(write(Terms::new(b'p', 1, 1), list, room), Err(14), "{lengths:?}");
        }
    }
    for (form, length) in FORMS.into_iter().flat_map(|form| (32_766..=32_770).map(move |length| (form, length))) {
        let list = make::list_of_length(form, length);
        let terms = Terms::new(b'W', 1, 1);
        assert_eq!(write(terms, list.list(), 40_000).is_ok(), length <= 32_768);
        assert_eq!(write(terms.by(u32::MAX), list.list(), 40_000), Err(11));
        let shorter = make::list_of_length(form, length - 21);
        assert_eq!(write(terms.by(u32::MAX), shorter.list(), 40_000).is_ok(), length <= 32_768);
    }
}

#[test]
fn plain_numbers() {
    let most = u64::from(u32::MAX);
    for value in [0, 1, 9, 10, 65_536, 999_999_999, 1_000_000_000, most, most + 1, 2 * most + 3, 9_999_999_999] {
        for zeros in 0..=12 {
            let number = format!("{}{value}", "0".repeat(zeros));
            for (form, (columns, field)) in FORMS.into_iter().flat_map(|form| make::fields().map(move |of| (form, of)))
            {
                let found = read(&make::in_field(form, columns, field, &number), [1; 3]);
                assert_eq!(found.is_ok(), number.len() <= 10 && value <= most, "{number}");
                for malformed in [format!("{number}x"), format!(" {number}")] {
                    assert_eq!(read(&make::in_field(form, columns, field, &malformed), [1; 3]), Err(13));
                }
            }
        }
    }
    for (columns, field) in make::fields() {
        assert_eq!(read(&make::in_field(Form::LastNumbers, columns, field, ""), [1; 3]), Err(13));
    }
}

#[test]
fn plain_days() {
    let mut random = Random::new(0xBE7C_0003);
    let mut count = Count::new("plain days");
    let mut answers = [0; 4];
    for case in 0..40_000 {
        let day = if case % 2 == 0 { 0 } else { random.pick(&[1, 2, u32::MAX]) };
        let counts = days::investor(&mut random, day);
        let expected = reference::day::process_investor(day, counts);
        let found = plain::process_investor(day, counts);
        let found = found.map(|(limit, long, short)| reference::day::AfterDay { limit, long, short });
        assert_eq!(found, expected, "{}", cases::process_investor(day, counts));
        count.case(Ok(expected.is_ok()));
        answers[expected.map_or_else(|number| number as usize - 15, |_| 0)] += 1;
        let counts = days::market_maker(&mut random);
        let expected = reference::day::process_market_maker(day, counts);
        let shown = cases::process_market_maker(day, counts);
        assert_eq!(plain::process_market_maker(day, counts), expected, "{shown}");
        count.case(Ok(expected.is_ok()));
    }
    count.print();
    assert!(!answers.contains(&0));
}
