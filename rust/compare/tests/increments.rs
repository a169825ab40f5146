// Other increments than 25: every one that W takes, those that it refuses, blocks up to the limit and past it, shares, the
// methods that look at none, and the column of a text.

use compare::library;
use compare::make::{self, Columns, Series, INCREMENTS, METHODS};
use compare::program::{Feed, PROGRAMS};
use compare::random::Random;
use compare::{cases, library_form, Count, Terms, DEFAULT_INCREMENT, FORMS};
use dilbreth::{Form, Refused};

const MOST: u32 = 10_000_000;

fn taken(increment: u32) -> bool {
    (1..=1_000).contains(&increment)
}

// Every increment up to past the limit, with every list, S and draw of up to four contracts: the first refusal of S, the
// increment and the draw.
#[test]
fn every_increment_on_small_series() {
    let mut count = Count::new("increments, small series");
    for list in (1..=4).flat_map(make::lists) {
        let total = list.total() as u32;
        for increment in (0..=1_001).chain([u32::MAX]) {
            for exercised in 0..=total + 1 {
                for draw in 0..=total + 1 {
                    let terms = Terms::new(b'W', exercised, draw).by(increment);
                    let refusals = [
                        (8, exercised == 0),
                        (9, exercised > total),
                        (23, !taken(increment)),
                        (10, exercised < total && !(1..=total).contains(&draw)),
                    ];
                    let expected = refusals.into_iter().find(|(_, applies)| *applies).map_or(0, |(number, _)| number);
                    assert_eq!(count.allocate(terms, list.list(), list.numbers.len()), expected, "{terms:?}");
                }
            }
        }
    }
    count.print();
}

// Each with lists of a few blocks, S at and about whole blocks.
#[test]
fn every_increment_on_larger_series() {
    let mut random = Random::new(0x19C4_0001);
    let mut count = Count::new("increments, larger series");
    let mut blocks = [0; 2];
    for increment in 1..=1_000u32 {
        for _ in 0..4 {
            let total = random.between(2, 8 * u64::from(increment) + 20);
            let positions = random.between(1, total.min(40)) as usize;
            let list = make::series(&mut random, positions, total, true);
            let list = make::coded(&mut random, b'W', &list);
            let whole = (random.between(1, 8) as u32 * increment).min(total as u32 - 1);
            for exercised in [whole - 1, whole, whole + 1, total as u32 - 1] {
                let draw = random.between(1, total) as u32;
                let terms = Terms::new(b'W', exercised, draw).by(increment);
                if count.allocate(terms, list.list(), positions) == 0 && u64::from(exercised) < total {
                    blocks[usize::from(terms.blocks() > 1)] += 1;
                }
            }
        }
    }
    count.print();
    let [one, several] = blocks;
    println!("increments, larger series: {one} of one block, {several} of several");
    assert!(one > 1_000 && several > 5_000);
}

// Numbers that W refuses, some with the low bits of one that it takes; before the draw, after the list and S, and also
// where S equals T.
#[test]
fn increments_that_are_refused() {
    let mut count = Count::new("increments, refused");
    let list = Series::coded(vec![3, 7, 9], vec![20, 4, 11], vec![60, 200, 95]);
    for increment in [0, 1_001, 1_002, 65_536, 65_536 + 25, (1 << 24) + 25, (1 << 31) + 25, u32::MAX - 24, u32::MAX] {
        let mut met = |list: &Series, exercised: u32, draw: u32, room: usize| {
            count.allocate(Terms::new(b'W', exercised, draw).by(increment), list.list(), room)
        };
        for draw in make::draws(355) {
            for exercised in [1, 175, 354, 355] {
                assert_eq!(met(&list, exercised, draw, 3), 23, "{increment}");
            }
            assert_eq!(met(&list, 0, draw, 3), 8);
            assert_eq!(met(&list, 356, draw, 3), 9);
            assert_eq!(met(&list, 355, draw, 2), 4);
            for (codes, accounts, shorts, number) in [
                (vec![3, 7], vec![20, 4, 11], vec![60, 200, 95], 1),
                (vec![], vec![], vec![], 3),
                (vec![3, 7, 7], vec![20, 4, 11], vec![60, 200, 95], 5),
                (vec![3, 7, 9], vec![20, 4, 20], vec![60, 200, 95], 19),
                (vec![3, 7, 9], vec![20, 4, 11], vec![60, 200, 0], 6),
                (vec![3, 7, 9], vec![20, 4, 11], vec![60, 200, MOST], 7),
            ] {
                assert_eq!(met(&Series::coded(codes, accounts, shorts), 355, draw, 3), number);
            }
        }
    }
    count.print();
}

// T = 10,000,000 in a few positions and in many.
fn largest_lists() -> [Series; 3] {
    let mut many = vec![2_441; 4_096];
    many[77] += MOST - 4_096 * 2_441;
    [vec![MOST], vec![4_000_000, 1, 5_999_999], many].map(|shorts| {
        assert_eq!(shorts.iter().sum::<u32>(), MOST);
        Series::by_account(make::upward(shorts.len()), shorts)
    })
}

// 24 is met with more than 1,000,000 blocks, which increments up to 9 can have; before the draw, and not where S equals T.
#[test]
fn blocks_at_the_limit() {
    let mut count = Count::new("increments, blocks at the limit");
    for list in largest_lists() {
        let mut met = |exercised: u32, draw: u32, increment: u32| {
            let terms = Terms::new(b'W', exercised, draw).by(increment);
            let number = count.allocate(terms, list.list(), list.numbers.len());
            let (_, _, further, _) = library::allocate(terms, 0, &list);
            assert!(number > 0 || further == if exercised < MOST { terms.blocks() } else { 0 });
            (number, terms.blocks())
        };
        for increment in 1..=9 {
            let most = 1_000_000 * increment;
            assert_eq!(met(most, 1, increment), (0, 1_000_000));
            assert_eq!(met(most, MOST, increment), (0, 1_000_000));
            assert_eq!(met(most, 0, increment), (10, 1_000_000));
            assert_eq!(met(most - increment, 7_654_321, increment), (0, 999_999));
            for draw in [0, 1, MOST, MOST + 1] {
                assert_eq!(met(most + 1, draw, increment), (24, 1_000_001));
                assert_eq!(met(MOST - 1, draw, increment).0, 24);
                assert_eq!(met(MOST, draw, increment).0, 0);
                assert_eq!(met(MOST + 1, draw, increment).0, 9);
            }
        }
        for increment in [10, 11, 1_000] {
            assert_eq!(met(MOST - 1, 4_999_999, increment).0, 0);
        }
        assert_eq!(met(MOST - 1, 1, 10), (0, 1_000_000));
        assert_eq!(met(MOST - 1, 1, 1_001).0, 23);
    }
    count.print();
    assert!(!count.met([0, 9, 10, 23, 24]).contains(&0));
}

// The smallest T with which 24 is met, and the S next to it.
#[test]
fn the_smallest_series_with_too_many_blocks() {
    let mut count = Count::new("increments, the smallest with too many blocks");
    for increment in 1..=9 {
        let most = 1_000_000 * increment;
        for total in [most, most + 1, most + 2, most + 3] {
            let list = Series::by_account(vec![5, 8], vec![total / 2, total - total / 2]);
            for exercised in [most - 1, most, most + 1, most + 2] {
                let expected = match exercised {
                    _ if exercised > total => 9,
                    _ if exercised < total && exercised > most => 24,
                    _ => 0,
                };
                let terms = Terms::new(b'W', exercised, total / 3).by(increment);
                assert_eq!(count.allocate(terms, list.list(), 2), expected, "{terms:?}, T {total}");
            }
        }
    }
    count.print();
}

// Blocks of one, two and a few contracts all round the largest wheel, and few large blocks.
#[test]
fn random_largest_series() {
    let mut random = Random::new(0x19C4_0002);
    let mut count = Count::new("increments, random largest series");
    for _ in 0..120 {
        let positions = random.between(1, 4_096) as usize;
        let total = u64::from(MOST) - random.below(1_000);
        let list = make::series(&mut random, positions, total, true);
        let list = make::coded(&mut random, b'W', &list);
        let increment = random.pick(&[1, 1, 2, 3, 7, 9, 10, 11, 24, 26, 100, 999, 1_000]);
        let most = (total - 1).min(1_000_000 * u64::from(increment));
        let exercised = (most - random.below(3)) as u32;
        let terms = Terms::new(b'W', exercised, random.between(1, total) as u32).by(increment);
        assert_eq!(count.allocate(terms, list.list(), positions), 0);
    }
    count.print();
}

#[test]
fn shares_at_every_increment() {
    let mut series = 0;
    for list in (1..=6).flat_map(make::lists) {
        for exercised in 1..=list.total() as u32 {
            for increment in (1..=7).chain([24, 26, 1_000]) {
                compare::shares(Terms::new(b'W', exercised, 0).by(increment), &list);
                series += 1;
            }
        }
    }
    let mut random = Random::new(0x19C4_0003);
    for increment in (1..=40).chain([99, 100, 101, 500, 999, 1_000]) {
        let total = random.between(2, 1_500);
        let positions = random.between(1, total.min(12)) as usize;
        let list = make::series(&mut random, positions, total, true).in_form(random.pick(&FORMS));
        for exercised in [random.between(1, total) as u32, total as u32 - 1] {
            compare::shares(Terms::new(b'W', exercised, 0).by(increment), &list);
            series += 1;
        }
    }
    println!("increments: shares of {series} series");
}

// Whatever the increment is, P, L and R answer as with 25.
#[test]
fn other_methods_look_at_no_increment() {
    let mut random = Random::new(0x19C4_0004);
    let mut answers = [0; 2];
    for case in 0..3_000 {
        let (positions, total) = if case % 100 == 0 { (4_096, u64::from(MOST)) } else { (40, 3_000) };
        for make::Call { terms, list, .. } in make::calls(&mut random, positions, total) {
            if terms.method == b'W' {
                continue;
            }
            let form = library_form(list.form).number();
            let expected = library::allocate(terms.by(DEFAULT_INCREMENT), form, &list);
            for increment in INCREMENTS.into_iter().chain([random.bits() as u32]) {
                assert_eq!(library::allocate(terms.by(increment), form, &list), expected, "{terms:?} {increment}");
            }
            answers[usize::from(expected.0 == 0)] += 1;
        }
    }
    let [refused, allocated] = answers;
    println!("increments: {allocated} allocated and {refused} refused alike by P, L and R");
    assert!(allocated > 5_000 && refused > 500);
}

// A position's text under the columns, as the library writes it.
fn written(terms: Terms, form: Form, codes: Vec<u32>) -> Vec<u8> {
    let Terms { method, exercised, draw, increment } = terms;
    let method = dilbreth::Method::from_byte(method).expect("a method");
    let numbers = if form == Form::Shorts { vec![60, 200, 95] } else { vec![60, 260, 355] };
    let terms = dilbreth::Terms { method, exercised, draw, increment, form, positions: 3 };
    library::write(&library::Read { terms, codes, accounts: vec![1, 2, 3], numbers })
}

// The column is written exactly where the increment is not 25, whatever the method and the codes; reading and the change
// keep the increment, and judge none.
#[test]
fn texts_keep_the_increment() {
    let increments = INCREMENTS.into_iter().chain([3, 100, 65_561, 4_000_000_000]);
    let mut texts = 0;
    for (method, increment) in METHODS.into_iter().flat_map(|method| increments.clone().map(move |by| (method, by))) {
        for (form, other) in [(Form::Shorts, Form::LastNumbers), (Form::LastNumbers, Form::Shorts)] {
            for codes in [vec![1, 2, 3], vec![4, 5, 6]] {
                let terms = Terms { method, exercised: 175, draw: 340, increment };
                let columns = Columns { increment: increment != 25, codes: codes != [1, 2, 3] };
                let [text, changed] = [form, other].map(|form| written(terms, form, codes.clone()));
                assert_eq!(make::columns(&text), columns);
                let found = library::read(&text).expect("a series");
                assert_eq!((found.terms.increment, found.terms.draw, found.terms.form), (increment, 340, form));
                assert_eq!(library::write(&found), text);
                assert_eq!(library::change(&text).as_ref(), Ok(&changed));
                let printed = library::respond(&text);
                assert_eq!(printed == "refused\n23\n", method == b'W' && !taken(increment), "{printed}");
                assert_eq!(library::respond(&changed), printed);
                texts += 1;
                // 25 may stand in a text, but is not written.
                if increment == 25 {
                    let spelled = make::with_increment(&text);
                    assert!(make::has_increment(&spelled));
                    assert_eq!(library::read(&spelled).as_ref(), Ok(&found));
                    assert_eq!(library::change(&spelled), Ok(changed));
                    assert_eq!(library::respond(&spelled), printed);
                }
            }
        }
    }
    println!("increments: {texts} texts written, read and changed");
}

// The column has ten bytes more in line 1, a comma and the digits in line 2, in what is written and what is changed.
#[test]
fn lengths_with_the_column() {
    for form in [Form::Shorts, Form::LastNumbers] {
        for (method, digits) in METHODS.into_iter().flat_map(|method| (1..=10).map(move |digits| (method, digits))) {
            let terms = Terms::new(method, u32::MAX, u32::MAX);
            let [without, with] =
                [DEFAULT_INCREMENT, 10u32.pow(digits - 1)].map(|by| written(terms.by(by), form, vec![1, 2, 3]));
            assert_eq!(with.len(), without.len() + 11 + digits as usize);
            let [without, with] = [without, with].map(|text| library::change(&text).expect("a changed text"));
            assert_eq!(with.len(), without.len() + 11 + digits as usize);
        }
    }
    let longest = written(Terms::new(b'W', u32::MAX, u32::MAX).by(u32::MAX), Form::Shorts, vec![1, 2, 3]);
    let lines: Vec<&[u8]> = longest.split_inclusive(|&b| b == b'\n').collect();
    assert_eq!((lines[0].len(), lines[1].len()), (32, 35));
    assert_eq!(lines[1], b"W,4294967295,4294967295,4294967295\n");
}

// Every line 2 of three to five fields, each good or bad, under both lines 1: another number of fields is 13, then an
// unknown method 14, then a bad number 13.
#[test]
fn refusals_of_line_2() {
    let mut count = Count::new("increments, line 2");
    let choices = [["W", "X", ""], ["1", "x", ""], ["1", "00000000001", ""], ["10", "4294967296", ""]];
    for code in 0..3usize.pow(4) {
        let fields: Vec<&str> = (0..4).map(|field| choices[field][code / 3usize.pow(field as u32) % 3]).collect();
        for (increment, line) in [false, true].into_iter().flat_map(|column| {
            let lines = [fields[..3].join(","), fields.join(","), format!("{},1", fields.join(","))];
            lines.map(|line| (column, line))
        }) {
            let text = format!("{}{line}\naccount,short\n1,5\n", make::names_1(increment));
            let expected = match line.split(',').count() {
                fields if fields != 3 + usize::from(increment) => Some(13),
                _ if fields[0] != "W" => Some(14),
                fields_there => (1..fields_there).any(|at| fields[at] != choices[at][0]).then_some(13),
            };
            let found = library::read(text.as_bytes()).err();
            assert_eq!(found, expected.map(Refused), "{text}");
            assert_eq!(library::change(text.as_bytes()).err(), expected.map(Refused), "{text}");
            count.case(compare::read(text.as_bytes(), [1; 3]));
            count.case(compare::respond(text.as_bytes(), 60));
        }
    }
    count.print();
}

// 23 and 24 are no refusals of a text: it is read and changed, and assigned with the number.
#[test]
fn texts_with_too_many_blocks() {
    let mut count = Count::new("increments, texts with too many blocks");
    for (line_2, number) in [
        ("W,1000000,1,1", 0),
        ("W,1000001,1,1", 24),
        ("W,1000001,0,0000000001", 24),
        ("W,9999999,1,9", 24),
        ("W,9999999,1,10", 0),
        ("W,10000000,0,1", 0),
        ("W,10000001,0,1", 9),
        ("W,9999999,0,0", 23),
        ("W,9999999,0,10", 10),
        ("L,9999999,1,1", 0),
    ] {
        for rest in ["account,short\n1,4000000\n2,6000000\n", "account,last\n1,4000000\n2,10000000\n"] {
            let text = format!("{}{line_2}\n{rest}", make::names_1(true));
            let printed = library::respond(text.as_bytes());
            assert_eq!(printed.starts_with("account,assigned\n"), number == 0, "{line_2}");
            assert!(number == 0 || printed == format!("refused\n{number}\n"), "{line_2}: {printed}");
            assert!(count.case(compare::read(text.as_bytes(), [2; 3])));
            assert!(count.case(compare::change(text.as_bytes(), 100)));
            assert!(count.case(compare::respond(text.as_bytes(), 100)));
            for (program, refused) in PROGRAMS.into_iter().zip([number > 0, false]) {
                assert_eq!(program.compare(text.as_bytes(), Feed::Pipe), Ok(!refused), "{line_2}");
            }
        }
    }
    count.print();
}

// The lines that a case which differs is printed as, with the increment in its place.
#[test]
fn printed_cases_run_again() {
    let list = Series::coded(vec![3, 7, 9], vec![20, 4, 11], vec![60, 200, 95]);
    let terms = Terms { method: b'W', exercised: 65, draw: 340, increment: 10 };
    let case = cases::allocate(terms, list.list(), 3);
    assert_eq!(case, "allocate W 65 340 10 short 3,7,9 20,4,11 60,200,95 3");
    assert_eq!(cases::again(&case), Ok(true));
    assert_eq!(cases::again(&cases::allocate(terms.by(0), list.list(), 3)), Ok(false));
    let case = cases::write(terms, list.list(), 90);
    assert_eq!(case, "write W 65 340 10 short 3,7,9 20,4,11 60,200,95 90");
    assert_eq!(cases::again(&case), Ok(true));
    assert_eq!(cases::again(&cases::write(terms, list.list(), 80)), Ok(false));
    assert_eq!(cases::again(&cases::write(terms.by(25), list.list(), 80)), Ok(true));
}
