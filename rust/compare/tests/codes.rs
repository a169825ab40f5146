// Codes and accounts: long lists in which accounts differ or one stands twice, faults at one position, and codes that
// nobody looks at.

use compare::library;
use compare::make::{self, Series};
use compare::random::Random;
use compare::{library_form, Count, List, Terms, DEFAULT_INCREMENT};
use dilbreth::Method;

const MOST: u32 = 10_000_000;

// A name and so many accounts that differ.
fn orders(random: &mut Random, count: usize) -> Vec<(&'static str, Vec<u32>)> {
    let rising = make::rising(random, count);
    let falling: Vec<u32> = rising.iter().rev().copied().collect();
    let halves: Vec<u32> = rising[count / 2..].iter().chain(&rising[..count / 2]).copied().collect();
    let [mut mixed, mut far] = [rising.clone(), (0..count as u32).map(|i| u32::MAX - i * 1_048_573).collect()];
    make::shuffle(random, &mut mixed);
    make::shuffle(random, &mut far);
    vec![
        ("rising", rising),
        ("falling", falling),
        ("the upper half first", halves),
        ("in random order", mixed),
        ("spread over 32 bits", far),
        ("that are random", make::different(random, count)),
        ("with the same low 12 bits", make::sharing_low_bits(random, count, 12)),
        ("with the same low 20 bits", make::sharing_low_bits(random, count, 20)),
        ("that collide", make::sharing_upper_bits_of_product(random, count)),
    ]
}

// Accepts accounts, and refuses them once the last one stands earlier or is 0, also where its shorts are 0 or too many.
fn last_account(count: &mut Count, random: &mut Random, what: &str, series: &Series) {
    let length = series.numbers.len();
    let total = series.total() as u32;
    let increment = random.pick(&[DEFAULT_INCREMENT, 1, 10, 1_000]);
    let mut met = |series: &Series, exercised: u32, expected: u32| {
        let draw = if exercised < total { 1 } else { 0 };
        let found = count.allocate(Terms::new(b'W', exercised, draw).by(increment), series.list(), length);
        assert_eq!(found, expected, "{length} accounts {what}");
    };
    met(series, total, 0);
    met(series, total / 2 + 1, 0);
    let last = length - 1;
    for account in [series.accounts[0], series.accounts[random.index(last)], series.accounts[last - 1], 0] {
        let mut spoiled = series.clone();
        spoiled.accounts[last] = account;
        met(&spoiled, total, 19);
        for short in [0, MOST, u32::MAX] {
            spoiled.numbers[last] = short;
            met(&spoiled, total, 19);
        }
        spoiled.numbers[last - 1] = 0;
        met(&spoiled, total, 6);
        spoiled.codes[last - 1] = 0;
        met(&spoiled, total, 5);
    }
}

#[test]
fn long_lists() {
    let mut random = Random::new(0xC0DE_0001);
    let mut count = Count::new("codes, long lists");
    for length in [2, 3, 5, 63, 64, 65, 1_000, 1_024, 4_095, 4_096, 4_096, 4_096] {
        for (what, accounts) in orders(&mut random, length) {
            assert_eq!(accounts.len(), length);
            let shorts = vec![random.between(2, 9) as u32; length];
            let series = Series::coded(make::rising(&mut random, length), accounts, shorts);
            last_account(&mut count, &mut random, what, &series);
            for method in *b"PLR" {
                count.allocate(Terms::new(method, 1, 1), series.list(), length);
            }
        }
    }
    count.print();
}

// An account that stands at two places, for all pairs of a short list and many of a long one.
#[test]
fn every_pair_of_positions() {
    let mut random = Random::new(0xC0DE_0002);
    let mut count = Count::new("codes, pairs");
    for length in [2, 9, 40, 4_096] {
        for (what, accounts) in orders(&mut random, length) {
            let series = Series::coded(make::upward(length), accounts, vec![1; length]);
            let mut pairs: Vec<(usize, usize)> =
                (1..length.min(40)).flat_map(|j| (0..j).map(move |i| (i, j))).collect();
            if length > 40 {
                let far = |_| {
                    let j = random.between(40, length as u64 - 1) as usize;
                    (random.index(j), j)
                };
                pairs = (0..20).map(far).chain([(0, 1), (0, length - 1), (length - 2, length - 1)]).collect();
            }
            for (i, j) in pairs {
                let mut twice = series.clone();
                twice.accounts[j] = series.accounts[i];
                let found = count.allocate(Terms::new(b'W', 1, 1), twice.list(), length);
                assert_eq!(found, 19, "{i} and {j} of {length} accounts {what}");
            }
        }
    }
    count.print();
}

// What a position of W meets: the first that applies of 5, 19, 6 and 7.
#[test]
fn all_faults_of_one_position() {
    let mut count = Count::new("codes, faults of one position");
    let good = Series::coded(vec![3, 5, 8, 9], vec![7, 2, 9, 4], vec![10, 20, 30, 40]);
    for at in 0..4 {
        let before = at.max(1) - 1;
        let codes = [(good.codes[at], 0), (0, 5), if at > 0 { (good.codes[before], 5) } else { (0, 5) }];
        let accounts = [(good.accounts[at], 0), (0, 19)];
        let earlier = good.accounts[..at].iter().map(|&account| (account, 19));
        let shorts = [(good.numbers[at], 0), (0, 6), (MOST, if at > 0 { 7 } else { 0 }), (u32::MAX, 7)];
        for (account, of_account) in accounts.into_iter().chain(earlier) {
            for (code, of_code) in codes {
                for (short, of_short) in shorts {
                    let mut list = Series { codes: good.codes[..=at].to_vec(), ..good.clone() };
                    list.accounts.truncate(at + 1);
                    list.numbers.truncate(at + 1);
                    (list.codes[at], list.accounts[at], list.numbers[at]) = (code, account, short);
                    let expected = [of_code, of_account, of_short].into_iter().find(|&n| n > 0).unwrap_or(0);
                    let terms = Terms::new(b'W', 1, 1);
                    assert_eq!(count.allocate(terms, list.list(), 4), expected, "{list:?}");
                    // An increment that is refused comes after them.
                    let with_increment = if expected == 0 { 23 } else { expected };
                    assert_eq!(count.allocate(terms.by(0), list.list(), 4), with_increment, "{list:?}");
                    for method in *b"PLR" {
                        count.allocate(Terms { method, ..terms }, list.list(), 4);
                    }
                }
            }
        }
    }
    count.print();
    assert!(!count.met([0, 5, 6, 7, 19, 23]).contains(&0));
}

// Codes of any length and value under P, L and R; under W another length is 1, whatever else is wrong.
#[test]
fn codes_that_nobody_looks_at() {
    let mut random = Random::new(0xC0DE_0003);
    let mut count = Count::new("codes, not looked at");
    for positions in [1, 2, 7, 100, 4_096] {
        let series = make::series(&mut random, positions, 20 * positions as u64, true);
        let total = series.total() as u32;
        for length in [0, 1, positions - 1, positions, positions + 1, 4_096, 4_097, 100_000] {
            for code in [0, 1, u32::MAX] {
                let codes = vec![code; length];
                let list = List { codes: &codes, ..series.list() };
                for method in *b"PLR" {
                    assert_eq!(count.allocate(Terms::new(method, total / 3 + 1, 5), list, positions), 0);
                    assert_eq!(count.allocate(Terms::new(method, total, 5), list, positions), 0);
                }
                if length != positions {
                    assert_eq!(count.allocate(Terms::new(b'W', 0, 0), list, 0), 1);
                    for method in *b"PR" {
                        assert!(!count.case(compare::write(Terms::new(method, 1, 1), list, 60_000)));
                    }
                }
                count.allocate(Terms::new(b'W', 1, 1), list, positions);
            }
        }
    }
    count.print();
}

// The amounts go by the shorts in list order: other codes that rise and other accounts that differ change nothing.
#[test]
fn amounts_are_those_of_the_shorts() {
    let mut random = Random::new(0xC0DE_0004);
    let mut lists = 0;
    for positions in [1, 2, 5, 60, 1_024, 4_096] {
        for _ in 0..12 {
            let series = make::series(&mut random, positions, 25 * positions as u64, false);
            let total = series.total();
            let [exercised, draw] = [(); 2].map(|_| random.between(1, total) as u32);
            let terms = Terms::new(b'W', exercised, draw).by(random.spread(1_000) as u32);
            let expected = library::allocate(terms, 0, &series);
            assert_eq!(expected.0, 0);
            for (what, accounts) in orders(&mut random, positions) {
                let other = Series { codes: make::rising(&mut random, positions), accounts, ..series.clone() };
                assert_eq!(library::allocate(terms, 0, &other), expected, "{positions} accounts {what}");
                lists += 1;
            }
        }
    }
    println!("codes, amounts of the shorts: {lists} lists");
}

// What the library writes it reads as the same series, without the codes exactly where they are the accounts, with any
// increment.
#[test]
fn round_trips() {
    let mut random = Random::new(0xC0DE_0005);
    let mut columns = [[0; 2]; 2];
    for _ in 0..6_000 {
        let lines = make::lines(&mut random);
        let Ok(s) = reference::read_text(&make::text(&mut random, lines)) else { continue };
        let text = written(&s);
        let coded = make::has_codes(&text);
        assert_eq!(coded, s.codes != s.accounts);
        columns[library_form(s.form).number() as usize][usize::from(coded)] += 1;
        same_series(&text, &s);
        if !coded {
            same_series(&make::with_codes(&text), &s);
        }
    }
    println!("codes, round trips: without a column of codes, with it: {columns:?} by shorts and last numbers");
    assert!(columns.iter().flatten().all(|&n| n > 500));
}

fn written(s: &reference::Series) -> Vec<u8> {
    let Terms { method, exercised, draw, increment } = s.terms;
    let (method, form) = (Method::from_byte(method).expect("a method"), library_form(s.form));
    let mut text = vec![0; 32_768];
    let out = &mut text;
    let length = dilbreth::write(method, exercised, draw, increment, form, &s.codes, &s.accounts, &s.numbers, out);
    text.truncate(length.expect("a text"));
    text
}

fn same_series(text: &[u8], s: &reference::Series) {
    let [mut codes, mut accounts, mut numbers] = [(); 3].map(|_| vec![0; s.numbers.len()]);
    let dilbreth::Terms { method, exercised, draw, increment, form, positions } =
        dilbreth::read(text, &mut codes, &mut accounts, &mut numbers).expect("a series");
    assert_eq!(Terms { method: method.byte(), exercised, draw, increment }, s.terms);
    assert_eq!((form, positions), (library_form(s.form), s.numbers.len()));
    assert_eq!((&codes, &accounts, &numbers), (&s.codes, &s.accounts, &s.numbers));
}
