// Every list with T up to 7, every S from 0 to T + 1, under W every increment from 0 to 8 and some others; every list of up
// to three codes and accounts from 0 to 3; every list of up to four last numbers from 0 to 5.

use compare::{make, Count, Form, List, Terms, FORMS};

// Of W; three of them are refused.
const INCREMENTS: [u32; 14] = [0, 1, 2, 3, 4, 5, 6, 7, 8, 25, 999, 1_000, 1_001, u32::MAX];

// W takes each draw with every increment, the others with one that they do not look at. `undrawn` is how many whole
// series, and others of one position, are allocated with a draw out of range.
fn all(what: &'static str, method: u8, undrawn: [u64; 2], draws: impl Fn(u32) -> Vec<u32>) {
    let mut count = Count::new(what);
    let mut series = 0;
    for total in 1..=7 {
        let draws = draws(total);
        for list in make::lists(total) {
            series += 1;
            for exercised in 0..=total + 1 {
                for &draw in &draws {
                    let room = list.numbers.len() + (draw % 3) as usize;
                    let any = draw as usize % INCREMENTS.len();
                    for &increment in if method == b'W' { &INCREMENTS } else { &INCREMENTS[any..=any] } {
                        count.allocate(Terms::new(method, exercised, draw).by(increment), list.list(), room);
                    }
                }
            }
        }
    }
    assert_eq!(series, 127);
    count.print();
    assert_eq!(count.undrawn(), undrawn);
}

#[test]
fn every_small_wheel() {
    // Draws 0, T + 1, 10,000, 10,001 and the largest, each with the increments that are not refused.
    let undrawn = [127 * 5 * (INCREMENTS.len() as u64 - 3), 0];
    all("small W", b'W', undrawn, |total| (0..=total + 1).chain([10_000, 10_001, u32::MAX]).collect());
}

#[test]
fn every_small_pro_rata() {
    all("small P", b'P', [0, 0], |_| (0..=60).chain([9_999, 10_000, 10_001, u32::MAX - 1, u32::MAX]).collect());
}

#[test]
fn every_small_lottery() {
    // Draws 0, 10,001 and the largest; one position has 1 to T - 1 contracts exercised.
    let undrawn = [127 * 3, 21 * 3];
    all("small L", b'L', undrawn, |_| (0..=10_001).chain([u32::MAX]).collect());
}

#[test]
fn every_small_remainder_draw() {
    // No draw is out of range.
    all("small R", b'R', [0, 0], |total| {
        let top = u32::MAX - 2 * total;
        (0..=3 * total + 1).chain([9_999, 10_000, 10_001]).chain(top..=u32::MAX).collect()
    });
}

// The lists of a length with numbers from 0 to 3.
fn up_to_three(length: u32) -> impl Iterator<Item = Vec<u32>> {
    (0..4u32.pow(length)).map(move |digits| (0..length).map(|i| digits >> (2 * i) & 3).collect())
}

// How many lists of a length rise from above 0, and how many have accounts above 0 that differ.
const RISING: [u64; 4] = [1, 3, 3, 1];
const DIFFERENT: [u64; 4] = [1, 3, 6, 6];

#[test]
fn every_small_list_of_codes_and_accounts() {
    let mut count = Count::new("small codes and accounts");
    let shorts = [2, 30, 1];
    for length in 1..=3 {
        let shorts = &shorts[..length];
        let total = shorts.iter().sum::<u32>();
        let mut accepted = [0; 4];
        for codes in up_to_three(length as u32) {
            for accounts in up_to_three(length as u32) {
                let list = List { codes: &codes, ..List::by_account(&accounts, shorts) };
                for (method, accepted) in make::METHODS.into_iter().zip(&mut accepted) {
                    for (exercised, draw) in [(total, 0), (total - 1, 2), (1, 0), (total + 1, 1)] {
                        let number = count.allocate(Terms::new(method, exercised, draw), list, length);
                        *accepted += u64::from(exercised == total && number == 0);
                    }
                }
            }
        }
        let by_account = RISING[length] * 4u64.pow(length as u32);
        assert_eq!(accepted, [RISING[length] * DIFFERENT[length], by_account, by_account, by_account]);
    }
    count.print();
}

// Every list of up to four last numbers from 0 to 5: accepted exactly where they rise from above 0, and then as the
// differences are.
#[test]
fn every_small_list_of_last_numbers() {
    let mut count = Count::new("small last numbers");
    let mut rising = [0; 5];
    for (length, code) in (1..=4).flat_map(|length| (0..6u32.pow(length)).map(move |code| (length, code))) {
        let numbers: Vec<u32> = (0..length).map(|i| code / 6u32.pow(i) % 6).collect();
        let accounts = make::upward(numbers.len());
        let list = List { form: Form::LastNumbers, ..List::by_account(&accounts, &numbers) };
        let total = numbers[numbers.len() - 1];
        for method in make::METHODS {
            for exercised in 0..=total + 1 {
                for draw in 0..=total + 1 {
                    count.allocate(Terms::new(method, exercised, draw).by(1 + total / 2), list, numbers.len());
                }
            }
            let found = count.allocate(Terms::new(method, total.max(1), 1), list, numbers.len());
            assert!(found == 0 || found == 20, "{found}: {numbers:?}");
            rising[length as usize] += u32::from(found == 0);
        }
    }
    // So many ways to choose the numbers from 1 to 5, under each of four methods.
    assert_eq!(rising, [0, 4 * 5, 4 * 10, 4 * 10, 4 * 5]);
    count.print();
}

// Codes, accounts, numbers and an output of each length up to three: who is refused by 1, and what comes first.
#[test]
fn every_small_length_of_codes_and_accounts() {
    let mut count = Count::new("small lengths");
    for [c, a, s, room] in up_to_three(4).map(|lengths| [0, 1, 2, 3].map(|i| lengths[i] as usize)) {
        for numbers in up_to_three(3) {
            let list = List { codes: &numbers[..c], ..List::by_account(&[3, 1, 2][..a], &[4, 5, 6][..s]) };
            let other = List { codes: &[3, 1, 2][..c], ..List::by_account(&numbers[..a], &[4, 5, 6][..s]) };
            for method in *b"WPLRX" {
                let terms = Terms::new(method, 1, 1);
                for list in [list, other] {
                    count.allocate(terms, list, room);
                }
                for form in FORMS {
                    count.case(compare::write(terms, List { form, ..list }, 20 * room + 40));
                    count.case(compare::write(terms.by(0), List { form, ..list }, 20 * room + 40));
                }
            }
        }
    }
    count.print();
    assert!(!count.met([0, 1, 3, 4, 5, 14, 19]).contains(&0));
}
