// The limits of the document, and lists to which several refusals apply.

use compare::make::{draws, names_1, names_3, upward, INCREMENTS, METHODS};
use compare::{Count, Form, List, Terms, DEFAULT_INCREMENT, FORMS};

const MOST: u32 = 10_000_000;

// With the accounts as codes; W also with other codes and the accounts in falling order.
fn each_method(count: &mut Count, accounts: &[u32], shorts: &[u32], exercised: &[u32], draws: &[u32]) {
    let codes = upward(accounts.len());
    let falling: Vec<u32> = accounts.iter().rev().copied().collect();
    let list = List::by_account(accounts, shorts);
    let by_code = List { codes: &codes, accounts: &falling, ..list };
    for (method, list) in METHODS.map(|method| (method, list)).into_iter().chain([(b'W', by_code)]) {
        for &s in exercised {
            for &draw in draws {
                count.allocate(Terms::new(method, s, draw), list, accounts.len());
            }
        }
    }
}

#[test]
fn number_of_positions() {
    let mut count = Count::new("limits, positions");
    for positions in [1, 2, 4_095, 4_096, 4_097, 5_000, 70_000] {
        let accounts = upward(positions);
        for short in [1, 3, 60] {
            let shorts = vec![short; positions];
            let total = short * positions as u32;
            let exercised = [0, 1, total / 3, total - 1, total, total + 1];
            each_method(&mut count, &accounts, &shorts, &exercised, &draws(total));
            let list = List::by_account(&accounts, &shorts);
            for (s, increment) in exercised.into_iter().flat_map(|s| INCREMENTS.map(|increment| (s, increment))) {
                count.allocate(Terms::new(b'W', s, total / 2 + 1).by(increment), list, positions);
            }
        }
    }
    count.print();
    assert!(!count.undrawn().contains(&0));
    assert!(!count.met([2, 23]).contains(&0));
}

#[test]
fn number_of_contracts() {
    let mut count = Count::new("limits, contracts");
    let mut many = vec![2_441; 4_096];
    many[77] += MOST - 4_096 * 2_441;
    let mut one_large = vec![1; 4_096];
    one_large[4_000] = MOST - 4_095;
    for base in [vec![MOST], vec![1, MOST - 1], vec![MOST - 1, 1], many, one_large] {
        assert_eq!(base.iter().sum::<u32>(), MOST);
        let accounts = upward(base.len());
        each_method(&mut count, &accounts, &base, &[MOST - 1], &[1, 4_855, 10_000]);
        each_method(&mut count, &accounts, &base, &[1, 24, 26, MOST / 2 + 1], &[9_999]);
        each_method(&mut count, &accounts, &base, &[0, MOST, MOST + 1, u32::MAX], &draws(MOST));
        for draw in [0, 1, MOST - 1, MOST, MOST + 1, u32::MAX] {
            for method in *b"WLR" {
                count.allocate(Terms::new(method, MOST - 1, draw), List::by_account(&accounts, &base), base.len());
            }
        }
        for increment in INCREMENTS {
            for (s, draw) in [(MOST - 1, 0), (MOST - 1, 7), (MOST, 0), (MOST + 1, 1), (1_000_000, MOST)] {
                let terms = Terms::new(b'W', s, draw).by(increment);
                count.allocate(terms, List::by_account(&accounts, &base), base.len());
            }
        }
        for at in [0, base.len() / 2, base.len() - 1] {
            for extra in [1, 2, u32::MAX - MOST] {
                let mut shorts = base.clone();
                shorts[at] += extra;
                each_method(&mut count, &accounts, &shorts, &[0, 1, MOST + 1], &[0, 1]);
            }
        }
    }
    count.print();
    assert!(!count.undrawn().contains(&0));
    assert!(!count.met([0, 7, 8, 9, 10, 23, 24]).contains(&0));
}

#[test]
fn one_position() {
    let mut count = Count::new("limits, one position");
    for account in [0, 1, u32::MAX] {
        for short in [0u32, 1, 2, 24, 25, 26, 49, 50, 51, 75, 1_000] {
            for s in (0..=short.min(80) + 1).chain([short.saturating_sub(1), short, short + 1]) {
                each_method(&mut count, &[account], &[short], &[s], &draws(short));
                for increment in INCREMENTS {
                    let terms = Terms::new(b'W', s, short).by(increment);
                    count.allocate(terms, List::by_account(&[account], &[short]), 1);
                }
            }
        }
    }
    count.print();
    assert!(!count.undrawn().contains(&0));
}

#[test]
fn lengths_of_the_lists() {
    let mut count = Count::new("limits, lengths");
    let lengths = [0, 1, 2, 3, 4_095, 4_096, 4_097, 4_098];
    let accounts = upward(4_098);
    let shorts = vec![2; 4_098];
    for a in lengths {
        for s in lengths {
            // Codes as many as the shorts, as many as the accounts, and of other lengths.
            for c in [s, a, 0, 2, 4_097] {
                let list = List { codes: &accounts[..c], ..List::by_account(&accounts[..a], &shorts[..s]) };
                for room in [0, 1, 2, 3, 4, 4_095, 4_096, 4_097, 5_000] {
                    for method in *b"WPLRX" {
                        for exercised in [0, 1] {
                            count.allocate(Terms::new(method, exercised, 1), list, room);
                        }
                    }
                }
                for (method, form) in [(b'P', Form::Shorts), (b'R', Form::LastNumbers)] {
                    count.case(compare::write(Terms::new(method, 1, 1), List { form, ..list }, 40_000));
                }
            }
        }
    }
    count.print();
}

#[test]
fn every_method_byte() {
    let mut count = Count::new("limits, methods");
    for method in 0..=255 {
        for (form, increment) in FORMS.into_iter().flat_map(|form| [0, 10, DEFAULT_INCREMENT].map(|by| (form, by))) {
            method_byte(&mut count, Terms::new(method, 26, 7).by(increment), form);
        }
        let none = Terms::new(method, 0, 0).by(0);
        count.allocate(none, List::by_account(&[], &[1]), 0);
        count.allocate(none, List::by_account(&[0], &[0]), 0);
    }
    count.print();
}

fn method_byte(count: &mut Count, terms: Terms, form: Form) {
    for codes in [&[1, 2][..], &[1, 3], &[2, 1], &[2]] {
        let list = List { form, codes, ..List::by_account(&[1, 2], &[30, 40]) };
        count.allocate(terms, list, 2);
        count.case(compare::write(terms, list, 100));
        count.case(compare::write(terms, list, 0));
        count.case(compare::write(terms, List { numbers: &[30], ..list }, 100));
    }
    let Terms { method, increment, .. } = terms;
    let (increments, column) =
        if increment == DEFAULT_INCREMENT { (false, String::new()) } else { (true, format!(",{increment}")) };
    for (coded, lines) in [(false, "1,30\n2,40\n"), (true, "1,2,30\n2,1,40\n"), (false, ""), (true, "5,5,x\n")] {
        let rest = [",26,7", &column, "\n", names_3(coded, form), lines].concat();
        let text = [names_1(increments).as_bytes(), &[method], rest.as_bytes()].concat();
        count.case(compare::read(&text, [2; 3]));
        for room in [100, 20] {
            count.case(compare::respond(&text, room));
            count.case(compare::change(&text, room));
        }
    }
}

// Codes for three accounts: the accounts, some that rise, and some with a fault at each position.
fn codes_for(accounts: [u32; 3]) -> [[u32; 3]; 7] {
    [accounts, [1, 2, 3], [7, 8, u32::MAX], [0, 2, 3], [2, 2, 3], [1, 2, 2], [5, 6, 0]]
}

// All lists of three positions from a few accounts and numbers: every order in which refusals can meet.
#[test]
fn several_refusals_at_once() {
    let mut count = Count::new("limits, several refusals");
    three_positions(&mut count, Form::Shorts, [0, 1, MOST, MOST + 1, u32::MAX]);
    three_positions(&mut count, Form::LastNumbers, [0, 2, 4, MOST + 1, u32::MAX]);
    count.print();
    assert!(!count.met([0, 1, 4, 5, 6, 7, 8, 9, 10, 19, 20, 23]).contains(&0));
}

fn three_positions(count: &mut Count, form: Form, numbers: [u32; 5]) {
    let accounts = [0, 1, 2, u32::MAX];
    for case in 0..4usize.pow(3) * 5usize.pow(3) {
        let (mut a, mut n) = ([0; 3], [0; 3]);
        let mut rest = case;
        for i in 0..3 {
            a[i] = accounts[rest % 4];
            rest /= 4;
            n[i] = numbers[rest % 5];
            rest /= 5;
        }
        for (c, codes) in codes_for(a).iter().enumerate() {
            for (of_a, of_n, room) in [(3, 3, 3), (3, 3, 2), (2, 2, 3), (3, 2, 0)] {
                let list = List { form, codes: &codes[..of_a], accounts: &a[..of_a], numbers: &n[..of_n] };
                // P, L and R look at no code.
                for &method in if c == 0 { &METHODS[..] } else { b"W" } {
                    each_exercised(count, method, list, room);
                }
            }
        }
    }
}

fn each_exercised(count: &mut Count, method: u8, list: List, room: usize) {
    for exercised in [0, 1, 3, 4, u32::MAX] {
        for draw in [0, 1, u32::MAX] {
            // Large T belongs to the other tests.
            if list.numbers.iter().all(|&number| number != MOST) || exercised != 3 || method == b'P' {
                // W refuses the first of them, and the others look at none.
                for &increment in if method == b'W' { &[0, 2][..] } else { &[0] } {
                    count.allocate(Terms::new(method, exercised, draw).by(increment), list, room);
                }
            }
        }
    }
}

// One list handed over as codes, accounts and numbers: what is only read may be shared.
#[test]
fn accounts_that_are_the_numbers() {
    let mut count = Count::new("limits, one list as all");
    for positions in [1, 2, 5, 40, 1_000] {
        let numbers = upward(positions);
        for form in FORMS {
            let list = List { form, ..List::by_account(&numbers, &numbers) };
            let total: u32 = list.shorts().iter().sum();
            for (method, draw) in METHODS.into_iter().flat_map(|method| [(method, 1), (method, 77)]) {
                for exercised in [1, total / 2, total - 1, total] {
                    count.allocate(Terms::new(method, exercised, draw), list, positions);
                }
            }
        }
    }
    count.print();
}
