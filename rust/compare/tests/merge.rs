// Merged lists: pairs by hand, what is refused of each list and of the merged one, and random pairs, held to the
// separate version, to the same pair the other way round and to the allocating call.

use compare::branches::{self, Branch, Branches, Size};
use compare::make::{self, Series, METHODS};
use compare::random::Random;
use compare::{cases, library, Terms, LAST_REFUSAL};
use dilbreth::calls;
use reference::merge::Positions;
use reference::List;

const MOST: u32 = 10_000_000;

// What the outputs hold before a call.
const UNWRITTEN: u32 = 0x3E26_ED00;

// What positions and T hold before a call.
const KEPT: (usize, u32) = (0xC0DE_0004, 0xC0DE_0005);

// The number of a call, positions and T, and both outputs.
type Found = (u32, (usize, u32), [Vec<u32>; 2]);

fn branch((accounts, shorts): Positions) -> Branch {
    Branch { accounts: accounts.to_vec(), shorts: shorts.to_vec() }
}

fn pair(first: Positions, second: Positions, rooms: [usize; 2]) -> Branches {
    Branches { lists: [first, second].map(branch), rooms }
}

// The pair through the library, held to the separate version.
#[track_caller]
fn run(branches: &Branches) -> Found {
    let held = compare::merge(branches).unwrap_or_else(|shown| panic!("a merge differs:\n{shown}"));
    let (mut positions, mut total) = KEPT;
    let [mut accounts, mut shorts] = branches.rooms.map(|room| vec![UNWRITTEN; room]);
    let [first, second] = branches.positions();
    let (out, of_shorts, p, t) = (&mut accounts, &mut shorts, &mut positions, &mut total);
    let number = calls::merge(first.0, first.1, second.0, second.1, out, of_shorts, p, t);
    assert_eq!(number, held);
    (number, (positions, total), [accounts, shorts])
}

// The call is refused by the number, with all kept.
#[track_caller]
fn kept(branches: &Branches, number: u32) {
    assert_eq!(run(branches), (number, KEPT, branches.rooms.map(|room| vec![UNWRITTEN; room])));
}

// The lists merge to the third, in either order, with outputs that are just long enough and such as are longer.
#[track_caller]
fn merges(one: Positions, other: Positions, (accounts, shorts): Positions) {
    let room = accounts.len();
    let handed_back = (room, shorts.iter().sum());
    for (first, second) in [(one, other), (other, one)] {
        for rooms in [[room; 2], [room + 1, room], [room, room + 7], [4_096; 2]] {
            let [of_accounts, of_shorts] = rooms;
            let outputs = [(accounts, of_accounts), (shorts, of_shorts)]
                .map(|(list, room)| [list, &vec![UNWRITTEN; room - list.len()]].concat());
            assert_eq!(run(&pair(first, second, rooms)), (0, handed_back, outputs));
        }
        for rooms in [[room - 1, room], [room, room - 1], [room - 1; 2], [0, room], [room, 0], [0; 2], [0, 4_096]] {
            kept(&pair(first, second, rooms), 4);
        }
    }
}

const LIST: Positions = (&[2, 5, 9], &[30, 8, 1]);

#[test]
fn interleaved_lists() {
    merges(LIST, (&[1, 5, 7], &[4, 12, 20]), (&[1, 2, 5, 7, 9], &[4, 30, 20, 20, 1]));
    merges(LIST, (&[1, 4, 8], &[6, 7, 5]), (&[1, 2, 4, 5, 8, 9], &[6, 30, 7, 8, 5, 1]));
    merges(LIST, (&[3, 6, 10], &[6, 7, 5]), (&[2, 3, 5, 6, 9, 10], &[30, 6, 8, 7, 1, 5]));
    merges(LIST, (&[3, 4], &[6, 7]), (&[2, 3, 4, 5, 9], &[30, 6, 7, 8, 1]));
}

#[test]
fn disjoint_lists() {
    merges(LIST, (&[10, 11, 12, 13], &[1, 2, 3, 4]), (&[2, 5, 9, 10, 11, 12, 13], &[30, 8, 1, 1, 2, 3, 4]));
    merges(LIST, (&[1], &[7]), (&[1, 2, 5, 9], &[7, 30, 8, 1]));
    merges((&[1], &[7]), (&[2], &[8]), (&[1, 2], &[7, 8]));
}

#[test]
fn equal_lists() {
    merges(LIST, LIST, (LIST.0, &[60, 16, 2]));
    merges(LIST, (LIST.0, &[1, 2, 3]), (LIST.0, &[31, 10, 4]));
    merges((&[7], &[1]), (&[7], &[1]), (&[7], &[2]));
}

#[test]
fn lists_that_are_contained() {
    for (other, shorts) in [
        ((&[2][..], &[5][..]), [35, 8, 1]),
        ((&[5], &[5]), [30, 13, 1]),
        ((&[9], &[5]), [30, 8, 6]),
        ((&[2, 9], &[5, 6]), [35, 8, 7]),
        ((&[5, 9], &[5, 6]), [30, 13, 7]),
    ] {
        merges(LIST, other, (LIST.0, &shorts));
    }
}

#[test]
fn extreme_accounts() {
    let top = u32::MAX;
    merges((&[1], &[7]), (&[top], &[8]), (&[1, top], &[7, 8]));
    merges((&[1, top], &[7, 8]), (&[1, top], &[1, 2]), (&[1, top], &[8, 10]));
    merges((&[1, top], &[7, 8]), (&[2, top - 1], &[1, 2]), (&[1, 2, top - 1, top], &[7, 1, 2, 8]));
    merges((&[top - 1], &[7]), (&[top], &[8]), (&[top - 1, top], &[7, 8]));
    merges((&[1 << 31], &[7]), (&[(1 << 31) - 1], &[8]), (&[(1 << 31) - 1, 1 << 31], &[8, 7]));
}

// What a call only reads may overlap: a list with itself, and one whose shorts are its accounts.
#[test]
fn lists_that_overlap() {
    let list = [3, 8, 20];
    let [mut accounts, mut shorts] = [[UNWRITTEN; 4]; 2];
    let (mut positions, mut total) = KEPT;
    let (p, t) = (&mut positions, &mut total);
    assert_eq!(calls::merge(&list, &list, &list[1..], &list[..2], &mut accounts, &mut shorts, p, t), 0);
    assert_eq!((positions, total), (3, 42));
    assert_eq!((accounts, shorts), ([3, 8, 20, UNWRITTEN], [3, 11, 28, UNWRITTEN]));
}

// Lists with one fault each, or with several, and the number of the first; `long` has 4,098 accounts and `ones` as many
// shorts.
fn faults<'a>(long: &'a [u32], ones: &'a [u32]) -> Vec<(u32, Positions<'a>)> {
    vec![
        (1, (&[1, 2], &[5])),
        (1, (&[1], &[5, 3])),
        (1, (&[0], &[])),
        (1, (&[], &[0])),
        (1, (&long[..4_097], &ones[..4_096])),
        (1, (&long[..4_097], ones)),
        (2, (&long[..4_097], &ones[..4_097])),
        (2, (long, ones)),
        (3, (&[], &[])),
        (5, (&[0], &[5])),
        (5, (&[0, 1], &[0, 0])),
        (5, (&[0], &[u32::MAX])),
        (5, (&[2, 2], &[5, 3])),
        (5, (&[2, 1], &[5, 0])),
        (5, (&[u32::MAX, 1], &[MOST, MOST])),
        (5, (&[1, 2, 0], &[5, 3, 1])),
        (6, (&[1], &[0])),
        (6, (&[2, 1], &[0, 5])),
        (6, (&[1, 2, 3], &[5, 3, 0])),
        (6, (&[1, 2, 3], &[MOST, 0, 1])),
        (7, (&[1], &[MOST + 1])),
        (7, (&[1], &[u32::MAX])),
        (7, (&[1, 2], &[MOST, 1])),
        (7, (&[1, 2], &[2, u32::MAX])),
        (7, (&[1, 2], &[u32::MAX, 2])),
        (7, (&[1, 2, 2], &[MOST, 1, 0])),
        (7, (&[1, 2, 3], &[5, MOST, 0])),
    ]
}

// A fault of a list comes before what the merged one meets, and the first list's before the second's.
#[test]
fn faults_of_each_list() {
    let (long, ones) = (make::upward(4_098), vec![1; 4_098]);
    let whole = (&long[..4_096], &ones[..4_096]);
    let faults = faults(&long, &ones);
    for &(number, list) in &faults {
        for rooms in [[0; 2], [4_096; 2]] {
            for other in [(&[5_000][..], &[1][..]), (&[5_000], &[MOST]), whole] {
                kept(&pair(list, other, rooms), number);
                kept(&pair(other, list, rooms), number);
            }
            for &(_, second) in &faults {
                kept(&pair(list, second, rooms), number);
            }
        }
    }
}

#[test]
fn as_many_positions_as_may_be() {
    let (accounts, ones) = (make::upward(4_100), vec![1; 4_096]);
    let (whole, twos) = ((&accounts[..4_096], &ones[..]), vec![2; 4_096]);
    merges(whole, whole, (whole.0, &twos));
    for at in [0, 1, 2_048, 4_095] {
        let mut shorts = ones.clone();
        shorts[at] = 8;
        merges(whole, (&accounts[at..=at], &[7]), (whole.0, &shorts));
    }
    // One account more: below, between, above.
    let every_other: Vec<u32> = (1..=4_096).map(|at| 2 * at).collect();
    for one in [1, 3, 4_097, 8_191, 8_193, u32::MAX] {
        for rooms in [[0; 2], [4_096; 2], [4_097; 2], [8_192; 2]] {
            kept(&pair((&every_other, &ones), (&[one], &[1]), rooms), 2);
            kept(&pair((&[one], &[1]), (&every_other, &ones), rooms), 2);
        }
    }
    // By halves, one above the other and in turn.
    let (low, high) = (&accounts[..2_048], &accounts[2_048..4_097]);
    merges((low, &ones[..2_048]), (&high[..2_048], &ones[..2_048]), whole);
    kept(&pair((low, &ones[..2_048]), (high, &ones[..2_049]), [4_097; 2]), 2);
    let [odd, even] = [0, 1].map(|from| accounts[from..4_096].iter().step_by(2).copied().collect::<Vec<u32>>());
    merges((&odd, &ones[..2_048]), (&even, &ones[..2_048]), whole);
    // Without an account in common, and with all but one.
    let above: Vec<u32> = (4_097..=8_192).collect();
    kept(&pair(whole, (&above, &ones), [8_192; 2]), 2);
    kept(&pair(whole, (&accounts[1..4_097], &ones), [8_192; 2]), 2);
}

#[test]
fn as_many_contracts_as_may_be() {
    for (one, other) in [(MOST - 1, 1), (5_000_000, 5_000_000)] {
        merges((&[4], &[one]), (&[4], &[other]), (&[4], &[MOST]));
        merges((&[4], &[one]), (&[8], &[other]), (&[4, 8], &[one, other]));
    }
    merges((&[1, 4], &[5_000_000, 1]), (&[1, 8], &[4_999_998, 1]), (&[1, 4, 8], &[9_999_998, 1, 1]));
    for (one, other) in [(MOST, 1), (1, MOST), (5_000_000, 5_000_001), (MOST, MOST)] {
        for (first, second) in [(4, 4), (4, 8), (8, 4)] {
            kept(&pair((&[first], &[one]), (&[second], &[other]), [2; 2]), 7);
        }
    }
    let (accounts, mut shorts) = (make::upward(4_096), vec![1; 4_096]);
    shorts[4_095] = MOST - 4_095 - 7;
    let mut merged = shorts.clone();
    merged[4_095] += 7;
    merges((&accounts, &shorts), (&[4_096], &[7]), (&accounts, &merged));
    kept(&pair((&accounts, &shorts), (&[4_096], &[8]), [4_096; 2]), 7);
}

// A pair that has the faults asked for, by their numbers.
fn with_faults(faults: &[u32]) -> Branches {
    let has = |number: u32| faults.contains(&number);
    let (accounts, ones) = (make::upward(4_096), vec![1; 4_096]);
    let one = if has(2) { 4_097 } else { 4_096 };
    let left = MOST - 4_096;
    let rooms = if has(4) { [4_097, 4_095] } else { [4_097; 2] };
    pair((&accounts, &ones), (&[one], &[if has(7) { left + 1 } else { left }]), rooms)
}

#[test]
fn refusals_of_the_merged_list_in_order() {
    let order = [2, 7, 4];
    for chosen in 1..1u32 << order.len() {
        let faults: Vec<u32> = (0..order.len()).filter(|at| chosen >> at & 1 == 1).map(|at| order[at]).collect();
        let branches = with_faults(&faults);
        kept(&branches, faults[0]);
        kept(&branches.exchanged(), faults[0]);
    }
    assert_eq!(run(&with_faults(&[])).1, (4_096, MOST));
}

// A merged list is handed to the allocating call under each method: nothing of it is refused, and T is the merge's.
#[track_caller]
fn allocated(accounts: &[u32], shorts: &[u32], total: u32) {
    let list = Series::by_account(accounts.to_vec(), shorts.to_vec());
    for method in METHODS {
        let (number, found, _, amounts) = library::allocate(Terms::new(method, total, 0), 0, &list);
        assert_eq!((number, found, &amounts), (0, total, &list.numbers), "{list:?}");
        let (number, found, _, amounts) = library::allocate(Terms::new(method, 1, 1), 0, &list);
        assert_eq!((number, found, amounts.iter().sum::<u32>()), (0, total, 1), "{list:?}");
    }
}

#[test]
fn merged_lists_are_allocated() {
    allocated(&[1, 2, 5, 7, 9], &[4, 30, 20, 20, 1], 75);
    let (number, (positions, total), [accounts, shorts]) = run(&with_faults(&[]));
    assert_eq!(number, 0);
    allocated(&accounts[..positions], &shorts[..positions], total);
}

// How many calls had each number: for the first list's faults, for the second's and of the merged list.
struct Met([[u64; LAST_REFUSAL + 1]; 3]);

impl Met {
    fn pair(&mut self, branches: &Branches) {
        let (number, (positions, total), outputs) = run(branches);
        let judge = |(accounts, shorts): Positions| {
            reference::judge_list(b'P', List::by_account(accounts, shorts), usize::MAX).is_ok()
        };
        let place = branches.positions().into_iter().position(|list| !judge(list)).unwrap_or(2);
        self.0[place][number as usize] += 1;
        if place == 2 {
            let exchanged = run(&branches.exchanged());
            assert_eq!(exchanged, (number, (positions, total), outputs.clone()), "{}", cases::merge(branches));
        }
        if number == 0 {
            allocated(&outputs[0][..positions], &outputs[1][..positions], total);
        } else {
            assert_eq!((positions, total), KEPT, "{}", cases::merge(branches));
            assert!(outputs.iter().flatten().all(|&number| number == UNWRITTEN), "{}", cases::merge(branches));
        }
    }

    fn print(&self, what: &str) {
        let calls: u64 = self.0.iter().flatten().sum();
        println!("{what}: {calls} pairs");
        for (place, met) in ["the first list", "the second list", "the merged list"].into_iter().zip(self.0) {
            let numbers = met.iter().enumerate().filter(|(_, count)| **count > 0);
            let shown: Vec<String> = numbers.map(|(number, count)| format!("{number}: {count}")).collect();
            println!("{what}: by number, of {place} {}", shown.join(", "));
        }
    }

    // Each of the numbers was met more often than that in the place.
    #[track_caller]
    fn has(&self, place: usize, numbers: &[usize], times: u64) {
        assert!(numbers.iter().all(|&number| self.0[place][number] > times), "{place}: {:?}", self.0[place]);
    }
}

// Pairs of a size, every second damaged once or twice in the first list, in the second or in both.
fn random_pairs(what: &str, seed: u64, count: usize, size: Size) -> Met {
    let mut random = Random::new(seed);
    let mut met = Met([[0; LAST_REFUSAL + 1]; 3]);
    for _ in 0..count {
        let mut branches = branches::branches(&mut random, size);
        let damaged: &[usize] = random.pick(&[&[], &[], &[], &[0], &[1], &[0, 1]]);
        for &at in damaged {
            for _ in 0..random.between(1, 2) {
                branches::damage(&mut random, &mut branches.lists[at]);
            }
        }
        met.pair(&branches);
    }
    met.print(what);
    met
}

const FAULTS: [usize; 6] = [1, 2, 3, 5, 6, 7];

#[test]
fn random_short_lists() {
    let met = random_pairs("merge, short lists", 0x3E26_0001, 40_000, Size { positions: 12, total: 60 });
    met.has(0, &FAULTS, 100);
    met.has(1, &FAULTS, 100);
    met.has(2, &[0, 4, 7], 100);
}

#[test]
fn random_lists() {
    let size = Size { positions: 200, total: MOST.into() };
    let met = random_pairs("merge, lists", 0x3E26_0002, 10_000, size);
    met.has(0, &FAULTS, 50);
    met.has(1, &FAULTS, 50);
    met.has(2, &[0, 4, 7], 50);
}

#[test]
fn random_long_lists() {
    let size = Size { positions: 6_000, total: MOST.into() };
    let met = random_pairs("merge, long lists", 0x3E26_0003, 800, size);
    met.has(2, &[0, 2, 4, 7], 5);
}

// The line that a pair which differs is printed as.
#[test]
fn printed_cases_run_again() {
    let mut branches = pair(LIST, (&[1, 5, 7], &[4, 12, 20]), [6, 5]);
    let case = cases::merge(&branches);
    assert_eq!(case, "merge 2,5,9 30,8,1 1,5,7 4,12,20 6 5");
    assert_eq!(cases::again(&case), Ok(true));
    branches.rooms = [4, 5];
    assert_eq!(cases::again(&cases::merge(&branches)), Ok(false));
    assert_eq!(cases::merge(&Branches::default()), "merge - - - - 0 0");
    assert_eq!(cases::again(&cases::merge(&Branches::default())), Ok(false));
}
