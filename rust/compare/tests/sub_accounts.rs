// Sub-accounts: several consecutive positions in the place of one, with the same total. Under W, L and R every other
// position keeps its amount, and the new ones together get what the old one got; P has no such rule. The answers are the
// library's own, each held to the separate version. Sub-accounts that are put together are the same two lists.

use compare::make::{self, Series, METHODS};
use compare::random::Random;
use compare::{library, library_form, Count, Terms, FORMS, LAST_REFUSAL};

const MOST: u32 = 10_000_000;

// The methods that assign by places.
const BY_PLACE: [u8; 3] = *b"WLR";

// An answer of the library: 0 or the number of the refusal, T, the further number and the amounts.
type Answer = (u32, u32, u32, Vec<u32>);

// The shorts of a list, and of the list with parts in the place of some of its positions.
#[derive(Clone, Debug)]
struct Split {
    before: Vec<u32>,
    after: Vec<u32>,
}

impl Split {
    fn of(before: &[u32], after: &[u32]) -> Split {
        Split { before: before.to_vec(), after: after.to_vec() }
    }

    // Each chosen position in parts, at most `most` positions in all.
    fn made(random: &mut Random, before: Vec<u32>, chosen: &[bool], most: usize) -> Split {
        let mut left = most - before.len();
        let mut after = Vec::new();
        for (&short, &chosen) in before.iter().zip(chosen) {
            let parts = if chosen { make::parts(random, short, left + 1) } else { vec![short] };
            left -= parts.len() - 1;
            after.extend(parts);
        }
        Split { before, after }
    }

    fn total(&self) -> u32 {
        self.before.iter().sum()
    }

    // For each position of the list before, how many stand in its place and what they get together.
    fn together(&self, amounts: &[u32]) -> Vec<(usize, u32)> {
        let mut after = self.after.iter().zip(amounts);
        let of = |&short: &u32| {
            let (mut held, mut parts, mut assigned) = (0, 0, 0);
            while held < short {
                let (part, amount) = after.next().expect("a part");
                (held, parts, assigned) = (held + part, parts + 1, assigned + amount);
            }
            assert_eq!(held, short, "{self:?}");
            (parts, assigned)
        };
        self.before.iter().map(of).collect()
    }

    // Whether a position that is not split has another amount after the split than before.
    fn changes_others(&self, before: &[u32], after: &[u32]) -> bool {
        self.together(after).iter().zip(before).any(|(&(parts, assigned), &amount)| parts == 1 && assigned != amount)
    }

    // Whether the call of the list before needs no draw and the other one does.
    fn asks_for_a_draw(&self, terms: Terms) -> bool {
        let one = self.before.len() == 1 && self.after.len() > 1;
        one && b"LR".contains(&terms.method) && terms.exercised < self.total()
    }

    // The law, of an answer to each call: T, the blocks or the starting place, and the amounts.
    #[track_caller]
    fn keeps(&self, terms: Terms, before: &Answer, after: &Answer) {
        let total = self.total();
        assert_eq!([(before.0, before.1), (after.0, after.1)], [(0, total); 2], "{terms:?} {self:?}");
        if self.asks_for_a_draw(terms) {
            assert!(before.2 == 0 && (1..=total).contains(&after.2), "{terms:?} {self:?}");
        } else {
            assert_eq!(before.2, after.2, "{terms:?} {self:?}");
        }
        let together: Vec<u32> = self.together(&after.3).iter().map(|of| of.1).collect();
        assert_eq!(before.3, together, "{terms:?} {self:?}");
    }
}

// A list that the method takes; its accounts and codes say nothing of those of another list.
fn list(random: &mut Random, method: u8, shorts: &[u32]) -> Series {
    let rising = make::rising(random, shorts.len());
    if method == b'W' {
        return Series::coded(rising, make::different(random, shorts.len()), shorts.to_vec());
    }
    make::coded(random, method, &Series::by_account(rising, shorts.to_vec()))
}

// The answers to a call, by shorts and by last numbers.
#[track_caller]
fn answers(count: &mut Count, terms: Terms, list: &Series) -> [Answer; 2] {
    let number = count.allocate(terms, list.list(), list.numbers.len());
    let answers = FORMS.map(|form| library::allocate(terms, library_form(form).number(), &list.in_form(form)));
    assert!(answers.iter().all(|answer| answer.0 == number), "{terms:?} {list:?}");
    answers
}

// Both calls, each with accounts and codes of its own.
#[track_caller]
fn both(count: &mut Count, random: &mut Random, terms: Terms, split: &Split) -> [[Answer; 2]; 2] {
    [&split.before, &split.after].map(|shorts| answers(count, terms, &list(random, terms.method, shorts)))
}

// The law, of both forms of the one list and both forms of the other.
#[track_caller]
fn keeps(terms: Terms, split: &Split, before: &[Answer; 2], after: &[Answer; 2]) {
    for one in before {
        for other in after {
            split.keeps(terms, one, other);
        }
    }
}

// Terms by which neither call is refused; S and the draw are often at an end of their range.
fn terms(random: &mut Random, method: u8, total: u32) -> Terms {
    let (any, low) = (random.between(1, 1_000), random.spread(1_000));
    let increment = random.pick(&[25, any, low]) as u32;
    let between = random.between(1, total.into()) as u32;
    let few = random.spread(total.into()) as u32;
    let exercised = random.pick(&[1, total, (total - 1).max(1), few, between, between]);
    let most = if method == b'W' && exercised < total { 1_000_000 * increment } else { total };
    let (lowest, highest) = match method {
        b'W' => (1, total),
        b'L' => (1, 10_000),
        _ => (0, u32::MAX),
    };
    let draw = random.between(lowest.into(), highest.into()) as u32;
    Terms { method, exercised: exercised.min(most), draw: random.pick(&[lowest, highest, draw, draw, draw]), increment }
}

// One position, the first and the last more often than another.
fn one(random: &mut Random, count: usize) -> Vec<bool> {
    let any = random.index(count);
    let at = random.pick(&[0, count - 1, any, any]);
    (0..count).map(|i| i == at).collect()
}

// Any number of positions, all of them in one list of four.
fn several(random: &mut Random, count: usize) -> Vec<bool> {
    let share = random.between(1, 4);
    (0..count).map(|_| random.one_in(share)).collect()
}

struct Size {
    what: &'static str,
    seed: u64,
    series: usize,
    // Of the list before and of the one after.
    positions: [u64; 2],
    total: u32,
    chosen: fn(&mut Random, usize) -> Vec<bool>,
}

impl Size {
    fn split(&self, random: &mut Random) -> Split {
        let [before, after] = self.positions;
        let positions = if random.one_in(8) { 1 } else { random.between(1, before) };
        let most = u64::from(self.total) - positions;
        let (few, any) = (random.spread(most), random.between(1, most));
        let more = random.pick(&[few, few, any, any, most]);
        let exact = random.one_in(2);
        let before = make::series(random, positions as usize, positions + more, exact).numbers;
        let chosen = (self.chosen)(random, before.len());
        Split::made(random, before, &chosen, after as usize)
    }
}

const KINDS: [&str; 8] = [
    "with nothing split",
    "with the first position split",
    "with the last one split",
    "with the only one split",
    "with S = T",
    "with S = 1",
    "of several blocks",
    "with a starting place from none",
];

// Which of the kinds two calls are.
fn kinds(terms: Terms, split: &Split, after: &Answer) -> [bool; 8] {
    let parts: Vec<usize> = split.together(&after.3).iter().map(|of| of.0).collect();
    let [first, last] = [parts[0], parts[parts.len() - 1]].map(|parts| parts > 1);
    [
        split.before == split.after,
        first,
        last,
        first && parts.len() == 1,
        terms.exercised == split.total(),
        terms.exercised == 1,
        terms.method == b'W' && after.2 > 1,
        split.asks_for_a_draw(terms),
    ]
}

// Random series under W, L and R.
fn run(size: Size) {
    let mut random = Random::new(size.seed);
    let mut count = Count::new(size.what);
    let (mut met, mut largest) = ([0; KINDS.len()], (0, 0));
    for _ in 0..size.series {
        let split = size.split(&mut random);
        for method in BY_PLACE {
            let terms = terms(&mut random, method, split.total());
            let [before, after] = both(&mut count, &mut random, terms, &split);
            keeps(terms, &split, &before, &after);
            for (met, is) in met.iter_mut().zip(kinds(terms, &split, &after[0])) {
                *met += u32::from(is);
            }
        }
        largest = (split.after.len().max(largest.0), split.total().max(largest.1));
    }
    count.print();
    let shown: Vec<String> = KINDS.iter().zip(met).map(|(kind, times)| format!("{times} {kind}")).collect();
    println!("{}: of {} pairs {}", size.what, 3 * size.series, shown.join(", "));
    println!("{}: up to {} positions and {} contracts", size.what, largest.0, largest.1);
    assert!(!met.contains(&0));
}

#[test]
fn one_account_of_small_lists() {
    let what = "sub-accounts, one of a small list";
    run(Size { what, seed: 0x50BA_0001, series: 30_000, positions: [12, 60], total: 400, chosen: one });
}

#[test]
fn one_account_of_larger_lists() {
    let what = "sub-accounts, one of a larger list";
    run(Size { what, seed: 0x50BA_0002, series: 2_000, positions: [12, 4_096], total: 50_000, chosen: one });
}

#[test]
fn one_account_of_the_largest_lists() {
    let what = "sub-accounts, one of the largest lists";
    run(Size { what, seed: 0x50BA_0003, series: 100, positions: [12, 4_096], total: MOST, chosen: one });
}

#[test]
fn several_accounts_of_small_lists() {
    let what = "sub-accounts, several of a small list";
    run(Size { what, seed: 0x50BA_0004, series: 20_000, positions: [12, 60], total: 400, chosen: several });
}

#[test]
fn several_accounts_of_larger_lists() {
    let what = "sub-accounts, several of a larger list";
    run(Size { what, seed: 0x50BA_0005, series: 500, positions: [300, 4_096], total: 500_000, chosen: several });
}

// Every S and increment, every starting place, and under L also draws that lead to one and the same.
fn every_terms(total: u32) -> Vec<Terms> {
    let lottery = [1, 2, 3_333, 3_334, 5_000, 5_001, 9_999].into_iter();
    let lottery: Vec<u32> = lottery.chain((1..=total).map(|place| place * 10_000 / total)).collect();
    let mut all = Vec::new();
    for exercised in 1..=total {
        for draw in 1..=total {
            all.extend([1, 2, 3, 25].map(|increment| Terms::new(b'W', exercised, draw).by(increment)));
        }
        all.extend(lottery.iter().map(|&draw| Terms::new(b'L', exercised, draw)));
        all.extend((0..=total).map(|draw| Terms::new(b'R', exercised, draw)));
    }
    all
}

// A list of `make::lists` is cut after the contracts that the bits of its index say: another one has parts in the place
// of some of its positions exactly where it has all these cuts.
#[test]
fn every_small_split() {
    let mut count = Count::new("sub-accounts, every small list");
    let (mut splits, mut pairs) = (0, 0);
    for total in 1..=7 {
        let lists = make::lists(total);
        for (turn, terms) in every_terms(total).into_iter().enumerate() {
            let answers: Vec<[Answer; 2]> = lists.iter().map(|list| answers(&mut count, terms, list)).collect();
            for after in 0..lists.len() {
                for before in (0..=after).filter(|before| before & after == *before) {
                    let split = Split::of(&lists[before].numbers, &lists[after].numbers);
                    keeps(terms, &split, &answers[before], &answers[after]);
                    splits += u32::from(turn == 0);
                    pairs += 1;
                }
            }
        }
    }
    count.print();
    println!("sub-accounts, every small list: {splits} splits, {pairs} pairs");
    assert_eq!(splits, (0..7).map(|cuts| 3u32.pow(cuts)).sum());
}

// The amounts of both lists, in the order of each.
#[track_caller]
fn by_hand(terms: Terms, before: (&[u32], &[u32]), after: (&[u32], &[u32])) {
    let (mut count, mut random) = (Count::new("sub-accounts, by hand"), Random::new(0x50BA_0006));
    let split = Split::of(before.0, after.0);
    let found = both(&mut count, &mut random, terms, &split);
    for (answers, amounts) in found.iter().zip([before.1, after.1]) {
        assert!(answers.iter().all(|answer| answer.0 == 0 && answer.3 == amounts), "{terms:?}: {answers:?}");
    }
    if terms.method != b'P' {
        let [before, after] = &found;
        keeps(terms, &split, before, after);
    }
}

#[test]
fn accounts_by_hand() {
    let wheel = (&[60, 200, 95][..], &[35, 97, 43][..]);
    let terms = Terms::new(b'W', 175, 1);
    by_hand(terms, wheel, (&[60, 120, 50, 30, 95], &[35, 65, 25, 7, 43]));
    by_hand(terms, wheel, (&[25, 25, 10, 200, 95], &[25, 0, 10, 97, 43]));
    by_hand(terms, wheel, (&[60, 200, 94, 1], &[35, 97, 43, 0]));
    let tens = (&[60, 200, 95][..], &[20, 37, 8][..]);
    by_hand(Terms::new(b'W', 65, 1).by(10), tens, (&[60, 150, 50, 95], &[20, 28, 9, 8]));
    let lottery = (&[5, 8, 2, 10, 11][..], &[0, 0, 0, 8, 5][..]);
    by_hand(Terms::new(b'L', 13, 4855), lottery, (&[5, 8, 2, 2, 1, 7, 11], &[0, 0, 0, 0, 1, 7, 5]));
    // From place 36 on, which is the last.
    let top = (&[5, 8, 2, 10, 11][..], &[1, 0, 0, 0, 1][..]);
    by_hand(Terms::new(b'R', 2, 35), top, (&[1, 4, 8, 2, 10, 10, 1], &[1, 0, 0, 0, 0, 0, 1]));
}

// The request's case: the position after the one that is split has 1, and then 0.
#[test]
fn pro_rata_by_hand() {
    by_hand(Terms::new(b'P', 2, 0), (&[2, 1, 1], &[1, 1, 0]), (&[1, 1, 1, 1], &[1, 1, 0, 0]));
}

#[test]
fn pro_rata_changes_others() {
    let size = Size {
        what: "sub-accounts, pro rata",
        seed: 0x50BA_0007,
        series: 20_000,
        positions: [12, 60],
        total: 400,
        chosen: one,
    };
    let mut random = Random::new(size.seed);
    let mut count = Count::new(size.what);
    let mut changed = 0;
    for _ in 0..size.series {
        let split = size.split(&mut random);
        let terms = terms(&mut random, b'P', split.total());
        let [before, after] = both(&mut count, &mut random, terms, &split);
        changed += u32::from(split.changes_others(&before[0].3, &after[0].3));
    }
    count.print();
    println!("sub-accounts, pro rata: another position's amount changes in {changed} of {} pairs", size.series);
    assert!(changed > 1_000);
}

// With one of the parts at the end of the list instead, others do change under W, L and R: the parts have to stand in the
// place of the one.
#[test]
fn parts_that_are_not_consecutive() {
    let mut random = Random::new(0x50BA_0008);
    let mut count = Count::new("sub-accounts, a part at the end");
    let (mut pairs, mut changed) = (0, [0; 3]);
    for _ in 0..5_000 {
        let before = make::series(&mut random, 5, 400, true).numbers;
        let at = random.index(4);
        let split = Split::made(&mut random, before, &[0, 1, 2, 3, 4].map(|i| i == at), 30);
        if split.after.len() == 5 {
            continue;
        }
        pairs += 1;
        let mut moved = split.clone();
        moved.after[at..].rotate_left(1);
        for (method, changed) in BY_PLACE.into_iter().zip(&mut changed) {
            let terms = terms(&mut random, method, 400);
            let [[before, _], [mut after, _]] = both(&mut count, &mut random, terms, &moved);
            // In the order of the parts again.
            after.3[at..].rotate_right(1);
            *changed += u32::from(split.changes_others(&before.3, &after.3));
        }
    }
    count.print();
    println!("sub-accounts, a part at the end: others change in {changed:?} of {pairs} pairs under W, L and R");
    assert!(changed.iter().all(|&times| times > 500));
}

// Terms of which about half are refused; with T above 1,000,000 some of them by 24.
fn any_terms(random: &mut Random, method: u8, total: u32) -> Terms {
    let many = total > 1_000_000;
    let increment = if many { 1 } else { random.pick(&[0, 1, 2, 25, 1_000, 1_001, u32::MAX]) };
    let any = random.between(1, total.into()) as u32;
    let exercised = random.pick(&[0, 1, any, any, total.min(1_000_001), total - 1, total, total + 1, u32::MAX]);
    Terms { method, exercised, draw: random.pick(&make::draws(total)), increment }
}

// The number by which both calls are refused, or 0 for neither. There is one exception: under L one position needs no
// draw, and where S is less than T its parts are refused by 10 for a draw out of range.
#[track_caller]
fn met_by_both(terms: Terms, split: &Split, [before, after]: &[[Answer; 2]; 2]) -> Option<u32> {
    let numbers = [before[0].0, after[0].0];
    let refused = terms.method == b'L' && terms.exercised > 0 && !(1..=10_000).contains(&terms.draw);
    if refused && split.asks_for_a_draw(terms) {
        assert_eq!(numbers, [0, 10], "{terms:?} {split:?}");
        return None;
    }
    assert_eq!(numbers[0], numbers[1], "{terms:?} {split:?}");
    if numbers[0] == 0 && terms.method != b'P' {
        keeps(terms, split, before, after);
    }
    Some(numbers[0])
}

#[test]
fn refusals_of_both_lists() {
    let mut random = Random::new(0x50BA_0009);
    let mut count = Count::new("sub-accounts, refusals");
    let (mut alike, mut asked) = ([0u32; LAST_REFUSAL + 1], 0);
    for case in 0..20_000 {
        let total = if case % 200 == 0 { 1_000_003 } else { random.between(1, 300) as u32 };
        let positions = random.between(1, 4).min(total.into()) as usize;
        let before = make::series(&mut random, positions, total.into(), true).numbers;
        let chosen = several(&mut random, positions);
        let split = Split::made(&mut random, before, &chosen, 40);
        for method in METHODS {
            let terms = any_terms(&mut random, method, total);
            let found = both(&mut count, &mut random, terms, &split);
            match met_by_both(terms, &split, &found) {
                Some(number) => alike[number as usize] += 1,
                None => asked += 1,
            }
        }
    }
    count.print();
    let met = [0, 8, 9, 10, 23, 24].map(|number| (number, alike[number]));
    println!("sub-accounts, refusals: both by number {met:?}; {asked} by 10 for the split list alone");
    assert!(met.iter().all(|of| of.1 > 10) && asked > 200);
    assert_eq!(met.iter().map(|of| of.1).sum::<u32>(), alike.iter().sum());
}

// One position and two in its place, where the draw is looked at or not.
#[test]
fn an_only_account() {
    let mut count = Count::new("sub-accounts, an only account");
    let [one, two] = [&[5][..], &[2, 3]].map(|shorts| Series::by_account(make::upward(shorts.len()), shorts.to_vec()));
    for (terms, before, after) in [
        (Terms::new(b'L', 2, 0), (0, 5, 0, vec![2]), (10, 7, 7, vec![7, 7])),
        (Terms::new(b'L', 2, 10_001), (0, 5, 0, vec![2]), (10, 7, 7, vec![7, 7])),
        (Terms::new(b'L', 2, 4_000), (0, 5, 0, vec![2]), (0, 5, 2, vec![1, 1])),
        (Terms::new(b'L', 5, 0), (0, 5, 0, vec![5]), (0, 5, 0, vec![2, 3])),
        (Terms::new(b'R', 2, 11), (0, 5, 0, vec![2]), (0, 5, 2, vec![1, 1])),
        (Terms::new(b'R', 5, 11), (0, 5, 0, vec![5]), (0, 5, 0, vec![2, 3])),
        (Terms::new(b'W', 2, 2), (0, 5, 1, vec![2]), (0, 5, 1, vec![1, 1])),
        (Terms::new(b'W', 2, 0), (10, 7, 7, vec![7]), (10, 7, 7, vec![7, 7])),
    ] {
        assert_eq!(answers(&mut count, terms, &one), [before.clone(), before], "{terms:?}");
        assert_eq!(answers(&mut count, terms, &two), [after.clone(), after], "{terms:?}");
    }
}
