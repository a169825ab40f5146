// Round two by its cut-off. The separate version's cut-off has to be where what remains of S runs out, and the
// library's amounts those of one walk by it. Shares and walk are written here once more, so the library is held against
// a second way beside the separate version's ranking.

use std::cmp::Ordering;
use std::collections::BTreeSet;

use compare::make::{self, Series};
use compare::random::Random;
use compare::{cases, Count, Terms};
use dilbreth::{Allocated, Form, Method};

const MOST: u64 = 10_000_000;
const POSITIONS: u64 = 4_096;

// S / T to 17 decimals, a digit at a time.
fn percentage(total: u64, exercised: u64) -> u128 {
    let mut left = exercised;
    let mut digits = u128::from(left / total);
    for _ in 0..17 {
        left = left % total * 10;
        digits = digits * 10 + u128::from(left / total);
    }
    digits
}

// The whole part of each position's share, and its decimal part in hundred-thousandths.
fn shares(list: &Series, exercised: u32) -> Vec<(u32, u32)> {
    let percentage = percentage(list.total(), u64::from(exercised));
    let share = |&short: &u32| {
        let carried = u128::from(short) * percentage / 1_000_000_000_000;
        ((carried / 100_000) as u32, (carried % 100_000) as u32)
    };
    list.numbers.iter().map(share).collect()
}

// A cut-off, how many positions have that decimal part (g), and how many of them can be served (m).
#[derive(Clone, Copy, Debug)]
struct CutOff {
    at: u32,
    equal: u32,
    served: u32,
}

// Counts over the list whether the separate version's cut-off is where the remainder runs out.
fn cut_off(list: &Series, exercised: u32, shares: &[(u32, u32)], remaining: u32) -> Result<Option<CutOff>, String> {
    let found = reference::cut_off(&list.numbers, exercised);
    let (mut larger, mut as_large) = (0, 0);
    for &(_, decimal) in shares {
        larger += u32::from(found.is_some_and(|at| decimal > at));
        as_large += u32::from(found.is_some_and(|at| decimal >= at));
    }
    match found {
        None if remaining == 0 => Ok(None),
        Some(at) if larger < remaining && remaining <= as_large => {
            Ok(Some(CutOff { at, equal: as_large - larger, served: remaining - larger }))
        }
        _ => Err(format!("cut-off {found:?} with {remaining} left: {larger} above it, {as_large} at it or above")),
    }
}

// One contract more above the cut-off, none below it, and at it to those whose turn is among the first m.
fn walk(shares: &[(u32, u32)], cut_off: Option<CutOff>, draw: u32) -> Vec<u32> {
    let Some(CutOff { at, equal, served }) = cut_off else { return shares.iter().map(|share| share.0).collect() };
    let first = draw % equal + 1;
    let mut number = 0;
    let mut more = |decimal: u32| match decimal.cmp(&at) {
        Ordering::Greater => true,
        Ordering::Less => false,
        Ordering::Equal => {
            number += 1;
            let turn = if number >= first { number - first } else { number + equal - first };
            turn < served
        }
    };
    shares.iter().map(|&(whole, decimal)| whole + u32::from(more(decimal))).collect()
}

// How round two ends: 0 no cut-off; 1 one position at it; 2 several at it, all of them served; 3 a tie, served upward;
// 4 a tie, served up to number g and on from number 1.
fn kind(cut_off: Option<CutOff>, draw: u32) -> usize {
    match cut_off {
        None => 0,
        Some(CutOff { equal: 1, .. }) => 1,
        Some(CutOff { equal, served, .. }) if served == equal => 2,
        Some(CutOff { equal, served, .. }) if draw % equal + served <= equal => 3,
        Some(_) => 4,
    }
}

// Counts the calls of a test, each kind for itself.
struct Cases {
    what: &'static str,
    count: Count,
    random: Random,
    series: u64,
    kinds: [u64; 5],
    lowest: u32,
    highest: u32,
}

impl Cases {
    fn new(what: &'static str, seed: u64) -> Cases {
        let random = Random::new(seed);
        Cases { what, count: Count::new(what), random, series: 0, kinds: [0; 5], lowest: u32::MAX, highest: 0 }
    }

    // Holds a series with the draws given, those at the ends and about g, and a random one; answers g and m.
    #[track_caller]
    fn series(&mut self, list: &Series, exercised: u32, draws: &[u32]) -> Option<(u32, u32)> {
        let list = &make::coded(&mut self.random, b'P', list);
        let shares = shares(list, exercised);
        let remaining = exercised - shares.iter().map(|share| share.0).sum::<u32>();
        let show = |draw: u32, shown: String| {
            let case = cases::allocate(Terms::new(b'P', exercised, draw), list.list(), list.accounts.len());
            format!("{case}\n  {shown}")
        };
        let cut_off = match cut_off(list, exercised, &shares, remaining) {
            Ok(found) => found,
            Err(shown) => panic!("{} is not where the remainder runs out:\n{}", self.what, show(0, shown)),
        };
        let equal = cut_off.map_or(0, |c| c.equal);
        let mut draws = draws.to_vec();
        draws.extend([0, 1, equal.saturating_sub(1), equal, u32::MAX, self.random.bits() as u32]);
        draws.sort();
        draws.dedup();
        for draw in draws {
            let expected = walk(&shares, cut_off, draw);
            let wanted = Ok(Allocated { total: list.total() as u32, further: remaining });
            let mut amounts = vec![u32::MAX; list.numbers.len()];
            let (Series { codes, accounts, numbers, .. }, out) = (list, &mut amounts);
            let (method, form, increment) = (Method::ProRata, Form::Shorts, make::increment(&mut self.random));
            let found = dilbreth::allocate(method, exercised, draw, increment, form, codes, accounts, numbers, out);
            let differs = expected.iter().zip(&amounts).position(|(a, b)| a != b);
            self.count.case(if found == wanted && differs.is_none() {
                let terms = Terms::new(b'P', exercised, draw);
                compare::allocate(terms, list.list(), list.accounts.len()).map(|number| number == 0)
            } else {
                let by = format!("by {cut_off:?}: expected {wanted:?}, found {found:?}; amounts differ at {differs:?}");
                Err(show(draw, by))
            });
            self.kinds[kind(cut_off, draw)] += 1;
        }
        self.series += 1;
        if let Some(c) = cut_off {
            self.lowest = self.lowest.min(c.at);
            self.highest = self.highest.max(c.at);
        }
        cut_off.map(|c| (c.equal, c.served))
    }

    // Prints the counts; `met` tells of each kind whether there has to be a case of it, or none.
    #[track_caller]
    fn end(self, met: [bool; 5]) {
        let Cases { what, series, kinds, lowest, highest, .. } = self;
        let [none, one, all, upward, round] = kinds;
        self.count.print();
        let (tie, without) = (upward + round, one + all);
        println!("{what}: {series} series; {tie} cases with a tie, {without} without, {none} with no cut-off");
        println!("{what}: {round} ties go on from number 1; {all} cases without have several at the cut-off");
        if highest > 0 {
            println!("{what}: cut-offs from {lowest} to {highest}");
        }
        assert_eq!(kinds.map(|cases| cases > 0), met, "kinds of cases met");
    }
}

fn list(shorts: Vec<u32>) -> Series {
    Series::by_account(make::upward(shorts.len()), shorts)
}

// Shorts that are each a multiple of d.
fn multiples(random: &mut Random, d: u64, positions: u64) -> Series {
    let most = MOST / d / positions;
    list((0..positions).map(|_| (d * random.between(1, most)) as u32).collect())
}

#[test]
fn every_small_series() {
    let mut cases = Cases::new("cut-off, small", 0xC0FF_0001);
    for total in 1..=7 {
        for list in make::lists(total) {
            for exercised in 1..=total {
                cases.series(&list, exercised, &[2, 3, 4, 5, 6, 7]);
            }
        }
    }
    assert_eq!(cases.series, 769);
    cases.end([true; 5]);
}

#[test]
fn all_sizes() {
    let mut cases = Cases::new("cut-off, all sizes", 0xC0FF_0003);
    for _ in 0..6_000 {
        let random = &mut cases.random;
        let positions = random.spread(POSITIONS);
        let most = positions.max(random.spread(MOST));
        let exact = random.one_in(3);
        let list = make::series(random, positions as usize, most, exact);
        let terms = make::terms(random, b'P', list.numbers.len(), list.total());
        cases.series(&list, terms.exercised.clamp(1, list.total() as u32), &[terms.draw]);
    }
    cases.end([true; 5]);
}

// S is n / d of T, or nearly so; a few different shorts, or any with T a multiple of d.
#[test]
fn heavy_ties() {
    let mut cases = Cases::new("cut-off, heavy ties", 0xC0FF_0005);
    for case in 0..3_000 {
        let random = &mut cases.random;
        let positions = random.spread(POSITIONS) as usize;
        let d = if case % 3 == 0 { 7 } else { random.between(2, 13) };
        let n = if case % 3 == 0 { 3 } else { random.between(1, d - 1) };
        let few = [(); 3].map(|_| random.spread(MOST / POSITIONS - d) as u32);
        let few = &few[..random.between(1, 3) as usize];
        let mut shorts: Vec<u32> = (0..positions).map(|_| random.pick(few)).collect();
        if case % 2 == 0 {
            shorts.fill_with(|| random.between(1, MOST / POSITIONS - d) as u32);
            let total: u64 = shorts.iter().map(|&short| u64::from(short)).sum();
            shorts[positions / 2] += (d - total % d) as u32;
        }
        let list = list(shorts);
        cases.series(&list, (list.total() * n / d).max(1) as u32, &[]);
    }
    cases.end([true; 5]);
}

// T near the most, cut at random places, and S no simple part of it: few positions share a decimal part.
#[test]
fn spread_decimal_parts() {
    let mut cases = Cases::new("cut-off, spread", 0xC0FF_0007);
    let mut all = [0; 2];
    for case in 0..1_500 {
        let random = &mut cases.random;
        let positions = if case % 3 == 0 { POSITIONS } else { random.between(2, POSITIONS) } as usize;
        let total = MOST - random.below(1_000);
        let mut ends = BTreeSet::from([total]);
        while ends.len() < positions {
            ends.insert(random.between(1, total - 1));
        }
        let mut before = 0;
        let list = list(ends.iter().map(|end| (end - std::mem::replace(&mut before, *end)) as u32).collect());
        let some = random.between(total / 10, total / 10 * 9);
        let exercised = random.pick(&[total * 3_123 / 7_919, some]) as u32;
        let different: BTreeSet<u32> = shares(&list, exercised).iter().map(|share| share.1).collect();
        all[0] += different.len();
        all[1] += positions;
        cases.series(&list, exercised, &[]);
    }
    let [different, positions] = all;
    println!("cut-off, spread: {different} different decimal parts of {positions} positions");
    assert!(different * 2 > positions);
    cases.end([false, true, true, true, true]);
}

// Whole shares: S is n / d of T with d a divisor of a power of ten, up to its 17th, and every short a multiple of d.
#[test]
fn nothing_remains() {
    let mut cases = Cases::new("cut-off, nothing remains", 0xC0FF_0009);
    for _ in 0..1_500 {
        let random = &mut cases.random;
        let d = random.pick(&[1, 2, 4, 5, 8, 10, 16, 25, 125, 1_000, 1 << 17]);
        let positions = random.spread(POSITIONS.min(MOST / d));
        let list = multiples(random, d, positions);
        let n = random.between(1, d);
        cases.series(&list, (list.total() / d * n) as u32, &[]);
    }
    cases.end([true, false, false, false, false]);
}

// Equal shorts, with one contract left, half of them, and all but one.
#[test]
fn all_positions_tied() {
    let mut cases = Cases::new("cut-off, all tied", 0xC0FF_000B);
    for positions in [2, 3, 4, 5, 9, 31, 64, 65, 128, 129, 1_000, 1_024, 1_025, 4_095, 4_096] {
        for short in [1, 2, 3, 25, 60, 2_000, MOST as u32 / positions] {
            let list = list(vec![short; positions as usize]);
            let draws = [positions / 2, positions + 1, 2 * positions];
            let mut lefts = vec![1, positions / 2, positions - 1];
            let mut wholes = vec![0, short / 2, short - 1];
            lefts.dedup();
            wholes.dedup();
            for &left in &lefts {
                for &whole in &wholes {
                    let at = cases.series(&list, whole * positions + left, &draws);
                    assert_eq!(at, Some((positions, left)));
                }
            }
        }
    }
    cases.end([false, false, false, true, true]);
}

// Whole shares again, but S / T has no end within 17 decimals: each is cut to one less and .99999, and all are served.
#[test]
fn all_positions_served() {
    let mut cases = Cases::new("cut-off, all served", 0xC0FF_000D);
    for _ in 0..600 {
        let random = &mut cases.random;
        let (n, d) = random.pick(&[(1, 3), (2, 3), (3, 7), (4, 9), (5, 11), (1, 1 << 18), (77, 1 << 18)]);
        let positions = random.between(2, POSITIONS.min(MOST / d));
        let list = multiples(random, d, positions);
        let at = cases.series(&list, (list.total() / d * n) as u32, &[]);
        assert_eq!(at, Some((positions as u32, positions as u32)));
    }
    cases.end([false, false, true, false, false]);
}

#[test]
fn one_position() {
    let mut cases = Cases::new("cut-off, one position", 0xC0FF_000F);
    for short in 1..=150 {
        for exercised in 1..=short {
            cases.series(&list(vec![short]), exercised, &[]);
        }
    }
    for _ in 0..3_000 {
        let random = &mut cases.random;
        let short = random.spread(MOST) as u32;
        let exercised = random.between(1, u64::from(short)) as u32;
        cases.series(&Series::by_account(vec![u32::MAX], vec![short]), exercised, &[]);
    }
    cases.end([true, true, false, false, false]);
}

#[test]
fn the_largest() {
    let mut cases = Cases::new("cut-off, largest", 0xC0FF_0011);
    for _ in 0..120 {
        let random = &mut cases.random;
        let list = make::series(random, POSITIONS as usize, MOST, true);
        assert_eq!(list.total(), MOST);
        let some = random.between(1, MOST);
        for exercised in [1, 4_095, 4_097, MOST * 3 / 7, MOST * 3_123 / 7_919, MOST / 2, some, MOST - 1, MOST] {
            cases.series(&list, exercised as u32, &[]);
        }
    }
    cases.end([true; 5]);
}
