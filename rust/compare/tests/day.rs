// The day's activity before assignment: every small day, the limits, random days. An accepted day is also held to the
// laws in src/lib.rs.

use compare::random::Random;
use compare::{days, Count};
use reference::day::{Investor, MarketMaker};

const MOST: u32 = 10_000_000;
const ORDINARY: u32 = 0;
const FINAL: u32 = 1;
const DAYS: [u32; 8] = [ORDINARY, FINAL, 2, 255, 256, 65_536, 1 << 31, u32::MAX];
const TOO_LARGE: [u32; 3] = [MOST + 1, 1 << 31, u32::MAX];

// Counts the days, and those of each answer: 0, 16, 17, 18.
struct Days {
    what: &'static str,
    count: Count,
    answers: [u64; 4],
}

impl Days {
    fn new(what: &'static str) -> Days {
        Days { what, count: Count::new(what), answers: [0; 4] }
    }

    #[track_caller]
    fn answered(&mut self, answer: Result<u32, String>) -> u32 {
        let number = *answer.as_ref().unwrap_or(&0);
        self.count.case(answer.map(|number| number == 0));
        self.answers[number.saturating_sub(15) as usize] += 1;
        number
    }

    #[track_caller]
    fn investor(&mut self, day: u32, counts: Investor) -> u32 {
        self.answered(compare::process_investor(day, counts))
    }

    #[track_caller]
    fn market_maker(&mut self, day: u32, counts: MarketMaker) -> u32 {
        self.answered(compare::process_market_maker(day, counts))
    }

    fn print(&self) {
        self.count.print();
        let [_, sixteen, seventeen, eighteen] = self.answers;
        println!("{}: {sixteen} refused with 16, {seventeen} with 17, {eighteen} with 18", self.what);
    }
}

// Every list of so many of the numbers.
fn each<const N: usize>(numbers: &[u32], mut see: impl FnMut([u32; N])) {
    for code in 0..numbers.len().pow(N as u32) {
        see(std::array::from_fn(|at| numbers[code / numbers.len().pow(at as u32) % numbers.len()]));
    }
}

#[test]
fn every_small_investor() {
    let mut days = Days::new("day, small investors");
    each(&[0, 1, 2, 3], |counts| {
        days.investor(ORDINARY, counts);
        days.investor(FINAL, counts);
    });
    days.print();
    assert_eq!(days.count.cases(), 2 * 4u64.pow(7));
    // 17 is met by 10 of 64 triples of short, opening sales and closing purchases.
    let [accepted, sixteen, seventeen, eighteen] = days.answers;
    assert_eq!((sixteen, seventeen), (0, 2 * 4u64.pow(4) * 10));
    assert!(accepted > 0 && eighteen > 0);
}

#[test]
fn every_small_market_maker() {
    let mut days = Days::new("day, small market-makers");
    each(&[0, 1, 2, 3], |counts| {
        days.market_maker(ORDINARY, counts);
        days.market_maker(FINAL, counts);
    });
    days.print();
    assert_eq!(days.answers, [2 * 4u64.pow(4), 0, 0, 0]);
}

#[test]
fn every_investor_at_the_limits() {
    let mut days = Days::new("day, investors at the limits");
    each(&[0, 1, MOST - 1, MOST, MOST + 1], |counts| {
        days.investor(ORDINARY, counts);
        days.investor(FINAL, counts);
    });
    days.print();
    assert!(!days.answers.contains(&0));
}

#[test]
fn every_market_maker_at_the_limits() {
    let mut days = Days::new("day, market-makers at the limits");
    each(&[0, 1, MOST - 1, MOST, MOST + 1, u32::MAX], |counts| {
        days.market_maker(ORDINARY, counts);
        days.market_maker(FINAL, counts);
    });
    days.print();
    let [accepted, sixteen, others @ ..] = days.answers;
    assert!(accepted > 0 && sixteen > 0 && others == [0, 0]);
}

#[test]
fn one_count_too_large() {
    let mut days = Days::new("day, one count too large");
    for day in DAYS {
        assert_eq!(days.investor(day, [MOST; 7]), if day == ORDINARY { 0 } else { 18 });
        assert_eq!(days.market_maker(day, [MOST; 4]), 0);
        for others in [0, 1, MOST] {
            for count in TOO_LARGE {
                for at in 0..7 {
                    let mut counts = [others; 7];
                    counts[at] = count;
                    assert_eq!(days.investor(day, counts), 16, "{day} {counts:?}");
                }
                for at in 0..4 {
                    let mut counts = [others; 4];
                    counts[at] = count;
                    assert_eq!(days.market_maker(day, counts), 16, "{day} {counts:?}");
                }
            }
        }
    }
    days.print();
}

// The circular's examples, with everything from nothing to one more than the limit exercised.
#[test]
fn every_number_of_a_day() {
    let mut days = Days::new("day, numbers of days");
    for day in DAYS {
        let (x, y) = if day == ORDINARY { (35, 20) } else { (25, 0) };
        for exercised in 0..=36 {
            let answer = |limit| if exercised <= limit { 0 } else { 18 };
            assert_eq!(days.investor(day, [15, 0, 20, 0, 0, 10, exercised]), answer(x), "{day}");
            assert_eq!(days.investor(day, [0, 20, 20, 0, 0, 0, exercised]), answer(y), "{day}");
        }
        assert_eq!(days.market_maker(day, [0, 100, 100, 100]), 0);
        assert_eq!(days.investor(day, [15, 3, 20, 2, 6, 10, 36]), 17);
    }
    days.print();
}

#[test]
fn random_investors() {
    let mut random = Random::new(0xDA7E_0001);
    let mut days = Days::new("day, random investors");
    for case in 0..150_000 {
        let day = if case % 2 == 0 { ORDINARY } else { random.pick(&DAYS[1..]) };
        days.investor(day, days::investor(&mut random, day));
    }
    days.print();
    assert!(days.answers.iter().all(|&times| times > 10_000));
}

#[test]
fn random_market_makers() {
    let mut random = Random::new(0xDA7E_0002);
    let mut days = Days::new("day, random market-makers");
    for case in 0..50_000 {
        let day = if case % 2 == 0 { ORDINARY } else { random.pick(&DAYS[1..]) };
        days.market_maker(day, days::market_maker(&mut random));
    }
    days.print();
    let [accepted, sixteen, others @ ..] = days.answers;
    assert!(accepted > 5_000 && sixteen > 5_000 && others == [0, 0]);
}
