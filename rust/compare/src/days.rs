//! Makes the counts of days.

use reference::day::{self, Investor, MarketMaker};

use crate::random::Random;

const MOST: u64 = reference::MOST_CONTRACTS;

/// A count near 0, near the limit or anywhere between.
fn count(random: &mut Random) -> u32 {
    let n = match random.below(6) {
        0 | 1 => random.below(4),
        2 => MOST - random.below(4),
        3 => random.between(0, MOST),
        _ => random.spread(MOST),
    };
    n as u32
}

/// A count just past the limit, near the largest number or anywhere between.
fn too_large(random: &mut Random) -> u32 {
    let most = u64::from(u32::MAX);
    let n = match random.below(3) {
        0 => MOST + 1 + random.below(3),
        1 => most - random.below(4),
        _ => random.between(MOST + 1, most),
    };
    n as u32
}

/// Makes a count the number, one less or one more, where a count can be that.
fn bring_near(random: &mut Random, count: &mut u32, number: i64) {
    let near = number - 1 + random.below(3) as i64;
    if (0..=MOST as i64).contains(&near) {
        *count = near as u32;
    }
}

/// One or two counts past the limit, at times.
fn spoil(random: &mut Random, counts: &mut [u32]) {
    if random.one_in(8) {
        for _ in 0..random.between(1, 2) {
            counts[random.index(counts.len())] = too_large(random);
        }
    }
}

/// An investor's day; many nearly meet 17 or 18, or have trades that nearly cancel out.
pub fn investor(random: &mut Random, day: u32) -> Investor {
    let mut counts: Investor = std::array::from_fn(|_| count(random));
    let [long, short, opening_purchases, opening_sales, ..] = counts.map(i64::from);
    if random.one_in(2) {
        bring_near(random, &mut counts[4], short + opening_sales);
    }
    if random.one_in(3) {
        let purchases = opening_purchases + i64::from(counts[4]);
        bring_near(random, &mut counts[5], long + purchases - short - opening_sales);
    }
    counts[6] = 0;
    if let (Ok(after), true) = (day::process_investor(day, counts), random.one_in(2)) {
        bring_near(random, &mut counts[6], i64::from(after.limit));
    } else {
        counts[6] = count(random);
    }
    if day == 0 && random.one_in(3) {
        let remaining = long + opening_purchases - i64::from(counts[6]);
        bring_near(random, &mut counts[5], remaining);
    }
    spoil(random, &mut counts);
    counts
}

/// A market-maker's day; in many the trades nearly cancel out.
pub fn market_maker(random: &mut Random) -> MarketMaker {
    let mut counts: MarketMaker = std::array::from_fn(|_| count(random));
    let [long, short, purchases, _] = counts.map(i64::from);
    if random.one_in(2) {
        bring_near(random, &mut counts[3], long + purchases - short);
    }
    spoil(random, &mut counts);
    counts
}
