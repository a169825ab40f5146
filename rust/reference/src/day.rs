//! The day's activity before assignment, in the sequence of the circular: contracts come and go in lots, and a refusal
//! is met where an event finds none left.

use crate::MOST_CONTRACTS;

/// Opening long and short, opening purchases and sales, closing purchases and sales, exercised.
pub type Investor = [u32; 7];

/// Opening long and short, purchases and sales.
pub type MarketMaker = [u32; 4];

#[derive(Clone, Copy, Debug, PartialEq, Eq)]
pub struct AfterDay {
    pub limit: u32,
    pub long: u32,
    pub short: u32,
}

/// The contracts of one side, in the lots in which they came.
struct Lots(Vec<u32>);

impl Lots {
    fn of(opening: u32) -> Lots {
        let mut lots = Lots(Vec::new());
        lots.put(opening);
        lots
    }

    fn put(&mut self, contracts: u32) {
        if contracts > 0 {
            self.0.push(contracts);
        }
    }

    /// Takes contracts off, lot by lot; answers how many were not there.
    fn take(&mut self, contracts: u32) -> u32 {
        let mut left = contracts;
        while let Some(lot) = self.0.pop() {
            if lot > left {
                self.0.push(lot - left);
                return 0;
            }
            left -= lot;
        }
        left
    }

    fn count(&self) -> u32 {
        self.0.iter().sum()
    }
}

/// Sets long against short until one of them has no lot left.
fn net(long: &mut Lots, short: &mut Lots) {
    while let Some(lot) = long.0.pop() {
        let beyond = short.take(lot);
        if beyond > 0 {
            long.put(beyond);
            return;
        }
    }
}

enum Event {
    OpeningPurchases,
    OpeningSales,
    ClosingPurchases,
    ClosingSales,
    Netting,
    Exercises,
}

use Event::*;

const ORDINARY: &[Event] = &[OpeningPurchases, OpeningSales, ClosingPurchases, Exercises, ClosingSales];
const FINAL: &[Event] = &[OpeningPurchases, OpeningSales, ClosingPurchases, ClosingSales, Netting, Exercises];

fn judge_counts(counts: &[u32]) -> Result<(), u32> {
    if counts.iter().all(|&count| u64::from(count) <= MOST_CONTRACTS) {
        Ok(())
    } else {
        Err(16)
    }
}

/// The investor's call; any day but 0 is the final trading day.
pub fn process_investor(day: u32, counts: Investor) -> Result<AfterDay, u32> {
    judge_counts(&counts)?;
    let [opening_long, opening_short, opening_purchases, opening_sales, closing_purchases, closing_sales, exercised] =
        counts;
    let (mut long, mut short) = (Lots::of(opening_long), Lots::of(opening_short));
    let mut limit = 0;
    for event in if day == 0 { ORDINARY } else { FINAL } {
        match event {
            OpeningPurchases => long.put(opening_purchases),
            OpeningSales => short.put(opening_sales),
            ClosingPurchases => {
                if short.take(closing_purchases) > 0 {
                    return Err(17);
                }
            }
            ClosingSales => {
                let beyond = long.take(closing_sales);
                short.put(beyond);
            }
            Netting => net(&mut long, &mut short),
            Exercises => {
                limit = long.count();
                if long.take(exercised) > 0 {
                    return Err(18);
                }
            }
        }
    }
    Ok(AfterDay { limit, long: long.count(), short: short.count() })
}

/// The market-maker's call: the limit.
pub fn process_market_maker(day: u32, counts: MarketMaker) -> Result<u32, u32> {
    judge_counts(&counts)?;
    let [opening_long, opening_short, purchases, sales] = counts;
    let (mut long, mut short) = (Lots::of(opening_long), Lots::of(opening_short));
    long.put(purchases);
    if day != 0 {
        short.put(sales);
        net(&mut long, &mut short);
    }
    Ok(long.count())
}

#[cfg(test)]
mod tests;
