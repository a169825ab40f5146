use super::*;

const MOST: u32 = 10_000_000;
const DAYS: [u32; 8] = [0, 1, 2, 255, 256, 65_536, 1 << 31, u32::MAX];

// The circular's examples; X and Y with nothing exercised.
const X: Investor = [15, 0, 20, 0, 0, 10, 0];
const Y: Investor = [0, 20, 20, 0, 0, 0, 0];
const Z: MarketMaker = [0, 100, 100, 100];

fn exercising(mut counts: Investor, exercised: u32) -> Investor {
    counts[6] = exercised;
    counts
}

fn after(limit: u32, long: u32, short: u32) -> Result<AfterDay, u32> {
    Ok(AfterDay { limit, long, short })
}

#[test]
fn examples_on_an_ordinary_day() {
    assert_eq!(process_investor(0, X), after(35, 25, 0));
    assert_eq!(process_investor(0, exercising(X, 25)), after(35, 0, 0));
    assert_eq!(process_investor(0, exercising(X, 26)), after(35, 0, 1));
    assert_eq!(process_investor(0, exercising(X, 35)), after(35, 0, 10));
    assert_eq!(process_investor(0, exercising(X, 36)), Err(18));
    assert_eq!(process_investor(0, Y), after(20, 20, 20));
    assert_eq!(process_investor(0, exercising(Y, 20)), after(20, 0, 20));
    assert_eq!(process_investor(0, exercising(Y, 21)), Err(18));
    assert_eq!(process_market_maker(0, Z), Ok(100));
}

#[test]
fn examples_on_the_final_day() {
    for day in &DAYS[1..] {
        assert_eq!(process_investor(*day, X), after(25, 25, 0));
        assert_eq!(process_investor(*day, exercising(X, 25)), after(25, 0, 0));
        assert_eq!(process_investor(*day, exercising(X, 26)), Err(18));
        assert_eq!(process_investor(*day, Y), after(0, 0, 0));
        assert_eq!(process_investor(*day, exercising(Y, 1)), Err(18));
        assert_eq!(process_market_maker(*day, Z), Ok(0));
    }
}

#[test]
fn each_event() {
    assert_eq!(process_investor(0, [0; 7]), after(0, 0, 0));
    assert_eq!(process_investor(0, [9, 5, 7, 3, 8, 4, 6]), after(16, 6, 0));
    assert_eq!(process_investor(1, [9, 5, 7, 3, 8, 4, 6]), after(12, 6, 0));
    assert_eq!(process_investor(0, [1, 5, 2, 3, 7, 4, 2]), after(3, 0, 4));
    assert_eq!(process_investor(1, [1, 5, 2, 3, 7, 4, 0]), after(0, 0, 2));
    assert_eq!(process_market_maker(0, [9, 5, 7, 4]), Ok(16));
    assert_eq!(process_market_maker(1, [9, 5, 7, 4]), Ok(7));
    assert_eq!(process_market_maker(1, [9, 15, 7, 4]), Ok(0));
}

#[test]
fn refusals_in_order() {
    for day in DAYS {
        for at in 0..7 {
            for count in [MOST + 1, 1 << 31, u32::MAX] {
                // 17 and 18 apply too.
                let mut counts = [0, 0, 0, 0, 1, 0, MOST];
                counts[at] = count;
                assert_eq!(process_investor(day, counts), Err(16), "{day} {counts:?}");
            }
        }
        for at in 0..4 {
            for count in [MOST + 1, 1 << 31, u32::MAX] {
                let mut counts = [MOST; 4];
                counts[at] = count;
                assert_eq!(process_market_maker(day, counts), Err(16), "{day} {counts:?}");
            }
        }
        assert_eq!(process_investor(day, [0, 0, 0, 0, 1, 0, MOST]), Err(17));
        assert_eq!(process_investor(day, [0, 4, 0, 5, 10, 0, 0]), Err(17));
        assert_eq!(process_investor(day, [0, 4, 0, 5, 9, 0, 1]), Err(18));
        assert_eq!(process_investor(day, [0, 4, 0, 5, 9, 0, 0]), after(0, 0, 0));
        // Closing sales beyond the long count as opening ones, but not for 17.
        assert_eq!(process_investor(day, [0, 0, 0, 0, 1, 5, 0]), Err(17));
    }
    assert_eq!(process_investor(0, [MOST; 7]), after(2 * MOST, 0, MOST));
    assert_eq!(process_investor(1, [MOST; 7]), Err(18));
    assert_eq!(process_investor(1, exercising([MOST; 7], 0)), after(0, 0, 0));
    assert_eq!(process_market_maker(0, [MOST; 4]), Ok(2 * MOST));
    assert_eq!(process_market_maker(1, [MOST; 4]), Ok(0));
}

// The same one contract at a time.
fn stepped(day: u32, counts: Investor) -> Result<AfterDay, u32> {
    let [mut long, mut short, opening_purchases, opening_sales, closing_purchases, closing_sales, exercised] = counts;
    for _ in 0..opening_purchases {
        long += 1;
    }
    for _ in 0..opening_sales {
        short += 1;
    }
    for _ in 0..closing_purchases {
        short = short.checked_sub(1).ok_or(17u32)?;
    }
    let close = |long: &mut u32, short: &mut u32| {
        for _ in 0..closing_sales {
            match *long {
                0 => *short += 1,
                _ => *long -= 1,
            }
        }
    };
    if day != 0 {
        close(&mut long, &mut short);
        while long > 0 && short > 0 {
            long -= 1;
            short -= 1;
        }
    }
    let limit = long;
    for _ in 0..exercised {
        long = long.checked_sub(1).ok_or(18u32)?;
    }
    if day == 0 {
        close(&mut long, &mut short);
    }
    after(limit, long, short)
}

#[test]
fn one_contract_at_a_time() {
    for code in 0..3u32.pow(7) {
        let counts: Investor = std::array::from_fn(|at| code / 3u32.pow(at as u32) % 3);
        for day in [0, 1] {
            assert_eq!(process_investor(day, counts), stepped(day, counts), "{day} {counts:?}");
            let [long, short, opening_purchases, opening_sales, ..] = counts;
            let unmarked = process_market_maker(day, [long, short, opening_purchases, opening_sales]);
            let marked = stepped(day, [long, short, opening_purchases, opening_sales, 0, 0, 0]);
            assert_eq!(unmarked, marked.map(|after| after.limit), "{day} {counts:?}");
        }
    }
    for counts in [[MOST; 7], [MOST, 0, 1, MOST, 7, MOST, 99], [MOST - 1, MOST, MOST, 0, MOST, MOST - 3, 2]] {
        for day in [0, 1] {
            assert_eq!(process_investor(day, counts), stepped(day, counts), "{day} {counts:?}");
        }
    }
}
