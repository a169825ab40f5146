// Over all starting places a position gets its shorts × S, by the library's own amounts.

use compare::random::Random;
use compare::{make, Terms, FORMS};

#[test]
fn every_starting_place() {
    let mut random = Random::new(0x5A4E_0001);
    let (mut series, mut started) = (0, [0; 3]);
    for most in [5, 30, 60, 300, 3_000] {
        for _ in 0..30 {
            let positions = random.between(1, 12.min(most)) as usize;
            let list = make::series(&mut random, positions, most, true);
            let exercised = random.between(1, most) as u32;
            let increment = if random.one_in(3) { 25 } else { random.spread(1_000) as u32 };
            for (by, method) in b"WLR".iter().copied().enumerate() {
                let list = make::coded(&mut random, method, &list).in_form(random.pick(&FORMS));
                for exercised in [exercised, most as u32 - 1, most as u32] {
                    let terms = Terms::new(method, exercised, 0).by(increment);
                    started[by] += u32::from(compare::shares(terms, &list));
                    series += 1;
                }
            }
        }
    }
    let [_, lottery, remainder] = started;
    println!(
        "shares: {series} series, each from every starting place; {lottery} under L, {remainder} under R hand it back"
    );
    assert!(lottery > 0 && remainder > 0);
}
