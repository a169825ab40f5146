// Random series with fixed seeds, each under the four methods.

use compare::make::{self, Series};
use compare::random::Random;
use compare::{Count, Terms, FORMS};

struct Size {
    what: &'static str,
    seed: u64,
    series: u64,
    positions: u64,
    total: u64,
}

fn run(size: Size) {
    let mut random = Random::new(size.seed);
    let mut count = Count::new(size.what);
    for _ in 0..size.series {
        for make::Call { terms, list, room } in make::calls(&mut random, size.positions, size.total) {
            count.allocate(terms, list.list(), room);
        }
    }
    count.print();
    assert!(!count.undrawn().contains(&0));
    assert!(!count.met([1, 5, 6, 7, 19, 20, 23]).contains(&0));
}

#[test]
fn small() {
    run(Size { what: "random, small", seed: 0x5EED_0001, series: 60_000, positions: 12, total: 400 });
}

#[test]
fn medium() {
    run(Size { what: "random, medium", seed: 0x5EED_0002, series: 12_000, positions: 200, total: 20_000 });
}

#[test]
fn large() {
    run(Size { what: "random, large", seed: 0x5EED_0003, series: 1_500, positions: 4_096, total: 500_000 });
}

fn largest(what: &'static str, seed: u64) {
    let mut random = Random::new(seed);
    let mut count = Count::new(what);
    for _ in 0..150 {
        let positions = if random.one_in(6) { 1 } else { random.between(1, 4_096) as usize };
        let exact = random.one_in(2);
        let list = make::series(&mut random, positions, 10_000_000, exact);
        for method in make::METHODS {
            let terms = make::terms(&mut random, method, positions, list.total());
            let list = make::coded(&mut random, method, &list).in_form(random.pick(&FORMS));
            count.allocate(terms, list.list(), positions + 1);
        }
    }
    count.print();
    assert!(!count.undrawn().contains(&0));
    assert!(!count.met([23, 24]).contains(&0));
}

#[test]
fn largest_first_half() {
    largest("random, largest, first half", 0x5EED_0004);
}

#[test]
fn largest_second_half() {
    largest("random, largest, second half", 0x5EED_0014);
}

// T / T1 ends in an exact half of the sixth place: T1 = 128 j, T = j × an odd number.
#[test]
fn halves_of_the_skip_interval() {
    let mut random = Random::new(0x5EED_0005);
    let mut count = Count::new("random, halves");
    for _ in 0..400 {
        let j = random.between(1, 12);
        let odd = random.between(1_600, 4_000) * 2 + 1;
        let (blocks, total) = (128 * j, j * odd);
        assert_eq!(total * 1_000_000 % blocks * 2, blocks);
        let increment = if random.one_in(3) { 25 } else { random.between(1, total / blocks) };
        let exercised = increment * blocks - random.below(increment);
        let list = make::series(&mut random, 60, total, true);
        let list = make::coded(&mut random, b'W', &list);
        let terms = Terms::new(b'W', exercised as u32, random.between(1, total) as u32).by(increment as u32);
        assert_eq!(u64::from(terms.blocks()), blocks);
        count.allocate(terms, list.list(), 60);
    }
    count.print();
}

// Many equal positions, so that the draw decides round two.
#[test]
fn ties_in_round_two() {
    let mut random = Random::new(0x5EED_0006);
    let mut count = Count::new("random, ties");
    for _ in 0..6_000 {
        let positions = random.between(2, 90) as usize;
        let kinds = [random.between(1, 9) as u32, random.between(1, 200) as u32];
        let shorts: Vec<u32> = (0..positions).map(|_| random.pick(&kinds)).collect();
        let total: u32 = shorts.iter().sum();
        let exercised = random.between(1, u64::from(total)) as u32;
        let draw = match random.below(3) {
            0 => random.bits() as u32,
            1 => random.below(100) as u32,
            _ => u32::MAX - random.below(100) as u32,
        };
        let list = make::coded(&mut random, b'P', &Series::by_account(make::upward(positions), shorts));
        let terms = Terms::new(b'P', exercised, draw).by(make::increment(&mut random));
        count.allocate(terms, list.list(), positions);
    }
    count.print();
}

// S close to T: the skip interval is below a contract or zero, and the wheel nearly closes.
#[test]
fn nearly_the_whole_wheel() {
    let mut random = Random::new(0x5EED_0007);
    let mut count = Count::new("random, nearly whole");
    for _ in 0..4_000 {
        let total = random.between(2, 4_000);
        let positions = random.between(1, total.min(40)) as usize;
        let list = make::series(&mut random, positions, total, true);
        let exercised = (total - random.between(1, total.min(80) - 1)) as u32;
        let list = make::coded(&mut random, b'W', &list);
        let increment = if random.one_in(3) { 25 } else { random.spread(1_000) as u32 };
        let terms = Terms::new(b'W', exercised, random.between(1, total) as u32).by(increment);
        count.allocate(terms, list.list(), positions);
    }
    count.print();
}
