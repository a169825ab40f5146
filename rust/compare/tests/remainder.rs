// The remainder draw: its places and draws, its amounts beside those of L, and the ranges that are printed, by the
// library's own answers.

use compare::library::respond;
use compare::make::{self, Series};
use compare::program::{Feed, Program};
use compare::random::Random;
use compare::{library_form, Count, List, Terms, DEFAULT_INCREMENT, FORMS};
use dilbreth::{Allocated, Method};

const MOST: u32 = 10_000_000;
const R: Method = Method::RemainderDraw;
const NAMES: &str = "account,first,last,first2,last2\n";

// The starting place that the library hands back, and its amounts.
#[track_caller]
fn started(method: Method, list: &Series, exercised: u32, draw: u32) -> (u32, Vec<u32>) {
    let mut amounts = vec![u32::MAX; list.numbers.len()];
    let Series { form, codes, accounts, numbers } = list;
    let (form, increment, out) = (library_form(*form), DEFAULT_INCREMENT, &mut amounts);
    let answer = dilbreth::allocate(method, exercised, draw, increment, form, codes, accounts, numbers, out);
    let Allocated { total, further } = answer.expect("an allocation");
    assert_eq!(u64::from(total), list.total());
    (further, amounts)
}

// The remainder by taking T away, from large multiples of it down.
fn remainder(draw: u32, total: u32) -> u32 {
    let mut left = u64::from(draw);
    for doubled in (0..32).rev() {
        let multiple = u64::from(total) << doubled;
        if left >= multiple {
            left -= multiple;
        }
    }
    left as u32
}

// Lists of at least two positions with T up to `most`, and S below T.
fn drawn_lists(random: &mut Random, count: usize, most: u64) -> Vec<(Series, u32)> {
    let mut list = || {
        let total = random.between(2, most);
        let positions = random.between(2, total.min(40));
        let list = make::series(random, positions as usize, total, true);
        (list, random.between(1, total - 1) as u32)
    };
    (0..count).map(|_| list()).collect()
}

#[test]
fn every_place_is_reached() {
    let mut random = Random::new(0x4E3A_0001);
    let mut places = 0u64;
    for (list, exercised) in drawn_lists(&mut random, 200, 3_000) {
        let total = list.total() as u32;
        let found: Vec<u32> = (0..total).map(|draw| started(R, &list, exercised, draw).0).collect();
        assert_eq!(found, (1..=total).collect::<Vec<_>>());
        places += u64::from(total);
    }
    println!("remainder draw: {places} places reached by the draws from 0 to T - 1");
}

// A draw, the draw plus T, and others as many times T apart, the highest that 32 bits have among them.
#[test]
fn draws_that_are_a_multiple_of_t_apart() {
    let mut random = Random::new(0x4E3A_0002);
    for (list, exercised) in drawn_lists(&mut random, 300, 20_000) {
        let total = list.total() as u32;
        for draw in [0, 1, total / 2, total - 1, random.below(u64::from(total)) as u32] {
            let expected = started(R, &list, exercised, draw);
            assert_eq!(expected.0, draw + 1);
            let times = (u32::MAX - draw) / total;
            for times in [1, 2, times / 2, times - 1, times, random.between(1, u64::from(times)) as u32] {
                assert_eq!(started(R, &list, exercised, draw + times * total), expected, "{draw} + {times} x {total}");
            }
        }
    }
}

#[test]
fn draws_at_the_ends() {
    let mut count = Count::new("remainder draw, draws at the ends");
    let powers = (1..=23).map(|bits| 1 << bits);
    let totals = (2..=70).chain(powers).chain([9_999, 10_000, 10_001, 65_537, MOST - 1, MOST]);
    for total in totals {
        for shorts in [vec![1, total - 1], vec![total - 1, 1], vec![total / 2, total - total / 2]] {
            let list = Series::by_account(vec![7, 9], shorts);
            let near = [0, 1, total - 1, total, total + 1, 2 * total - 1, 2 * total, 10_000, 10_001, 1 << 31];
            let highest = u32::MAX / total * total;
            for draw in near.into_iter().chain([highest - 1, highest, u32::MAX - 1, u32::MAX]) {
                for exercised in [1, total - 1] {
                    // The separate version steps through many contracts only where few are exercised.
                    if total < 100_000 || exercised == 1 {
                        assert_eq!(count.allocate(Terms::new(b'R', exercised, draw), list.list(), 2), 0);
                    }
                    assert_eq!(started(R, &list, exercised, draw).0, remainder(draw, total) + 1, "{draw} {total}");
                }
            }
        }
    }
    count.print();
}

// From each place, where a draw of L leads to it.
#[test]
fn l_and_r_from_equal_places() {
    let mut random = Random::new(0x4E3A_0003);
    let mut places = [0; 2];
    for (list, exercised) in drawn_lists(&mut random, 60, 10_000) {
        let total = list.total() as u32;
        for place in 1..=total {
            let found = started(R, &list, exercised, place - 1);
            assert_eq!(found.0, place);
            assert_eq!(started(Method::Lottery, &list, exercised, place * 10_000 / total), found, "{place} of {total}");
            places[0] += 1;
        }
    }
    for total in [10_001, 20_000, 123_457, 1_000_000, 9_999_999, 10_000_000] {
        for positions in [2, 3, 100, 4_096] {
            let list = make::series(&mut random, positions, total, true);
            let some: Vec<u32> = (0..20).map(|_| random.between(1, 10_000) as u32).collect();
            for draw in [1, 2, 5_000, 9_999, 10_000].into_iter().chain(some) {
                let exercised = random.between(1, total - 1) as u32;
                let found = started(Method::Lottery, &list, exercised, draw);
                assert_eq!(started(R, &list, exercised, found.0 - 1), found, "{draw} of {total}");
                places[1] += 1;
            }
        }
    }
    let [all, some] = places;
    println!("L and R: {all} places, every one of a series, and {some} of series above 10,000");
}

#[test]
fn shares_over_all_places() {
    let mut series = 0;
    let mut share = |list: &Series, exercised: u32| {
        let total = list.total() as u32;
        let mut sums = vec![0u64; list.numbers.len()];
        for draw in 0..total {
            let amounts = started(R, list, exercised, draw).1;
            for ((sum, &amount), &short) in sums.iter_mut().zip(&amounts).zip(&list.numbers) {
                assert!(amount <= short);
                *sum += u64::from(amount);
            }
        }
        for (&sum, &short) in sums.iter().zip(&list.numbers) {
            assert_eq!(sum, u64::from(short) * u64::from(exercised), "{list:?} S {exercised}");
        }
        series += 1;
    };
    for total in 1..=9 {
        for list in make::lists(total) {
            for exercised in 1..=total {
                share(&list, exercised);
            }
        }
    }
    for (list, exercised) in drawn_lists(&mut Random::new(0x4E3A_0004), 60, 4_000) {
        share(&list, exercised);
    }
    println!("remainder draw: shares of {series} series");
}

// A series is refused as under L with a good draw, whatever the draw of R.
#[test]
fn refusals_are_those_of_l_without_10() {
    let mut random = Random::new(0x4E3A_0005);
    let mut count = Count::new("remainder draw, refusals of L");
    for _ in 0..15_000 {
        for make::Call { terms, list, room } in make::calls(&mut random, 12, 400) {
            if terms.method == b'R' {
                let other = random.bits() as u32;
                let of_l = count.allocate(Terms { method: b'L', draw: 1, ..terms }, list.list(), room);
                for draw in [terms.draw, 0, 10_001, u32::MAX, other] {
                    assert_eq!(count.allocate(Terms { draw, ..terms }, list.list(), room), of_l);
                }
            }
        }
    }
    count.print();
    assert!(!count.met([0, 1, 4, 5, 6, 7, 8, 9, 20]).contains(&0));
    assert_eq!(count.met([10, 14, 19, 23]), [0; 4]);
}

#[test]
fn no_draw_of_an_accepted_series_is_refused() {
    let list = Series::by_account(vec![3, 5, 8], vec![40, 2, 31]);
    let mut draws = 0;
    let mut found = |draw: u32| {
        let place = remainder(draw, 73) + 1;
        assert_eq!(started(R, &list, 9, draw).0, place, "{draw}");
        draws += 1;
    };
    (0..=30_000).for_each(&mut found);
    (u32::MAX - 30_000..=u32::MAX).for_each(&mut found);
    (0..1 << 16).for_each(|i| found(i * 65_537));
    println!("remainder draw: {draws} draws of one series");
}

#[test]
fn whole_series_and_one_position_have_no_place() {
    let mut random = Random::new(0x4E3A_0006);
    let mut count = Count::new("remainder draw, no place");
    for positions in [1, 1, 1, 2, 3, 40, 1_024, 4_096] {
        for most in [positions, 5 * positions, 10_000_000] {
            let list = make::series(&mut random, positions as usize, most, true);
            let total = list.total() as u32;
            for exercised in [1, total / 2 + 1, total - 1, total].into_iter().filter(|&s| s > 0) {
                for draw in make::draws(total).into_iter().chain([total - 1, total * 2, random.bits() as u32]) {
                    let (place, amounts) = started(R, &list, exercised, draw);
                    let without = exercised == total || positions == 1;
                    assert_eq!(place, if without { 0 } else { remainder(draw, total) + 1 });
                    if exercised == total {
                        assert_eq!(amounts, list.numbers);
                    } else if positions == 1 {
                        assert_eq!(amounts, [exercised]);
                    }
                    if without {
                        let terms = Terms::new(b'R', exercised, draw);
                        assert_eq!(count.allocate(terms, list.list(), positions as usize), 0);
                    }
                }
            }
        }
    }
    count.print();
}

fn text_of(list: &Series, exercised: u32, draw: u32) -> Vec<u8> {
    reference::write(Terms::new(b'R', exercised, draw), list.list(), usize::MAX).expect("a text")
}

// The rows of a table after its names line; each number has no zero in front.
fn rows<const N: usize>(table: &str, names: &str) -> Vec<[u32; N]> {
    let lines = table.strip_prefix(names).unwrap_or_else(|| panic!("no {names:?}: {table:?}")).split_terminator('\n');
    let row = |line: &str| {
        let numbers: Vec<u32> = line.split(',').map(|number| number.parse().expect("a number")).collect();
        assert_eq!(numbers.iter().map(u32::to_string).collect::<Vec<_>>().join(","), line);
        numbers.try_into().unwrap_or_else(|_| panic!("{line}"))
    };
    lines.map(row).collect()
}

// How many of the contracts from `from` up to before `to` are in a range.
fn common(from: u32, to: u32, first: u32, last: u32) -> u32 {
    (to.min(last + 1)).saturating_sub(from.max(first))
}

// Holds what is printed for a series under R, in both forms, against its list and the allocating call; answers the
// ranges.
#[track_caller]
fn ranges(list: &Series, exercised: u32, draw: u32) -> Vec<[u32; 5]> {
    let [printed, by_last] = FORMS.map(|form| respond(&text_of(&list.in_form(form), exercised, draw)));
    assert_eq!(printed, by_last);
    assert!(printed.ends_with('\n'));
    let (assigned, table) = printed.split_at(printed.find(NAMES).expect("ranges"));
    let total = list.total() as u32;
    let (place, amounts) = started(R, list, exercised, draw);
    let expected: Vec<[u32; 2]> =
        list.accounts.iter().zip(&amounts).map(|(&account, &amount)| [account, amount]).collect();
    assert_eq!(rows(assigned, "account,assigned\n"), expected);
    let ranges: Vec<[u32; 5]> = rows(table, NAMES);
    assert_eq!(ranges.iter().map(|row| row[0]).collect::<Vec<_>>(), list.accounts);
    let mut before = [0, total];
    for (&[_, first, last, first2, last2], (&short, &amount)) in ranges.iter().zip(list.numbers.iter().zip(&amounts)) {
        assert_eq!([first, first2], before.map(|number| number + 1), "begins after the one before");
        assert_eq!([last - first, last2 - first2], [short - 1; 2], "has as many contracts as are short");
        if place > 0 {
            let to = place + exercised;
            let taken = common(place, to, first, last) + common(place, to, first2, last2);
            assert_eq!(amount, taken, "what is taken of both ranges from the place on");
        }
        before = [last, last2];
    }
    assert_eq!(before, [total, 2 * total]);
    ranges
}

#[test]
fn each_place_is_in_one_first_range() {
    let mut random = Random::new(0x4E3A_0007);
    let mut series = 0;
    let mut small: Vec<(Series, u32)> = (1..=7).flat_map(make::lists).map(|list| (list, 1)).collect();
    small.extend(drawn_lists(&mut random, 300, 2_000));
    for (list, exercised) in small {
        let total = list.total() as u32;
        for (exercised, draw) in [(exercised, 0), (exercised, random.bits() as u32), (total, 5), (1, total)] {
            let mut owners = vec![0; 2 * total as usize];
            for [account, first, last, first2, last2] in ranges(&list, exercised, draw) {
                assert!(first >= 1 && last <= total && first2 > total && last2 <= 2 * total);
                for place in (first..=last).chain(first2..=last2) {
                    assert_eq!(owners[place as usize - 1], 0, "{place} is in two ranges");
                    owners[place as usize - 1] = account;
                }
            }
            let (once, again) = owners.split_at(total as usize);
            assert!(!once.contains(&0) && once == again);
            series += 1;
        }
    }
    println!("ranges: {series} series, each place of them in one first range");
}

#[test]
fn ranges_of_the_exhibit() {
    let list = Series::by_account(make::upward(10), vec![1, 50, 100, 2, 1, 1, 1_000, 1, 10, 20]);
    let found = ranges(&list, 50, 395);
    assert_eq!(found[6], [7, 156, 1_155, 1_342, 2_341]);
    assert_eq!((found[0], found[9]), ([1, 1, 1, 1_187, 1_187], [10, 1_167, 1_186, 2_353, 2_372]));
    assert_eq!(started(R, &list, 50, 395), (396, vec![0, 0, 0, 0, 0, 0, 50, 0, 0, 0]));
    let text = text_of(&list, 50, 395);
    assert_eq!(text, include_bytes!("../../../examples/remainder-draw.txt"));
    assert_eq!(respond(&text), include_str!("../../../examples/remainder-draw.out"));
}

// Ends of one to eight digits, on both sides of each power of ten.
#[test]
fn ranges_up_to_20_000_000() {
    let mut random = Random::new(0x4E3A_0008);
    let mut digits = [0; 9];
    let mut lists = vec![];
    for power in (1..=7).map(|digits| 10u32.pow(digits)) {
        for total in [power - 1, power, power + 1, 5 * power - 1, 5 * power, 5 * power + 1].map(|total| total.min(MOST))
        {
            lists.push(Series::by_account(vec![u32::MAX], vec![total]));
            lists.push(Series::by_account(vec![1, u32::MAX], vec![1, total - 1]));
            lists.push(Series::by_account(vec![1, u32::MAX], vec![total - 1, 1]));
            lists.push(make::series(&mut random, total.min(1_024) as usize, u64::from(total), true));
        }
    }
    for list in lists {
        let total = list.total() as u32;
        for (exercised, draw) in [(1, u32::MAX), (total, 0)] {
            for row in ranges(&list, exercised, draw) {
                row[1..].iter().for_each(|end| digits[end.to_string().len()] += 1);
            }
        }
    }
    println!("ranges: ends by their digits {:?}", &digits[1..]);
    assert!(!digits[1..].contains(&0));
}

// Outputs from none at all to some bytes more than are printed: a byte too few is 4, and every byte is kept; with room
// those past what is printed are.
fn every_room(count: &mut Count, text: &[u8], rooms: impl Iterator<Item = usize>) {
    let needed = respond(text).len();
    for room in rooms {
        assert_eq!(count.case(compare::respond(text, room)), room >= needed, "{room} of {needed}");
    }
}

#[test]
fn outputs_of_every_length() {
    let mut count = Count::new("ranges, outputs of every length");
    let lists = [
        Series::by_account(make::upward(10), vec![1, 50, 100, 2, 1, 1, 1_000, 1, 10, 20]),
        Series::by_account(vec![u32::MAX], vec![MOST]),
        Series::by_account(vec![9, 10], vec![5, 5]),
    ];
    for list in lists {
        let total = list.total() as u32;
        for (exercised, draw) in [(1, 395), (total - 1, u32::MAX), (total, 0)] {
            every_room(&mut count, &text_of(&list, exercised, draw), 0..320);
        }
    }
    for refused in [text_of(&Series::by_account(vec![9, 9], vec![5, 5]), 1, 1), b"R".to_vec()] {
        every_room(&mut count, &refused, 0..80);
    }
    count.print();
}

// No list prints more: ten digits in each account, the first position so large that all other ends have seven or eight
// digits, as many shorts of five digits as T allows, the others of four, and each assigned whole.
fn largest() -> Series {
    let accounts = (u32::MAX - 1_023..=u32::MAX).collect();
    let mut shorts = vec![10_000; 1_024];
    shorts[887..].fill(1_000);
    shorts[0] = MOST - shorts[1..].iter().sum::<u32>();
    assert_eq!(shorts[0], 1_003_000);
    Series::by_account(accounts, shorts)
}

#[test]
fn the_largest_output() {
    let mut count = Count::new("ranges, largest output");
    let list = largest();
    assert_eq!(list.total(), u64::from(MOST));
    let mut most = 0;
    for (exercised, draw) in [(MOST, 0), (MOST - 1, 0), (MOST - 1, u32::MAX), (MOST / 2, 4_999_999), (1, 77)] {
        let found = ranges(&list, exercised, draw);
        assert_eq!(found[1_023][2..], [MOST, 2 * MOST - 999, 2 * MOST]);
        let text = text_of(&list, exercised, draw);
        let needed = respond(&text).len();
        most = most.max(needed);
        let rooms = [0, 17, 18, needed / 2, needed - 1, needed, needed + 1, reference::MOST_PRINTED, 100_000];
        every_room(&mut count, &text, rooms.into_iter());
        for (form, feed) in FORMS.into_iter().zip([Feed::Pipe, Feed::File]) {
            let text = text_of(&list.in_form(form), exercised, draw);
            assert_eq!(Program::Assign.compare(&text, feed), Ok(true));
        }
    }
    count.print();
    println!("ranges: the largest output has {most} bytes of {}", reference::MOST_PRINTED);
    assert_eq!((most, reference::MOST_PRINTED), (63_397, 70_705));
}

#[test]
fn random_ranges() {
    let mut random = Random::new(0x4E3A_0009);
    let mut count = Count::new("ranges, random series");
    for case in 0..1_500 {
        let positions = if case % 10 == 0 { random.between(1_000, 1_024) } else { random.spread(200) };
        let most = positions.max(random.spread(if case % 25 == 0 { u64::from(MOST) } else { 100_000 }));
        let list = make::series(&mut random, positions as usize, most, true);
        let terms = make::terms(&mut random, b'R', positions as usize, most);
        let Terms { exercised, draw, .. } = terms;
        let text = reference::write(terms, list.list(), usize::MAX).expect("a text");
        if (1..=most).contains(&u64::from(exercised)) {
            ranges(&list, exercised, draw);
        } else {
            assert_eq!(respond(&text), format!("refused\n{}\n", if exercised == 0 { 8 } else { 9 }));
        }
        let needed = respond(&text).len();
        every_room(&mut count, &text, [needed - 1, needed, needed + 5].into_iter());
    }
    count.print();
}

// A text under R with a column of codes, any at all, prints what it prints without.
#[test]
fn codes_are_not_looked_at() {
    let mut random = Random::new(0x4E3A_000A);
    let list = make::series(&mut random, 9, 300, true);
    let expected = respond(&text_of(&list, 77, 200));
    for code in [0, 1, u32::MAX] {
        let coded = Series { codes: vec![code; 9], ..list.clone() };
        let text = text_of(&coded, 77, 200);
        assert!(make::has_codes(&text));
        assert_eq!(respond(&text), expected);
    }
    let none = List { codes: &[], ..list.list() };
    assert_eq!(compare::allocate(Terms::new(b'R', 77, 200), none, 9), Ok(0));
}

#[test]
fn no_ranges_but_for_an_allocation_under_r() {
    let mut random = Random::new(0x4E3A_000B);
    let mut printed = [0; 4];
    for case in 0..4_000 {
        let lines = random.between(1, 30) as usize;
        let mut text = make::text(&mut random, lines);
        if case % 4 == 0 {
            make::damage(&mut random, &mut text);
        }
        for (method, count) in make::METHODS.into_iter().zip(&mut printed) {
            make::put_method(&mut text, method);
            let found = respond(&text);
            let allocated = found.starts_with("account,assigned\n");
            assert_eq!(found.contains("first") || found.matches("account").count() > 1, method == b'R' && allocated);
            assert!(allocated || found.starts_with("refused\n") && found.lines().count() == 2);
            *count += u32::from(allocated);
        }
    }
    println!("allocated under W, P, L and R: {printed:?}; ranges under R alone");
    assert!(printed.iter().all(|&n| n > 100));
    // One more than T, no contract, an account that does not rise, no shorts, too many, a draw past 32 bits.
    let head = "method,exercised,draw\nR,";
    for (rest, number) in [
        ("5,1\naccount,short\n1,2\n2,2\n", 9),
        ("0,1\naccount,short\n1,2\n2,2\n", 8),
        ("1,1\naccount,short\n2,2\n2,2\n", 5),
        ("1,1\naccount,short\n1,2\n2,0\n", 6),
        ("1,1\naccount,short\n1,2\n2,9999999\n", 7),
        ("1,1\naccount,short\n", 3),
        ("1,4294967296\naccount,short\n1,2\n2,2\n", 13),
    ] {
        assert_eq!(respond(format!("{head}{rest}").as_bytes()), format!("refused\n{number}\n"), "{rest}");
    }
}
