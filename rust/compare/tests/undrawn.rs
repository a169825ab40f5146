// Series that need no draw (S equal to T under W, L and R, one position under L and R), and the calls next to them.

use compare::make::{self, Series};
use compare::program::{Feed, Program};
use compare::random::Random;
use compare::{cases, Count, Terms, FORMS};
use reference::Allocation;

// S around 0 and T, draws in and out of range, and increments, of which W takes most.
fn terms(random: &mut Random, method: u8, list: &Series) -> Vec<Terms> {
    let total = list.total() as u32;
    [0, 1, total - 1, total, total + 1]
        .into_iter()
        .flat_map(|exercised| make::draws(total).map(|draw| Terms::new(method, exercised, draw)))
        .map(|terms| terms.by(make::increment(random)))
        .collect()
}

// Each list under each method, with codes that it takes, in either form.
fn of_each_method(random: &mut Random, lists: &[Series]) -> Vec<(u8, Series)> {
    let mut all = Vec::new();
    for list in lists {
        all.extend(make::METHODS.map(|method| {
            let form = random.pick(&FORMS);
            (method, make::coded(random, method, list).in_form(form))
        }));
    }
    all
}

// Random lists, one in three of a single position.
fn random_lists(random: &mut Random, count: usize) -> Vec<Series> {
    let list = |_| {
        let positions = if random.one_in(3) { 1 } else { random.spread(60) };
        let total = positions.max(random.spread(30_000));
        make::series(random, positions as usize, total, true)
    };
    (0..count).map(list).collect()
}

#[test]
fn allocating() {
    let mut random = Random::new(0xD4A3_0001);
    let mut count = Count::new("no draw needed, allocating");
    let mut lists = random_lists(&mut random, 400);
    let ones = [1, 2, 24, 25, 26, 9_999, 10_000, 10_001, 10_000_000].map(|total| (1, total));
    let others = [(2, 2), (2, 10_000), (2, 10_001), (25, 25), (4_096, 4_096), (4_096, 10_000_000)];
    for (positions, total) in ones.into_iter().chain(others) {
        lists.push(make::series(&mut random, positions, total, true));
    }
    for (method, list) in of_each_method(&mut random, &lists) {
        for terms in terms(&mut random, method, &list) {
            count.allocate(terms, list.list(), list.numbers.len() + 1);
        }
    }
    count.print();
    assert!(!count.undrawn().contains(&0));
    assert!(!count.met([8, 9, 10, 23, 24]).contains(&0));
}

// The texts of series of so many lists; `run` answers whether one was allocated.
fn texts(what: &'static str, seed: u64, lists: usize, run: impl Fn(&[u8]) -> Result<bool, String>) {
    let mut random = Random::new(seed);
    let mut count = Count::new(what);
    let lists = random_lists(&mut random, lists);
    for (method, list) in of_each_method(&mut random, &lists) {
        for terms in terms(&mut random, method, &list) {
            let text = reference::write(terms, list.list(), usize::MAX);
            if count.case(run(&text.expect("a text"))) {
                count.allocated(terms, list.list());
            }
        }
    }
    count.print();
    assert!(!count.undrawn().contains(&0));
}

#[test]
fn responding() {
    texts("no draw needed, responding", 0xD4A3_0002, 100, |text| {
        let printed = reference::printed(text);
        compare::respond(text, printed.len() - 1)?;
        compare::respond(text, printed.len())?;
        Ok(!printed.starts_with(b"refused"))
    });
}

#[test]
fn running_the_program() {
    texts("no draw needed, program", 0xD4A3_0003, 6, |text| Program::Assign.compare(text, Feed::Pipe));
}

// The answer as it was before: the draw is judged before anything is decided. Under R, where there was none, the answer
// by its draw in any case.
fn before(terms: Terms, list: &Series, room: usize) -> Result<Allocation, u32> {
    let total = reference::judge(terms, list.list(), room)?;
    reference::judge_draw(terms, total)?;
    let shorts = list.list().shorts();
    let (amounts, further) = if terms.method == b'W' && terms.exercised == total {
        (shorts, 0)
    } else {
        reference::by_draw(terms, &shorts, total)
    };
    Ok(Allocation { amounts, total, further })
}

// Holds an answer against the one before: 0 for an allocation and 1 for a refusal that are the same, 2 for a starting
// place that is 0 now, 3 for a draw that is no longer refused.
fn hold(terms: Terms, list: &Series, room: usize) -> usize {
    let Terms { method, exercised, .. } = terms;
    let before = before(terms, list, room);
    let after = reference::allocate(terms, list.list(), room);
    let whole = u64::from(exercised) == list.total();
    let placed = b"LR".contains(&method);
    let one = placed && list.numbers.len() == 1;
    let expected = match before.clone() {
        Ok(a) if placed && (whole || one) => Ok(Allocation { further: 0, ..a }),
        Err(10) if whole => Ok(Allocation { amounts: list.list().shorts(), total: exercised, further: 0 }),
        Err(10) if one => Ok(Allocation { amounts: vec![exercised], total: list.numbers[0], further: 0 }),
        other => other,
    };
    assert_eq!(after, expected, "{}", cases::allocate(terms, list.list(), room));
    usize::from(before.is_err()) + 2 * usize::from(before != after)
}

#[test]
fn before_and_after() {
    let mut change = [0; 4];
    for total in 1..=6 {
        let places = (1..=total).map(|place| place * 10_000 / total);
        let draws: Vec<u32> = make::draws(total).into_iter().chain(3..total).chain(places).collect();
        for list in make::lists(total) {
            for method in *b"WPLRX" {
                for exercised in 0..=total + 1 {
                    for &draw in &draws {
                        let terms = Terms::new(method, exercised, draw).by(1 + draw % 4);
                        change[hold(terms, &list, list.numbers.len())] += 1;
                    }
                }
            }
        }
    }
    let mut random = Random::new(0xD4A3_0004);
    for _ in 0..20_000 {
        for make::Call { terms, list, room } in make::calls(&mut random, 12, 400) {
            change[hold(terms, &list, room)] += 1;
        }
    }
    let [allocated, refused, placed, drawn] = change;
    println!(
        "before and after: {allocated} allocated and {refused} refused alike, {placed} with starting place 0 now, \
         {drawn} no longer refused"
    );
    assert!(!change.contains(&0));
}
