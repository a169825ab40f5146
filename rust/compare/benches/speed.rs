// Times of the library against plain Rust; the median of many samples.

use std::hint::black_box;
use std::process::Stdio;
use std::time::{Duration, Instant};

use compare::books::Book;
use compare::branches::{self, Branch, Kind};
use compare::make::{self, Columns, Field, Series};
use compare::program::{Program, TextFile, PROGRAMS};
use compare::random::Random;
use compare::{days, library_form, library_job, plain, Form, List, Terms, DEFAULT_INCREMENT, FORMS};
use dilbreth::calls;
use reference::day::{Investor, MarketMaker};
use reference::jobs::MOST_JOBS;
use reference::MOST_POSITIONS;

// Nanoseconds of one call of each: the median of samples that each last long enough to be measured. The samples are taken in turn, so that a
// burst of other work on the machine weighs on each alike.
fn medians<const N: usize>(mut calls: [&mut dyn FnMut(); N]) -> [f64; N] {
    let inner = std::array::from_fn::<u32, N, _>(|i| {
        let begin = Instant::now();
        calls[i]();
        let once = begin.elapsed().max(Duration::from_nanos(20));
        (Duration::from_micros(100).as_nanos() / once.as_nanos()).clamp(1, 5_000) as u32
    });
    let budget = Duration::from_millis(250) * N as u32;
    let mut samples: [Vec<f64>; N] = std::array::from_fn(|_| Vec::new());
    let begin = Instant::now();
    while samples[0].len() < 5 || (begin.elapsed() < budget && samples[0].len() < 501) {
        for i in 0..N {
            let start = Instant::now();
            for _ in 0..inner[i] {
                calls[i]();
            }
            samples[i].push(start.elapsed().as_nanos() as f64 / f64::from(inner[i]));
        }
    }
    samples.map(|mut of_one| {
        of_one.sort_by(f64::total_cmp);
        of_one[of_one.len() / 2]
    })
}

fn median(mut call: impl FnMut()) -> f64 {
    medians([&mut call])[0]
}

// Nanoseconds of all `count` calls of each: the sum over the medians of several passes, the passes taken in turn. Other
// work on the machine then weighs on few of the calls.
fn medians_of_passes<const N: usize>(count: usize, mut calls: [&mut dyn FnMut(usize); N]) -> [f64; N] {
    let mut samples = [(); N].map(|_| vec![Vec::new(); count]);
    for _ in 0..9 {
        for (call, samples) in calls.iter_mut().zip(&mut samples) {
            for (at, of_one) in samples.iter_mut().enumerate() {
                let start = Instant::now();
                call(at);
                of_one.push(start.elapsed().as_nanos());
            }
        }
    }
    samples.map(|of_all| {
        let medians = of_all.into_iter().map(|mut of_one| {
            of_one.sort();
            of_one[of_one.len() / 2]
        });
        medians.sum::<u128>() as f64
    })
}

fn time(nanoseconds: f64) -> String {
    match nanoseconds {
        n if n < 1e4 => format!("{n:.0} ns"),
        n if n < 1e7 => format!("{:.1} us", n / 1e3),
        n => format!("{:.2} ms", n / 1e6),
    }
}

struct Row {
    method: u8,
    form: Form,
    positions: usize,
    total: u64,
    exercised: u32,
    increment: u32,
}

// Positions of unequal size with T contracts in all.
fn list(positions: usize, total: u64) -> Series {
    let mut random = Random::new(0xBE7C_4000 + positions as u64);
    let weights: Vec<u64> = (0..positions).map(|_| random.between(20, 180)).collect();
    let sum: u64 = weights.iter().sum();
    let free = total - positions as u64;
    let mut shorts: Vec<u32> = weights.iter().map(|w| 1 + (free * w / sum) as u32).collect();
    let given: u64 = shorts.iter().map(|&s| u64::from(s)).sum();
    for short in &mut shorts[..(total - given) as usize] {
        *short += 1;
    }
    Series::by_account(make::upward(positions), shorts)
}

// One call of the library that is no refusal.
fn library(terms: Terms, list: List, amounts: &mut [u32]) {
    let Terms { method, exercised, draw, increment } = terms;
    // One by one: from a whole list in memory two neighbours would be loaded at once, which stalls the call.
    let (codes, accounts, numbers) = (black_box(list.codes), black_box(list.accounts), black_box(list.numbers));
    let form = library_form(list.form).number();
    let (mut total, mut further) = (0, 0);
    let (t, f) = (&mut total, &mut further);
    let number = calls::allocate(method, exercised, draw, increment, form, codes, accounts, numbers, amounts, t, f);
    assert_eq!(black_box((number, total)).0, 0);
    black_box(amounts);
}

type Plain = fn(Terms, List, &mut [u32]) -> Result<(u32, u32), u32>;

fn by_method<const METHOD: u8>(terms: Terms, list: List, amounts: &mut [u32]) -> Result<(u32, u32), u32> {
    plain::allocate(Terms { method: METHOD, ..terms }, list, amounts)
}

// The method of a row, with its form or increment where it is not the usual one.
fn label(row: &Row) -> String {
    let mut label = char::from(row.method).to_string();
    if row.form == Form::LastNumbers {
        label += " last";
    }
    if row.increment != DEFAULT_INCREMENT {
        label += &format!(" by {}", row.increment);
    }
    label
}

fn allocation(row: Row) {
    let list = list(row.positions, row.total).in_form(row.form);
    assert_eq!(list.total(), row.total);
    let (method, exercised) = (row.method, row.exercised);
    let list = list.list();
    let draw = match method {
        b'W' => (row.total / 3) as u32,
        b'R' => 3_333_333_333,
        _ => 3_333,
    };
    let terms = Terms::new(method, exercised, draw).by(row.increment);
    let step = median(|| {
        let answer = reference::allocate(terms, black_box(list), row.positions);
        black_box(answer.expect("an allocation"));
    });
    let mut amounts = [vec![0u32; row.positions], vec![0u32; row.positions], vec![0u32; row.positions]];
    for cleared in [false, true] {
        let [ours, theirs, others] = &mut amounts;
        let mut call_library = || {
            if cleared {
                black_box(&mut *ours).fill(0);
            }
            library(terms, list, ours);
        };
        let call_plain = |allocate: Plain, amounts: &mut Vec<u32>| {
            if cleared {
                black_box(&mut *amounts).fill(0);
            }
            let answer = allocate(terms, black_box(list), amounts);
            black_box(answer.expect("an allocation"));
            black_box(&amounts);
        };
        let (same, other): (Plain, Option<Plain>) = match method {
            b'W' => (by_method::<b'W'>, Some(plain::allocate_wheel_by_division)),
            b'P' => (plain::allocate_pro_rata_by_bisection, Some(by_method::<b'P'>)),
            b'R' => (by_method::<b'R'>, None),
            _ => (by_method::<b'L'>, None),
        };
        let mut call_same = || call_plain(same, theirs);
        let (library, same, best) = match other {
            Some(other) => {
                let mut call_other = || call_plain(other, others);
                let [library, same, best] = medians([&mut call_library, &mut call_same, &mut call_other]);
                (library, same, Some(best))
            }
            None => {
                let [library, same] = medians([&mut call_library, &mut call_same]);
                (library, same, None)
            }
        };
        println!(
            "{:<10}{:>10}{:>11}{:>11}{:>9}{:>12}{:>12}{:>12}{:>12}{:>12.4}{:>12.2}{:>12}",
            label(&row),
            row.positions,
            row.total,
            exercised,
            if cleared { "yes" } else { "no" },
            time(library),
            time(step),
            best.map_or("-".to_string(), time),
            time(same),
            library / step,
            library / same,
            best.map_or("-".to_string(), |best| format!("{:.2}", library / best))
        );
    }
}

fn allocations() {
    println!(
        "Allocating: one call. 'stepping' is one contract at a time; 'plain' is the library's algorithm in plain Rust"
    );
    println!(
        "(blocks and positions; bisection; for L and R positions); 'best plain' is another, where we know one that is"
    );
    println!("faster at many sizes: W with a division for each position, P with a rank by selection or histograms. A");
    println!("column 'to' has the library's time divided by theirs.");
    println!(
        "P has two S at each size: with 3/7 of T the decimal parts of many positions gather about the sevenths, with"
    );
    println!(
        "3123/7919 they are spread as far as the shorts differ. With these T nothing remains of one position for round two."
    );
    println!("'last': the list in the form of last numbers, else of shorts. 'by': the increment, else 25.");
    println!(
        "Cleared: the output was filled with 0 before each call, within the time; else it holds the last amounts."
    );
    println!(
        "{:<10}{:>10}{:>11}{:>11}{:>9}{:>12}{:>12}{:>12}{:>12}{:>12}{:>12}{:>12}",
        "method",
        "positions",
        "T",
        "S",
        "cleared",
        "library",
        "stepping",
        "best plain",
        "plain",
        "to stepping",
        "to plain",
        "to best"
    );
    for method in make::METHODS {
        let sizes: &[usize] = if method == b'P' { &[1, 10, 30, 100, 1_024, 4_096] } else { &[10, 100, 1_024, 4_096] };
        for &positions in sizes {
            for total in [10_000, 10_000_000u64] {
                let mut exercised = vec![(total * 3 / 7) as u32];
                if method == b'W' {
                    exercised.push((total - 1) as u32);
                    exercised.push((total / 100) as u32);
                }
                if method == b'P' {
                    exercised.push((total * 3_123 / 7_919) as u32);
                }
                let increment = DEFAULT_INCREMENT;
                for exercised in exercised {
                    allocation(Row { method, form: Form::Shorts, positions, total, exercised, increment });
                }
                let exercised = (total * 3 / 7) as u32;
                allocation(Row { method, form: Form::LastNumbers, positions, total, exercised, increment });
            }
        }
    }
    by_increments();
}

// W at T = 10,000,000 by increments from 1 to 1,000; by 1 no more can be exercised, and by 10 with all but one contract
// exercised there are as many blocks.
fn by_increments() {
    let total = 10_000_000;
    for positions in [10, 100, 1_024, 4_096] {
        for (increment, exercised) in
            [(1, 1_000_000), (10, 1_000_000), (10, 9_999_999), (25, 1_000_000), (1_000, 1_000_000), (1_000, 9_999_999)]
        {
            allocation(Row { method: b'W', form: Form::Shorts, positions, total, exercised, increment });
        }
    }
}

// The orders of accounts in which W has to see that they differ.
fn orders(positions: usize, random: &mut Random) -> [(&'static str, Vec<u32>); 5] {
    let mut mixed = make::upward(positions);
    make::shuffle(random, &mut mixed);
    [
        ("rising", make::upward(positions)),
        ("1, 2, .. in random order", mixed),
        ("random numbers", make::different(random, positions)),
        ("random order, the same low 20 bits", make::sharing_low_bits(random, positions, 20)),
        ("all collide", make::sharing_upper_bits_of_product(random, positions)),
    ]
}

fn distinct_row(order: &str, list: List, exercised: u32, name: &str) {
    let terms = Terms::new(b'W', exercised, 1);
    let mut amounts = [(); 2].map(|_| vec![0; list.numbers.len()]);
    let [ours, theirs] = &mut amounts;
    let mut call_library = || library(terms, list, ours);
    let mut call_plain = || {
        black_box(plain::allocate(terms, black_box(list), theirs).expect("an allocation"));
        black_box(&theirs);
    };
    let [ours, theirs] = medians([&mut call_library, &mut call_plain]);
    println!(
        "{order:<38}{:>10}{name:>8}{:>12}{:>12}{:>12.2}",
        list.numbers.len(),
        time(ours),
        time(theirs),
        ours / theirs
    );
}

fn distinct_accounts() {
    println!();
    println!(
        "Distinct accounts: W with codes that rise, where judging dominates: S = T, and S = 25. 'plain' judges in one"
    );
    println!("walk too; from the first account on that is not above all before it, it has them in a HashSet of std.");
    println!(
        "'all collide': (account * 2,654,435,761 mod 2^32) >> 20 is the same for all, the worst case of the look-up."
    );
    println!("{:<38}{:>10}{:>8}{:>12}{:>12}{:>12}", "accounts", "positions", "S", "library", "plain", "to plain");
    for positions in [100, 1_024, 4_096] {
        let mut random = Random::new(0xBE7C_7000);
        let made = list(positions, 1_000 * positions as u64);
        for (order, accounts) in orders(positions, &mut random) {
            let codes = make::upward(positions);
            let list = List { codes: &codes, ..List::by_account(&accounts, &made.numbers) };
            for (exercised, name) in [(made.total() as u32, "T"), (25, "25")] {
                distinct_row(order, list, exercised, name);
            }
        }
    }
}

// 64 series of 64 positions with T = 10,000, 3/7 of it exercised, under the methods in turn.
fn full_book(methods: &[u8]) -> Book {
    let mut book = Book::default();
    let made = list(64, 10_000);
    for at in 0..MOST_JOBS {
        let draw = 100 * at as u32 + 1;
        book.add(&made.accounts, &made.numbers, Terms::new(methods[at % methods.len()], 4_285, draw));
    }
    book
}

// A series of a night: a few positions, a few tens or a few hundred, with 1 to 200 contracts each.
fn night_series(random: &mut Random) -> (Series, Terms) {
    let most = random.pick(&[12, 60, 300]);
    let positions = random.between(3, most) as usize;
    let shorts = (0..positions).map(|_| random.spread(200) as u32).collect();
    let series = Series::by_account(make::rising(random, positions), shorts);
    let total = series.total();
    let method = random.pick(&make::METHODS);
    let exercised = if random.one_in(16) { total } else { random.between(1, total) };
    let draw = random.between(1, if method == b'W' { total } else { 10_000 });
    (series, Terms::new(method, exercised as u32, draw as u32))
}

// The series in books, each as full as may be.
fn night(series: usize) -> Vec<Book> {
    let mut random = Random::new(0xBE7C_8000);
    let mut books = vec![Book::default()];
    for _ in 0..series {
        let (list, terms) = night_series(&mut random);
        let last = &books[books.len() - 1];
        if last.jobs.len() == MOST_JOBS || last.len() + list.numbers.len() > MOST_POSITIONS {
            books.push(Book::default());
        }
        books.last_mut().expect("a book").add(&list.accounts, &list.numbers, terms);
    }
    books
}

// Nanoseconds of the books, a call for each, and of a call for each of their series on its part of the same lists.
fn time_books(books: &[Book]) -> [f64; 2] {
    let record = |book: &Book| book.jobs.iter().map(|job| library_job(*job)).collect();
    let mut records: Vec<Vec<calls::Job>> = books.iter().map(record).collect();
    let [mut amounts, mut others] = [(); 2].map(|_| vec![0; MOST_POSITIONS]);
    let mut together = |at: usize| {
        let Book { accounts, shorts, .. } = black_box(&books[at]);
        assert_eq!(black_box(calls::allocate_jobs(accounts, shorts, &mut records[at], &mut amounts)), 0);
        black_box(&amounts);
    };
    let mut alone = |at: usize| {
        let Book { accounts, shorts, jobs, .. } = black_box(&books[at]);
        for job in jobs {
            let part = job.stretch();
            library(job.terms, List::by_account(&accounts[part.clone()], &shorts[part.clone()]), &mut others[part]);
        }
    };
    let found = match books {
        [_] => medians([&mut || together(0), &mut || alone(0)]),
        _ => medians_of_passes(books.len(), [&mut together, &mut alone]),
    };
    assert!(records.iter().flatten().all(|record| record.answer.refusal == 0));
    found
}

fn books_row(name: &str, books: &[Book]) {
    let [together, alone] = time_books(books);
    let series: usize = books.iter().map(|book| book.jobs.len()).sum();
    let positions: usize = books.iter().map(Book::len).sum();
    println!(
        "{name:<10}{:>8}{series:>9}{positions:>11}{:>12}{:>12}{:>10.2}{:>17.0}",
        books.len(),
        time(together),
        time(alone),
        together / alone,
        series as f64 / together * 1e9
    );
}

fn many_series() {
    println!();
    println!(
        "Many series: books of up to 64 series and 4,096 positions, a call for each book ('together'), against a call"
    );
    println!(
        "for each series on its part of the same lists ('alone'). The first rows are one book of 64 series, each with"
    );
    println!(
        "64 positions and T = 10,000. 'night': 100,000 series of 3 to 300 positions under all four methods. One core;"
    );
    println!("lists and records are made before, no output is cleared. Of the night each book has its median of nine passes.");
    println!(
        "{:<10}{:>8}{:>9}{:>11}{:>12}{:>12}{:>10}{:>17}",
        "methods", "books", "series", "positions", "together", "alone", "to alone", "series a second"
    );
    for method in make::METHODS {
        books_row(&char::from(method).to_string(), &[full_book(&[method])]);
    }
    books_row("mixed", &[full_book(&make::METHODS)]);
    books_row("night", &night(100_000));
}

// Pairs of lists with so many positions each, of 1 to 200 contracts; all first lists together have 16,384 positions, or
// nearly.
fn pairs(kind: Kind, positions: usize) -> Vec<[Branch; 2]> {
    let mut random = Random::new(0xBE7C_9000);
    let pair = |_| {
        // More accounts than the lists need, which are then cut.
        let pool: Vec<u32> = (0..4 * positions as u32).map(|at| 1_000 * at + random.between(1, 1_000) as u32).collect();
        branches::accounts(&mut random, kind, &pool).map(|mut accounts| {
            accounts.truncate(positions);
            assert_eq!(accounts.len(), positions);
            let shorts = accounts.iter().map(|_| random.spread(200) as u32).collect();
            Branch { accounts, shorts }
        })
    };
    (0..16_384 / positions).map(pair).collect()
}

type Merge = fn(List, List, &mut [u32], &mut [u32]) -> Result<(usize, u32), u32>;

// The library's call as plain Rust has it.
fn library_merge(first: List, second: List, accounts: &mut [u32], shorts: &mut [u32]) -> Result<(usize, u32), u32> {
    let (mut positions, mut total) = (0, 0);
    let (of_first, of_second, p, t) = (first.numbers, second.numbers, &mut positions, &mut total);
    match calls::merge(first.accounts, of_first, second.accounts, of_second, accounts, shorts, p, t) {
        0 => Ok((positions, total)),
        number => Err(number),
    }
}

fn merge_row(name: &str, kind: Kind, positions: usize) {
    let pairs = pairs(kind, positions);
    // The merged positions of all pairs.
    let merge_all = |merge: Merge, accounts: &mut [u32], shorts: &mut [u32]| {
        let mut merged = 0;
        for pair in black_box(&pairs) {
            let [first, second] = pair.each_ref().map(|list| List::by_account(&list.accounts, &list.shorts));
            merged += black_box(merge(first, second, accounts, shorts)).expect("a merged list").0;
            black_box((&accounts, &shorts));
        }
        merged
    };
    let [mut a, mut s, mut a2, mut s2, mut a3, mut s3] = [(); 6].map(|_| vec![0; MOST_POSITIONS]);
    let merged = merge_all(library_merge, &mut a, &mut s);
    let mut call_library = || assert_eq!(merge_all(library_merge, &mut a, &mut s), merged);
    let mut call_plain = || assert_eq!(merge_all(plain::merge, &mut a2, &mut s2), merged);
    let mut call_other = || assert_eq!(merge_all(plain::merge_without_branches, &mut a3, &mut s3), merged);
    let times = medians([&mut call_library, &mut call_plain, &mut call_other]);
    let [library, plain, other] = times.map(|all| all / pairs.len() as f64);
    println!(
        "{name:<14}{:>14}{:>10}{:>12}{:>12}{:>12}{:>12.2}{:>15.2}",
        format!("{positions} + {positions}"),
        merged / pairs.len(),
        time(library),
        time(plain),
        time(other),
        library / plain,
        library / other
    );
}

fn merges() {
    println!();
    println!(
        "Merged lists: one call. 'plain' is the library's algorithm in plain Rust: each list is judged, a walk down both"
    );
    println!(
        "counts the merged positions, and another one writes them. 'branchless' has no branch on how two accounts compare:"
    );
    println!(
        "faster where their order is random, slower where it can be foreseen. 'below': the first list's accounts are"
    );
    println!(
        "all below the second's; 'mixed': in random order, one in three of them in both. Many pairs are merged in turn, so"
    );
    println!(
        "that no order is known from the call before; 'merged' is the mean of their positions. No output is cleared."
    );
    println!(
        "{:<14}{:>14}{:>10}{:>12}{:>12}{:>12}{:>12}{:>15}",
        "accounts", "positions", "merged", "library", "plain", "branchless", "to plain", "to branchless"
    );
    let kinds =
        [("below", Kind::Below), ("alternating", Kind::Alternating), ("mixed", Kind::Mixed(3)), ("equal", Kind::Equal)];
    for positions in [10, 100, 2_048] {
        for (name, kind) in kinds {
            merge_row(name, kind, positions);
        }
    }
}

fn rate(bytes: usize, nanoseconds: f64) -> String {
    format!("{:.0} MB/s", bytes as f64 / nanoseconds * 1e3)
}

fn text_row(call: &str, positions: usize, bytes: usize, library: f64, plain: f64, note: &str) {
    println!(
        "{:<9}{:>10}{:>9}{:>12}{:>12}{:>12}{:>12}{:>12.2}{note}",
        call,
        positions,
        bytes,
        time(library),
        time(plain),
        rate(bytes, library),
        rate(bytes, plain),
        library / plain
    );
}

fn reading(text: &[u8], positions: usize, note: &str) {
    let [mut c, mut a, mut n, mut c2, mut a2, mut n2] = [(); 6].map(|_| vec![0; positions]);
    let mut call_library = || {
        let (mut terms, mut form, mut found) = (Terms::new(0, 0, 0), 0, 0);
        let Terms { method, exercised, draw, increment } = &mut terms;
        let (text, form) = (black_box(text), &mut form);
        let number = calls::read(text, method, exercised, draw, increment, form, &mut c, &mut a, &mut n, &mut found);
        assert_eq!(black_box((number, found)), (0, positions));
        black_box((&c, &a, &n));
    };
    let mut call_plain = || {
        black_box(plain::read(black_box(text), &mut c2, &mut a2, &mut n2).expect("a series"));
        black_box((&c2, &a2, &n2));
    };
    let [library, best] = medians([&mut call_library, &mut call_plain]);
    text_row("read", positions, text.len(), library, best, note);
}

fn writing(terms: Terms, list: List, length: usize, note: &str) {
    let (mut out, mut out2) = (vec![0; length], vec![0; length]);
    let mut call_library = || {
        let mut written = 0;
        let Terms { method, exercised, draw, increment } = terms;
        let List { form, codes, accounts, numbers } = black_box(list);
        let (form, text, count) = (library_form(form).number(), &mut out, &mut written);
        let number = calls::write(method, exercised, draw, increment, form, codes, accounts, numbers, text, count);
        assert_eq!(black_box((number, written)), (0, length));
        black_box(&out);
    };
    let mut call_plain = || {
        black_box(plain::write(terms, black_box(list), &mut out2).expect("a text"));
        black_box(&out2);
    };
    let [library, best] = medians([&mut call_library, &mut call_plain]);
    text_row("write", list.accounts.len(), length, library, best, note);
}

fn responding(text: &[u8], positions: usize, note: &str) {
    let [mut ours, mut theirs] = [(); 2].map(|_| vec![0; reference::MOST_PRINTED]);
    let mut call_library = || {
        let mut written = 0;
        assert_eq!(black_box(calls::respond(black_box(text), &mut ours, &mut written)), 0);
        black_box(&ours);
    };
    let mut call_plain = || {
        black_box(plain::respond(black_box(text), &mut theirs).expect("room enough"));
        black_box(&theirs);
    };
    let [library, best] = medians([&mut call_library, &mut call_plain]);
    text_row("respond", positions, text.len(), library, best, note);
}

type Change = fn(&[u8], &mut [u8]) -> Result<usize, u32>;

// A change, and plain Rust that reads, judges and writes it, or copies codes and accounts.
fn changing(text: &[u8], positions: usize, note: &str) {
    let length = reference::change(text, usize::MAX).expect("a changed text").len();
    let [mut ours, mut theirs, mut others] = [(); 3].map(|_| vec![0; length]);
    let mut call_library = || {
        let mut written = 0;
        let number = calls::change(black_box(text), &mut ours, &mut written);
        assert_eq!(black_box((number, written)), (0, length));
        black_box(&ours);
    };
    let call_plain = |change: Change, output: &mut Vec<u8>| {
        black_box(change(black_box(text), output).expect("a changed text"));
        black_box(&output);
    };
    let mut call_same = || call_plain(plain::change, &mut theirs);
    let mut call_other = || call_plain(plain::change_by_copying, &mut others);
    let [library, same, best] = medians([&mut call_library, &mut call_same, &mut call_other]);
    println!(
        "{note:<26}{positions:>10}{:>9}{:>12}{:>12}{:>12}{:>12}{:>12.2}{:>12.2}",
        text.len(),
        time(library),
        time(same),
        time(best),
        rate(text.len(), library),
        library / same,
        library / best
    );
}

fn changes() {
    println!();
    println!("Changes: a text into its text in the other form; the bytes of the first in a second. 'plain' reads, judges and");
    println!("writes; 'best plain' copies codes and accounts from the text where they stay as they are.");
    println!(
        "{:<26}{:>10}{:>9}{:>12}{:>12}{:>12}{:>12}{:>12}{:>12}",
        "to", "positions", "bytes", "library", "plain", "best plain", "library", "to plain", "to best"
    );
    for positions in [10, 100, 1_024] {
        let list = text_list(positions);
        let mut falling = list.accounts.clone();
        falling.reverse();
        let coded = Series { accounts: falling, ..list.clone() };
        for (from, to) in FORMS.into_iter().zip(["last numbers", "shorts"]) {
            changing(&text_of(b'W', list.in_form(from).list()), positions, to);
            changing(&text_of(b'W', coded.in_form(from).list()), positions, &format!("{to}, with codes"));
        }
    }
}

// Accounts of ten digits, in the order of a list.
fn long_accounts(positions: usize, random: &mut Random) -> Vec<u32> {
    let mut account = 3_000_000_000u32;
    let next = |_| {
        account += random.between(1, 1_000_000) as u32;
        account
    };
    (0..positions).map(next).collect()
}

fn few_contracts(positions: usize, random: &mut Random) -> Vec<u32> {
    (0..positions).map(|_| random.spread(9_000) as u32).collect()
}

fn text_list(positions: usize) -> Series {
    let mut random = Random::new(0xBE7C_5000);
    let accounts = long_accounts(positions, &mut random);
    Series::by_account(accounts, few_contracts(positions, &mut random))
}

fn text_of(method: u8, list: List) -> Vec<u8> {
    text_with(Terms::new(method, 500, 77), list)
}

fn text_with(terms: Terms, list: List) -> Vec<u8> {
    reference::write(terms, list, usize::MAX).expect("a text")
}

// Reading, writing and responding, the codes being the accounts or others.
fn whole_text(list: List, note: &str) {
    let terms = Terms::new(b'W', 500, 77);
    let (text, positions) = (text_with(terms, list), list.accounts.len());
    reading(&text, positions, note);
    writing(terms, list, text.len(), note);
    responding(&text, positions, note);
}

fn texts() {
    println!();
    println!("Texts: the bytes of the text read or written in a second. The lists or the text are not cleared first.");
    println!("'respond' reads a text, assigns and prints; it is under W but where the row says otherwise.");
    println!(
        "{:<9}{:>10}{:>9}{:>12}{:>12}{:>12}{:>12}{:>12}",
        "call", "positions", "bytes", "library", "plain", "library", "plain", "to plain"
    );
    for positions in [10, 100, 1_024] {
        let list = text_list(positions);
        whole_text(list.list(), "");
        for (method, note) in [(b'L', "   (L)"), (b'R', "   (R, with the ranges)")] {
            responding(&text_of(method, list.list()), positions, note);
        }
        let mut falling = list.accounts.clone();
        falling.reverse();
        whole_text(List { accounts: &falling, ..list.list() }, "   (with codes)");
        let lasts = list.in_form(Form::LastNumbers);
        whole_text(lasts.list(), "   (last numbers)");
        responding(&text_of(b'R', lasts.list()), positions, "   (last numbers, R)");
        whole_text(List { accounts: &falling, ..lasts.list() }, "   (last numbers, with codes)");
    }
    let shorts = few_contracts(1_024, &mut Random::new(0xBE7C_5000));
    let text = text_of(b'W', List::by_account(&make::upward(1_024), &shorts));
    let columns = Columns { increment: false, codes: false };
    let is_account = |i| columns.field(i) == Field::Account;
    let four_digits = make::spelled(&text, |i, digits| if is_account(i) { 4 } else { digits });
    reading(&four_digits, 1_024, "   (accounts 0001 to 1024)");
    reading(&make::spelled(&text, |_, _| 10), 1_024, "   (every number in ten digits)");
}

fn day_row(call: &str, day: &str, mut library: impl FnMut(), mut plain: impl FnMut()) {
    let [library, plain] = medians([&mut library, &mut plain]);
    println!("{call:<14}{day:<10}{:>12}{:>12}{:>12.2}", time(library), time(plain), library / plain);
}

fn whole_days() {
    println!();
    println!("The day's activity: 1,024 varied days that are accepted, a call for each.");
    println!("{:<14}{:<10}{:>12}{:>12}{:>12}", "call", "day", "library", "plain", "to plain");
    for (name, day) in [("ordinary", 0), ("final", 1)] {
        let mut random = Random::new(0xBE7C_6000);
        let made = std::iter::repeat_with(|| (days::investor(&mut random, day), days::market_maker(&mut random)));
        let accepted = made.filter(|&(investor, market_maker)| {
            plain::process_investor(day, investor).is_ok() && plain::process_market_maker(day, market_maker).is_ok()
        });
        let (investors, market_makers): (Vec<Investor>, Vec<MarketMaker>) = accepted.take(1_024).unzip();
        let library = || {
            for &counts in black_box(&investors) {
                let mut after = [0; 3];
                assert_eq!(compare::investor(day, counts, &mut after), 0);
                black_box(after);
            }
        };
        let plain = || {
            for &counts in black_box(&investors) {
                black_box(plain::process_investor(day, counts).expect("a day"));
            }
        };
        day_row("investor", name, library, plain);
        let library = || {
            for &counts in black_box(&market_makers) {
                let mut limit = 0;
                assert_eq!(compare::market_maker(day, counts, &mut limit), 0);
                black_box(limit);
            }
        };
        let plain = || {
            for &counts in black_box(&market_makers) {
                black_box(plain::process_market_maker(day, counts).expect("a day"));
            }
        };
        day_row("market-maker", name, library, plain);
    }
}

// Whole runs of a program on a text of 1,024 positions.
fn whole_run(program: Program, method: u8, form: Form) {
    let shorts: Vec<u32> = (0..1_024).map(|i| 9_000 + i % 700).collect();
    let accounts: Vec<u32> = (0..1_024).map(|i| 4_000_000_000 + 977 * i).collect();
    let list = Series::by_account(accounts, shorts).in_form(form);
    let text = text_with(Terms::new(method, list.total() as u32 - 1, 4_855), list.list());
    let file = TextFile::new(&text);
    let run = |command: &mut std::process::Command| {
        let status = command.stdin(Stdio::from(file.open())).stdout(Stdio::null()).stderr(Stdio::null()).status();
        black_box(status.expect("a run"));
    };
    let ours = median(|| run(&mut program.command()));
    let empty = median(|| run(&mut std::process::Command::new("/bin/true")));
    println!(
        "{:<14}{:<10}{:>9}{:>12}{:>12}{:>12.2}",
        program.name(),
        format!("{}{}", char::from(method), if form == Form::Shorts { "" } else { " last" }),
        text.len(),
        time(ours),
        time(empty),
        ours / empty
    );
}

fn whole_runs() {
    println!();
    if let Some(missing) = PROGRAMS.into_iter().find(|program| !program.path().exists()) {
        println!("The programs: {} is not there.", missing.path().display());
        return;
    }
    println!(
        "The programs: whole runs on a text of 1,024 positions with S = T - 1, start and end of the process included."
    );
    println!("{:<14}{:<10}{:>9}{:>12}{:>12}{:>12}", "program", "text", "bytes", "program", "true", "to true");
    for method in make::METHODS {
        whole_run(Program::Assign, method, Form::Shorts);
    }
    whole_run(Program::Assign, b'L', Form::LastNumbers);
    for form in FORMS {
        whole_run(Program::ChangeForm, b'L', form);
    }
}

fn main() {
    // `cargo test --benches` only has to see that it starts.
    if std::env::args().any(|a| a == "--test") {
        return;
    }
    let tables: [(&str, fn()); 8] = [
        ("allocations", allocations),
        ("distinct", distinct_accounts),
        ("series", many_series),
        ("merge", merges),
        ("texts", texts),
        ("changes", changes),
        ("days", whole_days),
        ("runs", whole_runs),
    ];
    // Those that are named, or all.
    let names: Vec<String> = std::env::args().skip(1).filter(|word| !word.starts_with('-')).collect();
    for name in &names {
        assert!(tables.iter().any(|(table, _)| table == name), "no such table: {name}");
    }
    for (table, print) in tables {
        if names.is_empty() || names.iter().any(|name| name == table) {
            print();
        }
    }
}
