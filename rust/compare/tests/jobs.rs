// Many series in one call: books by hand, what is refused before any job, and random books, held to the separate
// version, to the jobs called one by one and to the jobs in another order.

use std::mem::{align_of, offset_of, size_of};

use compare::books::{self, job, Book, Size, KEPT};
use compare::make::{self, Series, METHODS};
use compare::random::Random;
use compare::{cases, library, library_job, Terms, LAST_REFUSAL};
use dilbreth::calls::{self, JobAnswer};
use reference::jobs::{Answer, Job};

const MOST: u32 = 10_000_000;

// What the output holds before a call.
const UNWRITTEN: u32 = 0xA110_CA7E;

// The number of a call, the jobs' answers and the output.
type Found = (u32, Vec<Answer>, Vec<u32>);

fn allocated(total: u32, further: u32) -> Answer {
    Answer { refusal: 0, total, further }
}

// A refused job keeps its T and its further number.
fn refused(refusal: u32) -> Answer {
    Answer { refusal, ..KEPT }
}

// The answers in records that are else as before the call.
fn answers(records: &[calls::Job], jobs: &[Job]) -> Vec<Answer> {
    let answer = |(record, job): (&calls::Job, &Job)| {
        let JobAnswer { refusal, total, further } = record.answer;
        let answer = Answer { refusal, total, further };
        assert_eq!(*record, library_job(Job { answer, ..*job }));
        answer
    };
    records.iter().zip(jobs).map(answer).collect()
}

// The book through the library, held to the separate version.
#[track_caller]
fn run(book: &Book) -> Found {
    let held = compare::allocate_jobs(book).unwrap_or_else(|shown| panic!("a book differs:\n{shown}"));
    let Book { accounts, shorts, jobs, room } = book;
    let mut records: Vec<calls::Job> = jobs.iter().map(|job| library_job(*job)).collect();
    let mut amounts = vec![UNWRITTEN; *room];
    let number = calls::allocate_jobs(accounts, shorts, &mut records, &mut amounts);
    let found = (number, answers(&records, jobs));
    assert_eq!(found, held);
    (number, found.1, amounts)
}

// The call is refused by the number, with all kept.
#[track_caller]
fn kept(book: &Book, number: u32) {
    let (found, answers, amounts) = run(book);
    assert_eq!(found, number);
    assert!(answers.iter().all(|answer| *answer == KEPT) && amounts.iter().all(|amount| *amount == UNWRITTEN));
}

// Accounts 1, 2, .. with one short each, and jobs of one contract by P on the stretches.
fn stretches(length: usize, stretches: &[(u32, u32)]) -> Book {
    let jobs = stretches.iter().map(|&(first, positions)| job(first, positions, Terms::new(b'P', 1, 0))).collect();
    Book { accounts: make::upward(length), shorts: vec![1; length], jobs, room: length }
}

// Jobs of series with accounts 1, 2, .. that stand one after the other.
fn book(series: &[(&[u32], Terms)]) -> Book {
    let mut book = Book::default();
    for (shorts, terms) in series {
        book.add(&make::upward(shorts.len()), shorts, *terms);
    }
    book
}

const A: &[u32] = &[60, 200, 95];
const M: &[u32] = &[5, 8, 2, 10, 11];
const EXHIBIT: &[u32] = &[1, 50, 100, 2, 1, 1, 1000, 1, 10, 20];

// The numbers that tests/c and tests/pascal have too.
#[test]
fn one_layout() {
    assert_eq!((size_of::<calls::Job>(), align_of::<calls::Job>(), size_of::<JobAnswer>()), (36, 4, 12));
    assert_eq!(
        [
            offset_of!(calls::Job, first),
            offset_of!(calls::Job, positions),
            offset_of!(calls::Job, method),
            offset_of!(calls::Job, exercised),
            offset_of!(calls::Job, draw),
            offset_of!(calls::Job, increment),
            offset_of!(calls::Job, answer),
        ],
        [0, 4, 8, 12, 16, 20, 24]
    );
    let of_answer = [offset_of!(JobAnswer, refusal), offset_of!(JobAnswer, total), offset_of!(JobAnswer, further)];
    assert_eq!(of_answer, [0, 4, 8]);
    assert_eq!((size_of::<dilbreth::Job>(), align_of::<dilbreth::Job>()), (36, 4));
}

#[test]
fn all_methods_in_one_book() {
    let book = book(&[
        (A, Terms::new(b'W', 175, 1)),
        (&[5, 3, 2], Terms::new(b'P', 4, 0)),
        (M, Terms::new(b'L', 13, 4855)),
        (EXHIBIT, Terms::new(b'R', 50, 395)),
        (A, Terms::new(b'W', 175, 340)),
        (M, Terms::new(b'L', 36, 0)),
    ]);
    let answers = [
        allocated(355, 7),
        allocated(10, 1),
        allocated(36, 18),
        allocated(1186, 396),
        allocated(355, 7),
        allocated(36, 0),
    ];
    let amounts =
        [&[35, 97, 43][..], &[2, 1, 1], &[0, 0, 0, 8, 5], &[0, 0, 0, 0, 0, 0, 50, 0, 0, 0], &[34, 98, 43], M].concat();
    assert_eq!(run(&book), (0, answers.to_vec(), amounts));
}

// No jobs, no positions, or neither.
#[test]
fn empty_books() {
    assert_eq!(run(&Book::default()), (0, vec![], vec![]));
    assert_eq!(run(&Book { room: 3, ..Book::default() }), (0, vec![], vec![UNWRITTEN; 3]));
    let without_jobs = Book { room: 5, ..stretches(4, &[]) };
    assert_eq!(run(&without_jobs), (0, vec![], vec![UNWRITTEN; 5]));
    assert_eq!(run(&stretches(4_096, &[])), (0, vec![], vec![UNWRITTEN; 4_096]));
    for count in [1, 2, 64] {
        let book = Book { room: 1, ..stretches(0, &vec![(0, 0); count]) };
        assert_eq!(run(&book), (0, vec![refused(3); count], vec![UNWRITTEN]));
    }
    kept(&stretches(0, &[(0, 0); 65]), 21);
    kept(&stretches(0, &[(0, 1)]), 22);
    kept(&stretches(0, &[(1, 0)]), 22);
}

#[test]
fn as_many_jobs_as_may_be() {
    let touching: Vec<(u32, u32)> = (0..65).map(|at| (2 * at, 2)).collect();
    let (number, answers, amounts) = run(&stretches(130, &touching[..64]));
    assert_eq!((number, answers), (0, vec![allocated(2, 1); 64]));
    assert_eq!(amounts, [[1, 0].repeat(64), vec![UNWRITTEN; 2]].concat());
    kept(&stretches(130, &touching), 21);
    // Of all 4,096 positions, 64 for each; one position more is 2.
    let full: Vec<(u32, u32)> = (0..64).map(|at| (64 * at, 64)).collect();
    for (method, further) in METHODS.into_iter().zip([1, 1, 1, 2]) {
        let mut book = stretches(4_096, &full);
        for job in &mut book.jobs {
            job.terms = Terms::new(method, 1, 1);
        }
        let (number, answers, amounts) = run(&book);
        assert_eq!((number, answers), (0, vec![allocated(64, further); 64]));
        assert_eq!(amounts.iter().sum::<u32>(), 64);
    }
    kept(&stretches(4_097, &full), 2);
}

#[test]
fn stretches_that_are_taken() {
    for (of_jobs, amounts) in [
        // One; touching; a gap in front, between and after; without positions at any place.
        (&[(0, 8)][..], [1, 0, 0, 0, 0, 0, 0, 0]),
        (&[(0, 3), (3, 5)], [1, 0, 0, 1, 0, 0, 0, 0]),
        (&[(1, 2), (4, 3)], [9, 1, 0, 9, 1, 0, 0, 9]),
        (&[(6, 2)], [9, 9, 9, 9, 9, 9, 1, 0]),
        (&[(0, 0), (0, 3), (3, 0), (3, 0), (5, 0), (5, 3), (8, 0)], [1, 0, 0, 9, 9, 1, 0, 0]),
    ] {
        let (number, answers, found) = run(&stretches(8, of_jobs));
        let expected =
            of_jobs.iter().map(|&(_, count)| if count == 0 { refused(3) } else { allocated(count, 1) }).collect();
        assert_eq!((number, answers), (0, expected), "{of_jobs:?}");
        assert_eq!(found, amounts.map(|amount| if amount == 9 { UNWRITTEN } else { amount }), "{of_jobs:?}");
    }
}

#[test]
fn stretches_that_are_refused() {
    for of_jobs in [
        // One past the end, of one job, of the last and of one before it.
        &[(0, 9)][..],
        &[(8, 1)],
        &[(9, 0)],
        &[(0, 3), (3, 6)],
        &[(0, 3), (4, 5), (9, 0)],
        // Begun one before the end of the one before, without positions too; in another order; twice.
        &[(0, 3), (2, 3)],
        &[(0, 3), (3, 3), (5, 3)],
        &[(0, 3), (2, 0)],
        &[(0, 8), (0, 0)],
        &[(4, 4), (0, 4)],
        &[(0, 4), (0, 4)],
        // Good after a job without positions that begins later.
        &[(5, 0), (4, 4)],
    ] {
        kept(&stretches(8, of_jobs), 22);
    }
}

// First plus positions is an exact sum: in 32 bits some of these are at most 8.
#[test]
fn sums_do_not_wrap() {
    let half = 1 << 31;
    for stretch in [
        (u32::MAX, u32::MAX),
        (u32::MAX, 0),
        (u32::MAX, 1),
        (u32::MAX, 2),
        (u32::MAX - 3, 7),
        (u32::MAX - 3, 12),
        (1, u32::MAX),
        (8, u32::MAX - 7),
        (8, u32::MAX),
        (half, half),
        (half, half + 8),
    ] {
        for of_jobs in [&[stretch][..], &[(0, 3), stretch], &[stretch, (0, 3)], &[(0, 3), stretch, (3, 5)]] {
            kept(&stretches(8, of_jobs), 22);
            kept(&stretches(4_096, of_jobs), 22);
        }
    }
}

// A book that has the faults asked for, by their numbers.
fn with_faults(faults: &[u32]) -> Book {
    let has = |number: u32| faults.contains(&number);
    let length = if has(2) { 4_097 } else { 4_096 };
    let mut book = stretches(length, &vec![(0, 0); if has(21) { 65 } else { 64 }]);
    if has(22) {
        book.jobs[63].positions = u32::MAX;
    }
    if has(4) {
        book.room -= 1;
    }
    if has(1) {
        book.accounts.push(4_098);
    }
    book
}

#[test]
fn refusals_before_any_job_in_order() {
    let order = [1, 2, 4, 21, 22];
    for chosen in 1..1u32 << order.len() {
        let faults: Vec<u32> = (0..order.len()).filter(|at| chosen >> at & 1 == 1).map(|at| order[at]).collect();
        kept(&with_faults(&faults), faults[0]);
    }
    assert_eq!(run(&with_faults(&[])).0, 0);
    // 1 either way and with an empty list, 4 with no room, 4 without a job.
    let one = stretches(1, &[(0, 1)]);
    kept(&Book { accounts: vec![], ..one.clone() }, 1);
    kept(&Book { shorts: vec![], ..one.clone() }, 1);
    kept(&Book { accounts: vec![1, 2], room: 2, ..one.clone() }, 1);
    kept(&Book { room: 0, ..one.clone() }, 4);
    kept(&Book { room: 0, jobs: vec![], ..one }, 4);
}

// Whatever would be refused in a job, a refusal before any job comes first.
#[test]
fn no_job_is_done_before_the_last_is_judged() {
    let terms = Terms::new(b'X', 0, 0).by(0);
    let mut book = book(&[(A, Terms::new(b'W', 175, 1)), (&[0, 0], terms), (M, Terms::new(b'L', 13, 4855))]);
    assert_eq!(run(&book).1, [allocated(355, 7), refused(14), allocated(36, 18)]);
    book.jobs[2].positions = 6;
    kept(&book, 22);
    book.jobs[2].positions = 5;
    book.room = 9;
    kept(&book, 4);
}

// Every number that a job may meet, the job between two good ones.
#[test]
fn a_refused_job_between_two_good_ones() {
    let by = |method, exercised, draw| Terms::new(method, exercised, draw);
    let jobs: [(u32, &[u32], &[u32], Terms); 17] = [
        (14, &[1, 2], &[5, 3], by(b'X', 4, 1)),
        (3, &[], &[], by(b'P', 4, 1)),
        (5, &[2, 2], &[5, 3], by(b'P', 4, 1)),
        (5, &[0, 2], &[5, 3], by(b'W', 4, 1)),
        (5, &[2, 1], &[5, 3], by(b'W', 4, 1)),
        (6, &[1, 2], &[5, 0], by(b'L', 4, 1)),
        (7, &[1, 2], &[MOST, 1], by(b'R', 4, 1)),
        (7, &[1, 2], &[5, u32::MAX], by(b'W', 4, 1)),
        (8, &[1, 2], &[5, 3], by(b'W', 0, 0).by(0)),
        (9, &[1, 2], &[5, 3], by(b'W', 9, 0).by(0)),
        (23, &[1, 2], &[5, 3], by(b'W', 4, 0).by(0)),
        (23, &[1, 2], &[5, 3], by(b'W', 8, 0).by(1_001)),
        (24, &[1, 2], &[1_000_000, 2], by(b'W', 1_000_001, 0).by(1)),
        (10, &[1, 2], &[5, 3], by(b'W', 4, 0)),
        (10, &[1, 2], &[5, 3], by(b'W', 4, 9)),
        (10, &[1, 2], &[5, 3], by(b'L', 4, 0)),
        (10, &[1, 2], &[5, 3], by(b'L', 4, 10_001)),
    ];
    for (number, accounts, shorts, terms) in jobs {
        let mut book = book(&[(A, Terms::new(b'W', 175, 1))]);
        book.add(accounts, shorts, terms);
        book.add(&[1, 2, 3, 4, 5], M, Terms::new(b'L', 13, 4855));
        let unwritten = vec![UNWRITTEN; shorts.len()];
        let amounts = [&[35, 97, 43][..], &unwritten, &[0, 0, 0, 8, 5]].concat();
        let answers = vec![allocated(355, 7), refused(number), allocated(36, 18)];
        assert_eq!(run(&book), (0, answers, amounts), "{number}");
    }
}

// Each byte as the method: 14 comes before a job's other refusals, 3 among them.
#[test]
fn methods_that_are_none() {
    for byte in 0..=255u8 {
        let terms = Terms::new(byte, 5, 1);
        let found =
            run(&book(&[(&[5, 3], terms), (&[], terms), (&[0, 3], terms.by(0)), (&[5], Terms::new(b'P', 5, 0))]));
        let (first, others) = match byte {
            b'W' | b'R' | b'L' | b'P' => (None, [3, 6]),
            _ => (Some(refused(14)), [14, 14]),
        };
        let answers = found.1;
        assert!(answers[0].refusal == 0 || first == Some(answers[0]), "{byte}");
        assert_eq!(answers[1..], [refused(others[0]), refused(others[1]), allocated(5, 0)], "{byte}");
    }
}

// A job of no positions is 3 whatever its S, draw and increment.
#[test]
fn jobs_without_positions() {
    for method in METHODS {
        for number in [0, 1, MOST, u32::MAX] {
            let terms = Terms { method, exercised: number, draw: number, increment: number };
            let found = run(&book(&[(&[], terms), (&[7], Terms::new(b'R', 7, 0)), (&[], terms)]));
            assert_eq!(found, (0, vec![refused(3), allocated(7, 0), refused(3)], vec![7]));
        }
    }
}

// The same accounts in each job, and such as fall from one job to the next; within a job they rise.
#[test]
fn accounts_of_several_jobs() {
    let mut book = Book::default();
    for accounts in [[7, 9], [7, 9], [1, 2], [9, 10], [10, u32::MAX], [1, u32::MAX]] {
        for method in METHODS {
            book.add(&accounts, &[5, 3], Terms::new(method, 8, 0));
        }
    }
    book.add(&[3, 3], &[5, 3], Terms::new(b'P', 8, 0));
    let (number, answers, amounts) = run(&book);
    assert_eq!((number, &answers[..24]), (0, &[allocated(8, 0); 24][..]));
    assert_eq!((answers[24], &amounts[48..]), (refused(5), &[UNWRITTEN; 2][..]));
    assert_eq!(amounts[..48], [5, 3].repeat(24));
}

// T is at most 10,000,000 within a job: four jobs hold four times that, and more than 32 bits with what no job has.
#[test]
fn contracts_of_several_jobs() {
    let mut book = Book::default();
    for method in METHODS {
        book.add(&[4, 8], &[MOST - 1, 1], Terms::new(method, MOST - 1, 1));
        book.gap(&[0], &[u32::MAX]);
    }
    book.add(&[4, 8], &[MOST, 1], Terms::new(b'P', 1, 1));
    let (number, answers, amounts) = run(&book);
    let expected =
        [allocated(MOST, 400_000), allocated(MOST, 1), allocated(MOST, 1_000), allocated(MOST, 2), refused(7)];
    assert_eq!((number, &answers[..]), (0, &expected[..]));
    for of_job in amounts.chunks(3).take(4) {
        assert_eq!((of_job[0] + of_job[1], of_job[2]), (MOST - 1, UNWRITTEN));
    }
    assert_eq!(amounts[12..], [UNWRITTEN; 2]);
}

// Each job by its own increment. 0 is 23 under W and does not stand for 25; the other methods look at none.
#[test]
fn increments_of_several_jobs() {
    let wheel = |increment| Terms::new(b'W', 175, 300).by(increment);
    let lottery = |increment| Terms::new(b'L', 13, 4855).by(increment);
    let tens = Terms::new(b'W', 65, 340).by(10);
    let book = book(&[
        (A, wheel(1_000)),
        (A, wheel(0)),
        (A, tens),
        (M, lottery(0)),
        (A, wheel(25)),
        (A, wheel(1_001)),
        (M, lottery(u32::MAX)),
        (&[2, 1, 3], Terms::new(b'W', 4, 2).by(1)),
    ]);
    let (number, answers, amounts) = run(&book);
    let lottery = allocated(36, 18);
    let expected = [
        allocated(355, 1),
        refused(23),
        allocated(355, 7),
        lottery,
        allocated(355, 7),
        refused(23),
        lottery,
        allocated(6, 4),
    ];
    assert_eq!((number, &answers[..]), (0, &expected[..]));
    let unwritten = [UNWRITTEN; 3];
    assert_eq!(amounts[..9], [&[60, 59, 56][..], &unwritten, &[10, 40, 15]].concat());
    assert_eq!(amounts[17..], [&unwritten[..], &[0, 0, 0, 8, 5], &[1, 1, 2]].concat());
}

// What is in no stretch is kept, before, between and after, and past the lists.
#[test]
fn elements_of_no_job() {
    let mut book = Book::default();
    for method in METHODS {
        book.gap(&[0, 9, 1], &[0, u32::MAX, 7]);
        book.add(&[1, 2, 3], A, Terms::new(method, 355, 0));
    }
    book.gap(&[1], &[1]);
    book.room += 40;
    let (number, _, amounts) = run(&book);
    let expected = [[[UNWRITTEN; 3], [60, 200, 95]].concat().repeat(4), vec![UNWRITTEN; 41]].concat();
    assert_eq!((number, amounts), (0, expected));
}

// A book that was done can be done again: the records hold the answers of the last call.
#[test]
fn the_same_records_again() {
    let mut book = book(&[(A, Terms::new(b'W', 175, 1)), (M, Terms::new(b'L', 13, 4855))]);
    for (exercised, answers) in [
        (175, [allocated(355, 7), allocated(36, 18)]),
        (356, [Answer { refusal: 9, ..allocated(355, 7) }, allocated(36, 18)]),
    ] {
        book.jobs[0].terms.exercised = exercised;
        let (number, found, _) = run(&book);
        assert_eq!((number, &found[..]), (0, &answers[..]));
        for (job, answer) in book.jobs.iter_mut().zip(found) {
            job.answer = answer;
        }
    }
}

// The jobs called one by one, each on lists and an output of its own.
fn one_by_one(book: &Book) -> (Vec<Answer>, Vec<u32>) {
    let mut amounts = vec![UNWRITTEN; book.room];
    let alone = |job: &Job| {
        let [accounts, shorts] = [&book.accounts, &book.shorts].map(|list| list[job.stretch()].to_vec());
        let (refusal, total, further, assigned) =
            library::allocate(job.terms, 0, &Series::by_account(accounts, shorts));
        if refusal > 0 {
            return Answer { refusal, ..job.answer };
        }
        amounts[job.stretch()].copy_from_slice(&assigned);
        Answer { refusal, total, further }
    };
    let answers = book.jobs.iter().map(alone).collect();
    (answers, amounts)
}

// The jobs as books of one, in random order over one output.
fn in_another_order(random: &mut Random, book: &Book) -> (Vec<Answer>, Vec<u32>) {
    let mut records: Vec<calls::Job> = book.jobs.iter().map(|job| library_job(*job)).collect();
    let mut amounts = vec![UNWRITTEN; book.room];
    let mut order: Vec<u32> = (0..records.len() as u32).collect();
    make::shuffle(random, &mut order);
    for at in order {
        let one = std::slice::from_mut(&mut records[at as usize]);
        assert_eq!(calls::allocate_jobs(&book.accounts, &book.shorts, one, &mut amounts), 0);
    }
    (answers(&records, &book.jobs), amounts)
}

// How many calls, and how many jobs of those that were done, had each number.
struct Met {
    calls: [u64; LAST_REFUSAL + 1],
    jobs: [u64; LAST_REFUSAL + 1],
}

impl Met {
    fn new() -> Met {
        Met { calls: [0; LAST_REFUSAL + 1], jobs: [0; LAST_REFUSAL + 1] }
    }

    fn book(&mut self, random: &mut Random, book: &Book) {
        let (number, answers, amounts) = run(book);
        self.calls[number as usize] += 1;
        if number > 0 {
            assert!(answers.iter().all(|answer| *answer == KEPT), "{}", cases::allocate_jobs(book));
            assert!(amounts.iter().all(|amount| *amount == UNWRITTEN), "{}", cases::allocate_jobs(book));
            return;
        }
        for answer in &answers {
            self.jobs[answer.refusal as usize] += 1;
        }
        let found = (answers, amounts);
        assert_eq!(one_by_one(book), found, "{}", cases::allocate_jobs(book));
        assert_eq!(in_another_order(random, book), found, "{}", cases::allocate_jobs(book));
    }

    fn print(&self, what: &str) {
        let shown = |met: &[u64]| {
            let numbers = met.iter().enumerate().filter(|(_, count)| **count > 0);
            numbers.map(|(number, count)| format!("{number}: {count}")).collect::<Vec<_>>().join(", ")
        };
        let [books, jobs] = [&self.calls, &self.jobs].map(|met| met.iter().sum::<u64>());
        println!("{what}: {books} books, by number {}", shown(&self.calls));
        println!("{what}: {jobs} jobs of those done, by number {}", shown(&self.jobs));
    }
}

// Books of a size, every third damaged once or twice.
fn random_books(what: &str, seed: u64, count: usize, size: Size) -> Met {
    let mut random = Random::new(seed);
    let mut met = Met::new();
    for _ in 0..count {
        let mut book = books::book(&mut random, size);
        if random.one_in(3) {
            for _ in 0..random.between(1, 2) {
                books::damage(&mut random, &mut book);
            }
        }
        met.book(&mut random, &book);
    }
    met.print(what);
    met
}

#[test]
fn random_small_books() {
    let size = Size { jobs: 6, positions: 6, total: 40 };
    let met = random_books("jobs, small books", 0x10B5_0001, 40_000, size);
    assert!([0, 1, 2, 4, 21, 22].iter().all(|&number| met.calls[number] > 100));
    assert!([0, 3, 5, 6, 7, 8, 9, 10, 14, 23].iter().all(|&number| met.jobs[number] > 100));
}

#[test]
fn random_books_of_many_jobs() {
    let size = Size { jobs: 64, positions: 64, total: 2_000 };
    let met = random_books("jobs, many jobs", 0x10B5_0002, 5_000, size);
    assert!([0, 1, 2, 4, 21, 22].iter().all(|&number| met.calls[number] > 10));
    assert!([0, 3, 5, 6, 7, 8, 9, 10, 14, 23].iter().all(|&number| met.jobs[number] > 100));
}

#[test]
fn random_long_books() {
    let size = Size { jobs: 6, positions: 2_000, total: u64::from(MOST) };
    let met = random_books("jobs, long books", 0x10B5_0003, 300, size);
    assert!(met.calls[0] > 150 && met.jobs[0] > 300);
}

// The line that a book which differs is printed as.
#[test]
fn printed_cases_run_again() {
    let mut book = book(&[(A, Terms::new(b'W', 65, 340).by(10)), (&[], Terms::new(0, 1, 2).by(3))]);
    book.room = 4;
    let case = cases::allocate_jobs(&book);
    assert_eq!(case, "allocate_jobs 1,2,3 60,200,95 0:3:W:65:340:10,3:0:0:1:2:3 4");
    assert_eq!(cases::again(&case), Ok(true));
    book.room = 2;
    assert_eq!(cases::again(&cases::allocate_jobs(&book)), Ok(false));
    assert_eq!(cases::again(&cases::allocate_jobs(&Book::default())), Ok(true));
}
