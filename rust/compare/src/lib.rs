//! Holds the static library and the program against the separately written version.
//! Each function here runs one case on both and compares the whole answer; a case that
//! differs is printed as a line that `cargo run --release --example again` takes.

pub mod archive;
pub mod books;
pub mod branches;
pub mod cases;
pub mod days;
pub mod library;
pub mod make;
pub mod plain;
pub mod program;
pub mod random;

use dilbreth::calls;
use reference::day::{AfterDay, Investor, MarketMaker};
use reference::jobs::{Answer, Job};
use reference::Allocation;
pub use reference::{Form, List, Terms, DEFAULT_INCREMENT, FORMS};

// What the outputs hold before a call: no amount, no account in use, no byte of a text.
const EDGE: usize = 8;

fn kept_number(at: usize) -> u32 {
    0xC0DE_0000 ^ at as u32
}

fn kept_byte(at: usize) -> u8 {
    0x80 | (at * 37) as u8
}

/// An output of the length asked for, with an edge on both sides that no call may touch.
struct Lent<T> {
    all: Vec<T>,
    room: usize,
}

impl<T: Copy + PartialEq> Lent<T> {
    fn new(room: usize, kept: fn(usize) -> T) -> Lent<T> {
        Lent { all: (0..room + 2 * EDGE).map(kept).collect(), room }
    }

    fn slice(&mut self) -> &mut [T] {
        &mut self.all[EDGE..EDGE + self.room]
    }

    /// Whether the output is `written` followed by what it held before, the edges included.
    fn is(&self, written: &[T], kept: fn(usize) -> T) -> bool {
        let end = EDGE + written.len();
        written.len() <= self.room
            && self.all[EDGE..end] == *written
            && (0..EDGE).chain(end..self.all.len()).all(|i| self.all[i] == kept(i))
    }

    fn first_difference(&self, written: &[T], kept: fn(usize) -> T) -> String {
        for i in 0..self.all.len() {
            let want = if i >= EDGE && i < EDGE + written.len() { written[i - EDGE] } else { kept(i) };
            if self.all[i] != want {
                return format!("first at index {}", i as isize - EDGE as isize);
            }
        }
        "nowhere".to_string()
    }
}

// The first difference of each output of numbers.
fn first_differences<const N: usize>(lent: &[Lent<u32>; N], lists: [&[u32]; N]) -> [String; N] {
    std::array::from_fn(|at| lent[at].first_difference(lists[at], kept_number))
}

// The amounts add up to S, none is above its shorts, and under P each is less than one from its exact share.
fn fair(terms: Terms, shorts: &[u32], found: &Allocation) -> bool {
    let wide = |n: &u32| u64::from(*n);
    let (t, s) = (u64::from(found.total), u64::from(terms.exercised));
    found.amounts.iter().map(wide).sum::<u64>() == s
        && shorts.iter().zip(&found.amounts).all(|(short, amount)| {
            amount <= short && (terms.method != b'P' || (wide(short) * s).abs_diff(t * wide(amount)) < t)
        })
}

/// The form as the wrapper has it.
pub fn library_form(form: Form) -> dilbreth::Form {
    match form {
        Form::Shorts => dilbreth::Form::Shorts,
        Form::LastNumbers => dilbreth::Form::LastNumbers,
    }
}

/// Adds the library's amounts up over all starting places: each position gets its shorts × S. Answers whether each
/// starting place was handed back. The terms are those of W, L or R, and their draw is not looked at.
#[track_caller]
pub fn shares(terms: Terms, list: &make::Series) -> bool {
    let Terms { method, exercised, .. } = terms;
    let (form, shorts) = (library_form(list.form).number(), list.list().shorts());
    let total = shorts.iter().sum();
    let mut sums = vec![0u64; shorts.len()];
    // A whole series and one position have no starting place.
    let started = method != b'W' && exercised < total && shorts.len() > 1;
    for place in 1..=total {
        // Under L and R a draw that leads to the place; under L there is one where T is at most 10,000.
        let draw = match method {
            b'L' => place * 10_000 / total,
            b'R' => place - 1,
            _ => place,
        };
        let (number, _, further, amounts) = library::allocate(Terms { draw, ..terms }, form, list);
        assert_eq!(number, 0, "{terms:?} {list:?}");
        if method != b'W' {
            assert_eq!(further, if started { place } else { 0 });
        }
        for (sum, &amount) in sums.iter_mut().zip(&amounts) {
            *sum += u64::from(amount);
        }
    }
    for (sum, &short) in sums.iter().zip(&shorts) {
        assert_eq!(*sum, u64::from(short) * u64::from(exercised), "{terms:?} {list:?}");
    }
    started
}

// Holds the library's answer to an allocating call against the one expected; answers 0 or the number of the refusal.
// `room` is the length of the output.
fn hold(terms: Terms, list: List, room: usize, expected: &Result<Allocation, u32>) -> Result<u32, String> {
    let Terms { method, exercised, draw, increment } = terms;
    let List { form, codes, accounts, numbers } = list;
    let mut lent = Lent::new(room, kept_number);
    let (mut total, mut further) = (kept_number(1), kept_number(2));
    let number = calls::allocate(
        method,
        exercised,
        draw,
        increment,
        library_form(form).number(),
        codes,
        accounts,
        numbers,
        lent.slice(),
        &mut total,
        &mut further,
    );
    let (want, written) = match expected {
        Ok(a) => ((0, a.total, a.further), &a.amounts[..]),
        Err(n) => ((*n, kept_number(1), kept_number(2)), &[][..]),
    };
    let found = (number, total, further);
    if found == want && lent.is(written, kept_number) {
        return Ok(number);
    }
    Err(format!(
        "{}\n  answer, T, further: expected {want:?}, found {found:?}; amounts differ {}",
        cases::allocate(terms, list, room),
        lent.first_difference(written, kept_number)
    ))
}

// What a list meets in the other form: the same, but for 6 and 20.
fn exchanged(number: u32) -> u32 {
    match number {
        6 => 20,
        20 => 6,
        other => other,
    }
}

/// The allocating call, and the same with the list in the other form; answers 0 or the number of the refusal.
pub fn allocate(terms: Terms, list: List, room: usize) -> Result<u32, String> {
    let expected = reference::allocate(terms, list, room);
    let number = hold(terms, list, room, &expected)?;
    if let Ok(found) = &expected {
        if !fair(terms, &list.shorts(), found) {
            let case = cases::allocate(terms, list, room);
            return Err(format!("{case}\n  both give {:?}, which is no fair share", found.amounts));
        }
    }
    let (form, numbers) = make::in_other_form(list);
    let other = List { form, numbers: &numbers, ..list };
    hold(terms, other, room, &expected.map_err(exchanged))?;
    Ok(number)
}

/// A job as the library has it.
pub fn library_job(job: Job) -> calls::Job {
    let Job { first, positions, terms: Terms { method, exercised, draw, increment }, answer } = job;
    let Answer { refusal, total, further } = answer;
    let answer = calls::JobAnswer { refusal, total, further };
    calls::Job { first, positions, method, exercised, draw, increment, answer }
}

// A record in which no two numbers are equal.
fn kept_job(at: usize) -> calls::Job {
    let [first, positions, exercised, draw, increment, refusal, total, further] =
        [1, 2, 3, 4, 5, 6, 7, 8].map(|part| kept_number(at + (part << 8)));
    let answer = calls::JobAnswer { refusal, total, further };
    calls::Job { first, positions, method: kept_byte(at), exercised, draw, increment, answer }
}

/// The call for many series; answers its number and the answers of the jobs.
pub fn allocate_jobs(book: &books::Book) -> Result<(u32, Vec<Answer>), String> {
    let books::Book { accounts, shorts, jobs, room } = book;
    let [mut lent, mut expected] = [(); 2].map(|_| Lent::new(*room, kept_number));
    let mut done = jobs.clone();
    let want = reference::jobs::allocate_jobs(accounts, shorts, &mut done, expected.slice()).err().unwrap_or(0);
    let mut records = Lent::new(jobs.len(), kept_job);
    for (record, job) in records.slice().iter_mut().zip(jobs) {
        *record = library_job(*job);
    }
    let number = calls::allocate_jobs(accounts, shorts, records.slice(), lent.slice());
    let want_records: Vec<calls::Job> = done.iter().map(|job| library_job(*job)).collect();
    let written = expected.slice();
    if number == want && records.is(&want_records, kept_job) && lent.is(written, kept_number) {
        return Ok((number, done.iter().map(|job| job.answer).collect()));
    }
    Err(format!(
        "{}\n  answer: expected {want}, found {number}; records differ {}, amounts differ {}",
        cases::allocate_jobs(book),
        records.first_difference(&want_records, kept_job),
        lent.first_difference(written, kept_number)
    ))
}

/// The merging call; answers 0 or the number of the refusal.
pub fn merge(branches: &branches::Branches) -> Result<u32, String> {
    let expected = reference::merge::merge(branches.positions(), branches.rooms);
    let mut lent = branches.rooms.map(|room| Lent::new(room, kept_number));
    let (mut positions, mut total) = (!3, kept_number(1));
    let kept = (positions, total);
    let [(first_accounts, first_shorts), (second_accounts, second_shorts)] = branches.positions();
    let [accounts, shorts] = lent.each_mut().map(Lent::slice);
    let number = calls::merge(
        first_accounts,
        first_shorts,
        second_accounts,
        second_shorts,
        accounts,
        shorts,
        &mut positions,
        &mut total,
    );
    let (want, lists) = match &expected {
        Ok(merged) => ((0, (merged.accounts.len(), merged.total)), [&merged.accounts[..], &merged.shorts]),
        Err(n) => ((*n, kept), [&[][..]; 2]),
    };
    let found = (number, (positions, total));
    if found == want && lent.iter().zip(lists).all(|(lent, list)| lent.is(list, kept_number)) {
        return Ok(number);
    }
    Err(format!(
        "{}\n  answer, positions and T: expected {want:?}, found {found:?}; accounts, shorts differ {:?}",
        cases::merge(branches),
        first_differences(&lent, lists)
    ))
}

/// The reading call, with lent lists of the lengths for codes, accounts and numbers; answers whether the text was
/// accepted.
pub fn read(text: &[u8], rooms: [usize; 3]) -> Result<bool, String> {
    let expected = reference::read(text, rooms);
    let mut lent = rooms.map(|room| Lent::new(room, kept_number));
    let [exercised, draw, increment, mut form] = [1, 2, 3, 4].map(kept_number);
    let mut terms = Terms { method: kept_byte(1), exercised, draw, increment };
    let mut positions = !3;
    let kept = (terms, form, positions);
    let [codes, accounts, numbers] = lent.each_mut().map(Lent::slice);
    let number = calls::read(
        text,
        &mut terms.method,
        &mut terms.exercised,
        &mut terms.draw,
        &mut terms.increment,
        &mut form,
        codes,
        accounts,
        numbers,
        &mut positions,
    );
    let (want, lists) = match &expected {
        Ok(s) => {
            ((0, (s.terms, library_form(s.form).number(), s.numbers.len())), [&s.codes[..], &s.accounts, &s.numbers])
        }
        Err(n) => ((*n, kept), [&[][..]; 3]),
    };
    let found = (number, (terms, form, positions));
    if found == want && lent.iter().zip(lists).all(|(lent, list)| lent.is(list, kept_number)) {
        return Ok(number == 0);
    }
    Err(format!(
        "{}\n  answer and terms: expected {want:?}, found {found:?}; codes, accounts, numbers differ {:?}",
        cases::read(text, rooms),
        first_differences(&lent, lists)
    ))
}

// Holds a call that writes bytes to an output of the length, and hands back how many, against those expected; answers
// whether it was accepted. `case` shows it.
fn hold_bytes(
    expected: Result<Vec<u8>, u32>,
    room: usize,
    call: impl FnOnce(&mut [u8], &mut usize) -> u32,
    case: impl FnOnce() -> String,
) -> Result<bool, String> {
    let mut output = Lent::new(room, kept_byte);
    let mut length = !3;
    let number = call(output.slice(), &mut length);
    let (want, written) = match &expected {
        Ok(bytes) => ((0, bytes.len()), &bytes[..]),
        Err(n) => ((*n, !3), &[][..]),
    };
    let found = (number, length);
    if found == want && output.is(written, kept_byte) {
        return Ok(number == 0);
    }
    Err(format!(
        "{}\n  answer and length: expected {want:?}, found {found:?}; bytes differ {}",
        case(),
        output.first_difference(written, kept_byte)
    ))
}

/// The writing call; answers whether the text was written.
pub fn write(terms: Terms, list: List, room: usize) -> Result<bool, String> {
    let Terms { method, exercised, draw, increment } = terms;
    let List { form, codes, accounts, numbers } = list;
    let form = library_form(form).number();
    hold_bytes(
        reference::write(terms, list, room),
        room,
        |text, length| calls::write(method, exercised, draw, increment, form, codes, accounts, numbers, text, length),
        || cases::write(terms, list, room),
    )
}

/// The changing call; answers whether the changed text was written.
pub fn change(text: &[u8], room: usize) -> Result<bool, String> {
    let expected = reference::change(text, room);
    hold_bytes(expected, room, |output, length| calls::change(text, output, length), || cases::change(text, room))
}

/// The responding call; answers whether the output was long enough.
pub fn respond(text: &[u8], room: usize) -> Result<bool, String> {
    let expected = reference::respond(text, room);
    hold_bytes(expected, room, |output, length| calls::respond(text, output, length), || cases::respond(text, room))
}

/// The investor's call of the library; `after` receives limit, long and short.
pub fn investor(day: u32, counts: Investor, after: &mut [u32; 3]) -> u32 {
    let [opening_long, opening_short, opening_purchases, opening_sales, closing_purchases, closing_sales, exercised] =
        counts;
    let [limit, long, short] = after;
    calls::process_investor(
        day,
        opening_long,
        opening_short,
        opening_purchases,
        opening_sales,
        closing_purchases,
        closing_sales,
        exercised,
        limit,
        long,
        short,
    )
}

/// The market-maker's call of the library.
pub fn market_maker(day: u32, counts: MarketMaker, limit: &mut u32) -> u32 {
    let [opening_long, opening_short, purchases, sales] = counts;
    calls::process_market_maker(day, opening_long, opening_short, purchases, sales, limit)
}

// No contract is lost, and on the final day nobody is left both long and short.
fn balanced(day: u32, counts: Investor, [_, long, short]: [u32; 3]) -> bool {
    let [opening_long, opening_short, opening_purchases, opening_sales, closing_purchases, closing_sales, exercised] =
        counts.map(u64::from);
    let sales = opening_sales + closing_sales;
    let purchases = opening_purchases + closing_purchases;
    u64::from(long) + opening_short + sales + exercised == u64::from(short) + opening_long + purchases
        && (day == 0 || long == 0 || short == 0)
}

// The limit is the same where nothing is exercised, and on an ordinary day no lower than on the final one.
fn limited(day: u32, counts: Investor, limit: u32) -> bool {
    let [same, ordinary, last] = [day, 0, 1].map(|day| {
        let (mut counts, mut after) = (counts, [0; 3]);
        counts[6] = 0;
        (investor(day, counts, &mut after) == 0).then_some(after[0])
    });
    same == Some(limit) && last.is_some() && ordinary >= last
}

/// The investor's call, compared; answers 0 or the number of the refusal.
pub fn process_investor(day: u32, counts: Investor) -> Result<u32, String> {
    let expected = reference::day::process_investor(day, counts);
    let mut lent = Lent::new(3, kept_number);
    let after: &mut [u32; 3] = lent.slice().try_into().expect("three numbers");
    let number = investor(day, counts, after);
    let found = *after;
    let (want, written) = match expected {
        Ok(AfterDay { limit, long, short }) => (0, vec![limit, long, short]),
        Err(n) => (n, vec![]),
    };
    if number != want || !lent.is(&written, kept_number) {
        return Err(format!(
            "{}\n  expected {want} and {written:?}, found {number} and {found:?}; limit, long, short differ {}",
            cases::process_investor(day, counts),
            lent.first_difference(&written, kept_number)
        ));
    }
    if number == 0 && !(balanced(day, counts, found) && limited(day, counts, found[0])) {
        let case = cases::process_investor(day, counts);
        return Err(format!("{case}\n  both give {found:?}, against the laws of a day"));
    }
    Ok(number)
}

/// The market-maker's call, compared; answers 0 or the number of the refusal.
pub fn process_market_maker(day: u32, counts: MarketMaker) -> Result<u32, String> {
    let expected = reference::day::process_market_maker(day, counts);
    let mut lent = Lent::new(1, kept_number);
    let number = market_maker(day, counts, &mut lent.slice()[0]);
    let found = lent.slice()[0];
    let (want, written) = match expected {
        Ok(limit) => (0, vec![limit]),
        Err(n) => (n, vec![]),
    };
    if number != want || !lent.is(&written, kept_number) {
        return Err(format!(
            "{}\n  expected {want} and {written:?}, found {number} and {found}; the limit differs {}",
            cases::process_market_maker(day, counts),
            lent.first_difference(&written, kept_number)
        ));
    }
    let [ordinary, last] = [0, 1].map(|day| {
        let mut limit = 0;
        (market_maker(day, counts, &mut limit) == 0).then_some(limit)
    });
    if number == 0 && !(last.is_some() && ordinary >= last) {
        let case = cases::process_market_maker(day, counts);
        return Err(format!("{case}\n  both give {found}, against the laws of a day: {ordinary:?}, {last:?}"));
    }
    Ok(number)
}

/// The call for the words of a number; answers whether the line fitted.
pub fn explain(number: u32, line: &[u8], room: usize) -> Result<bool, String> {
    let mut output = Lent::new(room, kept_byte);
    let length = calls::explain(number, output.slice());
    let fits = line.len() <= room;
    let written = if fits { line } else { &[][..] };
    if length == line.len() && output.is(written, kept_byte) {
        return Ok(fits);
    }
    Err(format!(
        "{}\n  length: expected {}, found {length}; bytes differ {}",
        cases::explain(number, line, room),
        line.len(),
        output.first_difference(written, kept_byte)
    ))
}

/// The highest number of a refusal.
pub const LAST_REFUSAL: usize = 24;

/// Counts the cases of a test; a case that differs ends it.
pub struct Count {
    what: &'static str,
    accepted: u64,
    refused: u64,
    undrawn: [u64; 2],
    met: [u64; LAST_REFUSAL + 1],
}

impl Count {
    pub fn new(what: &'static str) -> Count {
        Count { what, accepted: 0, refused: 0, undrawn: [0; 2], met: [0; LAST_REFUSAL + 1] }
    }

    /// One allocating call as a case; answers 0 or the number of the refusal.
    #[track_caller]
    pub fn allocate(&mut self, terms: Terms, list: List, room: usize) -> u32 {
        let outcome = allocate(terms, list, room);
        let number = outcome.as_ref().map_or(0, |number| *number);
        self.met[number as usize] += 1;
        if self.case(outcome.map(|number| number == 0)) {
            self.allocated(terms, list);
        }
        number
    }

    /// How many allocating calls were refused by each of the numbers.
    pub fn met<const N: usize>(&self, numbers: [usize; N]) -> [u64; N] {
        numbers.map(|number| self.met[number])
    }

    /// Counts an allocation where its draw is out of range.
    pub fn allocated(&mut self, terms: Terms, list: List) {
        let total = list.shorts().iter().sum();
        if reference::judge_draw(terms, total).is_err() {
            self.undrawn[usize::from(terms.exercised < total)] += 1;
        }
    }

    /// Whole series, and others of one position, that were allocated with a draw out of range.
    pub fn undrawn(&self) -> [u64; 2] {
        self.undrawn
    }

    #[track_caller]
    pub fn case(&mut self, outcome: Result<bool, String>) -> bool {
        match outcome {
            Ok(true) => self.accepted += 1,
            Ok(false) => self.refused += 1,
            Err(shown) => panic!("{} differs after {} cases:\n{shown}", self.what, self.cases()),
        }
        outcome == Ok(true)
    }

    pub fn cases(&self) -> u64 {
        self.accepted + self.refused
    }

    pub fn print(&self) {
        println!("{}: {} cases, {} accepted, {} refused", self.what, self.cases(), self.accepted, self.refused);
        let [whole, one] = self.undrawn;
        if whole + one > 0 {
            println!("{}: {whole} whole series and {one} of one position with a draw out of range", self.what);
        }
        let [order, again, none, last] = self.met([5, 19, 6, 20]);
        if again + last > 0 {
            println!("{}: refused by 5 {order}, by 19 {again}, by 6 {none}, by 20 {last}", self.what);
        }
        let [increment, blocks] = self.met([23, 24]);
        if increment + blocks > 0 {
            println!("{}: refused by 23 {increment}, by 24 {blocks}", self.what);
        }
    }
}
