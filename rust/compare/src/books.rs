//! Makes broker's books: lists, jobs and damage to them.

use reference::jobs::{Answer, Job, MOST_JOBS};
use reference::{Terms, MOST_POSITIONS};

use crate::make::{self, METHODS};
use crate::random::Random;

/// What the answer of a made job holds: no refusal's number, and neither a T nor a further number.
pub const KEPT: Answer = Answer { refusal: 0xC0DE_0001, total: 0xC0DE_0002, further: 0xC0DE_0003 };

pub fn job(first: u32, positions: u32, terms: Terms) -> Job {
    Job { first, positions, terms, answer: KEPT }
}

/// The values of a call for many series; `room` is the length of its output.
#[derive(Clone, Debug, Default)]
pub struct Book {
    pub accounts: Vec<u32>,
    pub shorts: Vec<u32>,
    pub jobs: Vec<Job>,
    pub room: usize,
}

impl Book {
    /// The length of the lists, where they are of one length.
    pub fn len(&self) -> usize {
        self.shorts.len()
    }

    pub fn is_empty(&self) -> bool {
        self.shorts.is_empty()
    }

    /// Adds a job with its positions after those that there are; the output grows with them.
    pub fn add(&mut self, accounts: &[u32], shorts: &[u32], terms: Terms) {
        self.jobs.push(job(self.len() as u32, shorts.len() as u32, terms));
        self.gap(accounts, shorts);
    }

    /// Adds positions that no job has.
    pub fn gap(&mut self, accounts: &[u32], shorts: &[u32]) {
        self.accounts.extend(accounts);
        self.shorts.extend(shorts);
        self.room = self.len();
    }
}

/// How large a made book may be.
#[derive(Clone, Copy)]
pub struct Size {
    pub jobs: usize,
    /// Of one job.
    pub positions: u64,
    /// Of one job.
    pub total: u64,
}

// One job with a series of its own: at times without positions, with a spoiled list or with a method that is none.
fn add_job(random: &mut Random, size: Size, book: &mut Book) {
    let mut method = random.pick(&METHODS);
    let count = if random.one_in(12) { 0 } else { random.spread(size.positions) as usize };
    if book.len() + count > MOST_POSITIONS {
        return;
    }
    let (mut accounts, mut shorts) = (vec![], vec![]);
    let mut total = 1;
    if count > 0 {
        let most = (count as u64).max(random.spread(size.total));
        let exact = random.one_in(3);
        let mut list = make::series(random, count, most, exact);
        total = list.total();
        if random.one_in(8) {
            make::spoil(random, &mut list);
        }
        (accounts, shorts) = (list.accounts, list.numbers);
        accounts.resize(count, 7);
        shorts.resize(count, 7);
    }
    let terms = make::terms(random, method, count, total);
    if random.one_in(16) {
        let any = random.bits() as u8;
        method = random.pick(&[b'w', b'X', 0, 255, b'W' | 128, any]);
    }
    book.add(&accounts, &shorts, Terms { method, ..terms });
}

// Positions of no job, mostly none; any numbers.
fn add_gap(random: &mut Random, book: &mut Book) {
    let count = if random.one_in(3) { random.between(1, 3) as usize } else { 0 };
    if book.len() + count <= MOST_POSITIONS {
        let [accounts, shorts] = [(); 2].map(|_| {
            let any = random.bits() as u32;
            (0..count).map(|_| random.pick(&[0, 1, 5, 20_000_000, any, u32::MAX])).collect::<Vec<u32>>()
        });
        book.gap(&accounts, &shorts);
    }
}

/// A book that is not refused as a whole.
pub fn book(random: &mut Random, size: Size) -> Book {
    let mut book = Book::default();
    let jobs = match random.below(8) {
        0 => size.jobs,
        1 => random.index(3).min(size.jobs),
        _ => random.index(size.jobs + 1),
    };
    add_gap(random, &mut book);
    for _ in 0..jobs {
        add_job(random, size, &mut book);
        add_gap(random, &mut book);
    }
    book.room += if random.one_in(2) { 0 } else { random.index(9) };
    book
}

// Damage to the stretch of a job: it ends too late or begins too early, by one or by much, or where first plus positions
// passes 32 bits.
fn damage_stretch(random: &mut Random, length: usize, job: &mut Job) {
    let past = random.between(1, 3) as u32;
    match random.below(9) {
        0 => job.first = (length as u32 + 1).saturating_sub(job.positions),
        1 => job.positions = (length as u32 + 1).saturating_sub(job.first),
        2 => job.positions = job.positions.saturating_add(past),
        3 => job.first = job.first.saturating_sub(1),
        4 => job.first = job.first.saturating_add(past),
        5 => (job.first, job.positions) = (u32::MAX, random.pick(&[0, 1, u32::MAX])),
        6 => (job.first, job.positions) = (u32::MAX - past, past + 1 + random.index(length + 1) as u32),
        7 => job.positions = u32::MAX - random.index(length + 2) as u32,
        _ => (job.first, job.positions) = (1 << 31, 1 << 31),
    }
}

/// Damages a book in one way; most damages have it refused as a whole.
pub fn damage(random: &mut Random, book: &mut Book) {
    let (length, jobs) = (book.len(), book.jobs.len());
    match random.below(12) {
        0 => drop(book.accounts.pop()),
        1 => drop(book.shorts.pop()),
        2 => book.accounts.push(1),
        3 => {
            // Past the number of positions that there may be, or just not.
            let wanted = random.between(MOST_POSITIONS as u64, MOST_POSITIONS as u64 + 2) as usize;
            book.gap(&vec![1; wanted.saturating_sub(length)], &vec![1; wanted.saturating_sub(length)]);
        }
        4 => book.room = length.saturating_sub(1),
        5 => book.room = random.index(length + 1),
        6 => {
            let wanted = random.between(MOST_JOBS as u64, MOST_JOBS as u64 + 2) as usize;
            let more = job(length as u32, 0, Terms::new(b'W', 1, 1));
            book.jobs.resize(wanted.max(jobs), more);
        }
        7 if jobs > 1 => {
            let [one, other] = [(); 2].map(|_| random.index(jobs));
            book.jobs.swap(one, other);
        }
        8 if jobs > 0 => {
            let at = random.index(jobs);
            book.jobs.insert(at, book.jobs[at]);
        }
        _ if jobs > 0 => {
            let at = random.index(jobs);
            damage_stretch(random, length, &mut book.jobs[at]);
        }
        _ => {}
    }
}
