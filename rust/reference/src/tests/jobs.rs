// Many series in one call: books worked out by hand, and refusals in their order.

use super::*;
use crate::jobs::{allocate_jobs, Answer, Job};

// What the answers and the output hold before a call.
const KEPT: Answer = Answer { refusal: 71, total: 72, further: 73 };
const UNWRITTEN: u32 = 9;

fn job(first: u32, positions: u32, terms: Terms) -> Job {
    Job { first, positions, terms, answer: KEPT }
}

fn allocated(total: u32, further: u32) -> Answer {
    Answer { refusal: 0, total, further }
}

fn refused(refusal: u32) -> Answer {
    Answer { refusal, ..KEPT }
}

// The answers and the output after a call with `room` for amounts.
fn called(accounts: &[u32], shorts: &[u32], jobs: &[Job], room: usize) -> (Result<(), u32>, Vec<Answer>, Vec<u32>) {
    let mut records = jobs.to_vec();
    let mut amounts = vec![UNWRITTEN; room];
    let found = allocate_jobs(accounts, shorts, &mut records, &mut amounts);
    for (record, job) in records.iter().zip(jobs) {
        assert_eq!(Job { answer: job.answer, ..*record }, *job);
    }
    (found, records.iter().map(|record| record.answer).collect(), amounts)
}

// A, M, the exhibit's method on M, F and A by tens, with two positions of no job.
#[test]
fn a_book_of_known_series() {
    let shorts = [&[60, 200, 95][..], &SHORTS, &[0, 0], &SHORTS, &[5, 3, 2], &[60, 200, 95]].concat();
    let accounts = [&[1, 2, 3][..], &[1, 2, 3, 4, 5], &[0, 0], &[7, 8, 9, 10, 11], &[1, 5, 9], &[2, 3, 4]].concat();
    let jobs = [
        job(0, 3, Terms::new(b'W', 175, 1)),
        job(3, 5, Terms::new(b'L', 13, 4855)),
        job(10, 5, Terms::new(b'R', 13, 17)),
        job(15, 3, Terms::new(b'P', 4, 0)),
        job(18, 3, Terms::new(b'W', 65, 340).by(10)),
    ];
    let answers = [allocated(355, 7), allocated(36, 18), allocated(36, 18), allocated(10, 1), allocated(355, 7)];
    let amounts = [35, 97, 43, 0, 0, 0, 8, 5, 9, 9, 0, 0, 0, 8, 5, 2, 1, 1, 10, 40, 15, 9];
    assert_eq!(called(&accounts, &shorts, &jobs, 22), (Ok(()), answers.to_vec(), amounts.to_vec()));
}

#[test]
fn refused_jobs_record_their_number() {
    let (accounts, shorts) = ([1, 2, 1, 2, 2, 1, 4, 0], [5, 3, 5, 3, 5, 3, 0, 1]);
    let jobs = [
        job(0, 2, Terms::new(b'P', 8, 0)),
        job(2, 2, Terms::new(b'P', 9, 0)),
        job(4, 2, Terms::new(b'P', 1, 0)),
        job(6, 0, Terms::new(b'P', 1, 0)),
        job(6, 0, Terms::new(b'X', 1, 0)),
        job(6, 1, Terms::new(b'L', 1, 1)),
        job(7, 1, Terms::new(b'W', 1, 1)),
    ];
    let answers = [allocated(8, 0), refused(9), refused(5), refused(3), refused(14), refused(6), refused(5)];
    assert_eq!(called(&accounts, &shorts, &jobs, 8), (Ok(()), answers.to_vec(), vec![5, 3, 9, 9, 9, 9, 9, 9]));
}

#[test]
fn books_without_positions_or_jobs() {
    assert_eq!(called(&[], &[], &[], 0), (Ok(()), vec![], vec![]));
    assert_eq!(called(&[1], &[5], &[], 2), (Ok(()), vec![], vec![9, 9]));
    let none = job(0, 0, Terms::new(b'W', 1, 1));
    assert_eq!(called(&[], &[], &[none; 64], 1), (Ok(()), vec![refused(3); 64], vec![9]));
}

// Each fault alone is its number; of several the first in the order counts.
#[test]
fn refusals_before_any_job() {
    let whole = Terms::new(b'P', 1, 0);
    let number = |accounts: usize, shorts: usize, jobs: &[Job], room: usize| {
        let (found, answers, amounts) = called(&upward(accounts), &vec![1; shorts], jobs, room);
        assert!(found.is_ok() || answers.iter().all(|answer| *answer == KEPT));
        assert!(found.is_ok() || amounts.iter().all(|amount| *amount == UNWRITTEN));
        found.err().unwrap_or(0)
    };
    let (good, late) = (job(0, 3, whole), job(0, 5_000, whole));
    assert_eq!(number(3, 3, &[good; 1], 3), 0);
    assert_eq!(number(4_097, 4_096, &[late; 65], 0), 1);
    assert_eq!(number(3, 4, &[good], 4), 1);
    assert_eq!(number(4_097, 4_097, &[late; 65], 0), 2);
    assert_eq!(number(4_096, 4_096, &[late; 65], 4_095), 4);
    assert_eq!(number(4_096, 4_096, &[late; 65], 4_096), 21);
    assert_eq!(number(4_096, 4_096, &[late; 64], 4_096), 22);
}

#[test]
fn stretches_in_order() {
    let number = |stretches: &[(u32, u32)]| {
        let jobs: Vec<Job> =
            stretches.iter().map(|&(first, positions)| job(first, positions, Terms::new(b'P', 1, 0))).collect();
        called(&upward(8), &[1; 8], &jobs, 8).0.err().unwrap_or(0)
    };
    for stretches in [&[(0, 3), (3, 5)][..], &[(0, 3), (4, 4)], &[(0, 3), (3, 0), (3, 5), (8, 0)], &[(8, 0)], &[(2, 1)]]
    {
        assert_eq!(number(stretches), 0, "{stretches:?}");
    }
    for stretches in [
        &[(0, 3), (2, 5)][..],
        &[(0, 3), (3, 6)],
        &[(4, 4), (0, 3)],
        &[(0, 3), (2, 0)],
        &[(9, 0)],
        &[(u32::MAX, u32::MAX)],
        &[(u32::MAX, 1)],
        &[(u32::MAX - 3, 7)],
        &[(1, u32::MAX)],
        &[(0, 8), (8, 1)],
    ] {
        assert_eq!(number(stretches), 22, "{stretches:?}");
    }
}
