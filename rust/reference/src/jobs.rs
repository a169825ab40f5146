//! Many series in one call: a broker's book.

use std::ops::Range;

use crate::{allocate, first, Allocation, List, Terms, MOST_POSITIONS};

pub const MOST_JOBS: usize = 64;

/// The field of a record for the answer; a refused job writes its number only.
#[derive(Clone, Copy, Debug, PartialEq, Eq)]
pub struct Answer {
    /// 0, or the number of the refusal.
    pub refusal: u32,
    pub total: u32,
    pub further: u32,
}

/// A record: the first position, counted from 0, and the number of positions, the terms, and the answer.
#[derive(Clone, Copy, Debug, PartialEq, Eq)]
pub struct Job {
    pub first: u32,
    pub positions: u32,
    pub terms: Terms,
    pub answer: Answer,
}

impl Job {
    /// The places of its positions in the lists.
    pub fn stretch(&self) -> Range<usize> {
        let first = self.first as usize;
        first..first + self.positions as usize
    }
}

/// The first refusal before any job that applies; `room` is the length of the output.
fn judge(accounts: &[u32], shorts: &[u32], jobs: &[Job], room: usize) -> Result<(), u32> {
    first(&[
        (1, accounts.len() != shorts.len()),
        (2, shorts.len() > MOST_POSITIONS),
        (4, room < shorts.len()),
        (21, jobs.len() > MOST_JOBS),
    ])?;
    let mut previous_end = 0;
    for job in jobs {
        let end = u64::from(job.first) + u64::from(job.positions);
        first(&[(22, end > shorts.len() as u64 || u64::from(job.first) < previous_end)])?;
        previous_end = end;
    }
    Ok(())
}

/// The call for many series: each job in turn is allocated from its stretch of the lists, the code being the account
/// number, into its stretch of the output.
pub fn allocate_jobs(accounts: &[u32], shorts: &[u32], jobs: &mut [Job], amounts: &mut [u32]) -> Result<(), u32> {
    judge(accounts, shorts, jobs, amounts.len())?;
    for job in jobs {
        let stretch = job.stretch();
        let list = List::by_account(&accounts[stretch.clone()], &shorts[stretch.clone()]);
        match allocate(job.terms, list, stretch.len()) {
            Ok(Allocation { amounts: assigned, total, further }) => {
                amounts[stretch].copy_from_slice(&assigned);
                job.answer = Answer { refusal: 0, total, further };
            }
            Err(number) => job.answer.refusal = number,
        }
    }
    Ok(())
}
