//! Many series in one call.

use std::ops::Range;

use crate::{accepted, calls, Allocated, Method, Refused};

/// The most jobs of one call.
pub const MOST_JOBS: usize = 64;

// The refusal in a record that no call has answered; no refusal has this number.
const UNANSWERED: u32 = u32::MAX;

/// One series of a broker's book: its stretch of the lists, what `allocate` takes for it, and the answer.
#[repr(transparent)]
#[derive(Clone, Copy, Debug, PartialEq, Eq)]
pub struct Job(calls::Job);

impl Job {
    /// `first` is the series' first position in the lists, counted from 0. The increment is looked at under the wheel
    /// only, where 0 is refused; `DEFAULT_INCREMENT` is that of a house which has no other.
    pub fn new(first: u32, positions: u32, method: Method, exercised: u32, draw: u32, increment: u32) -> Job {
        let answer = calls::JobAnswer { refusal: UNANSWERED, total: 0, further: 0 };
        Job(calls::Job { first, positions, method: method.byte(), exercised, draw, increment, answer })
    }

    /// What the job was answered by the last call that was not itself refused; none before there was one.
    pub fn answer(&self) -> Option<Result<Allocated, Refused>> {
        let calls::JobAnswer { refusal, total, further } = self.0.answer;
        (refusal != UNANSWERED).then(|| accepted(refusal).map(|()| Allocated { total, further }))
    }

    /// The job's places in the lists and in the output.
    pub fn stretch(&self) -> Range<usize> {
        let first = self.0.first as usize;
        first..first + self.0.positions as usize
    }
}

/// Assigns each series of a book as `allocate` does, in the form of shorts and with the accounts as codes. The stretches
/// stand in the order of the jobs; they may touch, and an account may stand in several. `amounts` receives those of each
/// position at its place in the lists. A refused job keeps its stretch of the output, as do the positions of no job, and
/// the jobs after it go on: each has its own answer in its record. The call itself is refused, before any job and with
/// all kept, by 1, 2 and 4 for the whole lists, 21 for more than `MOST_JOBS` jobs, and 22 for a stretch that ends past
/// the lists or begins before the one before it ended.
///
/// ```
/// use dilbreth::{allocate_jobs, Allocated, Job, Method, Refused, DEFAULT_INCREMENT};
///
/// let accounts = [1, 2, 3, 1, 2, 3, 4, 5, 2, 7];
/// let shorts = [60, 200, 95, 5, 8, 2, 10, 11, 3, 1];
/// let mut jobs = [
///     Job::new(0, 3, Method::Wheel, 175, 1, DEFAULT_INCREMENT),
///     Job::new(3, 5, Method::Lottery, 13, 4855, DEFAULT_INCREMENT),
///     Job::new(8, 2, Method::ProRata, 5, 0, DEFAULT_INCREMENT),
/// ];
/// assert_eq!(jobs[0].answer(), None);
///
/// let mut amounts = [0; 10];
/// allocate_jobs(&accounts, &shorts, &mut jobs, &mut amounts)?;
///
/// assert_eq!(jobs[0].answer(), Some(Ok(Allocated { total: 355, further: 7 })));
/// assert_eq!(amounts[jobs[0].stretch()], [35, 97, 43]);
/// assert_eq!(jobs[1].answer(), Some(Ok(Allocated { total: 36, further: 18 })));
/// assert_eq!(amounts[jobs[1].stretch()], [0, 0, 0, 8, 5]);
/// // 5 contracts are exercised where the positions hold 4.
/// assert_eq!(jobs[2].answer(), Some(Err(Refused(9))));
/// assert_eq!(amounts[jobs[2].stretch()], [0, 0]);
/// # Ok::<(), Refused>(())
/// ```
pub fn allocate_jobs(accounts: &[u32], shorts: &[u32], jobs: &mut [Job], amounts: &mut [u32]) -> Result<(), Refused> {
    // A `Job` is laid out as the record in it, and any answer that is written there makes a `Job`.
    let records = unsafe { &mut *(jobs as *mut [Job] as *mut [calls::Job]) };
    accepted(calls::allocate_jobs(accounts, shorts, records, amounts))
}
