//! Two branches' lists of one series as one list.

use std::collections::BTreeMap;

use crate::{first, judge_list, List, MOST_CONTRACTS, MOST_POSITIONS};

/// The accounts and the shorts that a branch sends.
pub type Positions<'a> = (&'a [u32], &'a [u32]);

#[derive(Clone, Debug, PartialEq, Eq)]
pub struct Merged {
    pub accounts: Vec<u32>,
    pub shorts: Vec<u32>,
    pub total: u32,
}

/// The merging call: every account is looked up, in any order, and its shorts are added to those that it has. `rooms`
/// are the lengths of the outputs, for accounts and for shorts.
pub fn merge(branches: [Positions; 2], rooms: [usize; 2]) -> Result<Merged, u32> {
    for (accounts, shorts) in branches {
        // By account, and with an output that is never too short.
        judge_list(b'P', List::by_account(accounts, shorts), usize::MAX)?;
    }
    let mut held: BTreeMap<u32, u64> = BTreeMap::new();
    for (accounts, shorts) in branches {
        for (&account, &short) in accounts.iter().zip(shorts) {
            *held.entry(account).or_default() += u64::from(short);
        }
    }
    let total: u64 = held.values().sum();
    first(&[
        (2, held.len() > MOST_POSITIONS),
        (7, total > MOST_CONTRACTS),
        (4, rooms.iter().any(|&room| room < held.len())),
    ])?;
    let (accounts, shorts) = held.into_iter().map(|(account, short)| (account, short as u32)).unzip();
    Ok(Merged { accounts, shorts, total: total as u32 })
}
