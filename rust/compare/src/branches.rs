//! Makes the lists of two branches, and damage to them.

use std::collections::BTreeSet;

use reference::merge::Positions;
use reference::MOST_POSITIONS;

use crate::make;
use crate::random::Random;

const MOST: u64 = reference::MOST_CONTRACTS;

/// What a branch sends.
#[derive(Clone, Debug, Default)]
pub struct Branch {
    pub accounts: Vec<u32>,
    pub shorts: Vec<u32>,
}

impl Branch {
    pub fn positions(&self) -> Positions<'_> {
        (&self.accounts, &self.shorts)
    }

    pub fn total(&self) -> u64 {
        self.shorts.iter().map(|&short| u64::from(short)).sum()
    }
}

/// The values of a merging call; `rooms` are the lengths of its outputs, for accounts and for shorts.
#[derive(Clone, Debug, Default)]
pub struct Branches {
    pub lists: [Branch; 2],
    pub rooms: [usize; 2],
}

impl Branches {
    pub fn positions(&self) -> [Positions<'_>; 2] {
        self.lists.each_ref().map(Branch::positions)
    }

    /// How many accounts stand in either list.
    pub fn accounts(&self) -> usize {
        let accounts: BTreeSet<u32> = self.lists.iter().flat_map(|list| list.accounts.iter().copied()).collect();
        accounts.len()
    }

    /// The same lists, the second first.
    pub fn exchanged(&self) -> Branches {
        let [first, second] = self.lists.clone();
        Branches { lists: [second, first], rooms: self.rooms }
    }
}

/// How the accounts of two branches stand to each other.
#[derive(Clone, Copy, Debug, PartialEq, Eq)]
pub enum Kind {
    /// The first list's all below the second's.
    Below,
    Alternating,
    Equal,
    /// The second list's all in the first.
    Contained,
    /// In random order; one in so many in both.
    Mixed(u64),
}

// For each of `count` accounts whether the first list and the second have it.
fn shared_out(random: &mut Random, kind: Kind, count: usize) -> Vec<[bool; 2]> {
    let in_one = |first: bool| [first, !first];
    let of = |at: usize| match kind {
        Kind::Below => in_one(2 * at < count),
        Kind::Alternating => in_one(at & 1 == 0),
        Kind::Equal => [true; 2],
        Kind::Contained => [true, random.one_in(2)],
        Kind::Mixed(share) if random.one_in(share) => [true; 2],
        Kind::Mixed(_) => in_one(random.one_in(2)),
    };
    (0..count).map(of).collect()
}

/// The accounts of two branches, out of `accounts`; each has one at least, and none has more than there may be.
pub fn accounts(random: &mut Random, kind: Kind, accounts: &[u32]) -> [Vec<u32>; 2] {
    let shared = shared_out(random, kind, accounts.len());
    [0, 1].map(|list| {
        let of_list = accounts.iter().zip(&shared).filter(|(_, of)| of[list]).map(|(&account, _)| account);
        let mut found: Vec<u32> = of_list.take(MOST_POSITIONS).collect();
        if found.is_empty() {
            found.push(random.pick(accounts));
        }
        found
    })
}

// Shorts with T at most `most`, or `count` where that is more; exactly so many where `exact` is set.
fn shorts(random: &mut Random, count: usize, most: u64, exact: bool) -> Vec<u32> {
    make::series(random, count, most.max(count as u64), exact).numbers
}

// The room of an output for so many positions: as long, longer, one short, none, or any.
fn room(random: &mut Random, positions: usize) -> usize {
    match random.below(24) {
        0 => positions - 1,
        1 => 0,
        2 => random.index(positions + 1),
        3..=12 => positions,
        _ => positions + random.index(9),
    }
}

/// How large a made pair may be.
#[derive(Clone, Copy)]
pub struct Size {
    /// Of the merged list.
    pub positions: u64,
    /// Of one list.
    pub total: u64,
}

/// Two lists without a fault. At times an output is too short, and in the larger sizes the merged list may be refused.
pub fn branches(random: &mut Random, size: Size) -> Branches {
    let share = random.between(2, 9);
    let kind = random.pick(&[Kind::Below, Kind::Alternating, Kind::Equal, Kind::Contained, Kind::Mixed(share)]);
    let count = if random.one_in(4) { size.positions } else { random.spread(size.positions) } as usize;
    let pool = make::rising(random, count);
    let mut lists = accounts(random, kind, &pool).map(|accounts| {
        let most = random.spread(size.total);
        let exact = random.one_in(3);
        let shorts = shorts(random, accounts.len(), most, exact);
        Branch { accounts, shorts }
    });
    let [first, second] = &mut lists;
    if random.one_in(8) {
        // As many contracts as may be in all, or one more.
        let left = MOST - first.total() + random.below(2);
        if (second.accounts.len() as u64..=MOST).contains(&left) {
            second.shorts = shorts(random, second.accounts.len(), left, true);
        }
    }
    if random.one_in(2) {
        lists.reverse();
    }
    let mut made = Branches { lists, rooms: [0; 2] };
    let merged = made.accounts();
    made.rooms = [(); 2].map(|_| room(random, merged));
    made
}

// More positions than there may be, or just not.
fn lengthen(random: &mut Random, list: &mut Branch) {
    let wanted = MOST_POSITIONS + random.index(3);
    let top = list.accounts.iter().max().map_or(0, |&account| account.min(u32::MAX - 8_192));
    let more = wanted.saturating_sub(list.accounts.len()) as u32;
    list.accounts.extend(top + 1..=top + more);
    list.shorts.resize(list.accounts.len(), 1);
}

/// Damages a list in one way, at a random place.
pub fn damage(random: &mut Random, list: &mut Branch) {
    let count = list.accounts.len().min(list.shorts.len());
    if count == 0 {
        return;
    }
    let at = random.index(count);
    match random.below(12) {
        0 => drop(list.accounts.pop()),
        1 => drop(list.shorts.pop()),
        2 => list.accounts.push(u32::MAX),
        3 => lengthen(random, list),
        4 => *list = Branch::default(),
        5 => list.accounts[at] = 0,
        6 => list.accounts[at] = if at == 0 { 0 } else { list.accounts[at - 1] },
        7 => {
            let to = random.index(count);
            list.accounts.swap(at, to);
        }
        8 | 9 => list.shorts[at] = 0,
        10 => list.shorts[at] = random.pick(&[MOST as u32, MOST as u32 + 1, u32::MAX]),
        _ => {
            // One contract more than there may be.
            let others = list.total() - u64::from(list.shorts[at]);
            list.shorts[at] = (MOST + 1).saturating_sub(others) as u32;
        }
    }
}
