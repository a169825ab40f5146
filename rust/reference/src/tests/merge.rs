// Merged lists: worked out by hand, and refusals in their order.

use super::*;
use crate::merge::{merge, Merged, Positions};

const MOST: u32 = 10_000_000;

// The number of a call with outputs of the lengths, 0 where it is not refused.
fn number(branches: [Positions; 2], rooms: [usize; 2]) -> u32 {
    merge(branches, rooms).err().unwrap_or(0)
}

// The lists merge to the third, in either order, with outputs that are just long enough.
#[track_caller]
fn merges(one: Positions, other: Positions, (accounts, shorts): Positions) {
    let expected = Merged { accounts: accounts.to_vec(), shorts: shorts.to_vec(), total: shorts.iter().sum() };
    let room = accounts.len();
    for branches in [[one, other], [other, one]] {
        assert_eq!(merge(branches, [room; 2]).as_ref(), Ok(&expected));
        assert_eq!(merge(branches, [room + 9, room]).as_ref(), Ok(&expected));
        assert_eq!(number(branches, [room - 1, room]), 4);
        assert_eq!(number(branches, [room, room - 1]), 4);
        assert_eq!(number(branches, [0; 2]), 4);
    }
}

#[test]
fn lists_of_two_branches() {
    let list = (&[2, 5, 9][..], &[30, 8, 1][..]);
    for (other, merged) in [
        // Between and in common; above and below; equal; a part of it; one account at either end.
        ((&[1, 5, 7][..], &[4, 12, 20][..]), (&[1, 2, 5, 7, 9][..], &[4, 30, 20, 20, 1][..])),
        ((&[10, 11], &[6, 7]), (&[2, 5, 9, 10, 11], &[30, 8, 1, 6, 7])),
        ((&[1], &[3]), (&[1, 2, 5, 9], &[3, 30, 8, 1])),
        ((&[2, 5, 9], &[30, 8, 1]), (&[2, 5, 9], &[60, 16, 2])),
        ((&[5], &[1]), (&[2, 5, 9], &[30, 9, 1])),
        ((&[2, 9], &[1, 2]), (&[2, 5, 9], &[31, 8, 3])),
        ((&[1, u32::MAX], &[7, 7]), (&[1, 2, 5, 9, u32::MAX], &[7, 30, 8, 1, 7])),
    ] {
        merges(list, other, merged);
    }
    merges((&[4], &[1]), (&[4], &[MOST - 1]), (&[4], &[MOST]));
    merges((&[1], &[1]), (&[u32::MAX], &[MOST - 1]), (&[1, u32::MAX], &[1, MOST - 1]));
}

// The faults of a list, the first position that has one first.
#[test]
fn faults_of_either_list() {
    let (good, long, ones) = ((&[3][..], &[7][..]), upward(4_097), vec![1; 4_098]);
    let faults: [(u32, Positions); 17] = [
        (1, (&[1, 2], &[5])),
        (1, (&[], &[0])),
        (1, (&long, &ones)),
        (2, (&long, &ones[..4_097])),
        (3, (&[], &[])),
        (5, (&[0], &[0])),
        (5, (&[0], &[u32::MAX])),
        (5, (&[2, 2], &[5, 0])),
        (5, (&[2, 1], &[5, u32::MAX])),
        (6, (&[1], &[0])),
        (6, (&[2, 1], &[0, 5])),
        (6, (&[1, 2, 3], &[MOST, 0, 1])),
        (7, (&[1], &[MOST + 1])),
        (7, (&[1, 2], &[MOST, 1])),
        (7, (&[1, 2], &[1, u32::MAX])),
        (7, (&[1, 2, 2], &[MOST, 1, 1])),
        (7, (&[1, 2, 3], &[MOST, 1, 0])),
    ];
    for (of_first, first) in faults {
        assert_eq!(number([first, good], [0; 2]), of_first, "{of_first}");
        assert_eq!(number([good, first], [0; 2]), of_first, "{of_first}");
        for (of_second, second) in faults {
            assert_eq!(number([first, second], [9; 2]), of_first, "{of_first}, {of_second}");
        }
    }
}

// Of the merged list 2, then 7, then 4 for either output.
#[test]
fn refusals_of_the_merged_list() {
    let (accounts, ones) = (upward(4_097), vec![1; 4_096]);
    let whole = (&accounts[..4_096], &ones[..]);
    assert_eq!(number([whole, (&[4_097], &[MOST])], [0; 2]), 2);
    assert_eq!(number([whole, (&[4_097], &[1])], [5_000; 2]), 2);
    assert_eq!(number([whole, (&[4_096], &[MOST])], [0; 2]), 7);
    assert_eq!(number([whole, (&[4_096], &[MOST - 4_095])], [5_000; 2]), 7);
    assert_eq!(number([whole, (&[4_096], &[MOST - 4_096])], [4_095, 4_096]), 4);
    assert_eq!(number([whole, (&[4_096], &[MOST - 4_096])], [4_096, 4_095]), 4);
    assert_eq!(number([whole, (&[4_096], &[MOST - 4_096])], [4_096; 2]), 0);
    assert_eq!(number([whole, whole], [4_096; 2]), 0);
    // One above the other: 4,096 in all, and one more.
    let (low, high) = ((&accounts[..2_048], &ones[..2_048]), (&accounts[2_048..], &ones[..2_049]));
    assert_eq!(number([low, high], [4_097; 2]), 2);
    assert_eq!(number([low, (&high.0[1..], &high.1[1..])], [4_096; 2]), 0);
    assert_eq!(number([(&[1], &[MOST]), (&[2], &[MOST])], [2; 2]), 7);
    assert_eq!(number([(&[1], &[MOST]), (&[1], &[1])], [0; 2]), 7);
    // A fault of the second list comes before all of them.
    assert_eq!(number([whole, (&[4_097, 4_098], &[MOST, 0])], [0; 2]), 6);
}
