//! Two branches' lists of one series as one list.

use crate::{accepted, calls, Refused};

/// The positions that a branch sends, in rising order of account.
#[derive(Clone, Copy, Debug, PartialEq, Eq)]
pub struct Branch<'a> {
    pub accounts: &'a [u32],
    pub shorts: &'a [u32],
}

/// What a merge hands back beside the list.
#[derive(Clone, Copy, Debug, PartialEq, Eq)]
pub struct Merged {
    /// The number of merged positions.
    pub positions: usize,
    /// T of the merged list, the sum of both.
    pub total: u32,
}

/// Merges the lists of two branches into `accounts` and `shorts`, in rising order of account; where both have an
/// account its shorts are added. 4,096 elements are always enough, and those past the merged list are kept. The list is
/// in the form of shorts, and its accounts are its codes. Refused, with all kept, by the first branch's faults, then by
/// the second's (each 1 to 3, then 5 to 7 for each position in turn), and then by 2, 7 and 4 for the merged list.
///
/// ```
/// use dilbreth::{merge, Branch, Merged, Refused};
///
/// let first = Branch { accounts: &[2, 5, 9], shorts: &[30, 8, 1] };
/// let second = Branch { accounts: &[1, 5, 7], shorts: &[4, 12, 20] };
///
/// let (mut accounts, mut shorts) = ([0; 6], [0; 6]);
/// let merged = merge(first, second, &mut accounts, &mut shorts)?;
///
/// assert_eq!(merged, Merged { positions: 5, total: 75 });
/// assert_eq!(accounts[..merged.positions], [1, 2, 5, 7, 9]);
/// assert_eq!(shorts[..merged.positions], [4, 30, 20, 20, 1]);
/// // The second branch's accounts do not rise.
/// let falling = Branch { accounts: &[7, 5, 1], ..second };
/// assert_eq!(merge(first, falling, &mut accounts, &mut shorts), Err(Refused(5)));
/// # Ok::<(), Refused>(())
/// ```
pub fn merge(first: Branch, second: Branch, accounts: &mut [u32], shorts: &mut [u32]) -> Result<Merged, Refused> {
    let (mut positions, mut total) = (0, 0);
    accepted(calls::merge(
        first.accounts,
        first.shorts,
        second.accounts,
        second.shorts,
        accounts,
        shorts,
        &mut positions,
        &mut total,
    ))?;
    Ok(Merged { positions, total })
}
