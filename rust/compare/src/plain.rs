//! Plain Rust for the same answers: what the benchmarks measure against.

use std::cmp::Ordering;
use std::collections::HashSet;

use reference::{Form, List, Terms};

const ONE: u64 = 1_000_000;
const MOST: u32 = 10_000_000;

fn known(method: u8) -> bool {
    matches!(method, b'W' | b'P' | b'L' | b'R')
}

/// The numbers of a list in one of the forms.
trait Numbers: Copy {
    /// The contracts up to a position with the number, from those before it; or a refusal.
    fn upto(before: u32, number: u32) -> Result<u32, u32>;

    fn len(self) -> usize;

    fn short(self, at: usize) -> u32;

    fn shorts(self) -> impl Iterator<Item = u32>;

    /// The position of a place, and how many of its contracts come from there on.
    fn find(self, place: u32) -> (usize, u32);

    /// Contracts one after the other from the starting place.
    fn run(self, total: u32, exercised: u32, start: u32, amounts: &mut [u32]);
}

#[derive(Clone, Copy)]
struct Shorts<'a>(&'a [u32]);

impl Numbers for Shorts<'_> {
    #[inline]
    fn upto(before: u32, number: u32) -> Result<u32, u32> {
        if number == 0 {
            return Err(6);
        }
        if number > MOST - before {
            return Err(7);
        }
        Ok(before + number)
    }

    #[inline]
    fn len(self) -> usize {
        self.0.len()
    }

    #[inline]
    fn short(self, at: usize) -> u32 {
        self.0[at]
    }

    #[inline]
    fn shorts(self) -> impl Iterator<Item = u32> {
        self.0.iter().copied()
    }

    fn find(self, place: u32) -> (usize, u32) {
        let mut upto = 0;
        for (position, &short) in self.0.iter().enumerate() {
            upto += short;
            if place <= upto {
                return (position, upto - place + 1);
            }
        }
        unreachable!("the place is at most T")
    }

    fn run(self, _: u32, exercised: u32, start: u32, amounts: &mut [u32]) {
        let (first, here) = self.find(start);
        let mut left = exercised - exercised.min(here);
        let at_first = exercised - left;
        for position in (first + 1..self.0.len()).chain(0..first) {
            let take = left.min(self.0[position]);
            amounts[position] = take;
            left -= take;
        }
        amounts[first] = at_first + left;
    }
}

#[derive(Clone, Copy)]
struct LastNumbers<'a>(&'a [u32]);

impl Numbers for LastNumbers<'_> {
    #[inline]
    fn upto(before: u32, number: u32) -> Result<u32, u32> {
        if number <= before {
            return Err(20);
        }
        if number > MOST {
            return Err(7);
        }
        Ok(number)
    }

    #[inline]
    fn len(self) -> usize {
        self.0.len()
    }

    #[inline]
    fn short(self, at: usize) -> u32 {
        self.0[at] - if at == 0 { 0 } else { self.0[at - 1] }
    }

    #[inline]
    fn shorts(self) -> impl Iterator<Item = u32> {
        let mut before = 0;
        self.0.iter().map(move |&last| last - std::mem::replace(&mut before, last))
    }

    fn find(self, place: u32) -> (usize, u32) {
        let position = self.0.partition_point(|&last| last < place);
        (position, self.0[position] - place + 1)
    }

    /// Each amount is what is assigned up to its last number less what is assigned up to the one before.
    fn run(self, total: u32, exercised: u32, start: u32, amounts: &mut [u32]) {
        let end = start - 1 + exercised;
        let from_top = end.saturating_sub(total);
        let mut before = 0;
        for (amount, &last) in amounts.iter_mut().zip(self.0) {
            let upto = last.min(from_top) + last.min(end).saturating_sub(start - 1);
            *amount = upto - before;
            before = upto;
        }
    }
}

/// The accounts met so far: each above the one before, or in a set from the first on that is not.
struct Met<'a> {
    accounts: &'a [u32],
    highest: u32,
    set: Option<HashSet<u32>>,
}

impl Met<'_> {
    /// Whether the account at the index is 0 or stands earlier.
    #[inline]
    fn again(&mut self, at: usize) -> bool {
        let account = self.accounts[at];
        if account > self.highest {
            self.highest = account;
            return false;
        }
        account == 0 || self.look_up(at)
    }

    fn look_up(&mut self, at: usize) -> bool {
        // No account is above it, so each is looked up from here on.
        self.highest = u32::MAX;
        let set = self.set.get_or_insert_with(|| {
            let mut set = HashSet::with_capacity(self.accounts.len());
            set.extend(&self.accounts[..at]);
            set
        });
        !set.insert(self.accounts[at])
    }
}

/// `rising` has to rise, and `again` tells of each account whether it is refused. T, or a refusal.
#[inline]
fn judge_list<N: Numbers>(
    list: List,
    rising: &[u32],
    mut again: impl FnMut(usize) -> bool,
    room: usize,
) -> Result<u32, u32> {
    let List { accounts, numbers, .. } = list;
    let count = accounts.len();
    if count != numbers.len() || rising.len() != count {
        return Err(1);
    }
    if count > 4_096 {
        return Err(2);
    }
    if count == 0 {
        return Err(3);
    }
    if room < count {
        return Err(4);
    }
    let mut before = 0;
    let mut contracts = 0;
    for (at, (&next, &number)) in rising.iter().zip(numbers).enumerate() {
        if next <= before {
            return Err(5);
        }
        if again(at) {
            return Err(19);
        }
        contracts = N::upto(contracts, number)?;
        before = next;
    }
    Ok(contracts)
}

fn judge<N: Numbers>(method: u8, list: List, room: usize) -> Result<u32, u32> {
    if method == b'W' {
        let mut met = Met { accounts: list.accounts, highest: 0, set: None };
        judge_list::<N>(list, list.codes, |at| met.again(at), room)
    } else {
        judge_list::<N>(list, list.accounts, |_| false, room)
    }
}

/// Judges a call; `assign` has the amounts that need its draw. T and the further number, or a refusal.
fn judged<N: Numbers>(
    terms: Terms,
    list: List,
    numbers: N,
    amounts: &mut [u32],
    assign: impl FnOnce(Terms, N, u32, &mut [u32]) -> u32,
) -> Result<(u32, u32), u32> {
    let Terms { method, exercised, draw, increment } = terms;
    let total = judge::<N>(method, list, amounts.len())?;
    if exercised == 0 {
        return Err(8);
    }
    if exercised > total {
        return Err(9);
    }
    if method == b'W' {
        if increment == 0 || increment > 1_000 {
            return Err(23);
        }
        // T1 is above 1,000,000.
        if exercised < total && exercised > increment * 1_000_000 {
            return Err(24);
        }
    }
    let amounts = &mut amounts[..numbers.len()];
    if method != b'P' {
        if exercised == total {
            for (amount, short) in amounts.iter_mut().zip(numbers.shorts()) {
                *amount = short;
            }
            return Ok((total, 0));
        }
        if method != b'W' && amounts.len() == 1 {
            amounts[0] = exercised;
            return Ok((total, 0));
        }
        let highest = if method == b'W' { total } else { 10_000 };
        if method != b'R' && (draw == 0 || draw > highest) {
            return Err(10);
        }
    }
    Ok((total, assign(terms, numbers, total, amounts)))
}

fn by_method<N: Numbers>(terms: Terms, list: List, numbers: N, amounts: &mut [u32]) -> Result<(u32, u32), u32> {
    match terms.method {
        b'W' => judged(terms, list, numbers, amounts, wheel),
        b'P' => judged(terms, list, numbers, amounts, pro_rata),
        b'L' => judged(terms, list, numbers, amounts, lottery),
        b'R' => judged(terms, list, numbers, amounts, remainder_draw),
        _ => Err(14),
    }
}

/// T and the further number, or a refusal.
pub fn allocate(terms: Terms, list: List, amounts: &mut [u32]) -> Result<(u32, u32), u32> {
    match list.form {
        Form::Shorts => by_method(terms, list, Shorts(list.numbers), amounts),
        Form::LastNumbers => by_method(terms, list, LastNumbers(list.numbers), amounts),
    }
}

/// As `allocate` for the wheel, with one division for each position and no walk over the blocks.
pub fn allocate_wheel_by_division(terms: Terms, list: List, amounts: &mut [u32]) -> Result<(u32, u32), u32> {
    let terms = Terms { method: b'W', ..terms };
    match list.form {
        Form::Shorts => judged(terms, list, Shorts(list.numbers), amounts, wheel_by_division),
        Form::LastNumbers => judged(terms, list, LastNumbers(list.numbers), amounts, wheel_by_division),
    }
}

/// As `allocate` for pro rata, with the cut-off found as the library finds it: by bisection, a count over the decimal
/// parts for each step.
pub fn allocate_pro_rata_by_bisection(terms: Terms, list: List, amounts: &mut [u32]) -> Result<(u32, u32), u32> {
    let terms = Terms { method: b'P', ..terms };
    match list.form {
        Form::Shorts => judged(terms, list, Shorts(list.numbers), amounts, pro_rata_by_bisection),
        Form::LastNumbers => judged(terms, list, LastNumbers(list.numbers), amounts, pro_rata_by_bisection),
    }
}

fn interval(total: u32, blocks: u32, increment: u32) -> u64 {
    let rounded = (2 * u64::from(total) * ONE + u64::from(blocks)) / (2 * u64::from(blocks));
    rounded.saturating_sub(u64::from(increment) * ONE)
}

/// One walk over blocks and positions.
fn wheel<N: Numbers>(terms: Terms, numbers: N, total: u32, amounts: &mut [u32]) -> u32 {
    let Terms { exercised, draw, increment, .. } = terms;
    let blocks = exercised.div_ceil(increment);
    let interval = interval(total, blocks, increment);
    let (whole, part) = ((interval / ONE) as u32, (interval % ONE) as u32);
    amounts.fill(0);
    let (mut position, mut here) = numbers.find(draw);
    let mut reserve = 0;
    let mut left = exercised;
    loop {
        let mut size = left.min(increment);
        left -= size;
        while size >= here {
            amounts[position] += here;
            size -= here;
            position += 1;
            if position == numbers.len() {
                position = 0;
            }
            here = numbers.short(position);
        }
        amounts[position] += size;
        here -= size;
        if left == 0 {
            return blocks;
        }
        let mut skip = whole;
        reserve += part;
        if reserve >= ONE as u32 {
            reserve -= ONE as u32;
            skip += 1;
        }
        while skip >= here {
            skip -= here;
            position += 1;
            if position == numbers.len() {
                position = 0;
            }
            here = numbers.short(position);
        }
        here -= skip;
    }
}

fn wheel_by_division<N: Numbers>(terms: Terms, numbers: N, total: u32, amounts: &mut [u32]) -> u32 {
    let Terms { exercised, draw, .. } = terms;
    let blocks = exercised.div_ceil(terms.increment);
    let increment = u64::from(terms.increment);
    let pace = increment * ONE + interval(total, blocks, terms.increment);
    // How many of the first x contracts from the starting place are in blocks. Block j (from 0)
    // begins after the whole part of j × pace / ONE.
    let marked = |x: u64| -> u32 {
        let j = ((x + 1) * ONE - 1) / pace;
        let into = x - j * pace / ONE;
        (j * increment + into.min(increment)).min(u64::from(exercised)) as u32
    };
    let (first, here) = numbers.find(draw);
    let mut walked = u64::from(here);
    let mut before = marked(walked);
    amounts[first] = before;
    for position in (first + 1..numbers.len()).chain(0..first) {
        walked += u64::from(numbers.short(position));
        let upto = marked(walked);
        amounts[position] = upto - before;
        before = upto;
    }
    amounts[first] += exercised - before;
    blocks
}

/// Round one, then the decimal part at which the remainder runs out, then one walk.
fn pro_rata<N: Numbers>(terms: Terms, numbers: N, total: u32, amounts: &mut [u32]) -> u32 {
    let Terms { exercised, draw, .. } = terms;
    let count = numbers.len();
    if count <= 64 {
        let (mut decimals, mut ranked) = ([0; 64], [0; 64]);
        let remaining = round_one(numbers, total, exercised, amounts, &mut decimals[..count]);
        if remaining > 0 {
            let ranked = &mut ranked[..count];
            ranked.copy_from_slice(&decimals[..count]);
            let (_, &mut last, _) = ranked.select_nth_unstable_by(remaining as usize - 1, |a, b| b.cmp(a));
            let larger = ranked.iter().filter(|&&d| d > last).count() as u32;
            let equal = ranked.iter().filter(|&&d| d == last).count() as u32;
            round_two(amounts, &decimals[..count], last, equal, remaining - larger, draw);
        }
        remaining
    } else {
        let mut decimals = [0; 4_096];
        let remaining = round_one(numbers, total, exercised, amounts, &mut decimals[..count]);
        if remaining > 0 {
            let (last, equal, left) = cut_off(&decimals[..count], remaining);
            round_two(amounts, &decimals[..count], last, equal, left, draw);
        }
        remaining
    }
}

fn round_one<N: Numbers>(numbers: N, total: u32, exercised: u32, amounts: &mut [u32], decimals: &mut [u32]) -> u32 {
    // The percentage as 5 and 12 decimals, so that every product fits 64 bits.
    const PART: u64 = 1_000_000_000_000;
    let (t, s) = (u64::from(total), u64::from(exercised) * 100_000_000);
    let percentage = s / t * 1_000_000_000 + s % t * 1_000_000_000 / t;
    let (high, low) = (percentage / PART, percentage % PART);
    let mut remaining = exercised;
    for ((short, amount), decimal) in numbers.shorts().zip(amounts.iter_mut()).zip(decimals.iter_mut()) {
        let exact = u64::from(short) * high + u64::from(short) * low / PART;
        let whole = (exact / 100_000) as u32;
        *amount = whole;
        remaining -= whole;
        *decimal = (exact % 100_000) as u32;
    }
    remaining
}

/// The decimal part, how many positions have it, and how many of them are served.
fn cut_off(decimals: &[u32], remaining: u32) -> (u32, u32, u32) {
    let mut left = remaining;
    let mut coarse = [0u16; 196];
    for &decimal in decimals {
        coarse[(decimal >> 9) as usize] += 1;
    }
    let mut top = coarse.len() - 1;
    while u32::from(coarse[top]) < left {
        left -= u32::from(coarse[top]);
        top -= 1;
    }
    let mut fine = [0u16; 512];
    for &decimal in decimals {
        if (decimal >> 9) as usize == top {
            fine[(decimal & 511) as usize] += 1;
        }
    }
    let mut low = fine.len() - 1;
    while u32::from(fine[low]) < left {
        left -= u32::from(fine[low]);
        low -= 1;
    }
    (((top << 9) + low) as u32, u32::from(fine[low]), left)
}

/// A short list has a short room for its decimal parts.
fn pro_rata_by_bisection<N: Numbers>(terms: Terms, numbers: N, total: u32, amounts: &mut [u32]) -> u32 {
    let count = numbers.len();
    if count <= 128 {
        let mut decimals = [0; 128];
        both_rounds(terms, numbers, total, amounts, &mut decimals[..count])
    } else {
        let mut decimals = [0; 4_096];
        both_rounds(terms, numbers, total, amounts, &mut decimals[..count])
    }
}

fn both_rounds<N: Numbers>(terms: Terms, numbers: N, total: u32, amounts: &mut [u32], decimals: &mut [u32]) -> u32 {
    let remaining = round_one(numbers, total, terms.exercised, amounts, decimals);
    if remaining > 0 {
        let (last, equal, left) = cut_off_by_bisection(decimals, remaining);
        round_two(amounts, decimals, last, equal, left, terms.draw);
    }
    remaining
}

/// The same as `cut_off`: at least `remaining` positions have `low` or more, and fewer have `low + width` or more.
fn cut_off_by_bisection(decimals: &[u32], remaining: u32) -> (u32, u32, u32) {
    let (mut low, mut width) = (0, 100_000);
    let (mut enough, mut larger) = (decimals.len() as u32, 0);
    while width > 1 {
        let half = width / 2;
        let middle = low + half;
        let count = decimals.iter().map(|&decimal| u32::from(decimal >= middle)).sum();
        if count >= remaining {
            (low, width, enough) = (middle, width - half, count);
        } else {
            (width, larger) = (half, count);
        }
    }
    (low, enough - larger, remaining - larger)
}

fn round_two(amounts: &mut [u32], decimals: &[u32], last: u32, equal: u32, served: u32, draw: u32) {
    let begin = draw % equal;
    let end = begin + served;
    let mut number = 0;
    for (amount, &decimal) in amounts.iter_mut().zip(decimals) {
        if decimal > last {
            *amount += 1;
        } else if decimal == last {
            *amount += u32::from((number >= begin && number < end) || number + equal < end);
            number += 1;
        }
    }
}

fn lottery<N: Numbers>(terms: Terms, numbers: N, total: u32, amounts: &mut [u32]) -> u32 {
    let start = (u64::from(terms.draw) * u64::from(total)).div_ceil(10_000) as u32;
    numbers.run(total, terms.exercised, start, amounts);
    start
}

fn remainder_draw<N: Numbers>(terms: Terms, numbers: N, total: u32, amounts: &mut [u32]) -> u32 {
    let start = terms.draw % total + 1;
    numbers.run(total, terms.exercised, start, amounts);
    start
}

/// How many accounts stand in either list, both rising.
fn merged_positions(first: &[u32], second: &[u32]) -> usize {
    let (mut i, mut j, mut both) = (0, 0, 0);
    while i < first.len() && j < second.len() {
        match first[i].cmp(&second[j]) {
            Ordering::Less => i += 1,
            Ordering::Greater => j += 1,
            Ordering::Equal => {
                i += 1;
                j += 1;
                both += 1;
            }
        }
    }
    first.len() + second.len() - both
}

/// What is left of the accounts and shorts of two lists, one of which is through.
fn write_rest(first: (&[u32], &[u32]), second: (&[u32], &[u32]), accounts: &mut [u32], shorts: &mut [u32]) {
    let (rest, of_rest) = if first.0.is_empty() { second } else { first };
    accounts.copy_from_slice(rest);
    shorts.copy_from_slice(of_rest);
}

/// Writes the merged list to outputs of its length.
fn write_merged(first: List, second: List, accounts: &mut [u32], shorts: &mut [u32]) {
    let (of_first, of_second) = (&first.numbers[..first.accounts.len()], &second.numbers[..second.accounts.len()]);
    let (first, second) = (first.accounts, second.accounts);
    let (mut i, mut j, mut at) = (0, 0, 0);
    while i < first.len() && j < second.len() {
        let (a, b) = (first[i], second[j]);
        (accounts[at], shorts[at]) = match a.cmp(&b) {
            Ordering::Less => {
                i += 1;
                (a, of_first[i - 1])
            }
            Ordering::Greater => {
                j += 1;
                (b, of_second[j - 1])
            }
            Ordering::Equal => {
                i += 1;
                j += 1;
                (a, of_first[i - 1] + of_second[j - 1])
            }
        };
        at += 1;
    }
    write_rest((&first[i..], &of_first[i..]), (&second[j..], &of_second[j..]), &mut accounts[at..], &mut shorts[at..]);
}

fn merge_by(
    (first, second): (List, List),
    (accounts, shorts): (&mut [u32], &mut [u32]),
    positions: impl FnOnce(&[u32], &[u32]) -> usize,
    write: impl FnOnce(List, List, &mut [u32], &mut [u32]),
) -> Result<(usize, u32), u32> {
    let judge_branch = |list| judge::<Shorts>(b'P', list, usize::MAX);
    let total = judge_branch(first)? + judge_branch(second)?;
    let count = positions(first.accounts, second.accounts);
    if count > 4_096 {
        return Err(2);
    }
    if total > MOST {
        return Err(7);
    }
    if accounts.len() < count || shorts.len() < count {
        return Err(4);
    }
    write(first, second, &mut accounts[..count], &mut shorts[..count]);
    Ok((count, total))
}

/// Merges two lists by account, in the form of shorts: the number of positions and T, or a refusal.
pub fn merge(first: List, second: List, accounts: &mut [u32], shorts: &mut [u32]) -> Result<(usize, u32), u32> {
    merge_by((first, second), (accounts, shorts), merged_positions, write_merged)
}

fn merged_positions_without_branches(first: &[u32], second: &[u32]) -> usize {
    let (mut i, mut j, mut both) = (0, 0, 0);
    while i < first.len() && j < second.len() {
        let (a, b) = (first[i], second[j]);
        both += usize::from(a == b);
        i += usize::from(a <= b);
        j += usize::from(b <= a);
    }
    first.len() + second.len() - both
}

fn write_merged_without_branches(first: List, second: List, accounts: &mut [u32], shorts: &mut [u32]) {
    let (of_first, of_second) = (&first.numbers[..first.accounts.len()], &second.numbers[..second.accounts.len()]);
    let (first, second) = (first.accounts, second.accounts);
    let (mut i, mut j, mut at) = (0, 0, 0);
    while i < first.len() && j < second.len() {
        let (a, b) = (first[i], second[j]);
        let (in_first, in_second) = (a <= b, b <= a);
        accounts[at] = a.min(b);
        shorts[at] = of_first[i] * u32::from(in_first) + of_second[j] * u32::from(in_second);
        i += usize::from(in_first);
        j += usize::from(in_second);
        at += 1;
    }
    write_rest((&first[i..], &of_first[i..]), (&second[j..], &of_second[j..]), &mut accounts[at..], &mut shorts[at..]);
}

/// As `merge`, without a branch on how two accounts compare.
pub fn merge_without_branches(
    first: List,
    second: List,
    accounts: &mut [u32],
    shorts: &mut [u32],
) -> Result<(usize, u32), u32> {
    let (positions, write) = (merged_positions_without_branches, write_merged_without_branches);
    merge_by((first, second), (accounts, shorts), positions, write)
}

/// The increment of a text without the column.
const DEFAULT_INCREMENT: u32 = 25;

/// Line 1 without the column of the increment, and with it.
const NAMES_1: [&[u8]; 2] = [b"method,exercised,draw\n", b"method,exercised,draw,increment\n"];

fn names_1(increment: u32) -> &'static [u8] {
    NAMES_1[usize::from(increment != DEFAULT_INCREMENT)]
}

const COLUMNS: [(bool, Form, &[u8]); 4] = [
    (false, Form::Shorts, b"account,short\n"),
    (true, Form::Shorts, b"code,account,short\n"),
    (false, Form::LastNumbers, b"account,last\n"),
    (true, Form::LastNumbers, b"code,account,last\n"),
];

fn names_3(coded: bool, form: Form) -> &'static [u8] {
    COLUMNS[usize::from(coded) + 2 * usize::from(form == Form::LastNumbers)].2
}

/// A number from `at` up to the byte `end`, which stands after at most ten digits; the place after that byte.
#[inline]
fn number(text: &[u8], at: usize, end: u8) -> Option<(u32, usize)> {
    let mut value = 0u64;
    for (to, &b) in (at..).zip(text[at..].iter().take(11)) {
        let digit = b.wrapping_sub(b'0');
        if digit > 9 {
            let good = b == end && to > at && value <= u64::from(u32::MAX);
            return good.then_some((value as u32, to + 1));
        }
        value = value * 10 + u64::from(digit);
    }
    None
}

/// A position line: its code, account and number, and where they begin.
struct Line {
    values: [u32; 3],
    starts: [usize; 3],
}

/// Reads the position lines, with a code first where there is a column of codes; how many there are. `see` is handed the
/// index of each and the line.
#[inline]
fn positions<const CODES: bool>(lines: &[u8], mut see: impl FnMut(usize, Line)) -> Result<usize, u32> {
    let (mut count, mut at) = (0, 0);
    while at < lines.len() {
        if count == 1_024 {
            return Err(15);
        }
        let (code, next) = number(lines, at, b',').ok_or(13u32)?;
        let (middle, account, next) = if CODES {
            let (account, after) = number(lines, next, b',').ok_or(13u32)?;
            (next, account, after)
        } else {
            (at, code, next)
        };
        let (number, end) = number(lines, next, b'\n').ok_or(13u32)?;
        see(count, Line { values: [code, account, number], starts: [at, middle, next] });
        count += 1;
        at = end;
    }
    Ok(count)
}

/// What a text has beside its positions, and how many these are.
#[derive(Clone, Copy, Debug, PartialEq)]
pub struct Head {
    pub terms: Terms,
    pub form: Form,
    pub count: usize,
}

/// Line 2, which has the column of the increment or not.
#[inline]
fn line_2(line: &[u8], increments: bool) -> Result<Terms, u32> {
    if line.iter().filter(|&&b| b == b',').count() != 2 + usize::from(increments) {
        return Err(13);
    }
    let method = line[0];
    if line[1] != b',' || !known(method) {
        return Err(14);
    }
    let (exercised, at) = number(line, 2, b',').ok_or(13u32)?;
    let (draw, at) = number(line, at, if increments { b',' } else { b'\n' }).ok_or(13u32)?;
    let increment = if increments { number(line, at, b'\n').ok_or(13u32)?.0 } else { DEFAULT_INCREMENT };
    Ok(Terms { method, exercised, draw, increment })
}

/// The head without the number of positions, whether there is a column of codes, and the position lines.
#[inline]
fn head(text: &[u8]) -> Result<(Head, bool, &[u8]), u32> {
    if text.len() > 32_768 {
        return Err(11);
    }
    let [short, long] = NAMES_1.map(|names| text.strip_prefix(names));
    let rest = short.or(long).ok_or(12u32)?;
    let line_end = rest.iter().position(|&b| b == 10).ok_or(13u32)?;
    let terms = line_2(&rest[..=line_end], long.is_some())?;
    let rest = &rest[line_end + 1..];
    let found = COLUMNS.iter().find_map(|&(coded, form, names)| Some((coded, form, rest.strip_prefix(names)?)));
    let (coded, form, lines) = found.ok_or(12u32)?;
    Ok((Head { terms, form, count: 0 }, coded, lines))
}

/// Reads a text; `see` is handed the index and the line of each position.
#[inline]
fn parse(text: &[u8], see: impl FnMut(usize, Line)) -> Result<Head, u32> {
    let (head, coded, lines) = head(text)?;
    let count = if coded { positions::<true>(lines, see)? } else { positions::<false>(lines, see)? };
    Ok(Head { count, ..head })
}

/// The head of a text, or a refusal.
pub fn read(text: &[u8], codes: &mut [u32], accounts: &mut [u32], numbers: &mut [u32]) -> Result<Head, u32> {
    let mut found = [[0; 3]; 1_024];
    let head = parse(text, |at, line| found[at] = line.values)?;
    let count = head.count;
    if codes.len().min(accounts.len()).min(numbers.len()) < count {
        return Err(4);
    }
    let lists = codes.iter_mut().zip(accounts).zip(numbers);
    for (((code, account), number), from) in lists.zip(&found[..count]) {
        [*code, *account, *number] = *from;
    }
    Ok(head)
}

fn digits(n: u32) -> usize {
    n.checked_ilog10().unwrap_or(0) as usize + 1
}

#[inline]
fn put(text: &mut [u8], at: usize, mut n: u32, end: u8) -> usize {
    let stop = at + digits(n);
    let field = &mut text[at..=stop];
    let mut i = field.len() - 1;
    field[i] = end;
    while i > 0 {
        i -= 1;
        field[i] = b'0' + (n % 10) as u8;
        n /= 10;
    }
    stop + 1
}

fn put_bytes(text: &mut [u8], at: usize, bytes: &[u8]) -> usize {
    text[at..at + bytes.len()].copy_from_slice(bytes);
    at + bytes.len()
}

fn head_length(terms: Terms, names_3: &[u8]) -> usize {
    let Terms { exercised, draw, increment, .. } = terms;
    let column = if increment == DEFAULT_INCREMENT { 0 } else { digits(increment) + 1 };
    names_1(increment).len() + 4 + digits(exercised) + digits(draw) + column + names_3.len()
}

/// Lines 1 to 3.
fn put_head(text: &mut [u8], terms: Terms, names_3: &[u8]) -> usize {
    let Terms { method, exercised, draw, increment } = terms;
    let mut at = put_bytes(text, 0, names_1(increment));
    at = put_bytes(text, at, &[method, b',']);
    at = put(text, at, exercised, b',');
    if increment == DEFAULT_INCREMENT {
        at = put(text, at, draw, b'\n');
    } else {
        at = put(text, at, draw, b',');
        at = put(text, at, increment, b'\n');
    }
    put_bytes(text, at, names_3)
}

/// The length of the text, or a refusal.
pub fn write(terms: Terms, list: List, text: &mut [u8]) -> Result<usize, u32> {
    let List { form, codes, accounts, numbers } = list;
    if !known(terms.method) {
        return Err(14);
    }
    if accounts.len() != numbers.len() || codes.len() != numbers.len() {
        return Err(1);
    }
    if accounts.len() > 1_024 {
        return Err(15);
    }
    let coded = codes != accounts;
    let names_3 = names_3(coded, form);
    let mut length = head_length(terms, names_3);
    length += accounts.iter().zip(numbers).map(|(&a, &n)| digits(a) + digits(n) + 2).sum::<usize>();
    if coded {
        length += codes.iter().map(|&code| digits(code) + 1).sum::<usize>();
    }
    if length > 32_768 {
        return Err(11);
    }
    if text.len() < length {
        return Err(4);
    }
    let mut at = put_head(text, terms, names_3);
    for ((&code, &account), &number) in codes.iter().zip(accounts).zip(numbers) {
        if coded {
            at = put(text, at, code, b',');
        }
        at = put(text, at, account, b',');
        at = put(text, at, number, b'\n');
    }
    Ok(at)
}

/// Judges the list of a text, and turns its numbers into those of the other form, which is handed back.
fn turn(head: Head, codes: &[u32], accounts: &[u32], numbers: &mut [u32]) -> Result<Form, u32> {
    let Head { terms: Terms { method, .. }, form, count } = head;
    let list = List { form, codes, accounts, numbers };
    let mut before = 0;
    match form {
        Form::Shorts => {
            judge::<Shorts>(method, list, count)?;
            for number in numbers {
                *number += before;
                before = *number;
            }
            Ok(Form::LastNumbers)
        }
        Form::LastNumbers => {
            judge::<LastNumbers>(method, list, count)?;
            for number in numbers {
                *number -= std::mem::replace(&mut before, *number);
            }
            Ok(Form::Shorts)
        }
    }
}

/// The length of the changed text, or a refusal: reads, judges, turns and writes.
pub fn change(text: &[u8], output: &mut [u8]) -> Result<usize, u32> {
    let [mut codes, mut accounts, mut numbers] = [[0; 1_024]; 3];
    let head = parse(text, |at, line| [codes[at], accounts[at], numbers[at]] = line.values)?;
    let count = head.count;
    let (codes, accounts, numbers) = (&codes[..count], &accounts[..count], &mut numbers[..count]);
    let form = turn(head, codes, accounts, numbers)?;
    write(head.terms, List { form, codes, accounts, numbers }, output)
}

/// As `change`, but where the columns stay and no code or account begins with 0, both are copied from the text.
pub fn change_by_copying(text: &[u8], output: &mut [u8]) -> Result<usize, u32> {
    let [mut codes, mut accounts, mut numbers] = [[0; 1_024]; 3];
    let mut kept = [(0, 0); 1_024];
    let mut zeros = false;
    let (head, coded, lines) = head(text)?;
    let see = |at: usize, line: Line| {
        [codes[at], accounts[at], numbers[at]] = line.values;
        let [from, middle, to] = line.starts;
        kept[at] = (from as u16, to as u16);
        zeros |= lines[from] == b'0' || lines[middle] == b'0';
    };
    let count = if coded { positions::<true>(lines, see)? } else { positions::<false>(lines, see)? };
    let terms = head.terms;
    let (codes, accounts, numbers) = (&codes[..count], &accounts[..count], &mut numbers[..count]);
    let form = turn(Head { count, ..head }, codes, accounts, numbers)?;
    if zeros || coded != (codes != accounts) {
        return write(terms, List { form, codes, accounts, numbers }, output);
    }
    let names_3 = names_3(coded, form);
    let of_lines = kept.iter().zip(&*numbers).map(|(&(from, to), &number)| usize::from(to - from) + digits(number) + 1);
    let length = head_length(terms, names_3) + of_lines.sum::<usize>();
    if output.len() < length {
        return Err(4);
    }
    let mut at = put_head(output, terms, names_3);
    for (&(from, to), &number) in kept.iter().zip(&*numbers) {
        at = put_bytes(output, at, &lines[usize::from(from)..usize::from(to)]);
        at = put(output, at, number, b'\n');
    }
    Ok(at)
}

const AMOUNTS: &[u8] = b"account,assigned\n";
const RANGES: &[u8] = b"account,first,last,first2,last2\n";
const REFUSED: &[u8] = b"refused\n";

/// Calls `see` with each position's account and the first and last contract of its range.
#[inline]
fn each_range(list: List, mut see: impl FnMut(u32, u32, u32)) {
    let mut before = 0;
    for (&account, &number) in list.accounts.iter().zip(list.numbers) {
        let last = match list.form {
            Form::Shorts => before + number,
            Form::LastNumbers => number,
        };
        see(account, before + 1, last);
        before = last;
    }
}

/// The length of what is printed for a text, or 4.
pub fn respond(text: &[u8], output: &mut [u8]) -> Result<usize, u32> {
    let [mut codes, mut accounts, mut numbers, mut amounts] = [[0; 1_024]; 4];
    let answer = read(text, &mut codes, &mut accounts, &mut numbers).and_then(|Head { terms, form, count }| {
        let list = List { form, codes: &codes[..count], accounts: &accounts[..count], numbers: &numbers[..count] };
        let (total, _) = allocate(terms, list, &mut amounts[..count])?;
        Ok((terms.method, total, list))
    });
    let (method, total, list) = match answer {
        Ok(found) => found,
        Err(number) if output.len() < REFUSED.len() + digits(number) + 1 => return Err(4),
        Err(number) => {
            let at = put_bytes(output, 0, REFUSED);
            return Ok(put(output, at, number, b'\n'));
        }
    };
    let accounts = list.accounts;
    let amounts = &amounts[..accounts.len()];
    let mut length = AMOUNTS.len();
    length +=
        accounts.iter().zip(amounts).map(|(&account, &amount)| digits(account) + digits(amount) + 2).sum::<usize>();
    if method == b'R' {
        length += RANGES.len();
        each_range(list, |account, first, last| {
            length += [account, first, last, first + total, last + total].map(digits).iter().sum::<usize>() + 5;
        });
    }
    if output.len() < length {
        return Err(4);
    }
    let mut at = put_bytes(output, 0, AMOUNTS);
    for (&account, &amount) in accounts.iter().zip(amounts) {
        at = put(output, at, account, b',');
        at = put(output, at, amount, b'\n');
    }
    if method == b'R' {
        at = put_bytes(output, at, RANGES);
        each_range(list, |account, first, last| {
            for number in [account, first, last, first + total] {
                at = put(output, at, number, b',');
            }
            at = put(output, at, last + total, b'\n');
        });
    }
    Ok(at)
}

/// Limit, long and short after the day, or a refusal; a call, as the library's is one.
#[inline(never)]
pub fn process_investor(day: u32, counts: [u32; 7]) -> Result<(u32, u32, u32), u32> {
    let [long, short, opening_purchases, opening_sales, closing_purchases, closing_sales, exercised] = counts;
    if counts.iter().any(|&count| count > MOST) {
        return Err(16);
    }
    let to_close = short + opening_sales;
    if closing_purchases > to_close {
        return Err(17);
    }
    if day == 0 {
        let limit = long + opening_purchases;
        if exercised > limit {
            return Err(18);
        }
        let remaining = limit - exercised;
        let beyond = closing_sales.saturating_sub(remaining);
        return Ok((limit, remaining.saturating_sub(closing_sales), to_close - closing_purchases + beyond));
    }
    let bought = long + opening_purchases + closing_purchases;
    let sold = to_close + closing_sales;
    let limit = bought.saturating_sub(sold);
    if exercised > limit {
        return Err(18);
    }
    Ok((limit, limit - exercised, sold.saturating_sub(bought)))
}

/// The limit, or a refusal; a call too.
#[inline(never)]
pub fn process_market_maker(day: u32, counts: [u32; 4]) -> Result<u32, u32> {
    let [long, short, purchases, sales] = counts;
    if counts.iter().any(|&count| count > MOST) {
        return Err(16);
    }
    let bought = long + purchases;
    Ok(if day == 0 { bought } else { bought.saturating_sub(short + sales) })
}
