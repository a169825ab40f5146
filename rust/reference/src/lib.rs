//! Exercise assignment, written step by step from the document.
//! Slow on purpose: it is what the library is compared with.

pub mod day;
pub mod jobs;
pub mod merge;

use std::cmp::Reverse;
use std::collections::HashSet;

pub const MOST_POSITIONS: usize = 4_096;
pub const MOST_LINES: usize = 1_024;
pub const MOST_CONTRACTS: u64 = 10_000_000;
pub const MOST_BYTES: usize = 32_768;
pub const MOST_DIGITS: usize = 10;
/// The increment where none is given.
pub const DEFAULT_INCREMENT: u32 = 25;
pub const MOST_INCREMENT: u32 = 1_000;
pub const MOST_BLOCKS: u32 = 1_000_000;
/// What is printed has at most so many bytes: two names lines, and for each position a line with its account and
/// amount, ten digits each, and one with its account and the four ends of its ranges, eight digits each.
pub const MOST_PRINTED: usize = 17 + 32 + MOST_LINES * (22 + 47);
/// A changed text has at most so many bytes: line 1, line 2 with three numbers of ten digits, line 3, and for each
/// position a line with its code and account, ten digits each, and its number, eight digits.
pub const MOST_CHANGED: usize = 32 + 35 + 19 + MOST_LINES * 31;

/// What line 2 of a text has.
#[derive(Clone, Copy, Debug, PartialEq, Eq)]
pub struct Terms {
    pub method: u8,
    pub exercised: u32,
    pub draw: u32,
    pub increment: u32,
}

impl Terms {
    /// Terms that give no increment.
    pub fn new(method: u8, exercised: u32, draw: u32) -> Terms {
        Terms { method, exercised, draw, increment: DEFAULT_INCREMENT }
    }

    /// The same terms with the increment.
    pub fn by(self, increment: u32) -> Terms {
        Terms { increment, ..self }
    }

    /// T1: S divided by the increment, rounded up.
    pub fn blocks(self) -> u32 {
        self.exercised.div_ceil(self.increment)
    }
}

/// What the number of a position is: its shorts, or its last sequence number.
#[derive(Clone, Copy, Debug, PartialEq, Eq)]
pub enum Form {
    Shorts,
    LastNumbers,
}

pub const FORMS: [Form; 2] = [Form::Shorts, Form::LastNumbers];

/// The positions of a call in list order: their codes, their accounts and their numbers in one of the forms.
#[derive(Clone, Copy, Debug)]
pub struct List<'a> {
    pub form: Form,
    pub codes: &'a [u32],
    pub accounts: &'a [u32],
    pub numbers: &'a [u32],
}

impl<'a> List<'a> {
    /// In the form of shorts; each code is the account number.
    pub fn by_account(accounts: &'a [u32], shorts: &'a [u32]) -> List<'a> {
        List { form: Form::Shorts, codes: accounts, accounts, numbers: shorts }
    }

    /// The shorts of each position; last numbers have to rise.
    pub fn shorts(&self) -> Vec<u32> {
        match self.form {
            Form::Shorts => self.numbers.to_vec(),
            Form::LastNumbers => {
                (0..self.numbers.len()).map(|at| self.numbers[at] - before(self.numbers, at)).collect()
            }
        }
    }

    /// The last sequence number of each position, the contracts being numbered from 1 on in list order.
    pub fn last_numbers(&self) -> Vec<u32> {
        match self.form {
            Form::Shorts => (1..=self.numbers.len()).map(|count| self.numbers[..count].iter().sum()).collect(),
            Form::LastNumbers => self.numbers.to_vec(),
        }
    }
}

#[derive(Clone, Debug, PartialEq, Eq)]
pub struct Allocation {
    pub amounts: Vec<u32>,
    pub total: u32,
    pub further: u32,
}

#[derive(Clone, Debug, PartialEq, Eq)]
pub struct Series {
    pub terms: Terms,
    pub form: Form,
    pub codes: Vec<u32>,
    pub accounts: Vec<u32>,
    pub numbers: Vec<u32>,
}

impl Series {
    pub fn list(&self) -> List<'_> {
        List { form: self.form, codes: &self.codes, accounts: &self.accounts, numbers: &self.numbers }
    }
}

fn known(method: u8) -> bool {
    [b'W', b'P', b'L', b'R'].contains(&method)
}

fn first(refusals: &[(u32, bool)]) -> Result<(), u32> {
    match refusals.iter().find(|(_, applies)| *applies) {
        Some((number, _)) => Err(*number),
        None => Ok(()),
    }
}

/// The number before the one at the index, 0 before the first.
fn before(numbers: &[u32], at: usize) -> u32 {
    if at == 0 {
        0
    } else {
        numbers[at - 1]
    }
}

/// Whether the number at the index is above the one before it.
fn rises(numbers: &[u32], at: usize) -> bool {
    numbers[at] > before(numbers, at)
}

/// The first refusal of a list that applies, or T; `room` is the length of the output.
pub fn judge_list(method: u8, list: List, room: usize) -> Result<u32, u32> {
    let List { form, codes, accounts, numbers } = list;
    let by_code = method == b'W';
    first(&[
        (14, !known(method)),
        (1, accounts.len() != numbers.len() || by_code && codes.len() != numbers.len()),
        (2, numbers.len() > MOST_POSITIONS),
        (3, numbers.is_empty()),
        (4, room < numbers.len()),
    ])?;
    let mut earlier = HashSet::new();
    let mut contracts = 0u64;
    for (at, &number) in numbers.iter().enumerate() {
        contracts = match form {
            Form::Shorts => contracts + u64::from(number),
            Form::LastNumbers => u64::from(number),
        };
        first(&[
            (5, !rises(if by_code { codes } else { accounts }, at)),
            (19, by_code && (accounts[at] == 0 || !earlier.insert(accounts[at]))),
            (6, form == Form::Shorts && number == 0),
            (20, form == Form::LastNumbers && !rises(numbers, at)),
            (7, contracts > MOST_CONTRACTS),
        ])?;
    }
    Ok(contracts as u32)
}

/// The refusals of the increment, under W.
fn judge_increment(terms: Terms, total: u32) -> Result<(), u32> {
    if terms.increment == 0 || terms.increment > MOST_INCREMENT {
        return Err(23);
    }
    if terms.exercised < total && terms.blocks() > MOST_BLOCKS {
        return Err(24);
    }
    Ok(())
}

/// The first refusal of the allocating call that applies, the draw left aside, or T.
pub fn judge(terms: Terms, list: List, room: usize) -> Result<u32, u32> {
    let total = judge_list(terms.method, list, room)?;
    first(&[(8, terms.exercised == 0), (9, terms.exercised > total)])?;
    if terms.method == b'W' {
        judge_increment(terms, total)?;
    }
    Ok(total)
}

pub fn judge_draw(terms: Terms, total: u32) -> Result<(), u32> {
    let range = match terms.method {
        b'W' => 1..=total,
        b'L' => 1..=10_000,
        _ => 0..=u32::MAX,
    };
    if range.contains(&terms.draw) {
        Ok(())
    } else {
        Err(10)
    }
}

/// The amounts where no draw is asked for: S equal to T under W, L and R, then one position under L and R.
fn without_draw(terms: Terms, shorts: &[u32], total: u32) -> Option<Vec<u32>> {
    match terms.method {
        b'W' | b'L' | b'R' if terms.exercised == total => Some(shorts.to_vec()),
        b'L' | b'R' if shorts.len() == 1 => Some(vec![terms.exercised]),
        _ => None,
    }
}

/// The amounts and the further number that a draw in range leads to.
pub fn by_draw(terms: Terms, shorts: &[u32], total: u32) -> (Vec<u32>, u32) {
    match terms.method {
        b'W' => wheel(terms, shorts, total),
        b'P' => pro_rata(terms, shorts, total),
        b'R' => remainder_draw(terms, shorts, total),
        _ => lottery(terms, shorts, total),
    }
}

/// The allocating call; `room` is the length of its output.
pub fn allocate(terms: Terms, list: List, room: usize) -> Result<Allocation, u32> {
    let total = judge(terms, list, room)?;
    let shorts = list.shorts();
    let (amounts, further) = match without_draw(terms, &shorts, total) {
        Some(amounts) => (amounts, 0),
        None => {
            judge_draw(terms, total)?;
            by_draw(terms, &shorts, total)
        }
    };
    Ok(Allocation { amounts, total, further })
}

/// The position that each contract belongs to; contract n stands at index n - 1.
fn owners(shorts: &[u32]) -> Vec<u16> {
    let mut of = Vec::with_capacity(shorts.iter().map(|&s| s as usize).sum());
    for (position, &short) in shorts.iter().enumerate() {
        for _ in 0..short {
            of.push(position as u16);
        }
    }
    of
}

/// T / T1 to six places, to the nearest, a half up; less the increment, not below zero.
pub fn skip_interval(total: u32, blocks: u32, increment: u32) -> u64 {
    let exact = u64::from(total) * 1_000_000;
    let by = u64::from(blocks);
    let mut millionths = exact / by;
    if exact % by >= by - exact % by {
        millionths += 1;
    }
    millionths.saturating_sub(u64::from(increment) * 1_000_000)
}

/// Steps the counter round the wheel one contract at a time; calls `mark` with the number of the
/// block, from 1, and the place of each contract in it. Answers T1.
pub fn turn(terms: Terms, total: u32, mut mark: impl FnMut(u32, u32)) -> u32 {
    let blocks = terms.blocks();
    let interval = skip_interval(total, blocks, terms.increment);
    let next = |place: u32| if place == total { 1 } else { place + 1 };
    let mut place = terms.draw;
    let mut left = terms.exercised;
    let mut reserve = 0;
    for block in 1..=blocks {
        if block > 1 {
            let skip = interval + reserve;
            reserve = skip % 1_000_000;
            for _ in 0..skip / 1_000_000 {
                place = next(place);
            }
        }
        for _ in 0..left.min(terms.increment) {
            mark(block, place);
            place = next(place);
            left -= 1;
        }
    }
    blocks
}

fn wheel(terms: Terms, shorts: &[u32], total: u32) -> (Vec<u32>, u32) {
    let owners = owners(shorts);
    let mut marked = vec![false; owners.len()];
    let mut amounts = vec![0; shorts.len()];
    let blocks = turn(terms, total, |_, place| {
        let at = place as usize - 1;
        assert!(!marked[at], "contract {place} is marked twice: T {total}, {terms:?}");
        marked[at] = true;
        amounts[owners[at] as usize] += 1;
    });
    (amounts, blocks)
}

/// Round one: the whole part of each assignment amount, its decimal part in hundred-thousandths, what remains of S.
fn round_one(shorts: &[u32], total: u32, exercised: u32) -> (Vec<u32>, Vec<u32>, usize) {
    let percentage = u128::from(exercised) * 10u128.pow(17) / u128::from(total);
    let exact: Vec<u128> = shorts.iter().map(|&s| u128::from(s) * percentage / 10u128.pow(12)).collect();
    let amounts: Vec<u32> = exact.iter().map(|a| (a / 100_000) as u32).collect();
    let decimals: Vec<u32> = exact.iter().map(|a| (a % 100_000) as u32).collect();
    let remaining = exercised as usize - amounts.iter().map(|&a| a as usize).sum::<usize>();
    assert!(remaining <= shorts.len(), "round two has {remaining} contracts for {} positions", shorts.len());
    (amounts, decimals, remaining)
}

/// The decimal part, in hundred-thousandths, at which what remains of S after round one runs out: from the largest to
/// the smallest, the last one that is served. None where nothing remains.
pub fn cut_off(shorts: &[u32], exercised: u32) -> Option<u32> {
    let (_, mut decimals, remaining) = round_one(shorts, shorts.iter().sum(), exercised);
    decimals.sort_by_key(|&decimal| Reverse(decimal));
    (remaining > 0).then(|| decimals[remaining - 1])
}

fn pro_rata(terms: Terms, shorts: &[u32], total: u32) -> (Vec<u32>, u32) {
    let (mut amounts, decimals, remaining) = round_one(shorts, total, terms.exercised);
    if remaining > 0 {
        let mut ranked: Vec<usize> = (0..shorts.len()).collect();
        ranked.sort_by_key(|&p| Reverse(decimals[p]));
        let last = decimals[ranked[remaining - 1]];
        let (larger, equal): (Vec<usize>, Vec<usize>) =
            ranked.into_iter().filter(|&p| decimals[p] >= last).partition(|&p| decimals[p] > last);
        for &p in &larger {
            amounts[p] += 1;
        }
        let begin = terms.draw as usize % equal.len();
        for &p in equal.iter().cycle().skip(begin).take(remaining - larger.len()) {
            amounts[p] += 1;
        }
    }
    (amounts, remaining as u32)
}

/// draw × T / 10,000, rounded up.
pub fn starting_place(total: u32, draw: u32) -> u32 {
    (u64::from(draw) * u64::from(total)).div_ceil(10_000) as u32
}

fn lottery(terms: Terms, shorts: &[u32], total: u32) -> (Vec<u32>, u32) {
    let owners = owners(shorts);
    let start = starting_place(total, terms.draw);
    let mut amounts = vec![0; shorts.len()];
    for k in 0..terms.exercised {
        let contract = (start - 1 + k) % total + 1;
        amounts[owners[contract as usize - 1] as usize] += 1;
    }
    (amounts, start)
}

/// The two ranges of each position, as first, last, first2 and last2: the contracts are counted one by one through the
/// list, and on through it once more. No shorts may be 0.
pub fn ranges(shorts: &[u32]) -> Vec<[u32; 4]> {
    let mut found = vec![[0; 4]; shorts.len()];
    let mut number = 0;
    for second in [0, 2] {
        for (range, &short) in found.iter_mut().zip(shorts) {
            for contract in 0..short {
                number += 1;
                if contract == 0 {
                    range[second] = number;
                }
                range[second + 1] = number;
            }
        }
    }
    found
}

/// Starts one above what the draw leaves over when divided by T, and selects contracts one by one, each from the
/// position with the range that it falls into: the first ranges in list order, then the second ones.
fn remainder_draw(terms: Terms, shorts: &[u32], total: u32) -> (Vec<u32>, u32) {
    let ranges = ranges(shorts);
    let first_ranges = ranges.iter().map(|range| (range[0], range[1]));
    let mut in_turn = first_ranges.chain(ranges.iter().map(|range| (range[2], range[3]))).enumerate();
    let start = terms.draw % total + 1;
    let mut amounts = vec![0; shorts.len()];
    let (mut at, (mut first, mut last)) = in_turn.next().expect("a range");
    for contract in start..start + terms.exercised {
        while contract > last {
            (at, (first, last)) = in_turn.next().expect("a range");
        }
        assert!(first <= contract, "contract {contract} is in no range: {shorts:?}");
        amounts[at % shorts.len()] += 1;
    }
    (amounts, start)
}

/// A number has one to ten digits, leading zeros among them, and fits 32 bits.
fn number(field: &[u8]) -> Result<u32, u32> {
    let one_to_ten = (1..=MOST_DIGITS).contains(&field.len());
    if !one_to_ten || !field.iter().all(u8::is_ascii_digit) {
        return Err(13);
    }
    let mut value = 0u64;
    for digit in field {
        value = value * 10 + u64::from(digit - b'0');
    }
    u32::try_from(value).map_err(|_| 13)
}

/// The fields of a line that ends with byte 10.
fn fields(line: &[u8], count: usize) -> Result<Vec<&[u8]>, u32> {
    let line = line.strip_suffix(b"\n").ok_or(13u32)?;
    let fields: Vec<&[u8]> = line.split(|&b| b == b',').collect();
    if fields.len() == count {
        Ok(fields)
    } else {
        Err(13)
    }
}

/// Line 1.
fn names_1(with_increment: bool) -> &'static [u8] {
    if with_increment {
        b"method,exercised,draw,increment\n"
    } else {
        b"method,exercised,draw\n"
    }
}

/// Line 3.
fn names_3(with_code: bool, form: Form) -> &'static [u8] {
    match (with_code, form) {
        (false, Form::Shorts) => b"account,short\n",
        (true, Form::Shorts) => b"code,account,short\n",
        (false, Form::LastNumbers) => b"account,last\n",
        (true, Form::LastNumbers) => b"code,account,last\n",
    }
}

/// Whether a line 3 has the code, and its form.
fn columns_of(line: &[u8]) -> Result<(bool, Form), u32> {
    for form in FORMS {
        for with_code in [false, true] {
            if line == names_3(with_code, form) {
                return Ok((with_code, form));
            }
        }
    }
    Err(12)
}

/// The terms in a line 2.
fn terms_of(line: &[u8], with_increment: bool) -> Result<Terms, u32> {
    let line = fields(line, if with_increment { 4 } else { 3 })?;
    let method = match line[0] {
        [byte] if known(*byte) => *byte,
        _ => return Err(14),
    };
    let terms = Terms::new(method, number(line[1])?, number(line[2])?);
    Ok(if with_increment { terms.by(number(line[3])?) } else { terms })
}

/// Reads a text without regard to the room of the lent lists.
pub fn read_text(text: &[u8]) -> Result<Series, u32> {
    if text.len() > MOST_BYTES {
        return Err(11);
    }
    let mut lines = text.split_inclusive(|&b| b == b'\n');
    let line_1 = lines.next().unwrap_or(b"");
    let with_increment = line_1 == names_1(true);
    if !with_increment && line_1 != names_1(false) {
        return Err(12);
    }
    let terms = terms_of(lines.next().unwrap_or(b""), with_increment)?;
    let (with_code, form) = columns_of(lines.next().unwrap_or(b""))?;
    let columns = if with_code { 3 } else { 2 };
    let mut series = Series { terms, form, codes: vec![], accounts: vec![], numbers: vec![] };
    for line in lines {
        if series.numbers.len() == MOST_LINES {
            return Err(15);
        }
        let numbers = fields(line, columns)?.into_iter().map(number).collect::<Result<Vec<u32>, u32>>()?;
        // Of two columns the first is account and code.
        series.codes.push(numbers[0]);
        series.accounts.push(numbers[columns - 2]);
        series.numbers.push(numbers[columns - 1]);
    }
    Ok(series)
}

/// The reading call; the rooms are the lengths of the lent lists for codes, accounts and numbers.
pub fn read(text: &[u8], rooms: [usize; 3]) -> Result<Series, u32> {
    let series = read_text(text)?;
    if rooms.iter().any(|&room| room < series.numbers.len()) {
        return Err(4);
    }
    Ok(series)
}

/// The bytes of a series; with the increment where it is not 25, and with the code column where a code is not the
/// account of its position.
fn text_of(terms: Terms, list: List) -> Vec<u8> {
    let Terms { method, exercised, draw, increment } = terms;
    let with_increment = increment != DEFAULT_INCREMENT;
    let with_code = list.codes != list.accounts;
    let mut text = names_1(with_increment).to_vec();
    text.extend(format!("{},{exercised},{draw}", char::from(method)).bytes());
    if with_increment {
        text.extend(format!(",{increment}").bytes());
    }
    text.push(b'\n');
    text.extend(names_3(with_code, list.form));
    for ((code, account), number) in list.codes.iter().zip(list.accounts).zip(list.numbers) {
        if with_code {
            text.extend(format!("{code},").bytes());
        }
        text.extend(format!("{account},{number}\n").bytes());
    }
    text
}

/// The writing call; `room` is the length of its output.
pub fn write(terms: Terms, list: List, room: usize) -> Result<Vec<u8>, u32> {
    let [codes, accounts, numbers] = [list.codes, list.accounts, list.numbers].map(<[u32]>::len);
    first(&[(14, !known(terms.method)), (1, codes != numbers || accounts != numbers), (15, numbers > MOST_LINES)])?;
    let text = text_of(terms, list);
    first(&[(11, text.len() > MOST_BYTES), (4, room < text.len())])?;
    Ok(text)
}

/// The text with the same series in the other form, or the first refusal of the change that applies, 4 left aside.
fn changed(text: &[u8]) -> Result<Vec<u8>, u32> {
    let series = read_text(text)?;
    let list = series.list();
    judge_list(series.terms.method, list, list.numbers.len())?;
    let (form, numbers) = match list.form {
        Form::Shorts => (Form::LastNumbers, list.last_numbers()),
        Form::LastNumbers => (Form::Shorts, list.shorts()),
    };
    Ok(text_of(series.terms, List { form, numbers: &numbers, ..list }))
}

/// The changing call; `room` is the length of its output.
pub fn change(text: &[u8], room: usize) -> Result<Vec<u8>, u32> {
    let changed = changed(text)?;
    first(&[(4, room < changed.len())])?;
    Ok(changed)
}

/// What a program prints for a refusal.
fn refused(number: u32) -> Vec<u8> {
    format!("refused\n{number}\n").into_bytes()
}

/// The bytes that the program `change_form` prints for a text.
pub fn printed_change(text: &[u8]) -> Vec<u8> {
    changed(text).unwrap_or_else(refused)
}

fn assigned(text: &[u8]) -> Result<Vec<u8>, u32> {
    let series = read_text(text)?;
    let list = series.list();
    let found = allocate(series.terms, list, list.numbers.len())?;
    let mut out = String::from("account,assigned\n");
    for (account, amount) in list.accounts.iter().zip(&found.amounts) {
        out.push_str(&format!("{account},{amount}\n"));
    }
    if series.terms.method == b'R' {
        out.push_str("account,first,last,first2,last2\n");
        for (account, [first, last, first2, last2]) in list.accounts.iter().zip(ranges(&list.shorts())) {
            out.push_str(&format!("{account},{first},{last},{first2},{last2}\n"));
        }
    }
    Ok(out.into_bytes())
}

/// The bytes that the program `assign` prints for a text.
pub fn printed(text: &[u8]) -> Vec<u8> {
    assigned(text).unwrap_or_else(refused)
}

/// The responding call; `room` is the length of its output.
pub fn respond(text: &[u8], room: usize) -> Result<Vec<u8>, u32> {
    let out = printed(text);
    if room < out.len() {
        return Err(4);
    }
    Ok(out)
}

#[cfg(test)]
mod tests;
