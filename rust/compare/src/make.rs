//! Makes series, texts and damage to them.

use std::collections::BTreeSet;

use reference::{Form, List, Terms, DEFAULT_INCREMENT, FORMS};

use crate::random::Random;

pub const METHODS: [u8; 4] = *b"WPLR";

/// Increments at both ends of those that W takes and past them, those that 24 ends between, and 25 with its neighbours.
pub const INCREMENTS: [u32; 12] = [0, 1, 2, 9, 10, 24, 25, 26, 999, 1_000, 1_001, u32::MAX];

/// Which of the columns that may be left out a text has: the increment in lines 1 and 2, the codes from line 3 on.
#[derive(Clone, Copy, Debug, PartialEq, Eq)]
pub struct Columns {
    pub increment: bool,
    pub codes: bool,
}

pub const COLUMNS: [Columns; 4] = [
    Columns { increment: false, codes: false },
    Columns { increment: false, codes: true },
    Columns { increment: true, codes: false },
    Columns { increment: true, codes: true },
];

/// The fields of a text that are numbers.
#[derive(Clone, Copy, Debug, PartialEq, Eq)]
pub enum Field {
    Exercised,
    Draw,
    Increment,
    Code,
    Account,
    Number,
}

pub const FIELDS: usize = 6;

impl Columns {
    /// The fields of line 2, and those of a position line.
    fn of_lines(self) -> (&'static [Field], &'static [Field]) {
        use Field::*;
        let terms: &[Field] = if self.increment { &[Exercised, Draw, Increment] } else { &[Exercised, Draw] };
        let position: &[Field] = if self.codes { &[Code, Account, Number] } else { &[Account, Number] };
        (terms, position)
    }

    /// The field of a number by its index among the numbers of a text.
    pub fn field(self, index: usize) -> Field {
        let (terms, position) = self.of_lines();
        match index.checked_sub(terms.len()) {
            None => terms[index],
            Some(after) => position[after % position.len()],
        }
    }
}

/// Every field of the texts with each of the columns.
pub fn fields() -> impl Iterator<Item = (Columns, Field)> {
    COLUMNS.into_iter().flat_map(|columns| {
        let (terms, position) = columns.of_lines();
        terms.iter().chain(position).map(move |&field| (columns, field))
    })
}

#[derive(Clone, Debug)]
pub struct Series {
    pub form: Form,
    pub codes: Vec<u32>,
    pub accounts: Vec<u32>,
    pub numbers: Vec<u32>,
}

impl Series {
    /// In the form of shorts; each code is the account number.
    pub fn by_account(accounts: Vec<u32>, shorts: Vec<u32>) -> Series {
        Series::coded(accounts.clone(), accounts, shorts)
    }

    /// In the form of shorts.
    pub fn coded(codes: Vec<u32>, accounts: Vec<u32>, shorts: Vec<u32>) -> Series {
        Series { form: Form::Shorts, codes, accounts, numbers: shorts }
    }

    pub fn list(&self) -> List<'_> {
        List { form: self.form, codes: &self.codes, accounts: &self.accounts, numbers: &self.numbers }
    }

    pub fn total(&self) -> u64 {
        match self.form {
            Form::Shorts => self.numbers.iter().map(|&short| u64::from(short)).sum(),
            Form::LastNumbers => u64::from(self.numbers.last().copied().unwrap_or(0)),
        }
    }

    /// The same list in the form.
    pub fn in_form(&self, form: Form) -> Series {
        let mut list = self.clone();
        if form != list.form {
            (list.form, list.numbers) = in_other_form(self.list());
        }
        list
    }
}

fn other_form(form: Form) -> Form {
    match form {
        Form::Shorts => Form::LastNumbers,
        Form::LastNumbers => Form::Shorts,
    }
}

/// The other form and the numbers of the same list in it. A list that is refused is then refused at the same position:
/// numbers that would pass 32 bits or fall below 0 stay there.
pub fn in_other_form(list: List) -> (Form, Vec<u32>) {
    let mut before = 0u32;
    let next = |&number: &u32| match list.form {
        Form::Shorts => {
            before = before.saturating_add(number);
            before
        }
        Form::LastNumbers => number.saturating_sub(std::mem::replace(&mut before, number)),
    };
    (other_form(list.form), list.numbers.iter().map(next).collect())
}

/// 1, 2, ..
pub fn upward(count: usize) -> Vec<u32> {
    (1..=count as u32).collect()
}

/// Numbers above 0 that rise.
pub fn rising(random: &mut Random, count: usize) -> Vec<u32> {
    match random.below(4) {
        0 => upward(count),
        1 => (0..count as u32).map(|i| u32::MAX - (count as u32 - 1) + i).collect(),
        _ => {
            let widest = (u64::from(u32::MAX) / count as u64).min(random.spread(u64::from(u32::MAX)));
            let mut last = 0;
            let mut all = Vec::new();
            for _ in 0..count {
                last += random.between(1, widest.max(1)) as u32;
                all.push(last);
            }
            all
        }
    }
}

pub fn shuffle(random: &mut Random, numbers: &mut [u32]) {
    for at in (1..numbers.len()).rev() {
        numbers.swap(at, random.index(at + 1));
    }
}

/// Random numbers above 0 that differ, in random order.
pub fn different(random: &mut Random, count: usize) -> Vec<u32> {
    let mut found = BTreeSet::new();
    while found.len() < count {
        found.insert(random.between(1, u64::from(u32::MAX)) as u32);
    }
    let mut all: Vec<u32> = found.into_iter().collect();
    shuffle(random, &mut all);
    all
}

/// Numbers that differ and share their low bits, at most 2 to the power of 32 less the bits; none is 0.
pub fn sharing_low_bits(random: &mut Random, count: usize, bits: u32) -> Vec<u32> {
    let low = random.between(1, (1 << bits) - 1) as u32;
    let mut high: Vec<u32> = (0..1 << (32 - bits)).collect();
    shuffle(random, &mut high);
    high.truncate(count);
    high.iter().map(|high| (high << bits) + low).collect()
}

/// Numbers that differ and, times 2,654,435,761 in 32 bits, all have the same upper 12 bits; 4,096 at most.
pub fn sharing_upper_bits_of_product(random: &mut Random, count: usize) -> Vec<u32> {
    const FACTOR: u32 = 2_654_435_761;
    let any = random.between(1, 4_095) as u32;
    let upper = random.pick(&[1, 4_095, any]);
    let mut inverse = 1u32;
    for _ in 0..5 {
        inverse = inverse.wrapping_mul(2u32.wrapping_sub(FACTOR.wrapping_mul(inverse)));
    }
    let mut lower: Vec<u32> = (0..1 << 12).collect();
    shuffle(random, &mut lower);
    let all = lower.iter().take(count).map(|lower| ((upper << 20) + (lower << 8)).wrapping_mul(inverse));
    all.inspect(|number| assert_eq!(number.wrapping_mul(FACTOR) >> 20, upper)).collect()
}

// Another order of accounts that differ.
fn reorder(random: &mut Random, accounts: &mut Vec<u32>) {
    let count = accounts.len();
    match random.below(8) {
        0 => {}
        1 => accounts.reverse(),
        2 => accounts.rotate_left(count / 2),
        3 => {
            let at = random.index(count);
            accounts.swap(at, (at + 1) % count);
        }
        4 if count <= 4_096 => *accounts = sharing_low_bits(random, count, 20),
        5 if count <= 4_096 => *accounts = sharing_upper_bits_of_product(random, count),
        _ => shuffle(random, accounts),
    }
}

/// Codes that nothing is asked of.
fn any_codes(random: &mut Random, count: usize) -> Vec<u32> {
    let bits = random.bits() as u32;
    (0..count).map(|_| random.pick(&[0, 1, bits, u32::MAX]).wrapping_add(random.below(3) as u32)).collect()
}

/// The list with codes that the method takes. Of three lists one has its accounts as codes; else the codes of W rise
/// and its accounts stand in any order, and those of P, L and R, where none is looked at, are any.
pub fn coded(random: &mut Random, method: u8, list: &Series) -> Series {
    let mut list = list.clone();
    let count = list.numbers.len();
    if count == 0 || random.one_in(3) {
        return list;
    }
    if method == b'W' {
        list.codes = rising(random, count);
        reorder(random, &mut list.accounts);
    } else {
        list.codes = any_codes(random, count);
    }
    list
}

/// A list of `count` positions with T at most `most`, and exactly `most` where `exact` is set.
pub fn series(random: &mut Random, count: usize, most: u64, exact: bool) -> Series {
    let style = random.below(6);
    let weights: Vec<u64> = (0..count)
        .map(|i| match style {
            0 => 1,
            1 => random.between(1, 3),
            2 => random.between(1, 1_000),
            3 => random.spread(1 << 20),
            4 => u64::from(i == count / 2) * 1_000_000 + 1,
            _ => random.pick(&[25, 50, 26, 75]),
        })
        .collect();
    let sum: u64 = weights.iter().sum();
    let free = most - count as u64;
    let mut shorts: Vec<u32> =
        weights.iter().map(|&w| 1 + (u128::from(free) * u128::from(w) / u128::from(sum)) as u32).collect();
    if exact {
        let short: u64 = shorts.iter().map(|&s| u64::from(s)).sum();
        let at = random.index(count);
        shorts[at] += (most - short) as u32;
    }
    Series::by_account(rising(random, count), shorts)
}

/// Shorts that stand in the place of one position and add up to its shorts: one to `most` of them.
pub fn parts(random: &mut Random, short: u32, most: usize) -> Vec<u32> {
    let most = most.min(short as usize);
    let count = match random.below(8) {
        0 => 1,
        1 => most,
        _ => most.min(1 + random.spread(most as u64) as usize),
    };
    series(random, count, u64::from(short), true).numbers
}

/// The lists whose shorts add up to `total`, each cut or not after each contract.
pub fn lists(total: u32) -> Vec<Series> {
    (0..1u32 << (total - 1))
        .map(|cuts| {
            let mut shorts = vec![1];
            for i in 0..total - 1 {
                if cuts >> i & 1 == 1 {
                    shorts.push(1);
                } else {
                    *shorts.last_mut().unwrap() += 1;
                }
            }
            Series::by_account(upward(shorts.len()), shorts)
        })
        .collect()
}

/// Draws at, inside and past the ends of the ranges of W and L.
pub fn draws(total: u32) -> [u32; 9] {
    [0, 1, 2, total / 2, total, total + 1, 10_000, 10_001, u32::MAX]
}

/// An increment, mostly one that W takes.
pub fn increment(random: &mut Random) -> u32 {
    match random.below(24) {
        0..=6 => DEFAULT_INCREMENT,
        7..=9 => random.pick(&INCREMENTS),
        10 => random.bits() as u32,
        11..=14 => random.between(1, 1_000) as u32,
        _ => random.spread(1_000) as u32,
    }
}

/// S for a list with T contracts.
fn exercised(random: &mut Random, total: u64, increment: u32) -> u32 {
    let block = u64::from(increment.clamp(1, 1_000));
    let most_blocks = block * 1_000_000;
    let s = match random.below(26) {
        0 => 0,
        1 => total + 1,
        2 | 3 => total,
        4 | 5 => total - 1,
        6 | 7 => total - random.below(total.min(60)),
        8 | 9 => (random.between(0, total / block) * block).max(1),
        10 => (random.between(0, total / block) * block + 1).min(total),
        11 | 12 => random.spread(total),
        13 => total / 2,
        14 | 15 if most_blocks < total => most_blocks + random.below(2),
        _ => random.between(1, total),
    };
    s as u32
}

/// A draw for a method; mostly one in range. Under R every other one is near a multiple of T.
fn draw(random: &mut Random, method: u8, total: u64) -> u32 {
    if method == b'R' && random.one_in(2) {
        let multiple = random.pick(&[0, 1, u64::from(u32::MAX) / total]) * total;
        return (multiple + random.below(3)).saturating_sub(1).min(u64::from(u32::MAX)) as u32;
    }
    let highest = match method {
        b'W' => total,
        b'L' => 10_000,
        _ => u64::from(u32::MAX),
    };
    let d = match random.below(32) {
        0 => 0,
        1 => highest + 1,
        2 | 3 => 1,
        4 | 5 => highest,
        6 => highest - 1,
        7 => random.spread(highest),
        8 => u64::from(random.bits() as u32) >> 20,
        _ => random.between(1, highest),
    };
    d.min(u64::from(u32::MAX)) as u32
}

/// Terms for a method and a list; of the whole series and of one position every other draw is out of the range of W or
/// L.
pub fn terms(random: &mut Random, method: u8, positions: usize, total: u64) -> Terms {
    let increment = increment(random);
    let exercised = exercised(random, total, increment);
    let draw = if (u64::from(exercised) == total || positions == 1) && random.one_in(2) {
        let highest = if method == b'W' { total as u32 } else { 10_000 };
        random.pick(&[0, highest + 1, u32::MAX])
    } else {
        draw(random, method, total)
    };
    Terms { method, exercised, draw, increment }
}

// Faults of W at one position, by code and account, or several at once.
fn spoil_position(random: &mut Random, list: &mut Series, at: usize) {
    let other = random.index(at.max(1));
    let before = at.saturating_sub(1);
    let kind = random.below(10);
    match kind {
        0 | 5 => list.codes[at] = 0,
        1 | 6 => list.codes[at] = list.codes[before],
        2 => list.codes[at] = list.codes[other],
        3 => list.codes.swap(at, other),
        4 => list.codes[at] = u32::MAX,
        _ => {}
    }
    match kind {
        5 | 7 => list.accounts[at] = 0,
        6 | 8 => list.accounts[at] = list.accounts[other],
        9 => list.accounts[at] = list.accounts[before],
        _ => {}
    }
    if kind > 4 && random.one_in(3) {
        spoil_number(random, list, at);
    }
}

// Faults of a number in either form: no shorts, a last number that is 0, equal to the one before or below it, and too
// many contracts, or just not.
fn spoil_number(random: &mut Random, list: &mut Series, at: usize) {
    let before = list.numbers[at.saturating_sub(1)];
    let up_to = 10_000_001 - list.numbers[at].min(10_000_000);
    list.numbers[at] = match random.below(10) {
        0..=2 => 0,
        3 | 4 => before,
        5 => before.saturating_sub(1),
        6 => up_to,
        7 => 10_000_000,
        8 => 10_000_001,
        _ => u32::MAX,
    };
}

/// Breaks a list in one way.
pub fn spoil(random: &mut Random, list: &mut Series) {
    let count = list.numbers.len().min(list.accounts.len());
    if count == 0 {
        return;
    }
    let at = random.index(count);
    match random.below(20) {
        0 => list.accounts[at] = 0,
        1 => list.accounts[at] = list.accounts[at.saturating_sub(1)],
        2 => list.accounts[at] = u32::MAX,
        3 => {
            let to = random.index(count);
            list.accounts.swap(at, to);
        }
        4..=7 => spoil_number(random, list, at),
        8 => drop(list.numbers.pop()),
        9 => drop(list.accounts.pop()),
        10 => list.numbers.push(1),
        11 => drop(list.codes.pop()),
        12 => list.codes.push(u32::MAX),
        13 => list.accounts[at] = random.bits() as u32,
        _ if at < list.codes.len() => spoil_position(random, list, at),
        _ => list.codes = upward(count),
    }
}

/// The values of an allocating call; `room` is the length of its output.
pub struct Call {
    pub terms: Terms,
    pub list: Series,
    pub room: usize,
}

/// A series under the four methods, in either form; at times its list is spoiled or the output is too short.
pub fn calls(random: &mut Random, positions: u64, total: u64) -> [Call; 4] {
    let positions = random.spread(positions);
    let most = positions.max(random.spread(total));
    let exact = random.one_in(3);
    let list = series(random, positions as usize, most, exact);
    METHODS.map(|method| {
        let mut list = coded(random, method, &list);
        if method != b'W' && random.one_in(4) {
            let length = random.pick(&[0, 1, positions as usize + 1, 4_097]);
            list.codes = any_codes(random, length);
        }
        let terms = terms(random, method, list.numbers.len(), list.total());
        list = list.in_form(random.pick(&FORMS));
        if random.one_in(12) {
            for _ in 0..random.between(1, 3) {
                spoil(random, &mut list);
            }
        }
        let room = match random.below(16) {
            0 => list.numbers.len().saturating_sub(1),
            1 => random.index(list.numbers.len() + 1),
            2..=8 => list.numbers.len(),
            _ => list.numbers.len() + random.index(9),
        };
        Call { terms, list, room }
    })
}

/// A text in either form that reads, with `lines` positions, mostly one that is allocated.
pub fn text(random: &mut Random, lines: usize) -> Vec<u8> {
    let method = random.pick(&METHODS);
    let form = random.pick(&FORMS);
    let mut list = Series { form, ..Series::by_account(vec![], vec![]) };
    if lines > 0 {
        let top = random.pick(&[40, 1_000, 100_000]).max(2 * lines as u64);
        let most = random.between(lines as u64, top);
        let made = series(random, lines, most, false);
        list = if random.one_in(2) { made } else { coded(random, method, &made) }.in_form(form);
        if random.one_in(8) {
            spoil(random, &mut list);
            for numbers in [&mut list.codes, &mut list.accounts, &mut list.numbers] {
                numbers.resize(lines, 7);
            }
        }
    }
    let total = list.total().clamp(1, u64::from(u32::MAX) - 1);
    let mut terms = if random.one_in(16) {
        let [exercised, increment] = [(); 2].map(|_| random.bits() as u32);
        Terms { method, exercised, draw: random.pick(&[0, u32::MAX, 4_294_967, 10]), increment }
    } else {
        terms(random, method, lines, total)
    };
    if random.one_in(2) {
        terms = terms.by(DEFAULT_INCREMENT);
    }
    let mut text = reference::write(terms, list.list(), usize::MAX).expect("at most 1,024 lines");
    if list.codes == list.accounts && random.one_in(3) {
        text = with_codes(&text);
    }
    if terms.increment == DEFAULT_INCREMENT && random.one_in(3) {
        text = with_increment(&text);
    }
    let spelled = with_zeros(random, &text);
    if spelled.len() > reference::MOST_BYTES {
        text
    } else {
        spelled
    }
}

/// Line 1, with the column of the increment or without.
pub fn names_1(increment: bool) -> &'static str {
    if increment {
        "method,exercised,draw,increment\n"
    } else {
        "method,exercised,draw\n"
    }
}

/// Line 3, with the column of codes or without.
pub fn names_3(coded: bool, form: Form) -> &'static str {
    match (coded, form) {
        (false, Form::Shorts) => "account,short\n",
        (false, Form::LastNumbers) => "account,last\n",
        (true, Form::Shorts) => "code,account,short\n",
        (true, Form::LastNumbers) => "code,account,last\n",
    }
}

/// Whether line 3 of a text has the column of codes, and its form; neither where it is not exact.
fn of_line_3(text: &[u8]) -> Option<(bool, Form)> {
    let line = text.split_inclusive(|&b| b == 10).nth(2)?;
    let all = FORMS.into_iter().flat_map(|form| [(false, form), (true, form)]);
    all.into_iter().find(|&(coded, form)| names_3(coded, form).as_bytes() == line)
}

/// Whether line 1 of a text has the column of the increment.
pub fn has_increment(text: &[u8]) -> bool {
    text.starts_with(names_1(true).as_bytes())
}

/// Whether line 3 of a text has the column of codes.
pub fn has_codes(text: &[u8]) -> bool {
    of_line_3(text).is_some_and(|(coded, _)| coded)
}

pub fn columns(text: &[u8]) -> Columns {
    Columns { increment: has_increment(text), codes: has_codes(text) }
}

/// The form that line 3 of a text gives.
pub fn has_form(text: &[u8]) -> Option<Form> {
    of_line_3(text).map(|(_, form)| form)
}

/// A text without the column of the increment with it: 25.
pub fn with_increment(text: &[u8]) -> Vec<u8> {
    let mut out = Vec::new();
    for (i, line) in text.split_inclusive(|&b| b == 10).enumerate() {
        let (line, end) = line.split_at(line.len() - usize::from(line.ends_with(b"\n")));
        let column: &[u8] = [&b",increment"[..], b",25", b""][i.min(2)];
        out.extend([line, column, end].concat());
    }
    out
}

/// A text without its column of the increment.
pub fn without_increment(text: &[u8]) -> Vec<u8> {
    let mut out = Vec::new();
    for (i, line) in text.split_inclusive(|&b| b == 10).enumerate() {
        match line.iter().rposition(|&b| b == b',') {
            Some(at) if i < 2 => out.extend([&line[..at], b"\n"].concat()),
            _ => out.extend(line),
        }
    }
    out
}

/// A text without the column of codes with it: each code is the account, in its spelling.
pub fn with_codes(text: &[u8]) -> Vec<u8> {
    let mut out = Vec::new();
    for (i, line) in text.split_inclusive(|&b| b == 10).enumerate() {
        match i {
            0 | 1 => {}
            2 => out.extend(b"code,"),
            _ => out.extend(line.iter().take_while(|&&b| b != b',').chain(b",")),
        }
        out.extend(line);
    }
    out
}

/// A text without its column of codes.
pub fn without_codes(text: &[u8]) -> Vec<u8> {
    let mut out = Vec::new();
    for (i, line) in text.split_inclusive(|&b| b == 10).enumerate() {
        let skipped = line.iter().position(|&b| b == b',').map_or(0, |at| at + 1);
        out.extend(if i < 2 { line } else { &line[skipped..] });
    }
    out
}

/// The text with zeros in front of none, some or all of its numbers, none longer than ten digits.
fn with_zeros(random: &mut Random, text: &[u8]) -> Vec<u8> {
    match random.below(8) {
        0..=2 => text.to_vec(),
        3 => spelled(text, |_, _| 10),
        4 => {
            let width = random.between(2, 9) as usize;
            spelled(text, |_, _| width)
        }
        5 => {
            let columns = columns(text);
            let (terms, position) = columns.of_lines();
            let only = columns.field(random.index(terms.len() + position.len()));
            spelled(text, |i, digits| if columns.field(i) == only { random.between(2, 10) as usize } else { digits })
        }
        _ => spelled(text, |_, digits| random.between(digits as u64, 10) as usize),
    }
}

/// The text with each number in at least `width` digits, by zeros in front; `width` is told the index of the number and
/// how many digits it has.
pub fn spelled(text: &[u8], mut width: impl FnMut(usize, usize) -> usize) -> Vec<u8> {
    let mut out = Vec::new();
    let mut done = 0;
    for (i, (from, to)) in numbers(text).into_iter().enumerate() {
        out.extend(&text[done..from]);
        out.extend(padded(&text[from..to], width(i, to - from)));
        done = to;
    }
    out.extend(&text[done..]);
    out
}

fn padded(digits: &[u8], width: usize) -> Vec<u8> {
    [&vec![b'0'; width.saturating_sub(digits.len())], digits].concat()
}

/// A text of one position, with the columns, that has the number in the field; the numbers in the others are those of an
/// allocation.
pub fn in_field(form: Form, columns: Columns, field: Field, number: &str) -> Vec<u8> {
    let value = |of: &Field| match of {
        _ if *of == field => number,
        Field::Exercised => "3",
        Field::Draw => "5",
        Field::Increment => "10",
        Field::Code => "4",
        Field::Account => "2",
        Field::Number => "7",
    };
    let line = |fields: &[Field]| fields.iter().map(value).collect::<Vec<_>>().join(",");
    let (terms, position) = columns.of_lines();
    let (names_1, names_3) = (names_1(columns.increment), names_3(columns.codes, form));
    format!("{names_1}W,{}\n{names_3}{}\n", line(terms), line(position)).into_bytes()
}

/// Whether each field of a text that reads has a number with leading zeros.
pub fn leading_zeros(text: &[u8]) -> [bool; FIELDS] {
    let mut found = [false; FIELDS];
    let columns = columns(text);
    for (i, (from, to)) in numbers(text).into_iter().enumerate() {
        found[columns.field(i) as usize] |= to - from > 1 && text[from] == b'0';
    }
    found
}

/// The text with zeros in front of its numbers, from the first on, so that it has the length, which must be in reach.
pub fn stretched(text: &[u8], length: usize) -> Vec<u8> {
    let mut missing = length - text.len();
    let out = spelled(text, |_, digits| {
        let more = missing.min(10 - digits);
        missing -= more;
        digits + more
    });
    assert_eq!(out.len(), length);
    out
}

/// A list of 1,024 positions whose text, with S and draw of one digit, has the length; near 32,768.
pub fn list_of_length(form: Form, length: usize) -> Series {
    let head = b"method,exercised,draw\nW,1,1\n".len() + names_3(true, form).len();
    let codes: Vec<u32> = (4_000_000_000..).take(1_024).collect();
    let accounts = codes.iter().rev().map(|code| code - 1_000_000_000).collect();
    let mut left = length - head - 1_024 * b"4000000000,3000000000,\n".len();
    let digits = |lines_left: usize| {
        let digits = left / lines_left;
        left -= digits;
        10u32.pow(digits as u32 - 1)
    };
    Series { form, codes, accounts, numbers: (1..=1_024).rev().map(digits).collect() }
}

/// A text of 1,024 positions with both columns and leading zeros that has the length, near 32,768; it is allocated if
/// that is not too long.
pub fn text_of_length(form: Form, length: usize) -> Vec<u8> {
    let mut list = list_of_length(Form::Shorts, 32_768);
    list.numbers = upward(1_024);
    let terms = Terms::new(b'W', 500_000, 77).by(24);
    let text = reference::write(terms, list.in_form(form).list(), usize::MAX).expect("a text");
    stretched(&text, length)
}

/// How many positions a text gets: mostly few, at times as many as there may be.
pub fn lines(random: &mut Random) -> usize {
    let count = match random.below(100) {
        0..=4 => 0,
        5..=69 => random.between(1, 6),
        70..=94 => random.between(7, 40),
        95..=97 => random.between(41, 400),
        98 => random.between(1_020, 1_024),
        _ => 1_024,
    };
    count as usize
}

fn line_starts(text: &[u8]) -> Vec<usize> {
    let mut starts = vec![0];
    starts.extend((0..text.len()).filter(|&i| text[i] == 10).map(|i| i + 1));
    starts
}

/// The start and end of the numbers in a text.
pub fn numbers(text: &[u8]) -> Vec<(usize, usize)> {
    let mut found = Vec::new();
    let mut i = 0;
    while i < text.len() {
        let start = i;
        while i < text.len() && text[i].is_ascii_digit() {
            i += 1;
        }
        if i > start {
            found.push((start, i));
        }
        i += 1;
    }
    found
}

/// A byte that is worth having in a text.
fn byte(random: &mut Random) -> u8 {
    match random.below(4) {
        0 => random.bits() as u8,
        1 => random.pick(b"\n,\r\t +-.0\0"),
        2 => b'0' + random.below(10) as u8,
        _ => random.pick(b"WPLRwplrXaccountshort/:;"),
    }
}

/// What may stand in a text instead of a number.
fn other_number(random: &mut Random, digits: &[u8]) -> Vec<u8> {
    match random.below(11) {
        0 => [b"0", digits].concat(),
        1 => b"00".to_vec(),
        2 => b"4294967295".to_vec(),
        3 => b"4294967296".to_vec(),
        4 => b"10000000000".to_vec(),
        5 => b"18446744073709551617".to_vec(),
        6 => vec![b'9'; random.between(11, 60) as usize],
        7 => Vec::new(),
        8 => padded(digits, random.pick(&[11, 11, 12, 20, 60])),
        9 => random.between(1 << 32, 9_999_999_999).to_string().into_bytes(),
        _ => [digits, b"0"].concat(),
    }
}

/// Repeats a position line, its account in another spelling, where it has one of at most ten digits.
fn repeat_account(random: &mut Random, text: &mut Vec<u8>, start: usize, end: usize) {
    let line = &text[start..end];
    let Some(&(0, to)) = numbers(line).first() else { return };
    let zeros = line[..to - 1].iter().take_while(|&&b| b == b'0').count();
    let widths: Vec<usize> = (to - zeros..=10).filter(|&width| width != to).collect();
    if !widths.is_empty() {
        let account = padded(&line[zeros..to], random.pick(&widths));
        let again = [&account, &line[to..]].concat();
        text.splice(end..end, again);
    }
}

/// Puts the column of the increment in or takes it out, in line 1 or in lines 1 and 2; or puts a field into line 2, or
/// another number in the place of the last one there.
fn other_increment(random: &mut Random, text: &mut Vec<u8>, starts: &[usize]) {
    let &[_, line_2, line_3, ..] = starts else { return };
    let column = has_increment(text);
    let end = line_3 - 1;
    let last = text[line_2..end].iter().rposition(|&b| b == b',').map_or(end, |at| line_2 + at + 1);
    let any = random.pick(&INCREMENTS).to_string();
    let number = random.pick(&["25", "0025", "", "x", " 10", "0000000010", "00000000010", "4294967296", &any]);
    match random.below(4) {
        0 => drop(text.splice(..line_2, names_1(!column).bytes())),
        1 => *text = if column { without_increment(text) } else { with_increment(text) },
        2 => drop(text.splice(end..end, format!(",{number}").bytes())),
        _ => drop(text.splice(last..end, number.bytes())),
    }
}

/// Puts the column of codes in or takes it out: in line 3, in the whole text from line 3 on, or in the line given.
fn other_codes(random: &mut Random, text: &mut Vec<u8>, starts: &[usize], line: usize) {
    let (coded, form) = of_line_3(text).unwrap_or((false, random.pick(&FORMS)));
    match (random.below(3), starts) {
        (0, &[_, _, from, to, ..]) => drop(text.splice(from..to, names_3(!coded, form).bytes())),
        (1, _) => *text = if coded { without_codes(text) } else { with_codes(text) },
        _ if coded => {
            let start = starts[line];
            let column = text[start..].iter().position(|&b| b == b',').map_or(0, |at| at + 1);
            text.drain(start..start + column);
        }
        _ => {
            let column = random.pick(&[&b"9,"[..], b"0,", b"0001,", b",", b"code,"]);
            text.splice(starts[line]..starts[line], column.iter().copied());
        }
    }
}

/// The text with line 3 of the other form, its numbers as they are; none where line 3 is not exact.
pub fn read_otherwise(text: &[u8]) -> Option<Vec<u8>> {
    let (coded, form) = of_line_3(text)?;
    let from = line_starts(text)[2];
    let mut text = text.to_vec();
    text.splice(from..from + names_3(coded, form).len(), names_3(coded, other_form(form)).bytes());
    Some(text)
}

/// Puts another number in the place of the last one of a position line: that of some line, 0, or one at a limit.
fn other_last(random: &mut Random, text: &mut Vec<u8>) {
    let starts = line_starts(text);
    let of_line = |line: usize, text: &[u8]| {
        let end = starts[line + 1] - 1;
        let from = text[starts[line]..end].iter().rposition(|&b| b == b',').map_or(end, |at| starts[line] + at + 1);
        (from, end)
    };
    if starts.len() < 5 {
        return;
    }
    let [line, some] = [(); 2].map(|_| 3 + random.index(starts.len() - 4));
    let (from, to) = of_line(line, text);
    let (first, last) = of_line(if random.one_in(2) { (line - 1).max(3) } else { some }, text);
    let found = text[first..last].to_vec();
    let number = match random.below(8) {
        0 => b"0",
        1 => &b"10000000"[..],
        2 => b"10000001",
        3 => b"4294967295",
        _ => &found,
    };
    text.splice(from..to, number.iter().copied());
}

/// Puts the letter of a method in the place of the first byte of line 2, where there is one.
pub fn put_method(text: &mut [u8], letter: u8) {
    let first = line_starts(text).get(1).copied();
    if let Some(byte) = first.and_then(|at| text.get_mut(at)) {
        *byte = letter;
    }
}

/// Damages a text in one way.
pub fn damage(random: &mut Random, text: &mut Vec<u8>) {
    let length = text.len();
    let starts = line_starts(text);
    let line = random.index(starts.len());
    let start = starts[line];
    let end = starts.get(line + 1).copied().unwrap_or(length);
    match random.below(33) {
        0..=2 if length > 0 => {
            let at = random.index(length);
            text[at] = byte(random);
        }
        3 | 4 if length > 0 => {
            text.remove(random.index(length));
        }
        5 | 6 => {
            let b = byte(random);
            text.insert(random.index(length + 1), b);
        }
        7 => drop(text.drain(start..end)),
        8 => {
            let copy = text[start..end].to_vec();
            text.splice(start..start, copy);
        }
        9 => {
            // The end of one line, or of every line, as CR LF.
            let all = random.one_in(2);
            let mut i = text.len();
            let only = random.index(starts.len());
            let mut seen = starts.len() - 1;
            while i > 0 {
                i -= 1;
                if text[i] == 10 {
                    seen -= 1;
                    if all || seen == only {
                        text.insert(i, 13);
                    }
                }
            }
        }
        10..=12 => {
            let places = numbers(text);
            if !places.is_empty() {
                let (from, to) = random.pick(&places);
                let new = other_number(random, &text[from..to]);
                text.splice(from..to, new);
            }
        }
        13 => text.truncate(random.index(length + 1)),
        14 => text.truncate(start),
        15 => text.truncate(end.saturating_sub(1)),
        16 => text.insert(start, 10),
        17 => {
            // Up to and past the number of lines that a text may have.
            let wanted = random.between(1_024, 1_026) as usize + 3;
            let extra = random.pick(&[&b"9,9\n"[..], b"9,9,9\n", b"\n", b"x\n"]);
            for _ in starts.len() - 1..wanted {
                text.extend(extra);
            }
            if random.one_in(2) {
                text.pop();
            }
        }
        18 => {
            // Up to and past the number of bytes that a text may have.
            let wanted = random.between(32_766, 32_770) as usize;
            let fill = byte(random);
            let at = random.pick(&[start, length]);
            if length < wanted {
                text.splice(at..at, vec![fill; wanted - length]);
            }
        }
        19 => {
            if let Some(at) = text[start..end].iter().position(|&b| b == b',') {
                let new = random.pick(&[&b",,"[..], b"", b";", b" ,", b", "]);
                text.splice(start + at..start + at + 1, new.iter().copied());
            }
        }
        20 => {
            let other = random.index(starts.len());
            let (a, b) = (starts[line.min(other)], starts[line.max(other)]);
            text[a..b].reverse();
        }
        21 => repeat_account(random, text, start, end),
        22..=24 => other_codes(random, text, &starts, line),
        25 => *text = read_otherwise(text).unwrap_or_else(|| text.clone()),
        26..=28 => other_last(random, text),
        29..=31 => other_increment(random, text, &starts),
        // Another method, known or not.
        _ => put_method(text, random.pick(b"WPLRwplr ,X")),
    }
}
