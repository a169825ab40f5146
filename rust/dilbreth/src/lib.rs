//! Exercise assignment of option contracts: a safe wrapper over `libdilbreth.a`.
//!
//! Any number of threads may be in any of the calls at once: no call keeps anything from one time to the next. 64 KB of
//! stack that are free at the call are enough for any of them; `respond`, `allocate` and `allocate_jobs` need most of
//! that. `compare/tests/stack.rs` runs each call on a thread that has 64 KB in all, with lists and texts as long as may
//! be, in both forms, and under every method where amounts are worked out.
//!
//! An archive of another number than `VERSION` does not link: the linker names `dilbreth_version_` with the wrapper's
//! number as undefined.

pub mod calls;
mod ffi;
mod jobs;
mod merge;
mod version;

use std::fmt;

pub use jobs::{allocate_jobs, Job, MOST_JOBS};
pub use merge::{merge, Branch, Merged};
pub use version::{version, VERSION};

#[derive(Clone, Copy, Debug, PartialEq, Eq)]
pub enum Method {
    Wheel,
    ProRata,
    Lottery,
    RemainderDraw,
}

impl Method {
    pub fn byte(self) -> u8 {
        match self {
            Method::Wheel => b'W',
            Method::ProRata => b'P',
            Method::Lottery => b'L',
            Method::RemainderDraw => b'R',
        }
    }

    pub fn from_byte(byte: u8) -> Option<Method> {
        match byte {
            b'W' => Some(Method::Wheel),
            b'P' => Some(Method::ProRata),
            b'L' => Some(Method::Lottery),
            b'R' => Some(Method::RemainderDraw),
            _ => None,
        }
    }
}

/// The increment where none is given.
pub const DEFAULT_INCREMENT: u32 = 25;

/// What the number of a position is.
#[derive(Clone, Copy, Debug, PartialEq, Eq)]
pub enum Form {
    /// Its short contracts.
    Shorts,
    /// Its last sequence number: its shorts are the difference to the number before it, from 0 on.
    LastNumbers,
}

impl Form {
    pub fn number(self) -> u32 {
        match self {
            Form::Shorts => 0,
            Form::LastNumbers => 1,
        }
    }

    /// Any number but 0 stands for last numbers.
    pub fn from_number(number: u32) -> Form {
        match number {
            0 => Form::Shorts,
            _ => Form::LastNumbers,
        }
    }
}

#[derive(Clone, Copy, Debug, PartialEq, Eq)]
pub enum Day {
    Ordinary,
    /// The final trading day.
    Final,
}

impl Day {
    pub fn number(self) -> u32 {
        match self {
            Day::Ordinary => 0,
            Day::Final => 1,
        }
    }
}

/// The number of the refusal that a call met.
#[derive(Clone, Copy, Debug, PartialEq, Eq)]
pub struct Refused(pub u32);

impl fmt::Display for Refused {
    fn fmt(&self, f: &mut fmt::Formatter<'_>) -> fmt::Result {
        write!(f, "refused, {}: {}", self.0, explain(self.0))
    }
}

impl std::error::Error for Refused {}

fn accepted(number: u32) -> Result<(), Refused> {
    if number == 0 {
        Ok(())
    } else {
        Err(Refused(number))
    }
}

/// What an allocation hands back beside the amounts.
#[derive(Clone, Copy, Debug, PartialEq, Eq)]
pub struct Allocated {
    /// T, the sum of all shorts.
    pub total: u32,
    /// The blocks of the wheel (0 where S equals T), the contracts of round two, or the starting place of the lottery
    /// or the remainder draw (0 where S equals T or the list has one position).
    pub further: u32,
}

/// What a text hands back beside the positions.
#[derive(Clone, Copy, Debug, PartialEq, Eq)]
pub struct Terms {
    pub method: Method,
    pub exercised: u32,
    pub draw: u32,
    /// `DEFAULT_INCREMENT` where the text has no column of it.
    pub increment: u32,
    pub form: Form,
    pub positions: usize,
}

/// What an investor (a firm or a customer) gives of his day in one series, in contracts.
#[derive(Clone, Copy, Debug, Default, PartialEq, Eq)]
pub struct Investor {
    pub opening_long: u32,
    pub opening_short: u32,
    pub opening_purchases: u32,
    pub opening_sales: u32,
    /// At most the opening short plus the opening sales.
    pub closing_purchases: u32,
    pub closing_sales: u32,
    /// The contracts to exercise, at most the limit.
    pub exercised: u32,
}

/// What a market-maker gives, who does not mark his transactions as opening or closing.
#[derive(Clone, Copy, Debug, Default, PartialEq, Eq)]
pub struct MarketMaker {
    pub opening_long: u32,
    pub opening_short: u32,
    pub purchases: u32,
    pub sales: u32,
}

/// What an investor gets of his day, before assignment.
#[derive(Clone, Copy, Debug, PartialEq, Eq)]
pub struct AfterDay {
    /// How many contracts may be exercised.
    pub limit: u32,
    pub long: u32,
    pub short: u32,
}

/// Assigns the exercised contracts; `amounts` receives those of each position in list order. Under the wheel the codes
/// rise and the accounts differ, in any order; the other methods have the accounts rise and look at no code, so `&[]`
/// will do. The draw is not looked at where S equals T, nor for one position of the lottery or the remainder draw;
/// otherwise the wheel and the lottery judge it, and pro rata and the remainder draw take any. The increment is the
/// wheel's, 1 to 1,000 contracts in a block; the other methods take any. A list gets the same answer in both forms, but
/// for 6 and 20.
#[allow(clippy::too_many_arguments)]
pub fn allocate(
    method: Method,
    exercised: u32,
    draw: u32,
    increment: u32,
    form: Form,
    codes: &[u32],
    accounts: &[u32],
    numbers: &[u32],
    amounts: &mut [u32],
) -> Result<Allocated, Refused> {
    let (mut total, mut further) = (0, 0);
    accepted(calls::allocate(
        method.byte(),
        exercised,
        draw,
        increment,
        form.number(),
        codes,
        accounts,
        numbers,
        amounts,
        &mut total,
        &mut further,
    ))?;
    Ok(Allocated { total, further })
}

/// Reads the text of a series into the three lists. Where the text has no column of codes, each is the account number.
pub fn read(text: &[u8], codes: &mut [u32], accounts: &mut [u32], numbers: &mut [u32]) -> Result<Terms, Refused> {
    let (mut method, mut exercised, mut draw, mut increment, mut form, mut positions) = (0, 0, 0, 0, 0, 0);
    accepted(calls::read(
        text,
        &mut method,
        &mut exercised,
        &mut draw,
        &mut increment,
        &mut form,
        codes,
        accounts,
        numbers,
        &mut positions,
    ))?;
    let method = Method::from_byte(method).ok_or(Refused(14))?;
    Ok(Terms { method, exercised, draw, increment, form: Form::from_number(form), positions })
}

/// Writes the text of a series; answers its length. The column of codes is left out where each is the account number,
/// that of the increment where it is `DEFAULT_INCREMENT`.
#[allow(clippy::too_many_arguments)]
pub fn write(
    method: Method,
    exercised: u32,
    draw: u32,
    increment: u32,
    form: Form,
    codes: &[u32],
    accounts: &[u32],
    numbers: &[u32],
    text: &mut [u8],
) -> Result<usize, Refused> {
    let (method, form) = (method.byte(), form.number());
    let mut written = 0;
    accepted(calls::write(method, exercised, draw, increment, form, codes, accounts, numbers, text, &mut written))?;
    Ok(written)
}

/// Changes the text of a series into its text in the other form; answers its length. The list is judged; S, draw and
/// increment are not. 31,830 bytes are always enough.
pub fn change(text: &[u8], output: &mut [u8]) -> Result<usize, Refused> {
    let mut written = 0;
    accepted(calls::change(text, output, &mut written))?;
    Ok(written)
}

/// Writes what the program `assign` prints for a text, under the remainder draw with the ranges after the amounts;
/// answers its length. 70,705 bytes are always enough.
pub fn respond(text: &[u8], output: &mut [u8]) -> Result<usize, Refused> {
    let mut written = 0;
    accepted(calls::respond(text, output, &mut written))?;
    Ok(written)
}

/// The day's activity of an investor: the limit, and what he is long and short after the day.
pub fn process_investor(day: Day, given: Investor) -> Result<AfterDay, Refused> {
    let (mut limit, mut long, mut short) = (0, 0, 0);
    accepted(calls::process_investor(
        day.number(),
        given.opening_long,
        given.opening_short,
        given.opening_purchases,
        given.opening_sales,
        given.closing_purchases,
        given.closing_sales,
        given.exercised,
        &mut limit,
        &mut long,
        &mut short,
    ))?;
    Ok(AfterDay { limit, long, short })
}

/// The day's activity of a market-maker: how many contracts he may exercise.
pub fn process_market_maker(day: Day, given: MarketMaker) -> Result<u32, Refused> {
    let MarketMaker { opening_long, opening_short, purchases, sales } = given;
    let mut limit = 0;
    accepted(calls::process_market_maker(day.number(), opening_long, opening_short, purchases, sales, &mut limit))?;
    Ok(limit)
}

/// The words for the number of a refusal, without a line end.
pub fn explain(number: u32) -> String {
    let mut line = vec![0; calls::explain(number, &mut [])];
    calls::explain(number, &mut line);
    String::from_utf8_lossy(&line).trim_end().to_string()
}
