//! The calls in their C shape, over slices and references: each but `explain` answers 0 or the number
//! of a refusal, and on a refusal writes nothing.

use crate::ffi;

/// What a job is answered: `dilbreth_job_answer` of the header.
#[repr(C)]
#[derive(Clone, Copy, Debug, PartialEq, Eq)]
pub struct JobAnswer {
    pub refusal: u32,
    pub total: u32,
    pub further: u32,
}

/// A series of a book: `dilbreth_job` of the header. The method is any byte.
#[repr(C)]
#[derive(Clone, Copy, Debug, PartialEq, Eq)]
pub struct Job {
    pub first: u32,
    pub positions: u32,
    pub method: u8,
    pub exercised: u32,
    pub draw: u32,
    pub increment: u32,
    pub answer: JobAnswer,
}

// Each `unsafe` below: a reference is never null, a slice has its length, and what is lent as `&mut`
// overlaps with nothing else.

#[allow(clippy::too_many_arguments)]
pub fn allocate(
    method: u8,
    exercised: u32,
    draw: u32,
    increment: u32,
    form: u32,
    codes: &[u32],
    accounts: &[u32],
    numbers: &[u32],
    amounts: &mut [u32],
    total: &mut u32,
    further: &mut u32,
) -> u32 {
    unsafe {
        ffi::dilbreth_allocate(
            method,
            exercised,
            draw,
            increment,
            form,
            codes.as_ptr(),
            codes.len(),
            accounts.as_ptr(),
            accounts.len(),
            numbers.as_ptr(),
            numbers.len(),
            amounts.as_mut_ptr(),
            amounts.len(),
            total,
            further,
        )
    }
}

pub fn allocate_jobs(accounts: &[u32], shorts: &[u32], jobs: &mut [Job], amounts: &mut [u32]) -> u32 {
    unsafe {
        ffi::dilbreth_allocate_jobs(
            accounts.as_ptr(),
            accounts.len(),
            shorts.as_ptr(),
            shorts.len(),
            jobs.as_mut_ptr(),
            jobs.len(),
            amounts.as_mut_ptr(),
            amounts.len(),
        )
    }
}

#[allow(clippy::too_many_arguments)]
pub fn merge(
    first_accounts: &[u32],
    first_shorts: &[u32],
    second_accounts: &[u32],
    second_shorts: &[u32],
    accounts: &mut [u32],
    shorts: &mut [u32],
    positions: &mut usize,
    total: &mut u32,
) -> u32 {
    unsafe {
        ffi::dilbreth_merge(
            first_accounts.as_ptr(),
            first_accounts.len(),
            first_shorts.as_ptr(),
            first_shorts.len(),
            second_accounts.as_ptr(),
            second_accounts.len(),
            second_shorts.as_ptr(),
            second_shorts.len(),
            accounts.as_mut_ptr(),
            accounts.len(),
            shorts.as_mut_ptr(),
            shorts.len(),
            positions,
            total,
        )
    }
}

#[allow(clippy::too_many_arguments)]
pub fn read(
    text: &[u8],
    method: &mut u8,
    exercised: &mut u32,
    draw: &mut u32,
    increment: &mut u32,
    form: &mut u32,
    codes: &mut [u32],
    accounts: &mut [u32],
    numbers: &mut [u32],
    positions: &mut usize,
) -> u32 {
    unsafe {
        ffi::dilbreth_read(
            text.as_ptr(),
            text.len(),
            method,
            exercised,
            draw,
            increment,
            form,
            codes.as_mut_ptr(),
            codes.len(),
            accounts.as_mut_ptr(),
            accounts.len(),
            numbers.as_mut_ptr(),
            numbers.len(),
            positions,
        )
    }
}

#[allow(clippy::too_many_arguments)]
pub fn write(
    method: u8,
    exercised: u32,
    draw: u32,
    increment: u32,
    form: u32,
    codes: &[u32],
    accounts: &[u32],
    numbers: &[u32],
    text: &mut [u8],
    written: &mut usize,
) -> u32 {
    unsafe {
        ffi::dilbreth_write(
            method,
            exercised,
            draw,
            increment,
            form,
            codes.as_ptr(),
            codes.len(),
            accounts.as_ptr(),
            accounts.len(),
            numbers.as_ptr(),
            numbers.len(),
            text.as_mut_ptr(),
            text.len(),
            written,
        )
    }
}

pub fn change(text: &[u8], output: &mut [u8], written: &mut usize) -> u32 {
    unsafe { ffi::dilbreth_change(text.as_ptr(), text.len(), output.as_mut_ptr(), output.len(), written) }
}

pub fn respond(text: &[u8], output: &mut [u8], written: &mut usize) -> u32 {
    unsafe { ffi::dilbreth_respond(text.as_ptr(), text.len(), output.as_mut_ptr(), output.len(), written) }
}

#[allow(clippy::too_many_arguments)]
pub fn process_investor(
    day: u32,
    opening_long: u32,
    opening_short: u32,
    opening_purchases: u32,
    opening_sales: u32,
    closing_purchases: u32,
    closing_sales: u32,
    exercised: u32,
    limit: &mut u32,
    long_after: &mut u32,
    short_after: &mut u32,
) -> u32 {
    unsafe {
        ffi::dilbreth_process_investor(
            day,
            opening_long,
            opening_short,
            opening_purchases,
            opening_sales,
            closing_purchases,
            closing_sales,
            exercised,
            limit,
            long_after,
            short_after,
        )
    }
}

pub fn process_market_maker(
    day: u32,
    opening_long: u32,
    opening_short: u32,
    purchases: u32,
    sales: u32,
    limit: &mut u32,
) -> u32 {
    unsafe { ffi::dilbreth_process_market_maker(day, opening_long, opening_short, purchases, sales, limit) }
}

/// The length of the line for the number of a refusal; the line is written where it fits.
pub fn explain(number: u32, line: &mut [u8]) -> usize {
    unsafe { ffi::dilbreth_explain(number, line.as_mut_ptr(), line.len()) }
}
