//! The functions of the archive, as `include/dilbreth.h` has them.

use crate::calls::Job;

extern "C" {
    pub fn dilbreth_version() -> u32;

    pub fn dilbreth_allocate(
        method: u8,
        exercised: u32,
        draw: u32,
        increment: u32,
        form: u32,
        codes: *const u32,
        codes_len: usize,
        accounts: *const u32,
        accounts_len: usize,
        numbers: *const u32,
        numbers_len: usize,
        amounts: *mut u32,
        amounts_len: usize,
        total: *mut u32,
        further: *mut u32,
    ) -> u32;

    pub fn dilbreth_allocate_jobs(
        accounts: *const u32,
        accounts_len: usize,
        shorts: *const u32,
        shorts_len: usize,
        jobs: *mut Job,
        jobs_len: usize,
        amounts: *mut u32,
        amounts_len: usize,
    ) -> u32;

    pub fn dilbreth_merge(
        first_accounts: *const u32,
        first_accounts_len: usize,
        first_shorts: *const u32,
        first_shorts_len: usize,
        second_accounts: *const u32,
        second_accounts_len: usize,
        second_shorts: *const u32,
        second_shorts_len: usize,
        accounts: *mut u32,
        accounts_len: usize,
        shorts: *mut u32,
        shorts_len: usize,
        positions: *mut usize,
        total: *mut u32,
    ) -> u32;

    pub fn dilbreth_read(
        text: *const u8,
        text_len: usize,
        method: *mut u8,
        exercised: *mut u32,
        draw: *mut u32,
        increment: *mut u32,
        form: *mut u32,
        codes: *mut u32,
        codes_len: usize,
        accounts: *mut u32,
        accounts_len: usize,
        numbers: *mut u32,
        numbers_len: usize,
        positions: *mut usize,
    ) -> u32;

    pub fn dilbreth_write(
        method: u8,
        exercised: u32,
        draw: u32,
        increment: u32,
        form: u32,
        codes: *const u32,
        codes_len: usize,
        accounts: *const u32,
        accounts_len: usize,
        numbers: *const u32,
        numbers_len: usize,
        text: *mut u8,
        text_len: usize,
        written: *mut usize,
    ) -> u32;

    pub fn dilbreth_change(
        text: *const u8,
        text_len: usize,
        output: *mut u8,
        output_len: usize,
        written: *mut usize,
    ) -> u32;

    pub fn dilbreth_respond(
        text: *const u8,
        text_len: usize,
        output: *mut u8,
        output_len: usize,
        written: *mut usize,
    ) -> u32;

    pub fn dilbreth_process_investor(
        day: u32,
        opening_long: u32,
        opening_short: u32,
        opening_purchases: u32,
        opening_sales: u32,
        closing_purchases: u32,
        closing_sales: u32,
        exercised: u32,
        limit: *mut u32,
        long_after: *mut u32,
        short_after: *mut u32,
    ) -> u32;

    pub fn dilbreth_process_market_maker(
        day: u32,
        opening_long: u32,
        opening_short: u32,
        purchases: u32,
        sales: u32,
        limit: *mut u32,
    ) -> u32;

    pub fn dilbreth_explain(number: u32, line: *mut u8, line_len: usize) -> usize;
}
