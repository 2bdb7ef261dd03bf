//! The engine's C entries, in safe functions.

use oracle::bodies::Options;
use oracle::edition::Edition;

#[repr(C)]
#[derive(Clone, Copy, Debug, Default, PartialEq)]
pub struct AgreeResult {
    pub number: usize,
    pub letter: usize,
    pub place: usize,
    pub size: usize,
    pub length: usize,
    pub first: usize,
    pub second: usize,
    pub third: usize,
}

/// The flags of `options`, and all bits that have a meaning there.
pub const STRICT: usize = 1;
pub const EDITION_2: usize = 2;
pub const FLAGS: usize = STRICT | EDITION_2;

/// What flags that have a meaning ask for.
pub fn asked(flags: usize) -> Options {
    let edition = if flags & EDITION_2 == 0 { Edition::First } else { Edition::Second };
    Options { strict: flags & STRICT != 0, edition }
}

extern "C" {
    fn agree_largest(
        first: *const u8,
        first_length: usize,
        second: *const u8,
        second_length: usize,
        required: *const u8,
        required_length: usize,
        out: *mut u8,
        out_length: usize,
    ) -> AgreeResult;
    fn agree_largest_with(
        options: usize,
        first: *const u8,
        first_length: usize,
        second: *const u8,
        second_length: usize,
        required: *const u8,
        required_length: usize,
        out: *mut u8,
        out_length: usize,
    ) -> AgreeResult;
    fn agree_claim(
        options: usize,
        first: *const u8,
        first_length: usize,
        second: *const u8,
        second_length: usize,
        required: *const u8,
        required_length: usize,
        claim: *const u8,
        claim_length: usize,
    ) -> AgreeResult;
    fn agree_job(job: *const u8, job_length: usize, out: *mut u8, out_length: usize) -> AgreeResult;
}

pub fn largest([first, second, required]: [&[u8]; 3], out: &mut [u8]) -> AgreeResult {
    // The entry has no precondition: it takes any bytes and writes inside `out` only.
    unsafe {
        agree_largest(
            first.as_ptr(),
            first.len(),
            second.as_ptr(),
            second.len(),
            required.as_ptr(),
            required.len(),
            out.as_mut_ptr(),
            out.len(),
        )
    }
}

pub fn largest_with(options: usize, [first, second, required]: [&[u8]; 3], out: &mut [u8]) -> AgreeResult {
    // As above.
    unsafe {
        agree_largest_with(
            options,
            first.as_ptr(),
            first.len(),
            second.as_ptr(),
            second.len(),
            required.as_ptr(),
            required.len(),
            out.as_mut_ptr(),
            out.len(),
        )
    }
}

pub fn claim(options: usize, [first, second, required]: [&[u8]; 3], claim: &[u8]) -> AgreeResult {
    // As above; it writes nothing.
    unsafe {
        agree_claim(
            options,
            first.as_ptr(),
            first.len(),
            second.as_ptr(),
            second.len(),
            required.as_ptr(),
            required.len(),
            claim.as_ptr(),
            claim.len(),
        )
    }
}

pub fn job(job: &[u8], out: &mut [u8]) -> AgreeResult {
    // As above.
    unsafe { agree_job(job.as_ptr(), job.len(), out.as_mut_ptr(), out.len()) }
}
