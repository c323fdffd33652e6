// Planning of a tree that has no kits, called as planning is called now. It plans for the full kit alone, so the limit
// that it is given is dropped.
#![no_std]

unsafe extern "C" {
    fn kitless_plan(
        n: u64,
        marks: u64,
        cap: u64,
        limit: u64,
        terms: *const u8,
        terms_len: usize,
        out: *mut u8,
        out_len: usize,
        five: *mut [u64; 5],
    );
}

// The caller keeps to what include/planner.h says, as the earlier tree's did.
#[unsafe(no_mangle)]
pub unsafe extern "C" fn before_plan(
    n: u64,
    marks: u64,
    _degree: u64,
    cap: u64,
    limit: u64,
    terms: *const u8,
    terms_len: usize,
    out: *mut u8,
    out_len: usize,
    five: *mut [u64; 5],
) {
    unsafe { kitless_plan(n, marks, cap, limit, terms, terms_len, out, out_len, five) }
}
