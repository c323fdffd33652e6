// The proved functions, from the static library. A lent slice is a pointer and a length, as include/planner.h says.

use crate::panel::SET_BYTES;

unsafe extern "C" {
    fn siragumon_wire(
        n: u64,
        marks: u64,
        degree: u64,
        terms: *const u8,
        terms_len: usize,
        set: *const u8,
        set_len: usize,
        out: *mut u8,
        out_len: usize,
        five: *mut [u64; 5],
    );
    fn siragumon_thin(
        n: u64,
        marks: u64,
        degree: u64,
        terms: *const u8,
        terms_len: usize,
        set: *const u8,
        set_len: usize,
        out: *mut u8,
        out_len: usize,
        five: *mut [u64; 5],
    );
    fn siragumon_read_listing(
        n: u64,
        marks: u64,
        degree: u64,
        terms: *const u8,
        terms_len: usize,
        text: *const u8,
        text_len: usize,
        set: *mut [u8; SET_BYTES],
        five: *mut [u64; 5],
    );
}

// In each call the slices and the five numbers are apart and live through it, and nothing more is asked of the caller.

// Planning, by the name that it has in its archive.
macro_rules! planning {
    ($name:ident, $symbol:ident) => {
        #[allow(dead_code)]
        pub fn $name(n: u64, marks: u64, degree: u64, cap: u64, limit: u64, terms: &[u8], out: &mut [u8]) -> [u64; 5] {
            unsafe extern "C" {
                fn $symbol(
                    n: u64,
                    marks: u64,
                    degree: u64,
                    cap: u64,
                    limit: u64,
                    terms: *const u8,
                    terms_len: usize,
                    out: *mut u8,
                    out_len: usize,
                    five: *mut [u64; 5],
                );
            }
            let (from, len) = (terms.as_ptr(), terms.len());
            let mut five = [0; 5];
            unsafe { $symbol(n, marks, degree, cap, limit, from, len, out.as_mut_ptr(), out.len(), &mut five) };
            five
        }
    };
}

planning!(plan, siragumon_plan);

// Wiring and thinning are lent the same.
type OnSet = unsafe extern "C" fn(u64, u64, u64, *const u8, usize, *const u8, usize, *mut u8, usize, *mut [u64; 5]);

#[inline(always)]
fn on_set(call: OnSet, n: u64, marks: u64, degree: u64, terms: &[u8], set: &[u8], out: &mut [u8]) -> [u64; 5] {
    let (from, len) = (terms.as_ptr(), terms.len());
    let mut five = [0; 5];
    unsafe { call(n, marks, degree, from, len, set.as_ptr(), set.len(), out.as_mut_ptr(), out.len(), &mut five) };
    five
}

// The timing takes planning alone.
#[allow(dead_code)]
pub fn wire(n: u64, marks: u64, degree: u64, terms: &[u8], set: &[u8], out: &mut [u8]) -> [u64; 5] {
    on_set(siragumon_wire, n, marks, degree, terms, set, out)
}

#[allow(dead_code)]
pub fn thin(n: u64, marks: u64, degree: u64, terms: &[u8], set: &[u8], out: &mut [u8]) -> [u64; 5] {
    on_set(siragumon_thin, n, marks, degree, terms, set, out)
}

#[allow(dead_code)]
pub fn read(n: u64, marks: u64, degree: u64, terms: &[u8], text: &[u8], set: &mut [u8; SET_BYTES]) -> [u64; 5] {
    let (from, len) = (terms.as_ptr(), terms.len());
    let mut five = [0; 5];
    unsafe { siragumon_read_listing(n, marks, degree, from, len, text.as_ptr(), text.len(), set, &mut five) };
    five
}
