// The panel's numbers for the benchmark, each once. Timing and the measuring of stack take one part of them each.
#![allow(dead_code)]

pub const VARIABLES: usize = 6;
pub const CARDS: usize = 6;
pub const TERMS: usize = 32;

// A term record: equation, zero, exponents, coefficient.
pub const EXPONENTS_AT: usize = 2;
pub const COEFFICIENT_AT: usize = EXPONENTS_AT + VARIABLES;
pub const TERM_BYTES: usize = COEFFICIENT_AT + 4;
pub const TERM_EXPONENT: u64 = 9;

pub const SET_BYTES: usize = VARIABLES * CARDS;
pub const SET_EXPONENT: u64 = CARDS as u64 * TERM_EXPONENT;
pub const WIRE_BYTES: usize = 8;

// Planning is for the full kit, whose limit no monomial of a set passes. It goes to the last card, with room for a
// thousand sets. No wiring list is longer than WIRES.
pub const FULL_DEGREE: u64 = VARIABLES as u64 * SET_EXPONENT;
pub const CAP: u64 = CARDS as u64;
pub const ROOM: usize = 1000 * SET_BYTES;
pub const WIRES: usize = (1 + CARDS) * TERMS * WIRE_BYTES;
// Thinning lists no more sets than a set has subsets.
pub const SUBSETS: usize = (1 << CARDS) * SET_BYTES;

// 1, the variables and the new signals.
pub const SIGNALS: usize = 1 + VARIABLES + CARDS;

// As many nonsquares as a set may have that the counting rule does not close: each new monomial that is still to come
// serves at most one for each signal, and each pair of such serves one.
pub const NONSQUARES: usize = CARDS * (1 + VARIABLES) + CARDS * (CARDS + 1) / 2;
