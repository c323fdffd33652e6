//! The numbers of documents 01 and 02, each once: those that follow from others are
//! computed from them.

/// The most variables of a system, and so the exponents of a monomial.
pub const VARIABLES: usize = 6;

/// The integrator cards, and so the most new monomials of a set.
pub const CARDS: usize = 6;

// The settings n, K and limit.
pub const MOST_N: u64 = VARIABLES as u64;
pub const MOST_CAP: u64 = CARDS as u64;
pub const MOST_LIMIT: u64 = 1_000_000_000;

// A system.
pub const MOST_TERMS: usize = 32;
pub const MOST_EXPONENT: u16 = 9;
pub const MOST_COEFFICIENT: i64 = 1_000_000;

/// The most that an exponent of a set may be: in the walk each new monomial can
/// add a term's.
pub const MOST_SET_EXPONENT: u16 = CARDS as u16 * MOST_EXPONENT;

// The limit on the total degree of a new monomial: the junior kits', and that of
// the full kit, which has every exponent of a set at its most.
pub const LEAST_DEGREE: u64 = 2;
pub const MOST_DEGREE: u64 = 9;
pub const FULL_DEGREE: u64 = VARIABLES as u64 * MOST_SET_EXPONENT as u64;

/// The most that an exponent of a nonsquare comes to: a set's and a term's.
pub const MOST_NONSQUARE_EXPONENT: u16 = MOST_SET_EXPONENT + MOST_EXPONENT;

/// A coefficient, in term records and wiring records.
const COEFFICIENT_BYTES: usize = 4;

// A term record: equation, zero, exponents, coefficient.
pub const EXPONENTS_AT: usize = 2;
pub const COEFFICIENT_AT: usize = EXPONENTS_AT + VARIABLES;
pub const TERM_BYTES: usize = COEFFICIENT_AT + COEFFICIENT_BYTES;
pub const MOST_TERMS_BYTES: usize = MOST_TERMS * TERM_BYTES;

/// A set record: a monomial for each card.
pub const SET_BYTES: usize = CARDS * VARIABLES;

// A wiring record: left signal, two factors, zero, coefficient.
pub const WIRE_COEFFICIENT_AT: usize = 4;
pub const WIRE_BYTES: usize = WIRE_COEFFICIENT_AT + COEFFICIENT_BYTES;

/// No wiring list is longer: each term stands in the derivative of its own
/// variable, and at most once in that of each new monomial.
pub const MOST_WIRES: usize = (1 + CARDS) * MOST_TERMS;
pub const MOST_WIRES_BYTES: usize = MOST_WIRES * WIRE_BYTES;

// The desktop tool's listing: its length, and the coefficients that stand in it.
pub const MOST_TEXT: usize = 4_096;
pub const MOST_LISTED_COEFFICIENT: i128 = 1_000_000_000;

// What the document's program plans with, and its worked rows where they name
// nothing else.
pub const USUAL_CAP: u64 = MOST_CAP;
pub const USUAL_LIMIT: u64 = 1_000_000;
pub const USUAL_ROOM: usize = 1_000;
