//! The numbers of the panel (document 01) and of the program that is asked, each once. The planner judges by them
//! itself; here they shape what is sent to it, and give a refusal its reason.

/// Variables of a system, at most: a monomial has an exponent for each.
pub const VARIABLES: usize = 6;
/// New signals of a set, at most: each has an integrator card of its own.
pub const CARDS: u64 = 6;

/// Terms of a system, at most.
pub const TERMS: usize = 32;
/// The highest power of a variable in a term.
pub const POWER: u128 = 9;
/// The largest coefficient of a term, either way.
pub const COEFFICIENT: u128 = 1_000_000;

/// A term record: equation, a zero, the exponents, the coefficient.
pub const EXPONENTS_AT: usize = 2;
pub const COEFFICIENT_AT: usize = EXPONENTS_AT + VARIABLES;
pub const TERM_BYTES: usize = COEFFICIENT_AT + std::mem::size_of::<i32>();

/// A set record: the exponents of each new signal, and the highest power of a variable in one.
pub const SET_BYTES: usize = CARDS as usize * VARIABLES;
pub const SET_POWER: u128 = CARDS as u128 * POWER;

/// The total degree of a new signal, at most: the least and the most that is printed on a junior kit, and what stands
/// for the full kit, which no signal of a set record passes.
pub const LEAST_DEGREE: u64 = 2;
pub const MOST_DEGREE: u64 = 9;
pub const FULL_DEGREE: u64 = VARIABLES as u64 * SET_POWER as u64;

/// A listing of the desktop tool: its bytes, at most, and the largest coefficient that is written in one.
pub const LISTING_BYTES: usize = 4_096;
pub const LISTED_COEFFICIENT: u128 = 1_000_000_000;

/// Steps of a search: at most, and where none are typed.
pub const STEPS: u64 = 1_000_000_000;
pub const USUAL_STEPS: u64 = 1_000_000;
/// Sets that there is room for: at most, and where none are typed.
pub const SETS: u64 = 20_000;
pub const USUAL_SETS: u64 = 1_000;
