//! The fixed rows of thinning: the sums worked by hand, buffers on both sides
//! of each list's length, and what is refused.

use crate::batch::{Case, Operation, MOST_CASE_BUFFER};
use crate::monomial::Monomial;
use crate::panel::{CARDS, MOST_N, MOST_SET_EXPONENT, SET_BYTES, VARIABLES};
use crate::records::write_places;
use crate::rows::{
    bytes_of, given_rows, places_of_code_9, set_of, unfed_products, BOX_OF_TWO, CANCELLING,
    CANCELLING_SET, EXAMPLE_3, NEARLY_CANCELLING, RABINOVICH_FABRIKANT,
};
use crate::systems::power;

/// A linear system, and the monomials of degree three: each needs its
/// neighbours, so that quadratic subsets have no signal or all four.
pub const CHAIN: &str = "x1' = x2; x2' = x1";
pub const CHAIN_SET: [&str; 4] = ["x2^3", "x1 x2^2", "x1^2 x2", "x1^3"];

/// The chain, and a variable that takes a cube: sizes 1, 2, 5 and 6.
pub const CHAIN_AND_CUBE: &str = "x1' = x2; x2' = x1; x4' = x3^3";
pub const CHAIN_AND_CUBE_SET: [&str; 6] = ["x3^2", "x3^3", "x2^3", "x1 x2^2", "x1^2 x2", "x1^3"];

/// Three pairs of signals that need each other, and a variable that takes one.
pub const PAIRS: &str = CHAIN;
pub const PAIR_NEEDED: &str = "x1' = x2; x2' = x1; x6' = x1 x3^2";
pub const PAIR_SET: [&str; 6] = [
    "x2 x5^2", "x2 x4^2", "x2 x3^2", "x1 x5^2", "x1 x4^2", "x1 x3^2",
];

/// One term that each of six signals makes alone.
pub const SIX_WAYS: &str = "x1' = x2^2 x3^2 x4^2 x5^2";
pub const SIX_WAYS_SET: [&str; 6] = [
    "x2 x3 x4 x5",
    "x2 x3^2 x4^2 x5^2",
    "x2^2 x3 x4^2 x5^2",
    "x2^2 x3^2 x4 x5^2",
    "x2^2 x3^2 x4^2 x5",
    "x2^2 x3^2 x4^2 x5^2",
];

/// A product that one signal makes, or two others together; and a cube that
/// either of two makes.
pub const TWO_NEEDS: &str = "x1' = x2^2 x3^2 + x4^3";
pub const TWO_NEEDS_SET: [&str; 5] = ["x4^2", "x4^3", "x3^2", "x2 x3", "x2^2"];

/// Powers of an unfed variable: x1^3 from x1^2 or x1^3, and x1^8 from x1^4, x1^7
/// or x1^8, or from x1^3 and x1^5.
pub const THIRD_AND_EIGHTH: &str = "x2' = x1^3 + x1^8";
pub const THIRD_AND_EIGHTH_SET: [&str; 6] = ["x1^2", "x1^3", "x1^4", "x1^5", "x1^7", "x1^8"];

/// Each signal's derivative calls for the next, with nine more of x2, up to 45.
pub const FORCED: &str = "x1' = x2^9 x3^4; x3' = x2^9 x4";
pub const FORCED_SET: [&str; 6] = [
    "x2^9 x4",
    "x2^9 x3^4",
    "x2^18 x3^3 x4",
    "x2^27 x3^2 x4^2",
    "x2^36 x3 x4^3",
    "x2^45 x4^4",
];

/// The root of each product of `unfed_products`, in the same sequence: so many
/// products need so many of them.
const ROOTS: [&str; CARDS] = ["x2 x3", "x4 x5", "x2 x6^2", "x3 x5", "x4 x6", "x3^2 x6"];

/// A number of variables, a system, a given set, and how many of its subsets
/// are smallest.
pub type Given = (u64, &'static str, &'static [&'static str], usize);

pub const GIVEN: [Given; 27] = [
    (1, "x1' = x1^4 + x1^3", &["x1^2", "x1^3", "x1^4"], 2),
    (6, "x1' = x1^4 + x1^3", &["x1^2", "x1^3", "x1^4"], 2),
    (1, "x1' = x1", &["x1^2", "x1^3"], 1),
    (1, "", &[], 1),
    (1, "x1' = x1^3", &["x1^2"], 1),
    (1, "x1' = x1^3", &["x1^2", "x1^4"], 1),
    (2, EXAMPLE_3, &["x2^3", "x1 x2^2", "x1^3"], 1),
    (3, RABINOVICH_FABRIKANT, &["x2^2", "x1 x2", "x1^2"], 1),
    (
        2,
        "x1' = x1^2 x2; x2' = - x1 x2^2",
        &["x1 x2", "x1^2 x2^2"],
        1,
    ),
    (4, CANCELLING, &CANCELLING_SET, 1),
    (4, FORCED, &FORCED_SET, 1),
    (2, CHAIN, &CHAIN_SET, 1),
    (4, CHAIN_AND_CUBE, &CHAIN_AND_CUBE_SET, 2),
    (5, PAIRS, &PAIR_SET, 1),
    (6, PAIR_NEEDED, &PAIR_SET, 1),
    (5, SIX_WAYS, &SIX_WAYS_SET, 6),
    (4, TWO_NEEDS, &TWO_NEEDS_SET, 2),
    (3, "x1' = x2^2 x3^2", &["x3^2", "x2 x3", "x2^2"], 1),
    (
        3,
        "x1' = x2^2 x3^2",
        &["x2 x3", "x2 x3^2", "x2^2 x3", "x2^2 x3^2"],
        4,
    ),
    (2, "x1' = x1 x2^2; x2' = x1^2 x2", &BOX_OF_TWO, 1),
    (
        6,
        "x1' = x1",
        &["x6^54", "x1^54 x2^54 x3^54 x4^54 x5^54 x6^54"],
        1,
    ),
    (
        6,
        "x1' = x2^2 x3^2 + x4^2 x5^2",
        &["x4 x5", "x4 x5^2", "x4^2 x5", "x2 x3", "x2 x3^2", "x2^2 x3"],
        9,
    ),
    (2, THIRD_AND_EIGHTH, &THIRD_AND_EIGHTH_SET, 7),
    (
        2,
        "x2' = x1^4 + x1^7",
        &["x1^2", "x1^3", "x1^4", "x1^5", "x1^6", "x1^7"],
        8,
    ),
    (
        2,
        "x2' = x1^6 + x1^8",
        &["x1^3", "x1^4", "x1^5", "x1^6", "x1^7", "x1^8"],
        10,
    ),
    (
        2,
        "x2' = x1^6 + x1^8 + x1^9",
        &["x1^2", "x1^3", "x1^5", "x1^6", "x1^7", "x1^9"],
        11,
    ),
    (
        2,
        "x2' = x1^3 + x1^5 + x1^9",
        &["x1^2", "x1^3", "x1^4", "x1^5", "x1^8", "x1^9"],
        12,
    ),
];

/// The fixed rows of thinning.
pub fn rows() -> Vec<Case> {
    let parts = [
        around_each_list(),
        every_order_of_every_size(),
        bytes_of_the_record(),
        no_answer_though_a_subset_is_quadratic(),
        refused(),
        not_quadratic(),
    ];
    parts.concat()
}

/// Buffers around each list's own length, without a byte, and a byte too short
/// for any set.
fn around_each_list() -> Vec<Case> {
    let mut cases = Vec::new();
    for (n, text, names, count) in GIVEN {
        let exact = count * SET_BYTES;
        let mut buffers = vec![
            0,
            SET_BYTES - 1,
            exact - SET_BYTES,
            exact - 1,
            exact,
            exact + 1,
            MOST_CASE_BUFFER,
        ];
        buffers.sort();
        buffers.dedup();
        let case = |buffer| Case::thin(n, bytes_of(text), set_of(names), buffer);
        cases.extend(buffers.into_iter().map(case));
    }
    cases
}

/// Given sets of every size, of which so many signals are needed and no more.
fn every_order_of_every_size() -> Vec<Case> {
    let mut cases = Vec::new();
    for size in 0..=CARDS {
        for order in 0..=size {
            let text = match order {
                0 => String::new(),
                _ => unfed_products(order),
            };
            let set = set_of(&ROOTS[..size]);
            cases.push(Case::thin(MOST_N, bytes_of(&text), set, SET_BYTES));
        }
    }
    cases
}

/// Each byte of the record above the most, and each of the last place at the
/// most.
fn bytes_of_the_record() -> Vec<Case> {
    let powers: Vec<Monomial> = (2..).map(power).take(CARDS).collect();
    let with = |byte: usize, value: u16| {
        let mut set = write_places(&powers).to_vec();
        set[byte] = value as u8;
        Case::thin(MOST_N, Vec::new(), set, SET_BYTES)
    };
    let above = (0..SET_BYTES).map(|byte| with(byte, MOST_SET_EXPONENT + 1));
    let last = SET_BYTES - VARIABLES..SET_BYTES;
    let most = last.map(|byte| with(byte, MOST_SET_EXPONENT));
    above.chain(most).collect()
}

/// The given set is not quadratic: then no subset is handed back, whatever the
/// room.
fn no_answer_though_a_subset_is_quadratic() -> Vec<Case> {
    let mut cases = Vec::new();
    for buffer in [0, SET_BYTES - 1, SET_BYTES, 2 * SET_BYTES] {
        let thin = |n, text, names: &[&str]| Case::thin(n, bytes_of(text), set_of(names), buffer);
        cases.push(thin(1, "x1' = x1^4", &["x1^2"]));
        cases.push(thin(1, "x1' = 1", &["x1^4"]));
        cases.push(thin(2, CHAIN, &CHAIN_SET[1..]));
        cases.push(thin(4, NEARLY_CANCELLING, &CANCELLING_SET));
    }
    cases
}

/// The same bytes, thinned.
pub fn as_thinning(case: &Case) -> Case {
    Case {
        operation: Operation::Thin,
        ..case.clone()
    }
}

/// What wiring refuses before it looks at the set's derivatives, thinning
/// refuses too; and what it takes.
fn refused() -> Vec<Case> {
    given_rows().iter().map(as_thinning).collect()
}

/// Code 9 for every n, size and place.
fn not_quadratic() -> Vec<Case> {
    let one_set = |(_, _, case)| Case {
        buffer: SET_BYTES,
        ..as_thinning(&case)
    };
    places_of_code_9().into_iter().map(one_set).collect()
}

#[cfg(test)]
mod tests {
    use super::*;

    #[test]
    fn the_rows_hold_the_true_counts() {
        for (n, text, names, count) in GIVEN {
            let case = |buffer| Case::thin(n, bytes_of(text), set_of(names), buffer);
            let (reply, _) = case(count * SET_BYTES).answer();
            assert_eq!((reply.code, reply.count), (0, count as u64), "{text}");
            assert_eq!(reply.steps, 1 << names.len());
            let (reply, _) = case(count * SET_BYTES - 1).answer();
            assert_eq!((reply.code, reply.count), (6, 0), "{text}");
        }
    }

    #[test]
    fn every_order_of_every_size_is_met() {
        let cases = every_order_of_every_size();
        let mut at = cases.iter();
        for size in 0..=CARDS {
            for order in 0..=size as u64 {
                let (reply, _) = at.next().unwrap().answer();
                assert_eq!(reply.numbers(), [0, order, 1, 1 << size, 0]);
            }
        }
        assert!(at.next().is_none());
    }

    #[test]
    fn code_9_is_met_at_every_place() {
        let cases = not_quadratic();
        let mut at = cases.iter();
        for n in 1..=MOST_N {
            for size in 0..=CARDS as u64 {
                for place in 1..=n + size {
                    let (reply, _) = at.next().unwrap().answer();
                    assert_eq!(reply.numbers(), [9, size, 0, 0, place]);
                }
            }
        }
        assert!(at.next().is_none());
    }

    #[test]
    fn a_byte_above_the_most_is_refused_and_the_most_is_taken() {
        let cases = bytes_of_the_record();
        for case in &cases[..SET_BYTES] {
            assert_eq!(case.answer().0.numbers(), [8, 0, 0, 0, 0]);
        }
        for case in &cases[SET_BYTES..] {
            assert_eq!(case.answer().0.numbers(), [0, 0, 1, 64, 0]);
        }
        assert_eq!(cases.len(), SET_BYTES + VARIABLES);
    }

    #[test]
    fn a_quadratic_subset_is_no_answer() {
        for case in no_answer_though_a_subset_is_quadratic() {
            assert_eq!(case.answer().0.code, 9);
        }
    }
}
