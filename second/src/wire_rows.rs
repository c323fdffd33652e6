//! The fixed rows of verdict and wiring together (document 02, [2]): buffers on
//! both sides of each list's length, sets that are not quadratic with room for
//! none, some and all of the records before that shows, empty lists, and what is
//! refused whatever is lent.

use crate::batch::{Case, MOST_CASE_BUFFER};
use crate::marks::Marks;
use crate::monomial::Monomial;
use crate::panel::{CARDS, MOST_N, MOST_WIRES_BYTES, SET_BYTES, TERM_BYTES, VARIABLES, WIRE_BYTES};
use crate::records::{read_set, read_terms, write_set};
use crate::rows::{
    box_of_two, bytes_of, own_variable_times_signals, set_of, BOX_OF_TWO, CANCELLING,
    CANCELLING_SET, EXAMPLE_3, NEARLY_CANCELLING, RABINOVICH_FABRIKANT, SIX_SIGNALS,
};
use crate::setting::Setting;
use crate::system::Set;
use crate::wire_cover::Derivatives;

const SIGNS_CANCEL: &str = "x1' = x1^2 x2; x2' = - x1 x2^2";

/// Its derivative is zero for every one of these.
const POWERS_THAT_CANCEL: [&str; 6] = [
    "x1 x2",
    "x1^2 x2^2",
    "x1^3 x2^3",
    "x1^4 x2^4",
    "x1^5 x2^5",
    "x1^6 x2^6",
];

/// A number of variables, a system, a set, and the length of its list or the
/// place of code 9.
type Given = (u64, String, &'static [&'static str], usize);

fn given(n: u64, text: &str, names: &'static [&'static str], number: usize) -> Given {
    (n, text.to_string(), names, number)
}

/// Both grow by themselves too: x1 x2 has one record left.
const CANCELLING_AND_GROWING: &str = "x1' = x1 + 1000000 x1 x3 x4; x2' = x2 - 1000000 x2 x3 x4";

/// 32 records with the longest list that a search has found; one of 224 would
/// take 32 monomials in the derivative of each new one.
const LONGEST: &str = "\
    x1' = 1 + x6 + x6^2 + x5 + x5 x6 + x4 + x4 x6 + x3 + x3 x6 + x3 x6^2 + x3 x6^3 \
        + x3 x4 x6 + x3 x4 x6^2 + x2 + x2 x6; \
    x3' = 1 + x3 + x3 x6 + x3 x5 + x3 x4 + x3^2 + x3^2 x6 + x3^2 x6^2 + x3^2 x4 x6 + x2 x3 \
        + x1 x3 + x1 x3^2 + x1 x3^2 x6 + x1^2 x3^2; \
    x6' = 1 + x1 + x1^2";
const LONGEST_SET: [&str; 6] = [
    "x3 x6", "x3 x6^2", "x3 x4 x6", "x1 x3", "x1 x3 x6", "x1^2 x3",
];

/// Quadratic sets. In the third to the eighth something vanishes: alone, before
/// a record, after one; a product, and what is none.
fn quadratic() -> Vec<Given> {
    vec![
        given(1, "x1' = - 1000000 x1", &[], 1),
        given(6, "x6' = x3 x5", &["x3^2", "x1 x2"], 1),
        given(2, SIGNS_CANCEL, &["x1 x2"], 2),
        given(2, SIGNS_CANCEL, &POWERS_THAT_CANCEL, 2),
        given(2, "x1' = x1 + x1^2 x2; x2' = x2 - x1 x2^2", &["x1 x2"], 5),
        given(2, "x1' = 3 x1 + x1^2 x2; x2' = - 3 x2", &["x1 x2"], 4),
        given(4, CANCELLING, &CANCELLING_SET, 4),
        given(4, CANCELLING_AND_GROWING, &CANCELLING_SET, 9),
        given(1, "x1' = x1^3", &["x1^2"], 2),
        given(2, EXAMPLE_3, &["x2^3", "x1 x2^2", "x1^3"], 6),
        given(3, RABINOVICH_FABRIKANT, &["x2^2", "x1 x2", "x1^2"], 25),
        given(6, &own_variable_times_signals(), &SIX_SIGNALS, 80),
        given(2, &box_of_two(), &BOX_OF_TWO, 108),
        given(6, LONGEST, &LONGEST_SET, 173),
    ]
}

/// Sets that are not quadratic. The nonsquare is the last monomial of an earlier
/// left variable or of the same one, the first of all, in the midst, met again in
/// a later derivative, after one that vanishes, and the last of all.
fn not_quadratic() -> Vec<Given> {
    let each_itself = "x1' = 1; x2' = x2; x3' = x3; x4' = x4; x5' = x5; x6' = x6";
    vec![
        given(1, "x1' = x1^3", &["x1^3"], 2),
        given(1, "x1' = 1 + x1 + x1^3", &[], 1),
        given(2, "x1' = x2^3 + x1 + x1^2; x2' = x2", &[], 1),
        given(
            2,
            "x1' = x1 + x2; x2' = 1 + x2 + x1 x2^2 + x1^2",
            &["x1^2"],
            2,
        ),
        given(3, "x1' = x1; x2' = 1 + x1^3; x3' = x2 + x1^4", &[], 2),
        given(
            4,
            CANCELLING,
            &["x3^2 x4", "x2 x3", "x1 x3", "x1 x2", "x1^2"],
            9,
        ),
        given(4, NEARLY_CANCELLING, &CANCELLING_SET, 8),
        given(
            6,
            each_itself,
            &["x2^2", "x2^3", "x2^4", "x2^5", "x2^6", "x1^5"],
            12,
        ),
        given(2, &box_of_two(), &BOX_OF_TWO[..5], 5),
        given(2, &(box_of_two() + "; x1' = x1^4"), &BOX_OF_TWO, 6),
        given(6, LONGEST, &LONGEST_SET[..5], 9),
    ]
}

/// The fixed rows of verdict and wiring.
pub fn rows() -> Vec<Case> {
    let parts = [
        around_each_list(),
        before_each_nonsquare(),
        empty_lists(),
        refused(),
    ];
    parts.concat()
}

/// Buffers around a record, around the list's own length and the longest list's.
fn around_each_list() -> Vec<Case> {
    let mut cases = Vec::new();
    for (n, text, names, records) in quadratic() {
        let exact = records * WIRE_BYTES;
        let mut buffers = vec![0, 1, exact - WIRE_BYTES, exact + WIRE_BYTES];
        for length in [WIRE_BYTES, exact, MOST_WIRES_BYTES] {
            buffers.extend([length - 1, length, length + 1, length + WIRE_BYTES - 1]);
        }
        buffers.sort();
        buffers.dedup();
        let case = |buffer| Case::wire(n, bytes_of(&text), set_of(names), buffer);
        cases.extend(buffers.into_iter().map(case));
    }
    cases
}

/// Buffers on both sides of every room at which the nonsquare could be missed.
fn before_each_nonsquare() -> Vec<Case> {
    let mut cases = Vec::new();
    for (n, text, names, _) in not_quadratic() {
        let (terms, set) = (bytes_of(&text), set_of(names));
        let setting = Setting::full(n as usize, Marks::NONE);
        let system = read_terms(setting, &terms).expect("terms that are taken");
        let members = read_set(setting, &set).expect("a set that is taken");
        let rooms = Derivatives::of(&system, &members).rooms();
        let around = |room: usize| {
            let bytes = room * WIRE_BYTES;
            [bytes.saturating_sub(1), bytes, bytes + 1]
        };
        let mut buffers: Vec<usize> = rooms.into_iter().flat_map(around).collect();
        buffers.push(MOST_WIRES_BYTES);
        buffers.sort();
        buffers.dedup();
        let case = |buffer| Case::wire(n, terms.clone(), set.clone(), buffer);
        cases.extend(buffers.into_iter().map(case));
    }
    cases
}

/// Without records every set is quadratic and its list empty: every n and size
/// into no byte, and into too few for a record.
fn empty_lists() -> Vec<Case> {
    let mut cases = Vec::new();
    for n in 1..=VARIABLES {
        for size in 0..=CARDS {
            let member = |j: usize| {
                let mut member = Monomial::variable(n);
                member.0[n - 1] += 1 + j as u16;
                member
            };
            let set: Set = (0..size).map(member).collect();
            for buffer in [0, 1 + (n + size) % (WIRE_BYTES - 1)] {
                let set = write_set(&set).to_vec();
                cases.push(Case::wire(n as u64, Vec::new(), set, buffer));
            }
        }
    }
    cases
}

/// Codes 1, 2, 3, 4 and 8 with nothing lent, too little for a record, and more
/// than any list needs.
fn refused() -> Vec<Case> {
    let good = || bytes_of("x1' = 2 x1");
    let faults: [(u64, Vec<u8>, Vec<u8>); 7] = [
        (0, good(), set_of(&[])),
        (MOST_N + 1, good(), set_of(&[])),
        (1, vec![0; TERM_BYTES - 1], set_of(&[])),
        (1, good(), vec![0; SET_BYTES + 1]),
        (1, bytes_of("x1' = 2 x1 + x1^10"), set_of(&[])),
        (1, bytes_of("x1' = 2 x1 + x1"), set_of(&[])),
        (1, good(), set_of(&["x1"])),
    ];
    let record = 0..=WIRE_BYTES + 1;
    let longest = MOST_WIRES_BYTES - 1..=MOST_WIRES_BYTES + 1;
    let buffers: Vec<usize> = record.chain(longest).chain([MOST_CASE_BUFFER]).collect();
    let mut cases = Vec::new();
    for (n, terms, set) in faults {
        let case = |&buffer| Case::wire(n, terms.clone(), set.clone(), buffer);
        cases.extend(buffers.iter().map(case));
    }
    cases
}

#[cfg(test)]
mod tests {
    use super::*;

    #[test]
    fn the_rows_hold_the_true_lengths() {
        for (n, text, names, records) in quadratic() {
            let case = |buffer| Case::wire(n, bytes_of(&text), set_of(names), buffer);
            let exact = records * WIRE_BYTES;
            let size = names.len() as u64;
            let (reply, _) = case(exact).answer();
            assert_eq!(reply.numbers(), [0, size, records as u64, 0, 0], "{text}");
            for buffer in [0, exact - 1] {
                let (reply, answer) = case(buffer).answer();
                assert_eq!(reply.numbers(), [6, size, 0, 0, 0], "{text}");
                assert_eq!(answer, vec![0; buffer]);
            }
        }
    }

    #[test]
    fn not_quadratic_is_said_whatever_the_room() {
        let cases = before_each_nonsquare();
        let mut at = cases.iter().peekable();
        for (_, text, names, place) in not_quadratic() {
            let size = names.len() as u64;
            while let Some(case) = at.next_if(|case| case.terms == bytes_of(&text)) {
                let (reply, answer) = case.answer();
                assert_eq!(reply.numbers(), [9, size, 0, 0, place as u64], "{text}");
                assert_eq!(answer, vec![0; case.buffer]);
            }
        }
        assert!(at.next().is_none());
    }

    #[test]
    fn an_empty_list_is_done_without_room() {
        for case in empty_lists() {
            let (reply, answer) = case.answer();
            assert_eq!((reply.code, reply.count), (0, 0));
            assert_eq!(answer, vec![0; case.buffer]);
        }
    }

    #[test]
    fn each_refusal_has_its_code_whatever_is_lent() {
        let cases = refused();
        for (fault, code) in cases.chunks(cases.len() / 7).zip([1, 1, 2, 2, 3, 4, 8]) {
            for case in fault {
                let (reply, answer) = case.answer();
                assert_eq!(reply.code, code);
                assert_eq!(answer, vec![0; case.buffer]);
            }
        }
    }
}
