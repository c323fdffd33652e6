//! Rows with signals fed from outside, worked by hand from document 02, [3].

use crate::batch::Case;
use crate::mark_rows::{
    CUBE_AND_SIGNAL, CUBE_AND_SIGNAL_SQUARED, EXAMPLE_5_3, KNOB_BESIDE_SIGNAL,
    PRODUCT_TIMES_SIGNAL, SQUARE_TIMES_SIGNAL,
};
use crate::marks::Marks;
use crate::panel::{MOST_WIRES_BYTES, SET_BYTES, USUAL_CAP as CAP, USUAL_LIMIT as LIMIT};
use crate::records::read_wires;
use crate::rows::{bytes_of, set_of};
use crate::show::listed;

/// A plan with room to spare: its numbers, and the sets that it lists.
fn planned(n: u64, marked: &[usize], text: &str, cap: u64, limit: u64) -> ([u64; 5], Vec<String>) {
    let marks = Marks::of(marked.iter().copied());
    let case = Case::plan(n, cap, limit, 100 * SET_BYTES, bytes_of(text)).marked(marks);
    let (reply, sets) = case.answer();
    let count = reply.count as usize;
    assert!(sets[count * SET_BYTES..].iter().all(|&byte| byte == 0));
    (reply.numbers(), listed("found", &sets, count))
}

/// A plan as a row has it where it names nothing else.
fn plain(n: u64, marked: &[usize], text: &str, numbers: [u64; 5], sets: &[&str]) {
    let found: Vec<String> = sets.iter().map(|set| format!("  found {set}")).collect();
    let planned = planned(n, marked, text, CAP, LIMIT);
    assert_eq!(planned, (numbers, found), "{text}");
}

fn wire(n: u64, marked: &[usize], text: &str, names: &[&str]) -> Case {
    let marks = Marks::of(marked.iter().copied());
    Case::wire(n, bytes_of(text), set_of(names), MOST_WIRES_BYTES).marked(marks)
}

/// The wiring: its numbers, and left, a, b, coefficient of each record.
fn wired(case: &Case) -> ([u64; 5], Vec<[i64; 4]>) {
    let (reply, buffer) = case.answer();
    let list = read_wires(&buffer)
        .iter()
        .map(|w| [w.left as i64, w.a as i64, w.b as i64, w.coefficient])
        .collect();
    (reply.numbers(), list)
}

/// The signal multiplies a square, and no pair of x1^2 u is free of it but u with
/// x1^2, which leaves x1^3 u over; so each level adds powers of x1 for nothing.
#[test]
fn none_whatever_the_cap() {
    let steps = [1, 6, 16, 32, 55, 86, 126];
    for (cap, steps) in (0..=CAP).zip(steps) {
        let row = |limit| planned(2, &[2], SQUARE_TIMES_SIGNAL, cap, limit).0;
        assert_eq!(row(LIMIT), [5, cap + 1, 0, steps, 0]);
        assert_eq!(row(steps), [5, cap + 1, 0, steps, 0]);
        if cap > 0 {
            assert_eq!(row(steps - 1), [7, cap, 0, steps - 1, 0]);
        }
    }
    // As a knob it can be part of a new monomial.
    plain(2, &[], SQUARE_TIMES_SIGNAL, [0, 1, 1, 8, 0], &["{x1 x2}"]);
}

/// Levels 0 and 1 of Example 5.3: opening; opening, the pair 1 with x1^2 u, the
/// pair u with x1^2, its opening, and the pair x1 u with x1.
#[test]
fn document_000_example_5_3() {
    plain(3, &[3], EXAMPLE_5_3, [0, 1, 1, 6, 0], &["{x1^2}"]);
    let spent = planned(3, &[3], EXAMPLE_5_3, CAP, 5).0;
    assert_eq!(spent, [7, 1, 0, 5, 0]);
    let expected = [
        [1, 0, 1, 1],
        [1, 1, 3, 1],
        [2, 3, 4, 1],
        [4, 0, 4, 2],
        [4, 3, 4, 2],
    ];
    let (numbers, list) = wired(&wire(3, &[3], EXAMPLE_5_3, &["x1^2"]));
    assert_eq!(numbers, [0, 1, 5, 0, 0]);
    // x1^2 is 0 4 and 1 1: the smaller a comes first.
    assert_eq!(list, expected);
}

#[test]
fn a_signal_that_only_multiplies_is_no_hindrance() {
    plain(2, &[2], CUBE_AND_SIGNAL, [0, 1, 1, 6, 0], &["{x1^2}"]);
    let (reply, _) = planned(2, &[2], CUBE_AND_SIGNAL_SQUARED, CAP, LIMIT);
    assert_eq!(reply[..3], [5, 7, 0]);
    // x1 u^2: 1, u^2 x1; u, u x1; u^2, x1. Level 0 is an opening, and each later
    // one an opening and three pairs that open nothing.
    plain(2, &[2], "x1' = x1 x2^2", [5, 7, 0, 25, 0], &[]);
    plain(2, &[2], "x1' = x2^3", [5, 7, 0, 19, 0], &[]);
    plain(2, &[2], "x1' = x2^2", [0, 0, 1, 1, 0], &["{}"]);
    plain(3, &[2, 3], "x1' = x2 x3", [0, 0, 1, 1, 0], &["{}"]);
}

/// x1 x2 u: 1, x1 x2 u; u, x1 x2 (opened, found); x2, x1 u; x2 u, x1.
#[test]
fn a_pair_is_judged_by_what_it_adds() {
    plain(4, &[3], PRODUCT_TIMES_SIGNAL, [0, 1, 1, 7, 0], &["{x1 x2}"]);
    plain(4, &[2, 3], PRODUCT_TIMES_SIGNAL, [5, 7, 0, 31, 0], &[]);
    let as_knobs = "{x2 x3} {x1 x3} {x1 x2} {x1 x2 x3}";
    let (numbers, found) = planned(4, &[], PRODUCT_TIMES_SIGNAL, CAP, LIMIT);
    assert_eq!(numbers, [0, 1, 4, 10, 0]);
    assert_eq!(found.join(" ").replace("  found ", ""), as_knobs);
}

#[test]
fn a_knob_beside_a_signal_stays_a_knob() {
    plain(3, &[3], KNOB_BESIDE_SIGNAL, [0, 1, 1, 8, 0], &["{x1 x2}"]);
    let (numbers, list) = wired(&wire(3, &[3], KNOB_BESIDE_SIGNAL, &["x1 x2"]));
    assert_eq!(numbers, [0, 1, 4, 0, 0]);
    let expected = [[1, 0, 3, 1], [1, 1, 4, 1], [4, 2, 3, 1], [4, 4, 4, 1]];
    assert_eq!(list, expected);
}

#[test]
fn refusals() {
    let marked = |case: Case, marks| case.marked(Marks(marks)).answer().0.numbers();
    let plan = || Case::plan(2, CAP, LIMIT, SET_BYTES, bytes_of(SQUARE_TIMES_SIGNAL));
    assert_eq!(marked(plan(), 0b10), [5, 7, 0, 126, 0]);
    for beyond in [0b100, 0b110, 1 << 5, 1 << 6, 1 << 32, 1 << 63, u64::MAX] {
        assert_eq!(marked(plan(), beyond), [1, 0, 0, 0, 0]);
    }
    assert_eq!(marked(plan(), 0b01), [3, 0, 0, 0, 1]);
    let mut second = plan();
    second.terms = bytes_of("x1' = x2; x2' = x1; x1' = x2");
    assert_eq!(marked(second.clone(), 0b10), [3, 0, 0, 0, 2]);
    assert_eq!(marked(second, 0), [4, 0, 0, 0, 3]);
    for names in [&["x1 x2"][..], &["x2^2"], &["x1^2", "x1^2 x2"]] {
        let case = wire(2, &[2], SQUARE_TIMES_SIGNAL, names);
        assert_eq!(wired(&case), ([8, 0, 0, 0, 0], Vec::new()));
    }
    // Signals have their numbers: x1 is marked, x2 has the nonsquare.
    let case = wire(2, &[1], "x2' = x2^3", &[]);
    assert_eq!(wired(&case), ([9, 0, 0, 0, 2], Vec::new()));
    let case = wire(2, &[1], "x2' = x2^3", &["x2^3"]);
    assert_eq!(wired(&case), ([9, 1, 0, 0, 3], Vec::new()));
}
