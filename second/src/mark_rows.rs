//! The fixed rows of signals fed from outside (document 02, [3]): marks on both
//! sides of n, records and sets that marks refuse, every way of marking small
//! systems, and walks around their own limits and rooms.

use crate::batch::Case;
use crate::mark_maker::beyond;
use crate::marks::Marks;
use crate::monomial::Monomial;
use crate::notation::terms;
use crate::panel::{
    CARDS, COEFFICIENT_AT, MOST_CAP, MOST_LIMIT, MOST_N, MOST_SET_EXPONENT, MOST_TERMS, SET_BYTES,
    TERM_BYTES, USUAL_CAP as CAP, VARIABLES, WIRE_BYTES,
};
use crate::records::{write_places, write_terms};
use crate::rows::{
    bytes_of, cubic_cycle, different_records, mutual_power, places_of_code_9, set_of,
    unfed_products, EXAMPLE_3, RABINOVICH_FABRIKANT,
};
use crate::thin_rows::as_thinning;
use crate::walk::Rules;

/// Document 02, [3]: the signal x2 multiplies a square.
pub const SQUARE_TIMES_SIGNAL: &str = "x1' = x1^2 x2";

/// Document 000, Example 5.3, the signal is x3.
pub const EXAMPLE_5_3: &str = "x1' = x1 + x1 x3; x2' = x1^2 x3";

/// A cube beside a signal that only multiplies, and beside its square.
pub const CUBE_AND_SIGNAL: &str = "x1' = x1^3 + x2 x1";
pub const CUBE_AND_SIGNAL_SQUARED: &str = "x1' = x1^3 + x2^2 x1";

/// Of the nonsquare's pairs one adds x1 x2 alone; each other one adds a monomial
/// with the signal x3.
pub const PRODUCT_TIMES_SIGNAL: &str = "x4' = x1 x2 x3";

/// x1 and x3 turn as fast as the signal x2 says, and x4 takes x1^2.
const TURNED_BY_SIGNAL: &str = "x1' = x2 x3; x3' = - x1 x2; x4' = x1^2 x2";

/// The knob x2 may be in a new monomial, and the signal x3 may not.
pub const KNOB_BESIDE_SIGNAL: &str = "x1' = x1^2 x2 + x3";

/// A walk is looked at no further than this.
pub const FAR: u64 = 3_000;

/// Some variables fed from outside, and no records for them.
fn without_marked(text: &str, marks: Marks) -> Vec<u8> {
    let mut terms = terms(text);
    terms.retain(|term| !marks.mark(term.equation));
    write_terms(&terms)
}

/// Planning, wiring and thinning of the same input.
pub fn each_operation(n: usize, marks: Marks, terms: &[u8], set: &[u8]) -> [Case; 3] {
    let n = n as u64;
    let wiring = Case::wire(n, terms.to_vec(), set.to_vec(), 3 * WIRE_BYTES);
    let thinning = Case {
        buffer: SET_BYTES + 1,
        ..as_thinning(&wiring)
    };
    let plan = Case::plan(n, CAP, FAR, SET_BYTES + 4, terms.to_vec());
    [plan, wiring, thinning].map(|case| case.marked(marks))
}

/// The fixed rows of signals fed from outside.
pub fn rows() -> Vec<Case> {
    let parts = [
        around_each_walk(Rules::BEFORE_CLOSING),
        every_way_of_marking(Rules::BEFORE_CLOSING),
        long_walks(),
        beside_marks(),
        marks_and_n(),
        all_marked(),
        equations_and_marks(),
        places_of_code_3(),
        several_faults(),
        sets_and_marks(),
        places_with_marks(),
        around_each_list(),
    ];
    let mut rows: Vec<Case> = Vec::new();
    for case in parts.concat() {
        if !rows.contains(&case) {
            rows.push(case);
        }
    }
    rows
}

/// A plan with limits and rooms on both sides of what its walk needs, and on both
/// sides of the step that finds no room.
pub fn around_a_walk(rules: Rules, plan: Case) -> Vec<Case> {
    let with = |limit, buffer| Case {
        limit,
        buffer,
        ..plan.clone()
    };
    let generous = with(FAR, 40 * SET_BYTES);
    let (reply, _) = generous.answer_by(rules);
    let (steps, count) = (reply.steps, reply.count as usize);
    let exact = count * SET_BYTES;
    let mut cases = vec![with(steps, exact), with(steps + 1, exact + SET_BYTES)];
    if steps > 1 {
        cases.push(with(steps - 1, exact));
    }
    if count > 0 {
        let full = with(FAR, exact - 1).answer_by(rules).0.steps;
        cases.push(with(full, exact - 1));
        if full > 1 {
            cases.push(with(full - 1, exact - 1));
        }
    }
    cases
}

/// Systems with a signal, the rows of the request first and with every K.
pub fn around_each_walk(rules: Rules) -> Vec<Case> {
    let mut cases = Vec::new();
    let walks: [(u64, &str, &[usize]); 20] = [
        (2, SQUARE_TIMES_SIGNAL, &[2]),
        (3, EXAMPLE_5_3, &[3]),
        (2, CUBE_AND_SIGNAL, &[2]),
        (2, CUBE_AND_SIGNAL_SQUARED, &[2]),
        (4, PRODUCT_TIMES_SIGNAL, &[3]),
        (4, PRODUCT_TIMES_SIGNAL, &[2, 3]),
        (3, KNOB_BESIDE_SIGNAL, &[3]),
        (3, KNOB_BESIDE_SIGNAL, &[2, 3]),
        (2, "x1' = x2^2 + x2 + x1 x2", &[2]),
        (3, "x1' = x2 x3 + x3^2", &[2, 3]),
        (2, "x1' = x2^3", &[2]),
        (2, "x1' = x1 x2^2", &[2]),
        // 000: Example 3.2 and Duffing's oscillator, with their inputs.
        (2, "x1' = x1 + x1^2 x2", &[2]),
        (3, "x1' = x2; x2' = - 2 x1 - 3 x2 - 5 x1^3 + x3", &[3]),
        // The second signal comes with a square that nothing makes.
        (3, "x1' = x1^4 + x1 x2 + x3 x2^2", &[2, 3]),
        // What a signal multiplies is itself no product of two.
        (2, "x1' = x1^3 x2 + x1", &[2]),
        (3, "x1' = x2^3 x3; x2' = x3", &[3]),
        (3, "x1' = x1^4 + x1^3 + x2 x3", &[2, 3]),
        (4, "x1' = x2^2 x3^2 + x2 x4 x3; x2' = x4", &[4]),
        (6, "x2' = x2^2 x4^2; x6' = x2 x4 x1; x4' = x1 + x3", &[1, 3]),
    ];
    for (index, (n, text, marked)) in walks.into_iter().enumerate() {
        let marks = Marks::of(marked.iter().copied());
        let caps = match index {
            0..=3 => (0..=CAP).collect(),
            _ => vec![CAP],
        };
        for cap in caps {
            let plan = Case::plan(n, cap, FAR, 0, bytes_of(text)).marked(marks);
            cases.extend(around_a_walk(rules, plan));
        }
    }
    cases
}

/// Small systems with each set of marks, the records of marked variables left out.
pub fn every_way_of_marking(rules: Rules) -> Vec<Case> {
    let four = "x1' = x2 x3 x4; x2' = x1 x3 x4; x3' = x1 x2 x4; x4' = x1 x2 x3";
    let systems: [(usize, String); 8] = [
        (2, "x1' = x1^2 x2; x2' = - x1 x2^2".to_string()),
        (2, EXAMPLE_3.to_string()),
        (3, RABINOVICH_FABRIKANT.to_string()),
        (
            3,
            "x1' = x1 x2 x3 + x2^3; x2' = x1^2 x3; x3' = x2^2 + x1".to_string(),
        ),
        (3, "x1' = x2^2 x3^2".to_string()),
        (3, cubic_cycle(3)),
        (4, four.to_string()),
        (6, unfed_products(2)),
    ];
    let mut cases = Vec::new();
    for (n, text) in systems {
        for marks in Marks::all_of(n) {
            let terms = without_marked(&text, marks);
            let plan = Case::plan(n as u64, CAP, FAR, 0, terms).marked(marks);
            let around = around_a_walk(rules, plan);
            // Of six variables there are many ways, and each has one case.
            let few = if n == VARIABLES { 1 } else { around.len() };
            cases.extend(around.into_iter().take(few));
        }
    }
    cases
}

/// Walks of some thousands of steps, and lists of many sets.
fn long_walks() -> Vec<Case> {
    let many = "x1' = x2^2 x3^2 + x4^2 x5^2 + x3^2 x5^2 + x6";
    let cubes = "x1' = x1 x2 x3 + x6; x2' = x3 x4 x5 + x6 x2; x4' = x1 x4 x5";
    let fed = |text: String, more: &str| format!("{text}; {more}");
    let walks: [(u64, String, Marks); 7] = [
        (4, fed(cubic_cycle(3), "x1' = x1 x4"), Marks::of([4])),
        (3, fed(EXAMPLE_3.to_string(), "x2' = x3 x2"), Marks::of([3])),
        (3, fed(mutual_power(4), "x1' = x3"), Marks::of([3])),
        (3, fed(mutual_power(5), "x1' = x3 x1^2"), Marks::of([3])),
        (6, unfed_products(3), Marks::of([4])),
        (6, many.to_string(), Marks::of([6])),
        (6, cubes.to_string(), Marks::of([6])),
    ];
    let mut cases = Vec::new();
    for (n, text, marks) in walks {
        let terms = without_marked(&text, marks);
        let plan = |buffer| Case::plan(n, CAP, 20_000, buffer, terms.clone()).marked(marks);
        cases.extend([plan(SET_BYTES), plan(300 * SET_BYTES)]);
    }
    cases
}

/// Marked variables that nothing uses change neither sets nor steps, and settings
/// that are refused without marks are refused with them.
fn beside_marks() -> Vec<Case> {
    let plan = |n: usize, cap, limit| {
        let marks = Marks::of(2..=n.clamp(2, VARIABLES));
        let terms = bytes_of("x1' = x1^4 + x1^3");
        Case::plan(n as u64, cap, limit, 2 * SET_BYTES, terms).marked(marks)
    };
    let mut cases = Vec::new();
    for n in 2..=VARIABLES {
        cases.extend([22, 23, MOST_LIMIT].map(|limit| plan(n, CAP, limit)));
    }
    for (n, cap, limit) in [
        (0, CAP, FAR),
        (7, CAP, FAR),
        (3, MOST_CAP + 1, FAR),
        (3, CAP, 0),
        (3, CAP, MOST_LIMIT + 1),
    ] {
        cases.push(plan(n, cap, limit));
    }
    cases
}

/// Marks of the last variable are taken and those beyond it refused, before a
/// wrong length is and a wrong record.
fn marks_and_n() -> Vec<Case> {
    let mut cases = Vec::new();
    for n in 1..=VARIABLES {
        cases.extend(each_operation(n, Marks::of([n]), &[], &set_of(&[])));
        cases.extend(each_operation(n, Marks(1 << n), &[], &set_of(&[])));
        for (index, marks) in beyond(n).into_iter().enumerate() {
            let terms = bytes_of(if n == 1 { "" } else { "x1' = 2 x1" });
            let mut case = each_operation(n, marks, &terms, &set_of(&[]))[index % 3].clone();
            if index % 2 == 1 {
                case.marks |= 1 << (n - 1);
            }
            match index % 4 {
                0 => case.terms.push(0),
                2 => case.terms.iter_mut().for_each(|byte| *byte = 255),
                _ => {}
            }
            cases.push(case);
        }
    }
    // A number of variables that is refused, whatever is marked.
    for n in [0, MOST_N as usize + 1, 64, 65, 1 << 32] {
        for marks in [Marks(1), Marks(1 << 63)] {
            cases.extend(each_operation(n, marks, &[], &set_of(&[])));
        }
    }
    cases
}

/// Without an equation there is nothing to wire, and no record is taken.
fn all_marked() -> Vec<Case> {
    let mut cases = Vec::new();
    for n in 1..=VARIABLES {
        let marks = Marks::of(1..=n);
        cases.extend(each_operation(n, marks, &[], &set_of(&[])));
        let record = bytes_of(&format!("x{n}' = 1"));
        cases.extend(each_operation(n, marks, &record, &set_of(&[])));
        cases.extend(each_operation(n, marks, &[], &set_of(&["x1^2"])));
        let plan = |cap, buffer| Case::plan(n as u64, cap, 1, buffer, Vec::new()).marked(marks);
        cases.extend([plan(0, SET_BYTES), plan(CAP, SET_BYTES - 1)]);
    }
    cases
}

/// One variable is marked and one has a record: code 3 where they are the same.
fn equations_and_marks() -> Vec<Case> {
    let mut cases = Vec::new();
    for n in 1..=VARIABLES {
        for marked in 1..=n {
            for equation in 1..=n {
                let terms = bytes_of(&format!("x{equation}' = 3 x{marked}"));
                let marks = Marks::of([marked]);
                let operations = each_operation(n, marks, &terms, &set_of(&[]));
                cases.push(operations[(marked + equation) % 3].clone());
            }
        }
    }
    cases
}

/// Records of x1 and x2 without repeats, one of them made one of a marked
/// variable: code 3 at every place.
fn places_of_code_3() -> Vec<Case> {
    let mut cases = Vec::new();
    for place in 1..=MOST_TERMS {
        let length = match place % 2 {
            0 => place,
            _ => MOST_TERMS.min(place + 1),
        };
        let marked = 3 + place % 4;
        let mut terms = different_records(length);
        terms[(place - 1) * TERM_BYTES] = marked as u8;
        let marks = Marks::of([3, marked, VARIABLES]);
        cases.extend(each_operation(VARIABLES, marks, &terms, &set_of(&[])));
    }
    cases
}

/// Faults of records beside one for a signal's equation: the first record with a
/// fault decides, and a marked one is as wrong as any.
fn several_faults() -> Vec<Case> {
    let mut cases = Vec::new();
    let marks = Marks::of([2]);
    let runs = [
        // Marked and repeated: the first of the two is wrong by itself.
        "x2' = x1; x2' = x1",
        "x1' = x1; x2' = x1; x2' = x1",
        // A repeat before it, after it, and around it.
        "x1' = x1 + x1; x2' = x1",
        "x2' = x1; x1' = x1 + x1",
        "x1' = x1; x2' = x1; x1' = x1",
        "x1' = x1; x1' = 7 x1; x2' = x1; x1' = x1",
        // Another wrong field before it, after it, in it.
        "x1' = x1^10; x2' = x1",
        "x2' = x1; x1' = x1^10",
        "x1' = x2; x2' = x1^10",
        "x1' = x2; x2' = 1000001 x1",
        "x1' = x2; x3' = x1; x2' = x1",
        "x1' = x2; x2' = x1; x3' = x1",
        // Marked variables in a right side are no fault.
        "x1' = x2 + x2^2 + x1 x2",
    ];
    for text in runs {
        let terms = bytes_of(text);
        cases.extend(each_operation(2, marks, &terms, &set_of(&["x2^2"])));
        let good = each_operation(2, marks, &terms, &set_of(&[]));
        cases.extend(good.into_iter().skip(1));
    }
    // A wrong length comes before a marked record, and before a set with a signal.
    let marked = bytes_of("x2' = x1");
    cases.extend(each_operation(2, marks, &marked[1..], &set_of(&[])));
    cases.extend(each_operation(2, marks, &marked, &[2; SET_BYTES - 1]));
    cases.extend(each_operation(2, marks, &[], &[2; SET_BYTES + 1]));
    // A marked record with nothing right in it but its length.
    let mut wrong = marked.clone();
    wrong[1..COEFFICIENT_AT].fill(255);
    cases.extend(each_operation(2, marks, &wrong, &set_of(&[])));
    cases
}

/// Sets of six with a marked variable in the member at each place, each variable
/// marked in turn; and the same sets where none of theirs is.
fn sets_and_marks() -> Vec<Case> {
    let mut cases = Vec::new();
    for marked in 1..=VARIABLES {
        let free = marked % VARIABLES + 1;
        let marks = Marks::of([marked]);
        let member = |j: usize| {
            let mut member = Monomial::ONE;
            member.0[free - 1] = 2 + j as u16;
            member
        };
        let members: Vec<Monomial> = (0..CARDS).map(member).collect();
        let record = write_places(&members);
        cases.extend(each_operation(VARIABLES, marks, &[], &record));
        for place in 0..CARDS {
            let mut with = members.clone();
            with[place].0[marked - 1] = match place {
                0..=3 => 1,
                _ => MOST_SET_EXPONENT,
            };
            with.sort();
            let record = write_places(&with);
            let [_, wiring, thinning] = each_operation(VARIABLES, marks, &[], &record);
            cases.push(if place % 2 == 0 { wiring } else { thinning });
        }
    }
    // Signals alone, beside a variable, together; not quadratic besides; and what
    // the same terms take.
    let sets: [&[&str]; 9] = [
        &["x2^2"],
        &["x2 x3"],
        &["x1 x2"],
        &["x1 x3", "x1^2"],
        &["x1^2", "x1^2 x3"],
        &["x1^2 x2 x3"],
        &["x2"],
        &["x1^2"],
        &["x4^2", "x1^2 x4", "x1^5"],
    ];
    for names in sets {
        for text in ["x1' = x1^3 + x2 x3", "x1' = x1^4", ""] {
            let marks = Marks::of([2, 3]);
            let operations = each_operation(4, marks, &bytes_of(text), &set_of(names));
            cases.extend(operations.into_iter().skip(1));
        }
    }
    cases
}

/// Code 9 with every way of marking the variables before the one it points at;
/// and at every place, without new monomials and with as many as there can be.
fn places_with_marks() -> Vec<Case> {
    let mut cases = Vec::new();
    for marks in Marks::all_of(VARIABLES - 1) {
        let terms = bytes_of("x6' = x6^3");
        for names in [&[][..], &["x6^3"], &["x6^2"]] {
            let [_, wiring, thinning] = each_operation(VARIABLES, marks, &terms, &set_of(names));
            cases.push(if marks.0 % 2 == 0 { wiring } else { thinning });
        }
    }
    // What has neither an equation nor a place in the set is marked.
    for (size, _, case) in places_of_code_9() {
        let in_set = |i: usize| case.given.chunks(VARIABLES).any(|m| m[i - 1] > 0);
        let fed = |i: usize| {
            case.terms
                .chunks(TERM_BYTES)
                .any(|r| usize::from(r[0]) == i)
        };
        let marks = Marks::of((1..=case.n as usize).filter(|&i| !fed(i) && !in_set(i)));
        if marks != Marks::NONE && size % CARDS == 0 {
            cases.push(case.marked(marks));
        }
    }
    cases
}

/// A number of variables, a system, its marked variables, a quadratic set, the
/// length of its list, and how many of its subsets are smallest.
pub type Given = (
    u64,
    &'static str,
    &'static [usize],
    &'static [&'static str],
    usize,
    usize,
);

/// Signals before, between and after the others; lists that use a signal as the
/// first factor, as the second, as both; sets with more than is needed.
pub const GIVEN: [Given; 16] = [
    (3, EXAMPLE_5_3, &[3], &["x1^2"], 5, 1),
    (3, EXAMPLE_5_3, &[3], &["x1^2", "x1^3"], 7, 1),
    (2, CUBE_AND_SIGNAL, &[2], &["x1^2"], 4, 1),
    (2, CUBE_AND_SIGNAL, &[2], &["x1^2", "x1^4"], 6, 1),
    (2, "x2' = x2^3 + x1 x2", &[1], &["x2^2", "x2^4"], 6, 1),
    (4, PRODUCT_TIMES_SIGNAL, &[3], &["x1 x2"], 1, 1),
    (
        4,
        PRODUCT_TIMES_SIGNAL,
        &[3],
        &["x2^2", "x1 x2", "x1^2"],
        1,
        1,
    ),
    (3, KNOB_BESIDE_SIGNAL, &[3], &["x1 x2"], 4, 1),
    (3, "x2' = x1^2 + x1 x3 + x3^2 + x1", &[1, 3], &[], 4, 1),
    (3, "x2' = x1 + x3", &[1, 3], &["x2^2"], 4, 1),
    (2, "x1' = x2", &[2], &["x1^2", "x1^3", "x1^4"], 4, 1),
    (4, "x2' = x1; x4' = x2^2 x1", &[1, 3], &["x2^2"], 3, 1),
    (4, TURNED_BY_SIGNAL, &[2], &["x3^2", "x1 x3", "x1^2"], 7, 1),
    (
        3,
        "x1' = x1 x2; x3' = - x2 x3",
        &[2],
        &["x1 x3", "x1^2 x3^2"],
        2,
        1,
    ),
    (
        5,
        "x1' = x3^2 x4^2 + x2",
        &[2, 5],
        &["x3 x4", "x3 x4^2", "x3^2 x4"],
        2,
        3,
    ),
    (
        6,
        "x4' = x4^4 + x4^3 + x1",
        &[1, 6],
        &["x4^2", "x4^3", "x4^4"],
        12,
        1,
    ),
];

/// Wirings and thinnings into buffers on both sides of each list's length.
fn around_each_list() -> Vec<Case> {
    let mut cases = Vec::new();
    for (n, text, marked, names, records, subsets) in GIVEN {
        let marks = Marks::of(marked.iter().copied());
        let wire = |buffer| Case::wire(n, bytes_of(text), set_of(names), buffer).marked(marks);
        let thin = |buffer| as_thinning(&wire(buffer));
        let exact = records * WIRE_BYTES;
        cases.extend([0, exact - 1, exact, exact + 1].map(wire));
        let exact = subsets * SET_BYTES;
        cases.extend([exact - 1, exact, exact + SET_BYTES].map(thin));
    }
    cases
}

#[cfg(test)]
mod tests {
    use super::*;
    use std::collections::BTreeSet;

    #[test]
    fn every_row_has_marks_and_none_comes_twice() {
        let rows = rows();
        assert!(rows.iter().all(|case| case.marks != 0));
        assert!((1..rows.len()).all(|at| !rows[..at].contains(&rows[at])));
    }

    #[test]
    fn the_rows_hold_the_true_lengths() {
        for (case, (_, text, _, names, records, subsets)) in around_each_list().chunks(7).zip(GIVEN)
        {
            let numbers: Vec<_> = case.iter().map(|case| case.answer().0.numbers()).collect();
            let size = names.len() as u64;
            let full = [6, size, 0, 0, 0];
            let done = [0, size, records as u64, 0, 0];
            assert_eq!(numbers[..4], [full, full, done, done], "{text}");
            let [_, order, _, steps, _] = numbers[4];
            let done = [0, order, subsets as u64, 1 << size, 0];
            assert_eq!(numbers[4], [6, order, 0, steps, 0], "{text}");
            assert_eq!(numbers[5..], [done, done], "{text}");
        }
    }

    #[test]
    fn marks_beyond_n_are_refused_and_no_others() {
        for case in marks_and_n() {
            let fits = (1..=6).contains(&case.n) && case.marks < 1 << case.n;
            let (reply, answer) = case.answer();
            assert_eq!(reply.code, if fits { 0 } else { 1 });
            assert!(answer.iter().all(|&byte| byte == 0));
        }
        for n in 1..=VARIABLES {
            let marks = beyond(n);
            assert!(marks.contains(&Marks(1 << n)) && marks.contains(&Marks(1 << 63)));
            assert!(marks.contains(&Marks(u64::MAX)));
        }
    }

    #[test]
    fn nothing_is_left_where_all_are_marked() {
        for of_n in all_marked().chunks(11) {
            let numbers: Vec<_> = of_n.iter().map(|case| case.answer().0.numbers()).collect();
            let planned = [0, 0, 1, 1, 0];
            assert_eq!(numbers[..3], [planned, [0; 5], planned]);
            assert_eq!(numbers[3..6], [[3, 0, 0, 0, 1]; 3]);
            let set = [8, 0, 0, 0, 0];
            assert_eq!(numbers[6..9], [planned, set, set]);
            assert_eq!(numbers[9..], [planned, [6, 0, 0, 1, 0]]);
        }
    }

    #[test]
    fn a_record_is_refused_where_its_own_variable_is_marked() {
        let (mut taken, mut refused) = (0, 0);
        for case in equations_and_marks() {
            let own = Marks::of([usize::from(case.terms[0])]);
            let numbers = case.answer().0.numbers();
            if own == Marks(case.marks) {
                assert_eq!(numbers, [3, 0, 0, 0, 1]);
                refused += 1;
            } else {
                assert_eq!(numbers[0], 0);
                taken += 1;
            }
        }
        assert_eq!((taken, refused), (70, 21));
    }

    #[test]
    fn code_3_is_met_at_every_place_in_every_operation() {
        for (index, operations) in places_of_code_3().chunks(3).enumerate() {
            for case in operations {
                let numbers = [3, 0, 0, 0, index as u64 + 1];
                assert_eq!(case.answer().0.numbers(), numbers);
            }
        }
    }

    #[test]
    fn the_first_record_with_a_fault_decides() {
        let cases = several_faults();
        let expected = [
            (3, 1),
            (3, 2),
            (4, 2),
            (3, 1),
            (3, 2),
            (4, 2),
            (3, 1),
            (3, 1),
            (3, 2),
            (3, 2),
            (3, 2),
            (3, 2),
        ];
        for (of_run, (code, place)) in cases.chunks(5).zip(expected) {
            for case in of_run {
                assert_eq!(case.answer().0.numbers(), [code, 0, 0, 0, place]);
            }
        }
        let rest = &cases[5 * expected.len()..];
        let codes: Vec<u64> = rest.iter().map(|case| case.answer().0.code).collect();
        // What is right but for its set, 2 before 3 and 8 (a plan has no set), 3.
        assert_eq!(codes[..5], [0, 8, 8, 0, 0]);
        assert_eq!(codes[5..], [2, 2, 2, 3, 2, 2, 0, 2, 2, 3, 3, 3]);
    }

    #[test]
    fn a_set_is_refused_for_a_signal_in_any_member() {
        let cases = sets_and_marks();
        let (of_six, others) = cases.split_at(9 * VARIABLES);
        for group in of_six.chunks(9) {
            for case in &group[..3] {
                assert_eq!(case.answer().0.code, 0);
            }
            for case in &group[3..] {
                assert_eq!(case.answer().0.numbers(), [8, 0, 0, 0, 0]);
            }
        }
        for (group, refused) in others.chunks(6).zip([1, 1, 1, 1, 1, 1, 1, 0, 0]) {
            for case in group {
                assert_eq!(case.answer().0.code == 8, refused == 1);
            }
        }
    }

    #[test]
    fn code_9_counts_the_marked_variables() {
        let cases = places_with_marks();
        let (of_x6, others) = cases.split_at(3 * 31);
        for group in of_x6.chunks(3) {
            let numbers: Vec<_> = group.iter().map(|case| case.answer().0.numbers()).collect();
            assert_eq!(numbers[..2], [[9, 0, 0, 0, 6], [9, 1, 0, 0, 7]]);
            assert_eq!(numbers[2][..2], [0, 1]);
        }
        let places: BTreeSet<u64> = others.iter().map(|case| case.answer().0.place).collect();
        assert_eq!(places, (1..=12).collect());
        assert!(others.iter().all(|case| case.answer().0.code == 9));
    }
}
