//! The fixed rows of the counting rule (document 02, [4]): walks around the ends
//! that closing hopeless sets gives them, with every K, and sets whose nonsquares
//! are just as many as a number of monomials can make, or one more.

use crate::batch::Case;
use crate::closing::lacks;
use crate::mark_rows::{self, around_a_walk, FAR};
use crate::marks::Marks;
use crate::monomial::Monomial;
use crate::panel::{MOST_TERMS, SET_BYTES, USUAL_CAP as CAP, VARIABLES};
use crate::records::write_terms;
use crate::rows::{
    bytes_of, cubic_bicycle, cubic_cycle, mutual_power, EXAMPLE_3, RABINOVICH_FABRIKANT,
};
use crate::system::{Set, System, Term};
use crate::walk::Rules;

/// Five cubes of knobs, each by itself.
pub const FIVE_CUBES: &str = "x1' = x2^3 + x3^3 + x4^3 + x5^3 + x6^3";

/// With x6 a knob x2 x6 is a quotient of all three, and with x6 a signal none is
/// a quotient of two.
pub const THREE_TIMES_SIGNAL: &str = "x1' = x2 x3 x6 + x2 x4 x6 + x2 x5 x6";

/// Nonsquares of signals alone have no quotient that counts.
pub const OF_SIGNALS: &str = "x1' = x2^3 + x2^2 x3";

/// The fixed rows of the counting rule, none of them one of the rows with marks.
pub fn rows() -> Vec<Case> {
    let parts = [
        around_each_end(),
        around_each_end_with_signals(),
        mark_rows::around_each_walk(Rules::BEFORE_CHEAP_FIRST),
        mark_rows::every_way_of_marking(Rules::BEFORE_CHEAP_FIRST),
        as_many_as_can_be_made(),
        three_variables(),
    ];
    let earlier = mark_rows::rows();
    let mut rows: Vec<Case> = Vec::new();
    for case in parts.concat() {
        if !rows.contains(&case) && !earlier.contains(&case) {
            rows.push(case);
        }
    }
    rows
}

/// Systems of the documents and others whose walks are shorter by the rule; also
/// with a limit that is far, without room and with room for all.
fn around_each_end() -> Vec<Case> {
    let four = "x1' = x2 x3 x4; x2' = x1 x3 x4; x3' = x1 x2 x4; x4' = x1 x2 x3";
    let walks: [(u64, String); 14] = [
        (3, RABINOVICH_FABRIKANT.to_string()),
        (2, EXAMPLE_3.to_string()),
        (6, FIVE_CUBES.to_string()),
        (6, format!("{FIVE_CUBES} + x1^3")),
        (6, THREE_TIMES_SIGNAL.to_string()),
        (1, "x1' = x1^9 + x1^7 + x1^5 + x1^3".to_string()),
        (1, "x1' = x1^9 + x1^8 + x1^4 + x1^3 + 1".to_string()),
        (2, "x1' = x1^3 + x2^3 + x1 x2^4; x2' = x1^2 x2".to_string()),
        (3, cubic_cycle(3)),
        (3, cubic_bicycle(3)),
        (2, mutual_power(5)),
        (4, four.to_string()),
        // One monomial in several derivatives is one nonsquare.
        (3, "x1' = x1^3; x2' = x1^3; x3' = x1^3 + x1^2".to_string()),
        (
            3,
            "x1' = x2^2 x3; x2' = x2^2 x3; x3' = x2^2 x3 + x1^3".to_string(),
        ),
    ];
    let mut cases = Vec::new();
    for (n, text) in walks {
        for cap in [1, 2, 3, 4, CAP] {
            let plan = Case::plan(n, cap, FAR, 0, bytes_of(&text));
            cases.extend(around_a_walk(Rules::BEFORE_CHEAP_FIRST, plan));
        }
        let plan = |buffer| Case::plan(n, CAP, FAR, buffer, bytes_of(&text));
        cases.extend([0, 40 * SET_BYTES].map(plan));
    }
    cases
}

/// Systems where it matters that quotients with a signal are left out.
fn around_each_end_with_signals() -> Vec<Case> {
    let walks: [(u64, &str, &[usize]); 12] = [
        // One quotient or two that count, and nonsquares of signals besides.
        (
            3,
            "x1' = x1^2 x2 + x2^3 + x2^2 x3 + x2 x3^2 + x3^3",
            &[2, 3],
        ),
        (
            3,
            "x1' = x1^2 x2 + x1^3 x3 + x2^3 + x2^2 x3 + x2 x3^2 + x3^3",
            &[2, 3],
        ),
        (6, THREE_TIMES_SIGNAL, &[6]),
        (6, THREE_TIMES_SIGNAL, &[5]),
        (6, THREE_TIMES_SIGNAL, &[4, 6]),
        (3, OF_SIGNALS, &[2, 3]),
        (3, OF_SIGNALS, &[3]),
        (3, "x1' = x2^3 + x2^2 x3 + x2 x3^2 + x3^3", &[2, 3]),
        (3, "x1' = x2^3 + x2^2 x3 + x1^3; x2' = x1^2 x3", &[3]),
        (3, "x1' = x1^2 x2 + x1^3 x2 + x1 x3^2", &[3]),
        (4, "x1' = x2 x3 x4 + x2^2 x4; x2' = x1 x4^2 + x1^2 x3", &[4]),
        (3, "x1' = x1^2 x3 + x2^2 x3 + x1 x2 x3; x2' = x1^3", &[3]),
    ];
    let mut cases = Vec::new();
    for (n, text, marked) in walks {
        let marks = Marks::of(marked.iter().copied());
        for cap in [1, 2, 3, CAP] {
            let plan = Case::plan(n, cap, FAR, 0, bytes_of(text)).marked(marks);
            cases.extend(around_a_walk(Rules::BEFORE_CHEAP_FIRST, plan));
        }
    }
    cases
}

/// So many nonsquares of the empty set, all in the first equation: powers and
/// products of x2 to x6, the lowest first.
pub fn nonsquares(count: usize) -> Vec<Term> {
    let mut monomials = Vec::new();
    for degree in 3..=9 {
        for i in 1..VARIABLES {
            let mut power = Monomial::ONE;
            power.0[i] = degree;
            monomials.push(power);
            let mut product = power;
            product.0[i] -= 1;
            product.0[i % (VARIABLES - 1) + 1] += 1;
            monomials.push(product);
        }
    }
    let term = |monomial| Term {
        equation: 1,
        monomial,
        coefficient: 1,
    };
    monomials.into_iter().take(count).map(term).collect()
}

/// One to all records, without marks, and by turns with x6, with x2 and x6, or with
/// all but x1 marked: the empty set is closed at the level below what it lacks, and
/// there it is not.
fn as_many_as_can_be_made() -> Vec<Case> {
    let mut cases = Vec::new();
    for count in 1..=MOST_TERMS {
        let signals = match count % 3 {
            0 => Marks::of([6]),
            1 => Marks::of([2, 6]),
            _ => Marks::of(2..=VARIABLES),
        };
        for marks in [Marks::NONE, signals] {
            let system = System {
                marks,
                ..System::unmarked(VARIABLES, nonsquares(count))
            };
            cases.extend(around_what_it_lacks(&system));
        }
    }
    cases
}

/// Plans up to the level below what the empty set lacks, where it is closed, and up
/// to that level, where it is not.
pub fn around_what_it_lacks(system: &System) -> [Case; 2] {
    let empty = Set::new();
    let lacks = lacks(system, &empty, &system.nonsquares(&empty)) as u64;
    [lacks - 1, lacks].map(|cap| {
        let terms = write_terms(&system.terms);
        let plan = Case::plan(system.n as u64, cap.min(CAP), 400, SET_BYTES, terms);
        plan.kit_of(system)
    })
}

/// So many steps are too few for the three-variable systems below where hopeless
/// sets are tried.
const TOO_FEW: u64 = 25_000;

/// Three variables and six terms, and the steps of their walks. Of the first five
/// one set of six is found each, of the others none.
const THREE_VARIABLES: [(&str, u64); 10] = [
    (
        "x1' = x1^2 x2^4 x3^3 + x1^3 x2^2 x3^4 + x1^3 x2^4 x3^2; \
          x2' = x1^2 x2 x3 + x1^4 x2^2; \
          x3' = x1 x2^3 x3",
        3_434,
    ),
    (
        "x1' = x1^2 x2^7 x3^3; \
          x2' = x1 x2^2 x3^2 + x1^2 x2^4; \
          x3' = x2^8 x3 + x1^4 x2^6 x3^9 + x1^7 x2^9 x3",
        4_828,
    ),
    (
        "x1' = x1 x3^9 + x1^2 x2^9 x3^5 + x1^7 x2^8 x3^4 + x1^8 x3^4; \
          x3' = x1^2 x3^5 + x1^7 x2^8 x3^7",
        5_600,
    ),
    (
        "x1' = x1^2 x2 x3^9 + x1^6 x3^4; \
          x2' = x1^2 x2^2 x3^4 + x1^5 x2^2 x3^6; \
          x3' = x2^4 x3^2 + x1^6 x2^8 x3^4",
        9_527,
    ),
    (
        "x1' = x1^3 x2^7 x3^4 + x1^8 x2^4; \
          x2' = x1^3 x2^2 x3^4 + x1^5 x2 x3^9 + x1^6 x2^8 x3^3 + x1^9 x2^4 x3^8",
        15_610,
    ),
    (
        "x1' = x1^3 x2^6 x3; \
          x2' = x2^4 x3^3 + x1^4 x2^3 x3^7 + x1^6 + x1^8 x3^2 + x1^8 x2^9 x3^5",
        3_601,
    ),
    (
        "x1' = x1^2 x2^2 x3^8; \
          x2' = x1 x2 x3^9 + x1^9 x3^4; \
          x3' = x1^2 x2^8 x3^2 + x1^2 x2^9 + x1^5 x2",
        5_175,
    ),
    (
        "x1' = x2^5 x3 + x1^7 x2^4 x3^2; \
          x2' = x1^5 x3^5 + x1^5 x2^2 x3^6 + x1^6 x2^9 x3^2; \
          x3' = x1 x2^4 x3^9",
        8_297,
    ),
    (
        "x1' = x1^2 x3^7; \
          x2' = x1 x3^9 + x1^8 x2^7 x3^5; \
          x3' = x1^3 x2^4 x3^9 + x1^5 x2 x3^3 + x1^9 x2^4 x3^7",
        12_371,
    ),
    (
        "x1' = x3^4 + x1^6 x2^3 x3^7 + x1^6 x2^4 x3^2 + x1^9 x2^6; \
          x2' = x2^5 x3^9 + x1^3 x2^8 x3^3",
        21_307,
    ),
];

/// Around the ends of these walks, with smaller K, and without room.
fn three_variables() -> Vec<Case> {
    let mut cases = Vec::new();
    for (text, steps) in THREE_VARIABLES {
        let plan = |cap, limit, buffer| Case::plan(3, cap, limit, buffer, bytes_of(text));
        for (limit, buffer) in [(TOO_FEW, 0), (steps, SET_BYTES), (steps - 1, 2 * SET_BYTES)] {
            cases.push(plan(CAP, limit, buffer));
        }
        cases.extend((2..CAP).map(|cap| plan(cap, TOO_FEW, SET_BYTES)));
    }
    cases
}

#[cfg(test)]
mod tests {
    use super::*;
    use crate::notation::system;

    #[test]
    fn no_row_comes_twice_or_stands_with_marks_already() {
        let (rows, earlier) = (rows(), mark_rows::rows());
        assert!((1..rows.len()).all(|at| !rows[..at].contains(&rows[at])));
        assert!(rows.iter().all(|case| !earlier.contains(case)));
    }

    #[test]
    fn three_variables_end_now() {
        for (cases, (text, steps)) in three_variables().chunks(7).zip(THREE_VARIABLES) {
            let numbers = |at: usize| cases[at].answer().0.numbers();
            let found = numbers(0)[0] == 6;
            let whole = match found {
                true => [0, 6, 1, steps, 0],
                false => [5, 7, 0, steps, 0],
            };
            assert_eq!(numbers(1), whole, "{text}");
            assert_eq!(numbers(2), [7, 6, 0, steps - 1, 0]);
            assert_eq!(system(3, text).terms.len(), 6);
        }
    }

    #[test]
    fn three_variables_were_spent() {
        for (text, _) in THREE_VARIABLES {
            let plan = Case::plan(3, CAP, TOO_FEW, SET_BYTES, bytes_of(text));
            assert_eq!(plan.answer_by(Rules::TRYING).0.code, 7);
        }
    }

    #[test]
    fn the_empty_set_is_closed_below_what_it_lacks() {
        let mut closed = 0;
        for cases in as_many_as_can_be_made().chunks(2) {
            let (below, at) = (&cases[0], &cases[1]);
            // Level by level an opening and no more.
            let steps = below.cap + 1;
            assert_eq!(below.answer().0.numbers(), [5, steps, 0, steps, 0]);
            if below.cap < at.cap {
                assert!(at.answer().0.steps > at.cap + 1);
                closed += 1;
            }
        }
        assert!(closed > 40);
    }

    #[test]
    fn nonsquares_are_as_many_as_are_asked_for() {
        for count in 0..=MOST_TERMS {
            let terms = nonsquares(count);
            let system = System::unmarked(VARIABLES, terms);
            assert_eq!(system.nonsquares(&Set::new()).len(), count);
        }
    }
}
