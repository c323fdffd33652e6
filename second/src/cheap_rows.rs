//! The fixed rows of the order of pairs (document 02, [8]): walks around the step at
//! which they are full, with room for no set, for one, two and more, and around the
//! step at which they were full when all pairs came by ascending m1.

use crate::batch::{Case, MOST_CASE_BUFFER};
use crate::degree::Degree;
use crate::degree_rows::{self, CUBES_TOGETHER, EVEN_PRODUCT, TWO_POWERS};
use crate::mark_rows::FAR;
use crate::marks::Marks;
use crate::panel::{FULL_DEGREE, SET_BYTES, USUAL_CAP as CAP};
use crate::reply::Reply;
use crate::rows::{
    bytes_of, cubic_cycle, full_kit, mutual_power, unfed_products, EXAMPLE_3, RABINOVICH_FABRIKANT,
};
use crate::walk::Rules;
use std::collections::HashSet;

/// Its middle pair comes after one that adds two.
pub const SIXTH_POWER: &str = "x1' = x2^6";

/// Of x2^7 another pair is cheap with x2^3 than with x2^2.
pub const THIRD_AND_SEVENTH: &str = "x1' = x2^3 + x2^7";

/// With x2^3 x3 in the set a pair that adds its smaller factor, x3^2, comes before one
/// that adds its larger.
pub const FACTOR_IN_THE_SET: &str = "x1' = x2^3 x3 + x2^3 x3^3";

/// With the signal x2 a pair that adds two comes before the one that finds a set, and
/// cheap ones that are forbidden before both.
pub const SIGNAL_AND_CUBE: &str = "x1' = x2 x3^3";

/// The rows, none of them one of the other kinds.
pub fn rows() -> Vec<Case> {
    let mut met: HashSet<Case> = full_kit().into_iter().collect();
    met.extend(degree_rows::rows());
    let mut rows = [full_kits(), with_signals(), junior_kits()].concat();
    rows.retain(|case| met.insert(case.clone()));
    rows
}

/// What a plan says with room for all sets, where its limit suffices.
pub fn done(plan: &Case) -> Option<Reply> {
    let generous = Case {
        buffer: MOST_CASE_BUFFER,
        ..plan.clone()
    };
    Some(generous.answer().0).filter(|reply| reply.code == 0)
}

/// Rooms for too few sets: for none, one and so on, up to so many of them, and for one
/// set less than there are.
pub fn too_small(count: usize, most: usize) -> impl Iterator<Item = usize> {
    let few = (0..most).filter(move |room| room + 1 < count);
    few.chain([count - 1])
}

/// The steps after which a plan is full that finds more sets than it has room for: by
/// ascending m1, and with the cheap pairs first.
pub fn fulls(plan: &Case) -> [u64; 2] {
    [Rules::BEFORE_CHEAP_FIRST, Rules::NOW].map(|rules| plan.answer_by(rules).0.steps)
}

/// The limits that tell where a plan is full: there, one step sooner, and by turns of
/// its room the later of both orders, where both are full, or one step sooner, where the
/// one is full and the other spent.
pub fn limits_around(plan: &Case) -> Vec<u64> {
    let [before, now] = fulls(plan);
    let both = (plan.buffer / SET_BYTES) % 2 == 1;
    let mut limits = vec![now, now - 1, before.max(now) - u64::from(!both)];
    limits.sort();
    limits.dedup();
    limits.retain(|limit| *limit > 0);
    limits
}

/// A number of variables, a system, its marked variables, and the limit of its kit.
type Walks = (u64, String, &'static [usize], u64);

/// Plans around each step at which they are full, and at their end.
fn around(walks: &[Walks]) -> Vec<Case> {
    let mut cases = Vec::new();
    for (n, text, marked, degree) in walks {
        let marks = Marks::of(marked.iter().copied());
        let plan = Case::plan(*n, CAP, FAR, 0, bytes_of(text)).marked(marks);
        let plan = plan.limited(Degree(*degree));
        let done = done(&plan).expect("a walk to its end");
        let count = done.count as usize;
        let with = |limit, room: usize| Case {
            limit,
            buffer: room * SET_BYTES,
            ..plan.clone()
        };
        for room in too_small(count, 3) {
            let limits = limits_around(&with(FAR, room));
            cases.extend(limits.into_iter().map(|limit| with(limit, room)));
        }
        cases.push(with(done.steps, count));
    }
    cases
}

fn full_kits() -> Vec<Case> {
    let text = |n: u64, text: &str| -> Walks { (n, text.to_string(), &[], FULL_DEGREE) };
    around(&[
        text(1, TWO_POWERS),
        text(2, EXAMPLE_3),
        text(2, SIXTH_POWER),
        text(2, THIRD_AND_SEVENTH),
        text(3, EVEN_PRODUCT),
        text(3, SIGNAL_AND_CUBE),
        text(3, "x1' = x2^4 x3^6"),
        text(4, "x1' = x2^2 x3^2 x4^2"),
        text(5, "x1' = x2 x3 x4 x5"),
        text(6, "x1' = x2 x3 x4 x5 x6"),
        text(6, &unfed_products(2)),
        text(6, &unfed_products(3)),
        text(2, "x1' = x2^9 + x2^6"),
        text(2, "x2' = x1 + x1^3 + x1^5 + x1^7 + x1^9"),
        text(2, "x2' = x1 + x1^5 + x1^6 + x1^7 + x1^8 + x1^9"),
        text(1, "x1' = x1^9 + x1^7 + x1^5 + x1^3"),
        text(2, "x1' = x1^2 x2^2 + x2"),
        text(3, FACTOR_IN_THE_SET),
        text(3, "x1' = x2^3 x3^3; x2' = 1"),
        text(2, &mutual_power(4)),
        text(2, &mutual_power(5)),
        text(3, RABINOVICH_FABRIKANT),
        text(3, &cubic_cycle(3)),
        text(3, "x1' = x2^3 + x3^2; x2' = x1^2 x3; x3' = x1 x2 x3"),
    ])
}

/// Pairs that would add a monomial with a signal have their turn where they would have
/// it without.
fn with_signals() -> Vec<Case> {
    let text = |n: u64, text: &str, marked: &'static [usize]| -> Walks {
        (n, text.to_string(), marked, FULL_DEGREE)
    };
    around(&[
        text(3, SIGNAL_AND_CUBE, &[2]),
        text(3, "x1' = x2^3 x3", &[3]),
        text(4, "x4' = x1 x2 x3", &[3]),
        text(5, "x5' = x1 x2 x3 x4", &[3]),
        text(5, "x5' = x1 x3^2 x4^2", &[1]),
        text(5, "x5' = x2 x3^3 x4^2", &[2]),
        text(6, "x1' = x2^2 x3^2 x6 + x4^2 x5^2", &[6]),
        text(6, "x1' = x2^2 x3^2 + x4^3 x5 x6", &[6]),
        text(6, "x2' = x1 x3^3 + x4^2 x5^2", &[1]),
        text(6, "x2' = x1 x3^4 + x4^2 x5^3 + x6^2", &[1, 6]),
        text(4, "x1' = x2^2 x3^2 + x2 x4 x3; x2' = x4", &[4]),
        text(4, "x1' = x2^3 x3 + x4; x2' = x2 x4", &[4]),
        text(4, "x2' = x1 x3^3 + x1 x4^3; x3' = x1 x4", &[1]),
    ])
}

/// Within a limit what a cheap pair adds is often above it, so that full comes later
/// than by ascending m1; or sets are found by pairs that add two.
fn junior_kits() -> Vec<Case> {
    let text = |n: u64, text: &str, marked: &'static [usize], degree| -> Walks {
        (n, text.to_string(), marked, degree)
    };
    around(&[
        text(3, SIGNAL_AND_CUBE, &[], 2),
        text(3, SIGNAL_AND_CUBE, &[], 3),
        text(2, "x1' = x2^5", &[], 3),
        text(2, "x1' = x2^7", &[], 5),
        text(2, "x1' = x2^9 + x2^6", &[], 5),
        text(3, FACTOR_IN_THE_SET, &[], 4),
        text(3, CUBES_TOGETHER, &[], 3),
        text(3, CUBES_TOGETHER, &[], 4),
        text(3, "x1' = x2 x3^4", &[], 3),
        text(3, "x1' = x2^5 x3^3", &[], 5),
        text(4, "x1' = x2 x3^2 x4^2", &[], 3),
        text(4, "x1' = x2^2 x3^2 x4", &[], 3),
        text(6, "x1' = x2 x3 x4 x5 x6", &[], 3),
        text(6, "x1' = x2^2 x3 x4 + x5 x6^3", &[], 2),
        text(6, "x1' = x2^2 x3 x4 + x5 x6^3", &[], 3),
        text(6, &unfed_products(2), &[], 3),
        text(2, EXAMPLE_3, &[], 3),
        text(1, TWO_POWERS, &[], 4),
        text(4, "x1' = x2^2 x3^2 x4^2", &[], 4),
        text(3, "x1' = x2^3 x3^3; x2' = 1", &[], 4),
        text(5, "x1' = x2^3 x3^3 + x4^2 x5^3", &[], 3),
        text(5, "x1' = x2^3 x3^3 + x4^2 x5^3", &[], 4),
        text(6, "x2' = x1 x3^3 + x4^2 x5^2", &[1], 3),
        text(6, "x1' = x2^2 x3^2 + x4^3 x5 x6", &[6], 4),
        text(4, "x1' = x2^3 x3^3 + x4", &[4], 3),
        text(5, "x1' = x2^4 x3^3 + x4 x5; x2' = x4 x2", &[4], 4),
    ])
}

#[cfg(test)]
mod tests {
    use super::*;

    #[test]
    fn no_row_comes_twice_or_is_one_of_another_kind() {
        let rows = rows();
        let different: HashSet<&Case> = rows.iter().collect();
        assert_eq!(different.len(), rows.len());
        let mut earlier: HashSet<Case> = full_kit().into_iter().collect();
        earlier.extend(degree_rows::rows());
        assert!(rows.iter().all(|case| !earlier.contains(case)));
    }

    /// Of the limits around a step the plan is full at the one, and spent before.
    #[test]
    fn limits_are_on_both_sides_of_full() {
        let (mut sooner, mut later) = (0, 0);
        for case in rows() {
            let far = Case {
                limit: FAR,
                ..case.clone()
            };
            let whole = far.answer().0;
            let numbers = case.answer().0.numbers();
            match case.limit < whole.steps {
                true => assert_eq!(numbers, [7, whole.order, 0, case.limit, 0]),
                false => assert_eq!(numbers, whole.numbers()),
            }
            let [before, now] = fulls(&far);
            sooner += usize::from(whole.code == 6 && now < before);
            later += usize::from(whole.code == 6 && now > before);
        }
        assert!(sooner > 80 && later > 20, "{sooner} {later}");
    }
}
