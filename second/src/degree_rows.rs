//! The fixed rows of the junior kit (document 02, [6]): limits on both sides of
//! those that are taken, walks around the ends that a limit gives them, and sets
//! with a degree on either side of the limit at every place.

use crate::batch::{Case, Operation};
use crate::closing_rows::{around_what_it_lacks, nonsquares, FIVE_CUBES, THREE_TIMES_SIGNAL};
use crate::degree::Degree;
use crate::mark_rows::{
    self, around_a_walk, each_operation, CUBE_AND_SIGNAL, EXAMPLE_5_3, FAR, KNOB_BESIDE_SIGNAL,
    PRODUCT_TIMES_SIGNAL,
};
use crate::marks::Marks;
use crate::monomial::Monomial;
use crate::notation::monomial;
use crate::panel::{
    CARDS, FULL_DEGREE, LEAST_DEGREE, MOST_DEGREE, MOST_LIMIT, MOST_TERMS, MOST_TERMS_BYTES,
    SET_BYTES, TERM_BYTES, USUAL_CAP as CAP, VARIABLES, WIRE_BYTES,
};
use crate::records::write_places;
use crate::rows::{
    bytes_of, cubic_cycle, full_kit, mutual_power, set_of, unfed_products, EXAMPLE_3,
    RABINOVICH_FABRIKANT,
};
use crate::system::System;
use crate::systems::power;
use crate::thin_rows;
use crate::walk::Rules;
use std::collections::HashSet;

/// Both powers are products of x1^2 and x1^3, or of x1^3 and x1^4.
pub const TWO_POWERS: &str = "x1' = x1^4 + x1^3";

/// The one quotient of all three is above a limit of 2.
pub const CUBE_TIMES_THREE: &str = "x1' = x2^3 x3 + x2^3 x4 + x2^3 x5";

/// Four sets of one monomial each, of degree 2, 3, 3 and 4.
pub const EVEN_PRODUCT: &str = "x1' = x2^2 x3^2";

/// Its pairs have a degree of 3 at least, and no exponent above 3.
pub const CUBES_TOGETHER: &str = "x1' = x2^3 x3^3";

/// Limits that are refused: next to those that are taken, numbers of other limits
/// and kits, and such as are in range when cut to fewer bits.
pub fn refused() -> Vec<Degree> {
    let near = [0, 1, MOST_DEGREE + 1, MOST_DEGREE + 2];
    let between = [12, 18, 32, 54, 55, 63, 81, 127, 128, 255, 256];
    let full = [FULL_DEGREE - 1, FULL_DEGREE + 1, 326, 378, 432, 648];
    let high = [8, 16, 31, 32, 63].map(|bit| 1 << bit);
    let taken = [LEAST_DEGREE, 4, MOST_DEGREE, FULL_DEGREE];
    let cut = high
        .into_iter()
        .flat_map(|high| taken.map(|low| high + low));
    let ends = [1 << 32, 1 << 63, u64::MAX - 1, u64::MAX];
    let all = near.into_iter().chain(between).chain(full).chain(cut);
    all.chain(ends).map(Degree).collect()
}

/// The fixed rows of the junior kit, none of them one of the full kit's.
pub fn rows() -> Vec<Case> {
    let parts = [
        every_limit(),
        around_each_walk(),
        around_each_walk_with_signals(),
        each_limit_of_a_walk(),
        long_walks(),
        as_many_as_can_be_made(),
        above_at_every_place(),
        sets_of_powers(),
        sets_of_every_size(),
        around_each_list(),
        thinned_lists(),
        beside_other_faults(),
        refused_beside_other_faults(),
    ];
    let mut met: HashSet<Case> = full_kit().into_iter().collect();
    let mut rows = parts.concat();
    rows.retain(|case| met.insert(case.clone()));
    rows
}

/// Limits that are taken and limits that are refused, in every operation.
fn every_limit() -> Vec<Case> {
    let mut cases = Vec::new();
    let taken = Degree::junior().chain([Degree::FULL]);
    for (index, limit) in taken.chain(refused()).enumerate() {
        let set = set_of(&["x1^2", "x1^3"]);
        let operations = each_operation(1, Marks::NONE, &bytes_of(TWO_POWERS), &set);
        let mut operations = operations.map(|case| case.limited(limit)).to_vec();
        // Of the largest each operation has its turn.
        if limit.0 > 1 << 16 && limit.0 < u64::MAX {
            operations.rotate_left(index % 3);
            operations.truncate(1);
        }
        cases.extend(operations);
    }
    for limit in Degree::junior().chain([Degree::FULL]) {
        let terms = bytes_of("x2' = x1^9 + x3");
        let set = set_of(&["x1^8", "x1^8 x2"]);
        let operations = each_operation(3, Marks::of([3]), &terms, &set);
        cases.extend(operations.map(|case| case.limited(limit)));
    }
    cases
}

/// A number of variables, a system, its marked variables, and limits for it.
type Walks = (u64, String, &'static [usize], &'static [u64]);

/// Plans around their walks, with each of these K.
fn around(walks: &[Walks], caps: &[u64]) -> Vec<Case> {
    let mut cases = Vec::new();
    for (n, text, marked, limits) in walks {
        let marks = Marks::of(marked.iter().copied());
        for &limit in *limits {
            for &cap in caps {
                let plan = Case::plan(*n, cap, FAR, 0, bytes_of(text)).marked(marks);
                let plan = plan.limited(Degree(limit));
                cases.extend(around_a_walk(Rules::BEFORE_CHEAP_FIRST, plan));
            }
        }
    }
    cases
}

/// Limits under which there is no set though the full kit has one, larger sets,
/// fewer, or the same after fewer steps.
fn around_each_walk() -> Vec<Case> {
    let few: [Walks; 4] = [
        (1, TWO_POWERS.into(), &[], &[2, 3, 4, 5]),
        (1, "x1' = x1^5".into(), &[], &[3, 4]),
        (3, EVEN_PRODUCT.into(), &[], &[2, 3, 4]),
        (5, CUBE_TIMES_THREE.into(), &[], &[2, 3, 4]),
    ];
    let others: [Walks; 21] = [
        (1, "x1' = x1^4".into(), &[], &[2, 3]),
        (1, "x1' = x1^9".into(), &[], &[4, 5, 7, 8]),
        (1, "x1' = x1^9 + x1^7 + x1^5 + x1^3".into(), &[], &[2, 6, 8]),
        (2, "x1' = x2^5".into(), &[], &[2, 3, 4, 5]),
        (2, "x1' = x2^7".into(), &[], &[3, 4, 5, 6]),
        (2, "x1' = x2^9 + x2^6".into(), &[], &[3, 5, 8]),
        (3, CUBES_TOGETHER.into(), &[], &[2, 3, 4, 5]),
        (3, "x1' = x2 x3^4".into(), &[], &[2, 3, 4]),
        (4, "x1' = x2 x3 x4".into(), &[], &[2, 3]),
        (6, "x1' = x2 x3 x4 x5 x6".into(), &[], &[2, 3, 4]),
        (6, "x1' = x2^2 x3 x4 + x5 x6^3".into(), &[], &[2, 3]),
        (2, "x1' = x1^3 + x2^2; x2' = x1 + x2".into(), &[], &[2]),
        (2, "x1' = x1^2 x2; x2' = - x1 x2^2".into(), &[], &[2]),
        (2, "x1' = x1^2 x2^2 + x2".into(), &[], &[2, 3]),
        (2, EXAMPLE_3.into(), &[], &[2, 3]),
        (3, RABINOVICH_FABRIKANT.into(), &[], &[2]),
        (3, cubic_cycle(3), &[], &[2, 3]),
        (2, mutual_power(4), &[], &[3, 4]),
        (6, unfed_products(2), &[], &[2, 3]),
        (6, unfed_products(3), &[], &[2]),
        (6, FIVE_CUBES.into(), &[], &[2]),
    ];
    let mut cases = around(&few, &[1, CAP]);
    cases.extend(around(&others, &[CAP]));
    cases
}

/// Knobs count in a degree, and what is fed from outside never comes into one.
fn around_each_walk_with_signals() -> Vec<Case> {
    let walks: [Walks; 12] = [
        (3, EXAMPLE_5_3.into(), &[3], &[2]),
        (2, CUBE_AND_SIGNAL.into(), &[2], &[2]),
        (4, PRODUCT_TIMES_SIGNAL.into(), &[3], &[2]),
        (3, KNOB_BESIDE_SIGNAL.into(), &[3], &[2]),
        (4, "x1' = x1^2 x2 x3 + x4".into(), &[4], &[2, 3]),
        (2, "x1' = x1^3 x2 + x1".into(), &[2], &[2, 3]),
        (3, "x1' = x2^3 x3; x2' = x3".into(), &[3], &[2, 3]),
        (2, "x1' = x1^4 x2 + x2^2".into(), &[2], &[3, 4]),
        (3, "x1' = x1^4 + x1^3 + x2 x3".into(), &[2, 3], &[2, 3]),
        (6, THREE_TIMES_SIGNAL.into(), &[6], &[2]),
        (6, THREE_TIMES_SIGNAL.into(), &[5], &[2]),
        (5, "x1' = x2^3 x3 x5 + x2^3 x4".into(), &[5], &[2, 3, 4]),
    ];
    around(&walks, &[CAP])
}

/// Systems with every limit, into room for all and into none by turns.
fn each_limit_of_a_walk() -> Vec<Case> {
    let walks: [(u64, &str); 6] = [
        (1, "x1' = x1^9 + x1^4"),
        (2, "x1' = x2^9 + x2^8"),
        (3, "x1' = x2^4 x3^6"),
        (3, "x1' = x1 x2^3 x3^2; x2' = x1^4"),
        (4, "x1' = x2^2 x3^2 x4^2 + x2^3 x4^3"),
        (6, "x6' = x1^3 x2^3 + x3^3 x4^3"),
    ];
    let mut cases = Vec::new();
    for (n, text) in walks {
        for limit in Degree::junior() {
            let room = if limit.0 % 3 == 0 { 0 } else { 60 };
            let plan = Case::plan(n, CAP, 600, room * SET_BYTES, bytes_of(text));
            cases.push(plan.limited(limit));
        }
    }
    cases
}

/// Walks of some thousands of steps, most of them to a set of six.
fn long_walks() -> Vec<Case> {
    let walks: [Walks; 5] = [
        (3, cubic_cycle(3), &[], &[3, 4, 5]),
        (2, "x1' = x2^6; x2' = x1^3".into(), &[], &[4, 5, 6, 7]),
        (
            3,
            "x1' = x2^4; x2' = x3^3; x3' = x1^2 x2".into(),
            &[],
            &[3, 4, 9],
        ),
        (
            3,
            "x1' = x2^3 + x3^2; x2' = x1^2 x3; x3' = x1 x2 x3".into(),
            &[],
            &[2, 3, 4],
        ),
        (
            3,
            "x1' = x1 x2^3 x3^2; x2' = x1^4; x3' = x2^2".into(),
            &[],
            &[4, 5, 6],
        ),
    ];
    let mut cases = Vec::new();
    for (n, text, _, limits) in walks {
        let plan = Case::plan(n, CAP, 8_000, 10 * SET_BYTES, bytes_of(&text));
        let limited = |limit: &u64| plan.clone().limited(Degree(*limit));
        cases.extend(limits.iter().map(limited));
    }
    cases
}

/// One to all records of high degree, whose quotients are mostly above the limit:
/// the empty set is closed at the level below what it lacks, and there it is not.
fn as_many_as_can_be_made() -> Vec<Case> {
    let mut cases = Vec::new();
    for count in 1..=MOST_TERMS {
        // The highest come last.
        let mut terms = nonsquares(usize::MAX);
        terms.reverse();
        terms.truncate(count);
        let limit = Degree::nearest(2 + count as u64 % 7);
        let system = System::unmarked(VARIABLES, terms).limited(limit);
        cases.extend(around_what_it_lacks(&system));
    }
    cases
}

/// Wiring and thinning of the same set. The plan goes, which has none.
fn given(n: usize, terms: &str, members: &[Monomial], limit: Degree) -> [Case; 2] {
    let record = write_places(members);
    let [_, wiring, thinning] = each_operation(n, Marks::NONE, &bytes_of(terms), &record);
    [wiring, thinning].map(|case| case.limited(limit))
}

/// Products of two variables of one degree, ascending: no exponent comes to it.
fn of_degree(degree: u64) -> Vec<Monomial> {
    let mut monomials = Vec::new();
    for i in 1..=VARIABLES {
        for j in 1..i {
            let mut product = Monomial::variable(i);
            product.0[j - 1] = degree as u16 - 1;
            monomials.push(product);
        }
    }
    monomials.sort();
    monomials
}

/// Six monomials at the limit, and the same with one of them a degree above it, at
/// every place. No exponent is above the limit.
fn above_at_every_place() -> Vec<Case> {
    let mut cases = Vec::new();
    for limit in Degree::junior() {
        let all = of_degree(limit.0);
        let members: Vec<Monomial> = all.into_iter().take(CARDS).collect();
        cases.extend(given(VARIABLES, "", &members, limit));
        for place in 0..CARDS {
            let mut above = members.clone();
            // With one more of the last variable it keeps its place.
            above[place] = above[place].times(Monomial::variable(VARIABLES));
            let terms = if place % 2 == 0 { "" } else { "x1' = x1^9" };
            let [wiring, thinning] = given(VARIABLES, terms, &above, limit);
            let turn = place as u64 + limit.0;
            cases.push(if turn % 4 < 2 { wiring } else { thinning });
        }
    }
    cases
}

/// Powers of one variable, so many that the last is at the limit, or above it.
fn sets_of_powers() -> Vec<Case> {
    let mut cases = Vec::new();
    for limit in Degree::junior() {
        let highest = limit.0 as usize;
        for last in [highest, highest + 1] {
            let first = last.saturating_sub(CARDS - 1).max(2);
            let members: Vec<Monomial> = (first..=last).map(power).collect();
            cases.push(given(1, "", &members, limit)[last % 2].clone());
        }
        // One alone, and far above; the empty set is above nothing.
        for members in [
            &[power(highest)][..],
            &[power(highest + 1)],
            &[power(54)],
            &[],
        ] {
            let turn = (highest + members.len()) % 2;
            cases.push(given(2, "x2' = x1", members, limit)[turn].clone());
        }
    }
    cases
}

/// Sets of every size, with the one member that is above the limit at every place.
fn sets_of_every_size() -> Vec<Case> {
    let mut cases = Vec::new();
    for size in 1..CARDS {
        for place in 0..size {
            let limit = Degree::nearest((size + place) as u64);
            let mut members: Vec<Monomial> = of_degree(LEAST_DEGREE).split_off(CARDS);
            members.truncate(size);
            let last = Monomial::variable(VARIABLES);
            while limit.reaches(members[place]) {
                members[place] = members[place].times(last);
            }
            let [wiring, thinning] = given(VARIABLES, "x1' = x2", &members, limit);
            cases.push(if place % 2 == 0 { thinning } else { wiring });
        }
    }
    cases
}

/// The highest degree of some names.
fn highest(names: &[&str]) -> u64 {
    let degrees = names.iter().map(|name| monomial(name).degree());
    degrees.max().unwrap_or(0)
}

/// The lists of sets with signals, around their lengths, with the limit at the
/// highest degree and below it.
fn around_each_list() -> Vec<Case> {
    let mut cases = Vec::new();
    for (n, text, marked, names, records, subsets) in mark_rows::GIVEN {
        let marks = Marks::of(marked.iter().copied());
        let highest = highest(names);
        let case = |operation, limit, buffer| {
            let case = Case::wire(n, bytes_of(text), set_of(names), buffer);
            let case = Case { operation, ..case };
            case.marked(marks).limited(Degree::nearest(limit))
        };
        for (operation, exact) in [
            (Operation::Wire, records * WIRE_BYTES),
            (Operation::Thin, subsets * SET_BYTES),
        ] {
            for (limit, buffer) in [
                (highest, exact),
                (highest, exact - 1),
                (highest + 1, exact),
                (highest.saturating_sub(1), exact),
            ] {
                cases.push(case(operation, limit, buffer));
            }
        }
    }
    cases
}

/// Thinnings of sets that hold more than is needed, with the limit at the highest
/// degree and below it: a set above the limit is not thinned, though what is left of
/// it would not be above.
fn thinned_lists() -> Vec<Case> {
    let mut cases = Vec::new();
    for (n, text, names, count) in thin_rows::GIVEN {
        let highest = highest(names);
        if (LEAST_DEGREE + 1..=MOST_DEGREE + 1).contains(&highest) {
            let thin = |limit, buffer| {
                let case = Case::thin(n, bytes_of(text), set_of(names), buffer);
                case.limited(Degree::nearest(limit))
            };
            let exact = count * SET_BYTES;
            cases.extend([thin(highest, exact), thin(highest, exact - 1)]);
            cases.extend([highest - 1, 2].map(|limit| thin(limit, exact)));
        }
    }
    cases
}

/// A set above the limit beside other faults: 2, 3 and 4 come before it, and it
/// comes before 9 and 6.
fn beside_other_faults() -> Vec<Case> {
    let mut cases = Vec::new();
    let above = set_of(&["x1 x2^2", "x1^2"]);
    let systems = [
        "x1' = x1^10",
        "x1' = x1 + x1",
        "x3' = x1",
        "x1' = x1^3",
        "x1' = x1^9; x2' = x1^7",
        "x1' = x2",
        "",
    ];
    let marks = Marks::of([3]);
    for text in systems {
        let terms = bytes_of(text);
        let operations = each_operation(3, marks, &terms, &above);
        let limited = |case: Case| [2, 3].map(|limit| case.clone().limited(Degree(limit)));
        cases.extend(operations.into_iter().flat_map(limited));
        let no_room = |case: Case| Case { buffer: 0, ..case };
        let [_, wiring, thinning] = each_operation(3, marks, &terms, &above);
        cases.extend([wiring, thinning].map(|case| no_room(case).limited(Degree(2))));
    }
    // Wrong lengths of terms, of sets and of both.
    let short = &bytes_of("x1' = x2")[1..];
    let records = [&above[1..], &[&above[..], &[0]].concat()[..]].map(<[u8]>::to_vec);
    for set in records.iter().chain([&above]) {
        for terms in [short, &[0; MOST_TERMS_BYTES + TERM_BYTES], &[]] {
            let operations = each_operation(3, marks, terms, set);
            cases.extend(operations.map(|case| case.limited(Degree(2))));
        }
    }
    // Sets that break another rule too, or another rule alone.
    let places: [&[&str]; 8] = [
        &["x1^2", "x1 x2^2"],
        &["x1^3", "x1^3"],
        &["1", "x1^3"],
        &["x2", "x1^3"],
        &["x3^2", "x1^3"],
        &["x1 x3"],
        &["x1^55"],
        &["x2", "x1^2"],
    ];
    for names in places {
        let members: Vec<Monomial> = names.iter().map(|name| monomial(name)).collect();
        let record = write_places(&members);
        let [_, wiring, thinning] = each_operation(3, marks, &bytes_of("x1' = x1^4"), &record);
        cases.extend([wiring, thinning].map(|case| case.limited(Degree(2))));
    }
    cases
}

/// A limit that is refused beside every other fault: all of code 1 is one check, and
/// comes first.
fn refused_beside_other_faults() -> Vec<Case> {
    let mut cases = Vec::new();
    let small = bytes_of("x1' = x1^2");
    let set = set_of(&["x1^3"]);
    let all = |n, marks, terms: &[u8], set: &[u8], limit: u64| {
        each_operation(n, Marks(marks), terms, set).map(|case| case.limited(Degree(limit)))
    };
    for limit in [1, 10, FULL_DEGREE + 1] {
        cases.extend(all(7, 0, &small, &set, limit));
        cases.extend(all(1, 2, &small, &set, limit));
        cases.extend(all(1, 0, &small[1..], &set, limit));
        cases.extend(all(1, 0, &bytes_of("x1' = x1^10"), &set, limit));
        cases.extend(all(1, 0, &bytes_of("x1' = x1 + x1"), &set, limit));
        cases.extend(all(1, 0, &small, &set[1..], limit));
        cases.extend(all(1, 0, &bytes_of("x1' = x1^9"), &set, limit));
    }
    // Other settings are refused with a limit that is taken.
    for limit in [2, MOST_DEGREE] {
        cases.extend(all(7, 0, &small, &set, limit));
        cases.extend(all(0, 0, &small, &set, limit));
        cases.extend(all(1, 2, &small, &set, limit));
        let plan = |cap, steps| Case::plan(1, cap, steps, SET_BYTES, small.clone());
        let plans = [plan(CAP + 1, FAR), plan(CAP, 0), plan(CAP, MOST_LIMIT + 1)];
        cases.extend(plans.map(|case| case.limited(Degree(limit))));
    }
    cases
}

#[cfg(test)]
mod tests {
    use super::*;
    use std::collections::BTreeSet;

    fn numbers(case: &Case) -> [u64; 5] {
        case.answer().0.numbers()
    }

    #[test]
    fn no_row_comes_twice_or_is_one_of_the_full_kit() {
        let rows = rows();
        let different: HashSet<&Case> = rows.iter().collect();
        assert_eq!(different.len(), rows.len());
        let earlier: HashSet<Case> = full_kit().into_iter().collect();
        assert!(rows.iter().all(|case| !earlier.contains(case)));
    }

    #[test]
    fn refused_limits_are_refused_and_others_taken() {
        for case in every_limit() {
            let taken = (2..=9).contains(&case.degree) || case.degree == 324;
            assert_eq!(case.answer().0.code == 1, !taken);
        }
        let refused = refused();
        for limit in [0, 1, 10, 323, 325, (1 << 32) + 4, u64::MAX] {
            assert!(refused.contains(&Degree(limit)));
        }
        assert!(refused.iter().all(|limit| !limit.is_in_range()));
    }

    #[test]
    fn a_junior_kit_closes_what_the_full_kit_tries() {
        let mut only_junior = 0;
        for cases in as_many_as_can_be_made().chunks(2) {
            let (below, at) = (&cases[0], &cases[1]);
            let steps = below.cap + 1;
            assert_eq!(numbers(below), [5, steps, 0, steps, 0]);
            if below.cap < at.cap {
                assert!(at.answer().0.steps > at.cap + 1);
            }
            let full = below.clone().limited(Degree::FULL);
            only_junior += usize::from(full.answer().0.steps > steps);
        }
        assert!(only_junior > 10, "{only_junior}");
    }

    #[test]
    fn one_member_above_the_limit_is_enough() {
        for group in above_at_every_place().chunks(2 + CARDS) {
            assert!(group[..2].iter().all(|case| case.answer().0.code == 0));
            for (place, case) in group[2..].iter().enumerate() {
                assert_eq!(numbers(case), [8, 0, 0, 0, 0]);
                let degrees: Vec<u64> = crate::records::set_places(&case.given)
                    .iter()
                    .map(|m| m.degree())
                    .collect();
                let above = |at: &usize| degrees[*at] > case.degree;
                assert_eq!((0..CARDS).filter(above).collect::<Vec<_>>(), [place]);
            }
        }
        for case in sets_of_every_size() {
            assert_eq!(numbers(&case), [8, 0, 0, 0, 0]);
        }
    }

    #[test]
    fn powers_are_taken_up_to_the_limit() {
        for group in sets_of_powers().chunks(6) {
            let codes: Vec<u64> = group.iter().map(|case| case.answer().0.code).collect();
            assert_eq!(codes, [0, 8, 0, 8, 8, 0]);
        }
    }

    #[test]
    fn lists_are_as_long_as_without_a_limit() {
        let codes = |cases: &[Case]| -> Vec<u64> {
            cases.iter().map(|case| case.answer().0.code).collect()
        };
        for group in around_each_list().chunks(8) {
            let below = if group[3].degree < group[0].degree {
                8
            } else {
                0
            };
            assert_eq!(codes(group), [0, 6, 0, below, 0, 6, 0, below]);
        }
        let mut whole = BTreeSet::new();
        for group in thinned_lists().chunks(4) {
            whole.insert(codes(group));
        }
        // The first has a limit of 9 where the highest degree is 10.
        let within = vec![0, 6, 8, 8];
        assert_eq!(whole, BTreeSet::from([within]));
    }

    #[test]
    fn the_checks_keep_their_sequence() {
        let codes: Vec<u64> = beside_other_faults()
            .iter()
            .map(|case| case.answer().0.code)
            .collect();
        for (group, records) in codes.chunks(8).zip([3, 4, 3]) {
            assert!(group.iter().all(|code| *code == records));
        }
        // Plans with both limits; wirings and thinnings with a limit of 2 and 3, and
        // with 2 into no room.
        for group in codes[24..56].chunks(8) {
            assert_eq!([group[2], group[4], group[6], group[7]], [8; 4]);
            assert!([0, 6, 9].contains(&group[3]) && [0, 9].contains(&group[5]));
        }
        assert_eq!(codes[56..65], [2, 2, 2, 2, 2, 2, 0, 2, 2]);
        assert_eq!(codes[65..74], [2, 2, 2, 2, 2, 2, 0, 2, 2]);
        assert_eq!(codes[74..83], [2, 2, 2, 2, 2, 2, 0, 8, 8]);
        assert_eq!(codes[83..], [8; 16]);
    }

    #[test]
    fn a_refused_setting_comes_first() {
        for case in refused_beside_other_faults() {
            assert_eq!(numbers(&case), [1, 0, 0, 0, 0]);
        }
    }
}
