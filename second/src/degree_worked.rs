//! Rows of the junior kit, worked by hand from document 02, [6]; what a limit leaves
//! of the full kit's sets; and every set within a limit looked at.

use crate::batch::Case;
use crate::closing::lacks;
use crate::degree::Degree;
use crate::degree_rows::{CUBES_TOGETHER, CUBE_TIMES_THREE, EVEN_PRODUCT, TWO_POWERS};
use crate::monomial::Monomial;
use crate::notation::system;
use crate::panel::{MOST_CAP, MOST_WIRES_BYTES, SET_BYTES, USUAL_CAP as CAP, USUAL_LIMIT as LIMIT};
use crate::random::Random;
use crate::rows::{bytes_of, set_of};
use crate::show::listed;
use crate::system::{Set, System};
use crate::systems::{self, Kit, Outside};
use crate::walk::{walk, End, Rules, Walked};
use std::collections::{BTreeMap, BTreeSet};

fn plan(n: u64, text: &str, degree: u64, cap: u64, limit: u64) -> Case {
    let plan = Case::plan(n, cap, limit, 100 * SET_BYTES, bytes_of(text));
    plan.limited(Degree(degree))
}

/// A plan as a row has it where it names nothing else: its numbers and its sets.
fn row(n: u64, text: &str, degree: u64, numbers: [u64; 5], sets: &[&str]) {
    let (reply, buffer) = plan(n, text, degree, CAP, LIMIT).answer();
    assert_eq!(reply.numbers(), numbers, "{text} with {degree}");
    let found: Vec<String> = sets.iter().map(|set| format!("  found {set}")).collect();
    assert_eq!(listed("found", &buffer, sets.len()), found);
}

/// x^3 is 1 x^3 and x x^2. With a limit of 2 the first pair adds nothing that may be
/// added; the second gives {x^2}, which makes x^4 and leaves (x^2)' = 2 x^5 over:
/// 1 x^5, x x^4, and x^2 x^3, all above the limit.
///
/// Level 0 is an opening, and level 1 an opening, two pairs and the opening of {x^2}.
/// From level 2 on {x^2} is tried, and its three pairs open nothing; its one nonsquare
/// lacks one, which the level has room for. 1 + 4 + 5 (4 + 3) is 40.
#[test]
fn two_powers_have_no_set_within_two() {
    row(1, TWO_POWERS, 2, [5, 7, 0, 40, 0], &[]);
    for (cap, steps) in (0..=CAP).zip([1, 5, 12, 19, 26, 33, 40]) {
        let numbers = |limit| plan(1, TWO_POWERS, 2, cap, limit).answer().0.numbers();
        assert_eq!(numbers(LIMIT), [5, cap + 1, 0, steps, 0]);
        assert_eq!(numbers(steps), [5, cap + 1, 0, steps, 0]);
        if cap > 0 {
            assert_eq!(numbers(steps - 1), [7, cap, 0, steps - 1, 0]);
        }
    }
}

/// From 5 on nothing that the walk adds is above the limit.
#[test]
fn two_powers_with_higher_limits() {
    let low = "{x1^2, x1^3}";
    let both = [low, "{x1^3, x1^4}"];
    row(1, TWO_POWERS, 3, [0, 2, 1, 19, 0], &[low]);
    row(1, TWO_POWERS, 4, [0, 2, 2, 21, 0], &both);
    for degree in [5, 6, 7, 8, 9, 324] {
        row(1, TWO_POWERS, degree, [0, 2, 2, 23, 0], &both);
    }
}

#[test]
fn a_fifth_power() {
    row(1, "x1' = x1^5", 3, [5, 7, 0, 46, 0], &[]);
    // 1 x^5 is above 4: its set is not opened, and {x^4} is found one step sooner.
    row(1, "x1' = x1^5", 4, [0, 1, 1, 6, 0], &["{x1^4}"]);
    row(1, "x1' = x1^5", 5, [0, 1, 1, 7, 0], &["{x1^4}"]);
    // Unfed it takes two monomials within 3: an opening; an opening and three pairs,
    // of which the last would add two; the same, and the set of those two is found.
    row(2, "x2' = x1^5", 3, [0, 2, 1, 10, 0], &["{x1^2, x1^3}"]);
    row(2, "x2' = x1^5", 4, [0, 1, 1, 6, 0], &["{x1^4}"]);
    row(2, "x2' = x1^5", 5, [0, 1, 2, 7, 0], &["{x1^4}", "{x1^5}"]);
}

/// Of four sets those of degree 2, of degree 3 too, and all; no exponent is above 2.
#[test]
fn the_degree_is_that_of_all_variables() {
    let sets = ["{x2 x3}", "{x2 x3^2}", "{x2^2 x3}", "{x2^2 x3^2}"];
    row(3, EVEN_PRODUCT, 2, [0, 1, 1, 8, 0], &sets[..1]);
    row(3, EVEN_PRODUCT, 3, [0, 1, 3, 10, 0], &sets[..3]);
    row(3, EVEN_PRODUCT, 4, [0, 1, 4, 11, 0], &sets);
    // In every pair of a sixth degree one factor is above 2.
    let within = plan(3, CUBES_TOGETHER, 2, CAP, LIMIT).answer().0;
    assert_eq!((within.code, within.order), (5, 7));
}

/// x2^3 x3, x2^3 x4 and x2^3 x5: within 3 their one common quotient is x2^3, and
/// within 2 there is none. 3 is over 0 + 1, and not over 0 + 3.
#[test]
fn quotients_above_the_limit_are_dropped() {
    let lacks = |degree| {
        let system = system(5, CUBE_TIMES_THREE).limited(Degree(degree));
        let empty = Set::new();
        lacks(&system, &empty, &system.nonsquares(&empty))
    };
    assert_eq!([2, 3, 4, 324].map(lacks), [2, 1, 1, 1]);
    // Level 0 and level 1 are an opening each.
    let numbers = |degree| {
        plan(5, CUBE_TIMES_THREE, degree, 1, LIMIT)
            .answer()
            .0
            .numbers()
    };
    assert_eq!(numbers(2), [5, 2, 0, 2, 0]);
    assert_eq!(numbers(3)[..3], [0, 1, 1]);
}

#[test]
fn refusals() {
    for degree in [0, 1, 10, 323, 325, (1 << 32) + 4, u64::MAX] {
        let (reply, buffer) = plan(1, TWO_POWERS, degree, CAP, LIMIT).answer();
        assert_eq!(reply.numbers(), [1, 0, 0, 0, 0]);
        assert!(buffer.iter().all(|&byte| byte == 0));
    }
    let set = set_of(&["x1^2", "x1^3"]);
    let wire = |degree| {
        let wiring = Case::wire(1, bytes_of(TWO_POWERS), set.clone(), MOST_WIRES_BYTES);
        wiring.limited(Degree(degree)).answer().0.numbers()
    };
    let thin = |degree| {
        let thinning = Case::thin(1, bytes_of(TWO_POWERS), set.clone(), SET_BYTES);
        thinning.limited(Degree(degree)).answer().0.numbers()
    };
    for degree in [1, 10] {
        assert_eq!([wire(degree), thin(degree)], [[1, 0, 0, 0, 0]; 2]);
    }
    assert_eq!([wire(2), thin(2)], [[8, 0, 0, 0, 0]; 2]);
    assert_eq!(wire(3), [0, 2, 6, 0, 0]);
    assert_eq!(thin(3), [0, 2, 1, 4, 0]);
    // 8 before 9: x1^5 is above 4, and what is left of x1^9 is no product.
    let wiring = |degree| {
        let wiring = Case::wire(1, bytes_of("x1' = x1^9"), set_of(&["x1^5"]), 0);
        wiring.limited(Degree(degree)).answer().0.numbers()
    };
    assert_eq!(wiring(4), [8, 0, 0, 0, 0]);
    assert_eq!(wiring(5), [9, 1, 0, 0, 1]);
}

const ROOM: usize = 1_800;

fn walked(system: &System, rules: Rules, cap: usize, limit: u64) -> Walked {
    walk(system, rules, cap, limit, ROOM)
}

/// Systems of all kinds, some with signals.
fn any_system(random: &mut Random) -> System {
    let system = systems::any(random);
    Outside::NowAndThen.feed(random, system)
}

/// Where a limit leaves one of the full kit's sets, it leaves just those that are
/// within it; and where it leaves none, no set is as small.
#[test]
fn a_limit_leaves_what_is_within_it() {
    let mut random = Random::from_seed(41);
    let (mut all, mut some, mut larger, mut none) = (0, 0, 0, 0);
    for _ in 0..500 {
        let system = any_system(&mut random);
        let full = walked(&system, Rules::NOW, MOST_CAP as usize, 600);
        if full.end != End::Done {
            continue;
        }
        for degree in Degree::junior() {
            let junior = system.clone().limited(degree);
            let junior = walked(&junior, Rules::NOW, MOST_CAP as usize, 600);
            let mut within = full.finds.clone();
            within.retain(|set| set.iter().all(|m| degree.reaches(*m)));
            match (within.is_empty(), junior.end) {
                (_, End::Spent) => {}
                (false, end) => {
                    assert_eq!((end, junior.level), (End::Done, full.level));
                    assert_eq!(junior.finds, within);
                    assert!(junior.steps <= full.steps);
                    all += usize::from(within == full.finds);
                    some += usize::from(within != full.finds);
                }
                (true, End::Done) => {
                    assert!(junior.level > full.level);
                    larger += 1;
                }
                (true, end) => {
                    assert_eq!(end, End::None);
                    none += 1;
                }
            }
        }
    }
    let counts = (all, some, larger, none);
    assert!(
        all > 200 && some > 100 && larger > 3 && none > 100,
        "{counts:?}"
    );
}

/// Within a limit too closing changes no find and takes no more steps.
#[test]
fn closing_within_a_limit_changes_no_find() {
    let mut random = Random::from_seed(42);
    let (mut compared, mut fewer) = (0, 0);
    for turn in 0..300 {
        let system = match turn % 2 {
            0 => any_system(&mut random),
            _ => systems::six_terms(&mut random),
        };
        let system = Kit::Junior.limit(&mut random, system);
        for cap in 0..=MOST_CAP as usize {
            let of = |rules| walked(&system, rules, cap, 600);
            let (tried, closed) = (of(Rules::TRYING), of(Rules::NOW));
            if tried.end == End::Spent {
                break;
            }
            assert_eq!((closed.end, closed.level), (tried.end, tried.level));
            assert_eq!(closed.finds, tried.finds);
            assert!(closed.steps <= tried.steps);
            compared += 1;
            fewer += usize::from(closed.steps < tried.steps);
        }
    }
    assert!(compared > 1_000 && fewer > 300, "{compared} {fewer}");
}

/// Every monomial of two variables that a set may hold within a limit.
fn all_within(limit: Degree) -> Vec<Monomial> {
    let most = limit.0 as u16;
    let exponents = (0..=most).flat_map(|e1| (0..=most).map(move |e2| (e1, e2)));
    let monomials = exponents.map(|(e1, e2)| Monomial([e1, e2, 0, 0, 0, 0]));
    let new = |m: &Monomial| m.degree() > 1 && limit.reaches(*m);
    monomials.filter(new).collect()
}

/// Every set of these of one size.
fn all_sets(monomials: &[Monomial], size: usize) -> Vec<Set> {
    let Some((first, rest)) = monomials.split_first() else {
        return if size == 0 { vec![Set::new()] } else { vec![] };
    };
    let mut sets = all_sets(rest, size);
    if size > 0 {
        let with_first = |mut set: Set| {
            set.insert(*first);
            set
        };
        sets.extend(all_sets(rest, size - 1).into_iter().map(with_first));
    }
    sets
}

/// Two variables and a limit of 2 to 4: all sets of up to three monomials are looked
/// at. The smallest quadratic ones are those that planning lists.
#[test]
fn no_smaller_set_within_the_limit_and_none_as_small_is_left_out() {
    let mut random = Random::from_seed(43);
    let mut orders = BTreeMap::new();
    for turn in 0..240 {
        let limit = Degree(2 + turn % 3);
        let mut system = loop {
            let system = systems::any(&mut random);
            if system.n == 2 && system.terms.len() < 6 {
                break system.limited(limit);
            }
        };
        // Low powers, so that there are sets.
        for term in &mut system.terms {
            let exponents = &mut term.monomial.0;
            exponents.iter_mut().for_each(|e| *e = (*e).min(3));
        }
        let monomials = all_within(limit);
        let quadratic = |size| -> BTreeSet<Vec<Monomial>> {
            let mut sets = all_sets(&monomials, size);
            sets.retain(|set| system.is_quadratic(set));
            sets.into_iter().map(|s| s.into_iter().collect()).collect()
        };
        let smallest = (0..=3).map(quadratic).find(|sets| !sets.is_empty());
        let walked = walked(&system, Rules::NOW, 3, LIMIT);
        let order = smallest.as_ref().map(|_| walked.level);
        match smallest {
            Some(sets) => assert_eq!((walked.end, walked.finds), (End::Done, sets)),
            None => assert_eq!(walked.end, End::None),
        }
        *orders.entry(order).or_insert(0) += 1;
    }
    assert_eq!(orders.len(), 5, "{orders:?}");
}
