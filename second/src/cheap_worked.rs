//! Rows of the order of pairs, worked by hand from document 02, [8]; and the walk that
//! takes cheap pairs first beside the one that takes all by ascending m1.

use crate::batch::Case;
use crate::cheap_rows::{FACTOR_IN_THE_SET, SIGNAL_AND_CUBE, SIXTH_POWER, THIRD_AND_SEVENTH};
use crate::degree::Degree;
use crate::degree_rows::{CUBES_TOGETHER, EVEN_PRODUCT, TWO_POWERS};
use crate::marks::Marks;
use crate::panel::{FULL_DEGREE, MOST_CAP, SET_BYTES, USUAL_CAP as CAP, USUAL_LIMIT as LIMIT};
use crate::random::Random;
use crate::rows::{bytes_of, unfed_products, EXAMPLE_3, RABINOVICH_FABRIKANT};
use crate::system::System;
use crate::systems::{self, Kit, Outside};
use crate::walk::{walk, End, Rules, Walked};

fn plan(n: u64, text: &str) -> Case {
    Case::plan(n, CAP, LIMIT, 0, bytes_of(text))
}

/// The numbers of a plan by ascending m1, and with the cheap pairs first.
fn both(plan: &Case, limit: u64, room: usize) -> [[u64; 5]; 2] {
    let plan = Case {
        limit,
        buffer: room * SET_BYTES,
        ..plan.clone()
    };
    let [before, now] = [Rules::BEFORE_CHEAP_FIRST, Rules::NOW].map(|rules| plan.answer_by(rules));
    // The same list, or zeros.
    assert!(before.1 == now.1);
    [before, now].map(|(reply, _)| reply.numbers())
}

/// A walk to sets of this order, as many as there are steps after which it is full: with
/// room for none, for one and so on, first by ascending m1 and then with the cheap pairs
/// first. Its end comes after the same steps in both.
fn row(plan: &Case, order: u64, fulls: &[[u64; 2]], steps: u64) {
    for (room, &full) in fulls.iter().enumerate() {
        let expected = |limit: u64| {
            full.map(|steps| match limit < steps {
                true => [7, order, 0, limit, 0],
                false => [6, order, 0, steps, 0],
            })
        };
        // Both sides of each step; between two the one is full and the other spent.
        let [first, last] = [full[0].min(full[1]), full[0].max(full[1])];
        for limit in [first - 1, first, last - 1, last, LIMIT] {
            if limit > 0 {
                let found = both(plan, limit, room);
                assert_eq!(found, expected(limit), "room {room}, limit {limit}");
            }
        }
    }
    let count = fulls.len();
    let done = [0, order, count as u64, steps, 0];
    assert_eq!(both(plan, LIMIT, count), [done; 2]);
    assert_eq!(both(plan, steps, count), [done; 2]);
    let spent = [7, order, 0, steps - 1, 0];
    assert_eq!(both(plan, steps - 1, count), [spent; 2]);
}

/// Full at the same steps in both orders.
fn alike(steps: &[u64]) -> Vec<[u64; 2]> {
    steps.iter().map(|&steps| [steps; 2]).collect()
}

/// x^3 is 1 x^3 and x x^2; with x^3, x^5 is 1 x^5, x x^4 and x^2 x^3; with x^2 the same.
/// Each pair has a member in V, so that all are cheap, and nothing moves: full with room
/// for one set at limit 15, and spent at 14.
#[test]
fn where_all_pairs_are_cheap_nothing_moves() {
    row(&plan(1, TWO_POWERS), 2, &alike(&[13, 15]), 23);
    let numbers = |limit| both(&plan(1, TWO_POWERS), limit, 1)[1];
    assert_eq!(numbers(15), [6, 2, 0, 15, 0]);
    assert_eq!(numbers(14), [7, 2, 0, 14, 0]);
}

/// Document 01's P rows, and some of those after them: order, count and steps of each
/// walk that ends are what they were.
#[test]
fn walks_that_end_keep_their_numbers() {
    let rows: [(u64, &str, [u64; 5]); 11] = [
        (1, "", [0, 0, 1, 1, 0]),
        (1, "x1' = x1^2", [0, 0, 1, 1, 0]),
        (1, "x1' = x1^3", [0, 1, 1, 6, 0]),
        (1, TWO_POWERS, [0, 2, 2, 23, 0]),
        (2, "x1' = x1^3 + x2^2; x2' = x1 + x2", [0, 2, 1, 23, 0]),
        (2, "x1' = x1^2 x2; x2' = - x1 x2^2", [0, 1, 1, 8, 0]),
        (2, "x1' = x1^2 x2", [0, 1, 1, 8, 0]),
        (1, "x1' = x1^4", [0, 1, 1, 8, 0]),
        (3, EVEN_PRODUCT, [0, 1, 4, 11, 0]),
        (2, EXAMPLE_3, [0, 3, 1, 145, 0]),
        (3, RABINOVICH_FABRIKANT, [0, 3, 1, 70, 0]),
    ];
    for (n, text, numbers) in rows {
        assert_eq!(both(&plan(n, text), LIMIT, 1_000), [numbers; 2], "{text}");
    }
    let fifth = plan(1, "x1' = x1^5");
    assert_eq!(both(&fifth, 7, 1_000), [[0, 1, 1, 7, 0]; 2]);
    assert_eq!(both(&fifth, 6, 1_000), [[7, 1, 0, 6, 0]; 2]);
    let cube = Case {
        cap: 0,
        ..plan(1, "x1' = x1^3")
    };
    assert_eq!(both(&cube, LIMIT, 1_000), [[5, 1, 0, 1, 0]; 2]);
    assert_eq!(both(&plan(1, "x1' = x1^2"), LIMIT, 0), [[6, 0, 0, 1, 0]; 2]);
}

/// Level 0 is an opening. Level 1 is an opening and pairs: by ascending m1 those of 1,
/// x3, x3^2, x2 and x2 x3, each with an opening that finds a set but the third, x3^2
/// x2^2, which adds two. That one comes last now: the third find is at step 8 and not 9,
/// the fourth, of the middle pair, at 10 and not 11.
#[test]
fn a_pair_that_adds_two_comes_after_the_middle_one() {
    let fulls = [[4, 4], [6, 6], [9, 8], [11, 10]];
    row(&plan(3, EVEN_PRODUCT), 1, &fulls, 11);
    // x2^6: 1, x2, x2^2 and x2^3, of which the third adds two and the last is the middle.
    row(&plan(2, SIXTH_POWER), 1, &[[4, 4], [6, 6], [9, 8]], 9);
    // Full where it was spent, though not one step sooner.
    let even = plan(3, EVEN_PRODUCT);
    assert_eq!(both(&even, 8, 2), [[7, 1, 0, 8, 0], [6, 1, 0, 8, 0]]);
    assert_eq!(both(&even, 7, 2), [[7, 1, 0, 7, 0]; 2]);
}

/// x2^3 and x2^7, of which each new monomial that makes x2^7 is found.
///
/// Level 0 is an opening; level 1 is one, and two pairs of x2^3 with an opening each.
/// Level 2: an opening, 7; the pair 1 x2^3 and its opening, 9. With x2^3 in V the pairs
/// of x2^7 are 1, x2 and x2^3, which add one, and x2^2, which adds two and came before
/// the last: 11, 13, 15 and the step 16; it was 16 for the third find. Then the pair
/// x2 x2^2 and its opening, 18. With x2^2 in V the pair x2^2 x2^5 adds one, and x2^3 x2^4
/// two, which is the last anyway: 20, 22, 24 and the step 25.
#[test]
fn what_the_set_holds_is_in_v() {
    let fulls = [[11, 11], [13, 13], [16, 15], [20, 20], [22, 22], [24, 24]];
    row(&plan(2, THIRD_AND_SEVENTH), 2, &fulls, 25);
}

/// x2^3 x3 has four pairs, of which the last, x2 x3 x2^2, adds two; x2^3 x3^3 has eight.
///
/// Level 0 is an opening; level 1 is one, and four pairs, three with an opening: 9.
/// Level 2: an opening, 10; each of the three pairs with its opening takes 2 steps, and
/// then come the pairs of x2^3 x3^3: 1, x3, x3^2, x3^3, x2, x2 x3, x2 x3^2, x2 x3^3.
/// With x2^3 x3 in V those of 1, x3, x3^2 and x2 add one; with x2^3 those of 1, x3, x3^3
/// and x2; with x2^2 x3 those of 1, x3, x2 and x2 x3^2. Each of these is found, at 12 and
/// 2, 4, 6, 8; the four others follow, 24; at 26 and so on, 38; at 40 and so on, 52. Last
/// come x2 x3 x2^2 and its opening.
///
/// By ascending m1 one of the four others came before x2; then one before x3^3; then two
/// before x2 and three before x2 x3^2.
#[test]
fn which_factor_is_in_the_set_makes_no_difference() {
    let mut fulls = alike(&[14, 16, 18]);
    fulls.push([21, 20]);
    fulls.extend(alike(&[28, 30]));
    fulls.extend([[33, 32], [35, 34]]);
    fulls.extend(alike(&[42, 44]));
    fulls.extend([[48, 46], [51, 48]]);
    row(&plan(3, FACTOR_IN_THE_SET), 2, &fulls, 54);
}

/// The same within 4, where of each four cheap pairs of x2^3 x3^3 only the one with a
/// factor in the set may be added: the third, x3^2 or x3^3, or the fourth, x2 x3^2.
///
/// Up to level 1 nothing that is added is above the limit, 9. Level 2: an
/// opening, 10; with x2^3 x3, 12, the third and its opening, 16, and five more, 21; with
/// x2^3, 23, the same, 27 and 32; with x2^2 x3, 34, the fourth and its opening, 39, and
/// four more; then x2 x3 x2^2 and its opening, 45. By ascending m1 the second came one
/// step later, and the third three.
#[test]
fn the_one_of_four_that_may_be_added() {
    let within = plan(3, FACTOR_IN_THE_SET).limited(Degree(4));
    row(&within, 2, &[[16, 16], [28, 27], [42, 39]], 45);
}

/// Two products A and B of unfed variables, B = x4^2 x5^2 being the smaller. As above
/// each has four cheap pairs and one that adds two, which came third.
///
/// Level 0 is an opening. Level 1 is one, and five pairs of B, four with an opening: 11.
/// Level 2 is an opening, 12, and for each cheap pair of B that pair, its opening and
/// nine steps for A, in which a set is found at 2, 4, 6 and 8: 11 steps for each of the
/// four; then the pair of B that adds two and its opening, 58.
///
/// By ascending m1 the last two finds of A came one step later, and after the second
/// cheap pair of B all came two steps later.
#[test]
fn sets_of_two_with_every_room() {
    let mut fulls = Vec::new();
    for of_b in 0..4 {
        for of_a in 0..4 {
            let now = 12 + 11 * of_b + 2 + 2 * (of_a + 1);
            let before = now + u64::from(of_a >= 2) + 2 * u64::from(of_b >= 2);
            fulls.push([before, now]);
        }
    }
    assert_eq!((fulls[0], fulls[8]), ([16, 16], [40, 38]));
    row(&plan(6, &unfed_products(2)), 2, &fulls, 58);
}

/// Document 001, Example 3, with x for x1 and y for x2.
///
/// Level 0 is an opening, and level 1 one with three pairs of y^4, each with an opening:
/// 8. Level 2 is an opening; y^4 with six pairs of x^2 y^3, three of them with an opening,
/// 11; y^3 with five pairs of x^2 y^2, four with an opening, 11; y^2 with three pairs of
/// x^2 y, each with an opening, 8: 39.
///
/// Level 3 is an opening, 40. Below y^4, which takes 2: x^2 y^3, with x^4 y^2 (eight
/// pairs, four with an opening), 14; x^2 y^2, with x^4 y (five, three), 10; x y^3, with
/// y^7 (four, three), 9; and three pairs that add two, with an opening each, 6: 81.
/// Below y^3, which takes 2: x^2 y^2, with x^4 y as before, 10; x^2 y, with x^4 (three,
/// three), 8: 101. Here by ascending m1 came y^2 x^2, which adds two, with its opening.
/// Now comes x, which adds x y^2: 103; and of x^3 y the pair of 1 with its opening, 105,
/// and that of y and x^3, whose opening finds {y^3, x y^2, x^3}.
#[test]
fn example_3_is_full_two_steps_sooner() {
    row(&plan(2, EXAMPLE_3), 3, &[[109, 107]], 145);
    assert_eq!(both(&plan(2, EXAMPLE_3), LIMIT, 0)[1], [6, 3, 0, 107, 0]);
}

/// The signal x2 with x3^3: by ascending m1 the pairs are those of 1, x3, x3^2 and x3^3,
/// the last with x2. Those of 1 and x3 add one that has the signal, x3^2 adds two of
/// which one has it, and x3^3 is found.
///
/// Level 0 is an opening, and level 1 one, 2; the two that are forbidden, 3 and 4; then
/// x3^3 and its opening, 6. Before, x3^2 had the step 5.
#[test]
fn a_forbidden_pair_has_its_turn_among_the_cheap() {
    let signal = plan(3, SIGNAL_AND_CUBE).marked(Marks::of([2]));
    row(&signal, 1, &[[7, 6]], 7);
    // With a knob each cheap pair is found.
    let knob = plan(3, SIGNAL_AND_CUBE);
    row(&knob, 1, &[[4, 4], [6, 6], [9, 8]], 9);
    // Within 3 the pair of 1 is forbidden: 3, then x3 and its opening, 5.
    let within = |degree| plan(3, SIGNAL_AND_CUBE).limited(Degree(degree));
    row(&within(3), 1, &[[5, 5], [8, 7]], 8);
    // Within 2 all cheap pairs are. Level 1 is an opening and four pairs, 6. Level 2 is
    // an opening, 7, and 1, x3 and x3^3, 10, before x3^2 and its opening, which finds
    // {x3^2, x2 x3}: 12. Before, it came ahead of x3^3: full then, and spent now.
    row(&within(2), 2, &[[11, 12]], 12);
    assert_eq!(
        both(&within(2), 11, 0),
        [[6, 2, 0, 11, 0], [7, 2, 0, 11, 0]]
    );
}

/// x2^3 x3^3 within 3: the pairs of 1, x3 and x2 add one, all above the limit. Of those
/// that add two, x3^2, x3^3, x2 x3, x2 x3^2 and x2 x3^3, the second and the fourth are
/// found.
///
/// Level 0 is an opening; level 1 is one and eight pairs, 10. Level 2 is an opening, 11;
/// three, 14; x3^2, 15; x3^3 and its opening, 17; x2 x3, 18; x2 x3^2 and its opening, 20.
/// By ascending m1 x2 came after x3^3 and before x2 x3.
#[test]
fn full_comes_later_where_only_pairs_that_add_two_are_found() {
    let within = plan(3, CUBES_TOGETHER).limited(Degree(3));
    row(&within, 2, &[[16, 17], [20, 20]], 21);
}

/// The signal x1 with x3^3, and B = x4^2 x5^2, within 3.
///
/// Level 0 is an opening. Level 1 is one, and four pairs of x1 x3^3, of which that of
/// x3^3 has an opening: 7. Level 2 is an opening, 8; 1 and x3, which have the signal, 10;
/// x3^3 and its opening, 12. Of B the pair of 1 is above the limit, 13; then x5, x4 and
/// the middle pair are found, 15, 17 and 19; then comes x5^2, 20, and of the first the
/// pair of x3^2, 21. Before, x3^2 came ahead of x3^3, and x5^2 ahead of x4.
#[test]
fn a_signal_and_a_limit_together() {
    let text = "x2' = x1 x3^3 + x4^2 x5^2";
    let within = plan(6, text).marked(Marks::of([1])).limited(Degree(3));
    row(&within, 2, &[[16, 15], [19, 17], [21, 19]], 21);
}

/// Systems of all kinds, with signals and without, for each kit in turn; and three
/// variables with six terms besides.
fn systems(seed: u64, count: usize) -> Vec<System> {
    let mut random = Random::from_seed(seed);
    let system = |turn: usize| {
        let system = match turn % 5 {
            0 => systems::six_terms_up_to(&mut random, 3),
            _ => systems::any(&mut random),
        };
        let outside = [Outside::Nothing, Outside::Signals][turn % 2];
        let system = outside.feed(&mut random, system);
        let kit = [Kit::Full, Kit::Full, Kit::Junior][turn % 3];
        kit.limit(&mut random, system)
    };
    (0..count).map(system).collect()
}

const ROOM: usize = 1_800;

/// A walk by ascending m1, and one with the cheap pairs first.
fn walks(system: &System, cap: u64, limit: u64, room: usize) -> [Walked; 2] {
    let walk = |rules| walk(system, rules, cap as usize, limit, room);
    [Rules::BEFORE_CHEAP_FIRST, Rules::NOW].map(walk)
}

/// Where one ends, the other ends with the same sets at the same level, after the same
/// steps, and closes the same sets. Where there is room, both are spent at one level.
#[test]
fn the_order_changes_no_walk_that_ends() {
    let (mut done, mut none, mut spent, mut larger) = (0, 0, 0, 0);
    for system in systems(61, 700) {
        for cap in 0..=MOST_CAP {
            let [before, now] = walks(&system, cap, 1_200, ROOM);
            assert_eq!((now.end, now.level), (before.end, before.level));
            assert_eq!(now.steps, before.steps);
            match now.end {
                End::Done | End::None => {
                    assert_eq!(now.finds, before.finds);
                    assert_eq!(now.closed, before.closed);
                }
                End::Spent => spent += 1,
                End::Full => unreachable!("there is room"),
            }
            none += usize::from(now.end == End::None);
            if now.end == End::Done {
                done += 1;
                larger += usize::from(now.level > 1);
                break;
            }
        }
    }
    let counts = (done, none, spent, larger);
    assert!(done > 300 && none > 500 && spent > 100, "{counts:?}");
    assert!(larger > 60, "{counts:?}");
}

/// With less room than there are sets both are full, at one level. A limit is passed at
/// the step that finds no room, and not one step sooner.
#[test]
fn both_are_full_where_there_is_no_room() {
    let (mut sooner, mut later, mut same) = (0, 0, 0);
    let (mut with_signals, mut junior) = (0, 0);
    for system in systems(62, 700) {
        let [_, whole] = walks(&system, MOST_CAP, 1_200, ROOM);
        if whole.end != End::Done {
            continue;
        }
        for room in 0..whole.finds.len().min(6) {
            let [before, now] = walks(&system, MOST_CAP, 1_200, room);
            assert_eq!([before.end, now.end], [End::Full; 2]);
            assert_eq!([before.level, now.level], [whole.level; 2]);
            assert!(now.steps <= whole.steps);
            let [_, exact] = walks(&system, MOST_CAP, now.steps, room);
            assert_eq!((exact.end, exact.steps), (End::Full, now.steps));
            let [_, short] = walks(&system, MOST_CAP, now.steps - 1, room);
            assert_eq!((short.end, short.level), (End::Spent, whole.level));
            let moved = now.steps != before.steps;
            same += usize::from(!moved);
            sooner += usize::from(now.steps < before.steps);
            later += usize::from(now.steps > before.steps);
            with_signals += usize::from(moved && system.marks != Marks::NONE);
            junior += usize::from(moved && system.degree.0 != FULL_DEGREE);
        }
    }
    let counts = (sooner, later, same, with_signals, junior);
    assert!(sooner > 100 && later > 4 && same > 300, "{counts:?}");
    assert!(with_signals > 20 && junior > 20, "{counts:?}");
}
