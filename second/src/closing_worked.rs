//! Rows of the counting rule, worked by hand from document 02, [4]; and the walk
//! that closes hopeless sets beside the one that tries them.

use crate::batch::Case;
use crate::marks::Marks;
use crate::notation::{system, terms};
use crate::panel::{MOST_CAP, SET_BYTES, USUAL_CAP as CAP, USUAL_LIMIT as LIMIT};
use crate::random::Random;
use crate::records::write_terms;
use crate::rows::{cubic_bicycle, cubic_cycle, mutual_power, EXAMPLE_3, RABINOVICH_FABRIKANT};
use crate::system::System;
use crate::systems::{self, Outside};
use crate::walk::{walk, End, Rules, Walked};

/// The numbers of a plan without marks, by the walk before the rule and by that
/// with it.
fn both(n: u64, text: &str, cap: u64, room: usize) -> [[u64; 5]; 2] {
    both_marked(n, &[], text, cap, room)
}

fn both_marked(n: u64, marked: &[usize], text: &str, cap: u64, room: usize) -> [[u64; 5]; 2] {
    let marks = Marks::of(marked.iter().copied());
    let terms = write_terms(&terms(text));
    let case = Case::plan(n, cap, LIMIT, room * SET_BYTES, terms).marked(marks);
    [Rules::TRYING, Rules::NOW].map(|rules| case.answer_by(rules).0.numbers())
}

/// Five cubes of knobs lack two monomials: 5 is not over 1 + 1 + 3, and over 1 + 1.
///
/// Level 0 is an opening. Level 1 was an opening, and two pairs of x6^3, each with
/// an opening; now the empty set is closed. At level 2 its size and 2 are the level,
/// and it is not closed: two pairs of x6^3 have one new monomial each. Four cubes
/// are left then, which lack two more, and 1 and 2 are over the level.
#[test]
fn at_the_level_a_set_is_tried_and_above_it_closed() {
    let cubes = "x1' = x2^3 + x3^3 + x4^3 + x5^3 + x6^3";
    assert_eq!(both(6, cubes, 0, 1), [[5, 1, 0, 1, 0]; 2]);
    assert_eq!(both(6, cubes, 1, 1), [[5, 2, 0, 6, 0], [5, 2, 0, 2, 0]]);
    assert_eq!(both(6, cubes, 2, 1)[1], [5, 3, 0, 7, 0]);
    // Six lack three: level 2 is an opening too.
    let six = format!("{cubes} + x1^3");
    assert_eq!(both(6, &six, 2, 1)[1], [5, 3, 0, 3, 0]);
}

/// x1' = x2^3 + x3^3: one monomial more makes one or two of them. 2 is not over
/// 1 + 1, so the empty set is never closed, though level 1 finds nothing.
#[test]
fn a_set_that_is_hopeless_and_not_seen_to_be_is_tried() {
    let cubes = "x1' = x2^3 + x3^3";
    assert_eq!(both(3, cubes, 1, 1), [[5, 2, 0, 6, 0]; 2]);
    // Three are over it.
    let cubes = "x1' = x2^3 + x3^3 + x4^3";
    assert_eq!(both(4, cubes, 1, 1), [[5, 2, 0, 6, 0], [5, 2, 0, 2, 0]]);
}

/// Two nonsquares of signals: no quotient is left, and 2 is over 0 + 1. Level 1
/// was an opening and the two pairs of x2^3.
#[test]
fn with_signals_no_quotient_may_be_left() {
    let text = "x1' = x2^3 + x2^2 x3";
    let rows = both_marked(3, &[2, 3], text, 1, 1);
    assert_eq!(rows, [[5, 2, 0, 4, 0], [5, 2, 0, 2, 0]]);
    // 2 is not over 0 + 3: level 2 is an opening and two pairs.
    let rows = both_marked(3, &[2, 3], text, 2, 1);
    assert_eq!(rows, [[5, 3, 0, 7, 0], [5, 3, 0, 5, 0]]);
    // As knobs both are made by x2^2.
    let rows = both(3, text, CAP, 1);
    assert_eq!(rows[0], rows[1]);
    assert_eq!(rows[0][..3], [0, 1, 1]);
}

/// One nonsquare with a signal never lacks more than one.
#[test]
fn one_nonsquare_closes_nothing() {
    for (cap, steps) in (0..=CAP).zip([1, 6, 16, 32, 55, 86, 126]) {
        let rows = both_marked(2, &[2], "x1' = x1^2 x2", cap, 1);
        assert_eq!(rows, [[5, cap + 1, 0, steps, 0]; 2]);
    }
}

/// Document 01's rows keep their steps, which are counted in `worked`; longer
/// walks are shorter.
#[test]
fn rows_before_and_after() {
    for text in ["x1' = x1^3", "x1' = x1^5", "x1' = x1^4 + x1^3"] {
        let [tried, closed] = both(1, text, CAP, 1_000);
        assert_eq!(tried, closed);
    }
    let rows = both(3, RABINOVICH_FABRIKANT, CAP, 1_000);
    assert_eq!(rows, [[0, 3, 1, 88, 0], [0, 3, 1, 70, 0]]);
    assert_eq!(both(2, EXAMPLE_3, CAP, 1_000), [[0, 3, 1, 145, 0]; 2]);
    assert_eq!(both(2, EXAMPLE_3, CAP, 0), [[6, 3, 0, 107, 0]; 2]);
    for text in [cubic_cycle(3), cubic_bicycle(3)] {
        let [tried, closed] = both(3, &text, CAP, 1_000);
        assert_eq!(tried[..3], closed[..3]);
        assert!(closed[3] < tried[3], "{text}: {tried:?} {closed:?}");
    }
    for k in 3..=5 {
        let [tried, closed] = both(2, &mutual_power(k), CAP, 1_000);
        assert_eq!(tried[..3], closed[..3]);
        assert!(closed[3] <= tried[3]);
    }
}

/// A set that is found lacks nothing, at its level too.
#[test]
fn what_is_quadratic_is_found() {
    let quadratic = system(1, "x1' = x1^2");
    let walked = walk(&quadratic, Rules::NOW, 0, LIMIT, 1);
    assert_eq!((walked.end, walked.steps), (End::Done, 1));
}

/// Systems of all kinds, every second one with signals, and three variables with
/// six terms besides.
fn systems(seed: u64, count: usize) -> Vec<System> {
    let mut random = Random::from_seed(seed);
    let system = |turn: usize| {
        let system = match turn % 4 {
            0 | 1 => systems::any(&mut random),
            _ => systems::six_terms(&mut random),
        };
        let outside = [Outside::Nothing, Outside::Signals][turn % 2];
        outside.feed(&mut random, system)
    };
    (0..count).map(system).collect()
}

const ROOM: usize = 1_800;

/// A walk to each cap: the steps of each level are the differences.
fn to_each_cap(system: &System, rules: Rules, limit: u64) -> Vec<Walked> {
    let to = |cap| walk(system, rules, cap, limit, ROOM);
    (0..=MOST_CAP as usize).map(to).collect()
}

/// Where the walk that tries hopeless sets ends, the other ends with the same
/// finds at the same level, and takes no more steps in any level.
#[test]
fn closing_changes_no_find_and_takes_no_more_steps() {
    let (mut compared, mut fewer, mut done, mut with_signals) = (0, 0, 0, 0);
    for system in systems(31, 600) {
        let tried = to_each_cap(&system, Rules::TRYING, 1_500);
        let closed = to_each_cap(&system, Rules::NOW, 1_500);
        let (mut before, mut after) = (0, 0);
        for (tried, closed) in tried.iter().zip(&closed) {
            if tried.end == End::Spent {
                break;
            }
            assert_eq!(closed.end, tried.end);
            assert_eq!(closed.level, tried.level);
            assert_eq!(closed.finds, tried.finds);
            assert!(closed.steps - after <= tried.steps - before);
            (before, after) = (tried.steps, closed.steps);
            compared += 1;
        }
        let ended = tried.last().is_some_and(|walked| walked.end == End::Done);
        done += usize::from(ended);
        fewer += usize::from(after < before);
        with_signals += usize::from(after < before && system.marks != Marks::NONE);
    }
    let counts = (compared, fewer, done, with_signals);
    assert!(compared > 2_000 && fewer > 200 && done > 150, "{counts:?}");
    assert!(with_signals > 50, "{counts:?}");
}

/// Where it is full, the other is full at that level, no later; and where it is
/// spent, the other is spent at no earlier level, or ends.
#[test]
fn full_and_spent_come_no_earlier() {
    let (mut full, mut later) = (0, 0);
    for system in systems(32, 300) {
        let both = |limit, room| {
            let of = |rules| walk(&system, rules, MOST_CAP as usize, limit, room);
            [Rules::TRYING, Rules::NOW].map(of)
        };
        let [tried, closed] = both(1_500, 0);
        if tried.end == End::Full {
            assert_eq!((closed.end, closed.level), (End::Full, tried.level));
            assert!(closed.steps <= tried.steps);
            full += 1;
        }
        let [tried, closed] = both(tried.steps / 2 + 1, ROOM);
        if tried.end == End::Spent {
            assert!(closed.end != End::Spent || closed.level >= tried.level);
            later += usize::from(closed.end != End::Spent || closed.level > tried.level);
        }
    }
    assert!(full > 80 && later > 80, "{full} {later}");
}

/// A walk needs exactly its own steps.
#[test]
fn a_walk_is_spent_one_step_before_its_end() {
    let mut ended = 0;
    for system in systems(33, 200) {
        let to = |limit| walk(&system, Rules::NOW, MOST_CAP as usize, limit, ROOM);
        let whole = to(1_000);
        if whole.end == End::Spent {
            continue;
        }
        let exact = to(whole.steps);
        assert_eq!((exact.end, exact.steps), (whole.end, whole.steps));
        assert_eq!(exact.finds, whole.finds);
        if whole.steps > 1 {
            let short = to(whole.steps - 1);
            assert_eq!((short.end, short.level), (End::Spent, whole.level));
            ended += 1;
        }
    }
    assert!(ended > 80);
}

/// Three variables with six terms up to the ninth power: what a walk of 20,000
/// steps did not end, and now does.
#[test]
fn three_variables_end() {
    let mut random = Random::from_seed(34);
    let mut ends = 0;
    for _ in 0..12 {
        let system = systems::six_terms_up_to(&mut random, 9);
        let of = |rules| walk(&system, rules, MOST_CAP as usize, 20_000, ROOM).end;
        let now = of(Rules::NOW) != End::Spent && of(Rules::TRYING) == End::Spent;
        ends += usize::from(now);
    }
    assert!(ends > 4, "{ends}");
}
