//! Rows of thinning, worked by hand from document 02, [1].

use crate::batch::Case;
use crate::notation::{monomial, terms};
use crate::panel::{MOST_N, SET_BYTES, USUAL_ROOM};
use crate::records::{write_places, write_terms};
use crate::rows::{
    set_of, CANCELLING, CANCELLING_SET, EXAMPLE_3, NEARLY_CANCELLING, RABINOVICH_FABRIKANT,
};
use crate::thin_rows::{
    CHAIN, CHAIN_SET, FORCED, FORCED_SET, PAIRS, PAIR_NEEDED, PAIR_SET, SIX_WAYS, SIX_WAYS_SET,
    THIRD_AND_EIGHTH, THIRD_AND_EIGHTH_SET, TWO_NEEDS, TWO_NEEDS_SET,
};

/// Thins into a buffer of so many bytes and compares the five numbers and every
/// byte of it.
fn into(buffer: usize, n: u64, text: &str, given: &[&str], numbers: [u64; 5], kept: &[&[&str]]) {
    let case = Case::thin(n, write_terms(&terms(text)), set_of(given), buffer);
    let (reply, answer) = case.answer();
    assert_eq!(reply.numbers(), numbers, "{text}, {given:?}, {buffer}");
    let mut expected: Vec<u8> = Vec::new();
    for names in kept {
        // Named in their order, so that the order itself is compared.
        let members: Vec<_> = names.iter().map(|name| monomial(name)).collect();
        expected.extend(write_places(&members));
    }
    expected.resize(buffer, 0);
    assert!(answer == expected, "{text}, {given:?}, {buffer}");
}

/// Thins with room to spare, with exactly enough and with a byte too few.
fn row(n: u64, text: &str, given: &[&str], numbers: [u64; 5], kept: &[&[&str]]) {
    let [code, order, _, steps, _] = numbers;
    into(USUAL_ROOM * SET_BYTES, n, text, given, numbers, kept);
    if code == 0 {
        let exact = kept.len() * SET_BYTES;
        into(exact, n, text, given, numbers, kept);
        into(exact + 1, n, text, given, numbers, kept);
        into(exact - 1, n, text, given, [6, order, 0, steps, 0], &[]);
    }
    into(0, n, text, given, without_room(numbers), &[]);
}

/// Every list has a subset, so that nothing fits a buffer without a byte.
fn without_room(numbers: [u64; 5]) -> [u64; 5] {
    match numbers {
        [0, order, _, steps, _] => [6, order, 0, steps, 0],
        refused => refused,
    }
}

#[test]
fn two_subsets_of_two() {
    let text = "x1' = x1^4 + x1^3";
    let given = ["x1^2", "x1^3", "x1^4"];
    let both: &[&[&str]] = &[&["x1^2", "x1^3"], &["x1^3", "x1^4"]];
    row(1, text, &given, [0, 2, 2, 8, 0], both);
    into(72, 1, text, &given, [0, 2, 2, 8, 0], both);
    into(71, 1, text, &given, [6, 2, 0, 8, 0], &[]);
    // The first subset alone would fit.
    into(36, 1, text, &given, [6, 2, 0, 8, 0], &[]);
    for n in 2..=MOST_N {
        row(n, text, &given, [0, 2, 2, 8, 0], both);
    }
}

#[test]
fn the_empty_set_is_a_subset() {
    row(1, "x1' = x1", &["x1^2", "x1^3"], [0, 0, 1, 4, 0], &[&[]]);
    into(35, 1, "x1' = x1", &["x1^2", "x1^3"], [6, 0, 0, 4, 0], &[]);
    row(1, "", &[], [0, 0, 1, 1, 0], &[&[]]);
    row(1, "x1' = x1^2", &[], [0, 0, 1, 1, 0], &[&[]]);
    // Even where 54 is the exponent of each of six variables.
    let most = "x1^54 x2^54 x3^54 x4^54 x5^54 x6^54";
    row(6, "x1' = x1", &["x6^54", most], [0, 0, 1, 4, 0], &[&[]]);
}

#[test]
fn nothing_can_go() {
    row(1, "x1' = x1^3", &["x1^2"], [0, 1, 1, 2, 0], &[&["x1^2"]]);
    let three = ["x2^3", "x1 x2^2", "x1^3"];
    row(2, EXAMPLE_3, &three, [0, 3, 1, 8, 0], &[&three]);
    let three = ["x2^2", "x1 x2", "x1^2"];
    row(3, RABINOVICH_FABRIKANT, &three, [0, 3, 1, 8, 0], &[&three]);
    row(4, FORCED, &FORCED_SET, [0, 6, 1, 64, 0], &[&FORCED_SET]);
}

#[test]
fn a_signal_that_nothing_uses_goes() {
    let kept: &[&[&str]] = &[&["x1^2"]];
    // (x1^4)' is 4 x1^6, the product of both; x1^3 needs x1^2 alone.
    row(1, "x1' = x1^3", &["x1^2", "x1^4"], [0, 1, 1, 4, 0], kept);
}

/// The derivatives of x1 x2 and of its square cancel, so that either could stay;
/// x1^2 x2 is made from the first alone.
#[test]
fn signs_cancel() {
    let text = "x1' = x1^2 x2; x2' = - x1 x2^2";
    let kept: &[&[&str]] = &[&["x1 x2"]];
    row(2, text, &["x1 x2"], [0, 1, 1, 2, 0], kept);
    row(2, text, &["x1 x2", "x1^2 x2^2"], [0, 1, 1, 4, 0], kept);
}

/// Each product of unfed variables alone makes the one term: its whole, its
/// root, and its quotient by each variable.
#[test]
fn one_of_several_is_enough() {
    let four = ["x2 x3", "x2 x3^2", "x2^2 x3", "x2^2 x3^2"];
    let each: Vec<&[&str]> = four.chunks(1).collect();
    row(3, "x1' = x2^2 x3^2", &four, [0, 1, 4, 16, 0], &each);
    let each: Vec<&[&str]> = SIX_WAYS_SET.chunks(1).collect();
    row(5, SIX_WAYS, &SIX_WAYS_SET, [0, 1, 6, 64, 0], &each);
}

/// x1^3 takes x1^2 or x1^3, and x1^8 takes x1^4, x1^7 or x1^8, or x1^5 with an
/// x1^3 that is there already.
#[test]
fn seven_pairs() {
    let (x2, x3, x4, x5, x7, x8) = ("x1^2", "x1^3", "x1^4", "x1^5", "x1^7", "x1^8");
    let pairs: [&[&str]; 7] = [
        &[x2, x4],
        &[x2, x7],
        &[x2, x8],
        &[x3, x4],
        &[x3, x5],
        &[x3, x7],
        &[x3, x8],
    ];
    let numbers = [0, 2, 7, 64, 0];
    row(2, THIRD_AND_EIGHTH, &THIRD_AND_EIGHTH_SET, numbers, &pairs);
}

/// {x3^2, x2^2} can lose neither signal and is still not smallest.
#[test]
fn what_can_lose_nothing_may_be_too_large() {
    let text = "x1' = x2^2 x3^2";
    let given = ["x3^2", "x2 x3", "x2^2"];
    row(3, text, &given, [0, 1, 1, 8, 0], &[&["x2 x3"]]);
    row(
        3,
        text,
        &["x3^2", "x2^2"],
        [0, 2, 1, 4, 0],
        &[&["x3^2", "x2^2"]],
    );
    let kept: &[&[&str]] = &[&["x4^2", "x2 x3"], &["x4^3", "x2 x3"]];
    row(4, TWO_NEEDS, &TWO_NEEDS_SET, [0, 2, 2, 32, 0], kept);
}

/// x1 and x2 feed each other, and so do their products of degree three: each
/// needs its neighbours, so that none can go alone and all can go together.
#[test]
fn all_can_go_though_none_can_go_alone() {
    row(2, CHAIN, &CHAIN_SET, [0, 0, 1, 16, 0], &[&[]]);
    for dropped in CHAIN_SET {
        let rest: Vec<&str> = CHAIN_SET.into_iter().filter(|s| *s != dropped).collect();
        let case = Case::thin(2, write_terms(&terms(CHAIN)), set_of(&rest), SET_BYTES);
        assert_eq!(case.answer().0.code, 9, "without {dropped}");
    }
}

/// Three pairs whose signals need each other: quadratic subsets have 0, 2, 4 or
/// 6 signals, and where x6 takes one signal of a pair, 2, 4 or 6.
#[test]
fn signals_go_in_pairs() {
    row(5, PAIRS, &PAIR_SET, [0, 0, 1, 64, 0], &[&[]]);
    let kept: &[&[&str]] = &[&["x2 x3^2", "x1 x3^2"]];
    row(6, PAIR_NEEDED, &PAIR_SET, [0, 2, 1, 64, 0], kept);
}

/// x1 x2 cancels and nothing needs it. Where it just misses cancelling the given
/// set is not quadratic, and its quadratic subset is no answer.
#[test]
fn a_given_set_that_is_not_quadratic_is_not_thinned() {
    let three: &[&[&str]] = &[&["x3^2 x4", "x2 x3", "x1 x3"]];
    row(4, CANCELLING, &CANCELLING_SET, [0, 3, 1, 16, 0], three);
    row(4, NEARLY_CANCELLING, three[0], [0, 3, 1, 8, 0], three);
    row(4, NEARLY_CANCELLING, &CANCELLING_SET, [9, 4, 0, 0, 8], &[]);
    row(1, "x1' = 1", &["x1^4"], [9, 1, 0, 0, 2], &[]);
    row(1, "x1' = x1^4", &["x1^2"], [9, 1, 0, 0, 2], &[]);
    row(1, "x1' = x1^3", &[], [9, 0, 0, 0, 1], &[]);
}

#[test]
fn refusals_in_their_sequence() {
    let refused = |n: u64, text: &str, set: Vec<u8>, numbers: [u64; 5]| {
        let (reply, answer) = Case::thin(n, write_terms(&terms(text)), set, 40).answer();
        assert_eq!(reply.numbers(), numbers);
        assert_eq!(answer, [0; 40]);
    };
    let short = || vec![0; SET_BYTES - 1];
    for n in [0, MOST_N + 1, 1 << 32, u64::MAX] {
        refused(n, "x1' = x1^10", short(), [1, 0, 0, 0, 0]);
    }
    refused(1, "x1' = x1^10", short(), [2, 0, 0, 0, 0]);
    refused(1, "x1' = x1", vec![0; SET_BYTES + 1], [2, 0, 0, 0, 0]);
    refused(1, "x1' = x1 + x1^10", set_of(&["x1"]), [3, 0, 0, 0, 2]);
    refused(1, "x1' = 1 + x1 + x1", set_of(&["x1"]), [4, 0, 0, 0, 3]);
    refused(1, "x1' = x1^3", set_of(&["x1"]), [8, 0, 0, 0, 0]);
    refused(1, "x1' = x1^3", set_of(&["x2^2"]), [8, 0, 0, 0, 0]);
    let terms_of_13 = Case::thin(1, vec![0; 13], set_of(&[]), 40);
    assert_eq!(terms_of_13.answer().0.numbers(), [2, 0, 0, 0, 0]);
}
