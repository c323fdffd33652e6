//! Document 01's sums worked by hand, and further rows that its rules decide,
//! each with its numbers, its sets and its wiring.

use crate::batch::Case;
use crate::notation::{monomial, terms, write_members};
use crate::panel::{
    MOST_N, MOST_WIRES_BYTES, SET_BYTES, USUAL_CAP as CAP, USUAL_LIMIT as LIMIT,
    USUAL_ROOM as ROOM, VARIABLES,
};
use crate::records::{read_wires, set_places, write_places, write_set, write_terms};
use crate::rows::{
    cubic_bicycle, cubic_cycle, set_of, unfed_products, CANCELLING, CANCELLING_SET, EXAMPLE_3,
    NEARLY_CANCELLING, RABINOVICH_FABRIKANT,
};
use crate::system::Set;

/// Plans and compares the five numbers and every byte of the buffer.
fn row(n: u64, text: &str, settings: (u64, u64, usize), numbers: [u64; 5], sets: &[&[&str]]) {
    let (cap, limit, room) = settings;
    let case = Case::plan(n, cap, limit, room * SET_BYTES, write_terms(&terms(text)));
    let (reply, buffer) = case.answer();
    assert_eq!(reply.numbers(), numbers, "{text}");
    let mut expected: Vec<u8> = Vec::new();
    for names in sets {
        // Named in their order, so that the order itself is compared.
        let members: Vec<_> = names.iter().map(|name| monomial(name)).collect();
        expected.extend(write_places(&members));
    }
    expected.resize(buffer.len(), 0);
    let shown: Vec<String> = buffer
        .chunks(SET_BYTES)
        .take(reply.count as usize)
        .map(|record| write_members(&set_places(record)))
        .collect();
    assert!(buffer == expected, "{text}: {shown:?}");
}

/// Plans with what a row has where it names nothing else.
fn plain(n: u64, text: &str, numbers: [u64; 5], sets: &[&[&str]]) {
    row(n, text, (CAP, LIMIT, ROOM), numbers, sets);
}

/// The verdict alone: the numbers of a wiring into an empty buffer.
fn verdict(n: u64, text: &str, names: &[&str]) -> [u64; 5] {
    wired_into(0, n, text, names).0
}

/// The wiring's numbers and every byte of a buffer of so many.
fn wired_into(buffer: usize, n: u64, text: &str, names: &[&str]) -> ([u64; 5], Vec<u8>) {
    let case = Case::wire(n, write_terms(&terms(text)), set_of(names), buffer);
    let (reply, answer) = case.answer();
    (reply.numbers(), answer)
}

/// The wiring as the program writes it: left, a, b, coefficient.
fn wires(n: u64, text: &str, names: &[&str]) -> ([u64; 5], Vec<[i64; 4]>) {
    let (numbers, buffer) = wired_into(MOST_WIRES_BYTES, n, text, names);
    let list = read_wires(&buffer)
        .iter()
        .map(|w| [w.left as i64, w.a as i64, w.b as i64, w.coefficient])
        .collect();
    (numbers, list)
}

#[test]
fn no_records() {
    plain(1, "", [0, 0, 1, 1, 0], &[&[]]);
}

#[test]
fn square() {
    plain(1, "x1' = x1^2", [0, 0, 1, 1, 0], &[&[]]);
    row(1, "x1' = x1^2", (CAP, LIMIT, 0), [6, 0, 0, 1, 0], &[]);
}

#[test]
fn cube() {
    plain(1, "x1' = x1^3", [0, 1, 1, 6, 0], &[&["x1^2"]]);
    row(1, "x1' = x1^3", (0, LIMIT, ROOM), [5, 1, 0, 1, 0], &[]);
}

#[test]
fn spent_between_levels_names_the_next_level() {
    row(1, "x1' = x1^3", (CAP, 1, ROOM), [7, 1, 0, 1, 0], &[]);
    row(1, "x1' = x1^3", (0, 1, ROOM), [5, 1, 0, 1, 0], &[]);
}

#[test]
fn fifth_power() {
    let found: &[&[&str]] = &[&["x1^4"]];
    row(1, "x1' = x1^5", (CAP, 7, ROOM), [0, 1, 1, 7, 0], found);
    row(1, "x1' = x1^5", (CAP, 6, ROOM), [7, 1, 0, 6, 0], &[]);
}

#[test]
fn fourth_and_third_power() {
    let text = "x1' = x1^4 + x1^3";
    let both: &[&[&str]] = &[&["x1^2", "x1^3"], &["x1^3", "x1^4"]];
    plain(1, text, [0, 2, 2, 23, 0], both);
    row(1, text, (CAP, LIMIT, 2), [0, 2, 2, 23, 0], both);
    row(1, text, (CAP, LIMIT, 1), [6, 2, 0, 15, 0], &[]);
    row(1, text, (CAP, 15, 1), [6, 2, 0, 15, 0], &[]);
    row(1, text, (CAP, 14, 1), [7, 2, 0, 14, 0], &[]);
    row(1, text, (CAP, 23, 2), [0, 2, 2, 23, 0], both);
    row(1, text, (CAP, 22, 2), [7, 2, 0, 22, 0], &[]);
}

#[test]
fn document_000_section_5() {
    let text = "x1' = x1^3 + x2^2; x2' = x1 + x2";
    plain(2, text, [0, 2, 1, 23, 0], &[&["x2^2", "x1^2"]]);
}

#[test]
fn signs_cancel() {
    let text = "x1' = x1^2 x2; x2' = - x1 x2^2";
    plain(2, text, [0, 1, 1, 8, 0], &[&["x1 x2"]]);
    let (numbers, list) = wires(2, text, &["x1 x2"]);
    assert_eq!(numbers, [0, 1, 2, 0, 0]);
    assert_eq!(list, [[1, 1, 3, 1], [2, 2, 3, -1]]);
}

#[test]
fn unfed_variable() {
    plain(2, "x1' = x1^2 x2", [0, 1, 1, 8, 0], &[&["x1 x2"]]);
}

#[test]
fn rabinovich_fabrikant() {
    let names = ["x2^2", "x1 x2", "x1^2"];
    assert_eq!(verdict(3, RABINOVICH_FABRIKANT, &names), [6, 3, 0, 0, 0]);
    plain(3, RABINOVICH_FABRIKANT, [0, 3, 1, 70, 0], &[&names]);
    // Document 001 states the quadratic system; z1, z2, z3 are 6, 5, 4 here.
    let (numbers, list) = wires(3, RABINOVICH_FABRIKANT, &names);
    assert_eq!(numbers[..2], [0, 3]);
    let of = |left: i64| -> Vec<[i64; 3]> {
        let mut found: Vec<[i64; 3]> = list
            .iter()
            .filter(|w| w[0] == left)
            .map(|w| [w[1], w[2], w[3]])
            .collect();
        found.sort();
        found
    };
    assert_eq!(of(1), [[0, 1, 1], [0, 2, -1], [1, 5, 1], [2, 3, 1]]);
    assert_eq!(of(2), [[0, 1, 1], [0, 2, 1], [1, 3, 3], [1, 6, -1]]);
    assert_eq!(of(3), [[0, 3, -2], [3, 5, -2]]);
    // y^2: 2 y^2 + 2 xy (3z + 1 - x^2).
    assert_eq!(of(4), [[0, 4, 2], [0, 5, 2], [3, 5, 6], [5, 6, -2]]);
    assert_eq!(list.len(), numbers[2] as usize);
}

#[test]
fn both_sides_of_the_limits_of_a_record() {
    let coefficient = |c: i64| format!("x1' = {c} x1");
    plain(1, &coefficient(1_000_000), [0, 0, 1, 1, 0], &[&[]]);
    plain(1, &coefficient(1_000_001), [3, 0, 0, 0, 1], &[]);
    plain(1, "x1' = - 1000000 x1", [0, 0, 1, 1, 0], &[&[]]);
    plain(1, "x1' = - 1000001 x1", [3, 0, 0, 0, 1], &[]);
    plain(1, "x1' = x1^9", [0, 1, 1, 9, 0], &[&["x1^8"]]);
    plain(1, "x1' = x1^10", [3, 0, 0, 0, 1], &[]);
    plain(1, "x1' = x1 + x1", [4, 0, 0, 0, 2], &[]);
}

#[test]
fn a_perfect_square_has_a_middle_pair() {
    plain(1, "x1' = x1^4", [0, 1, 1, 8, 0], &[&["x1^3"]]);
}

#[test]
fn four_sets_of_one() {
    let found: &[&[&str]] = &[&["x2 x3"], &["x2 x3^2"], &["x2^2 x3"], &["x2^2 x3^2"]];
    plain(3, "x1' = x2^2 x3^2", [0, 1, 4, 11, 0], found);
}

#[test]
fn example_3_lies_outside_the_box() {
    let names = ["x2^3", "x1 x2^2", "x1^3"];
    plain(2, EXAMPLE_3, [0, 3, 1, 145, 0], &[&names]);
    row(2, EXAMPLE_3, (CAP, LIMIT, 0), [6, 3, 0, 107, 0], &[]);
    assert_eq!(verdict(2, EXAMPLE_3, &names), [6, 3, 0, 0, 0]);
    // Signals: 3 is x2^3, 4 is x1 x2^2, 5 is x1^3 (document 001, Example 3).
    let (numbers, list) = wires(2, EXAMPLE_3, &names);
    assert_eq!(numbers, [0, 3, 6, 0, 0]);
    let expected = [
        [1, 2, 3, 1],
        [2, 1, 1, 1],
        [3, 1, 4, 3],
        [4, 3, 3, 1],
        [4, 2, 5, 2],
        [5, 4, 4, 3],
    ];
    assert_eq!(list, expected);
}

/// Document 001, appendix: the order of Cubic Cycle(n) and Cubic Bicycle(n) is
/// 2n in its tables, for the n they show; so it is for 3, and for more a cap of 6
/// is passed.
#[test]
fn cubic_families() {
    let order = |n: u64, text: &str| {
        let case = Case::plan(n, 6, LIMIT, ROOM * SET_BYTES, write_terms(&terms(text)));
        let [code, order, ..] = case.answer().0.numbers();
        (code, order)
    };
    for family in [cubic_cycle, cubic_bicycle] {
        assert_eq!(order(3, &family(3)), (0, 6));
        for n in 4..=VARIABLES {
            assert_eq!(order(n as u64, &family(n)), (5, 7));
        }
    }
}

/// More sets than there is room for, and a buffer that holds them all.
#[test]
fn many_sets() {
    let numbers = |products: usize, room: usize| {
        let input = write_terms(&terms(&unfed_products(products)));
        let case = Case::plan(MOST_N, CAP, LIMIT, room * SET_BYTES, input);
        case.answer().0.numbers()
    };
    assert_eq!(numbers(2, ROOM)[..3], [0, 2, 16]);
    assert_eq!(numbers(4, ROOM)[..3], [0, 4, 256]);
    assert_eq!(numbers(5, ROOM)[..3], [6, 5, 0]);
    assert_eq!(numbers(5, 1_024)[..3], [0, 5, 1_024]);
    assert_eq!(numbers(5, 1_023)[..3], [6, 5, 0]);
}

#[test]
fn cancelling_decides_whether_a_set_is_quadratic() {
    assert_eq!(verdict(4, CANCELLING, &CANCELLING_SET), [6, 4, 0, 0, 0]);
    // The member that no longer cancels, x1 x2, is the last in set order.
    let set: Set = CANCELLING_SET.iter().map(|name| monomial(name)).collect();
    assert_eq!(set.last(), Some(&monomial("x1 x2")));
    assert_eq!(
        verdict(4, NEARLY_CANCELLING, &CANCELLING_SET),
        [9, 4, 0, 0, 8]
    );
    assert_eq!(write_set(&set).to_vec(), set_of(&CANCELLING_SET));
}

#[test]
fn unused_variables_change_nothing() {
    let both: &[&[&str]] = &[&["x1^2", "x1^3"], &["x1^3", "x1^4"]];
    for n in 1..=MOST_N {
        plain(n, "x1' = x1^4 + x1^3", [0, 2, 2, 23, 0], both);
    }
}

#[test]
fn a_missing_member_shows_at_the_first_left_variable() {
    assert_eq!(verdict(1, "x1' = x1^3", &[]), [9, 0, 0, 0, 1]);
    assert_eq!(verdict(1, "x1' = x1^3", &["x1^3"]), [9, 1, 0, 0, 2]);
    assert_eq!(verdict(2, EXAMPLE_3, &["x1 x2^2", "x1^3"]), [9, 2, 0, 0, 1]);
    assert_eq!(verdict(2, EXAMPLE_3, &["x2^3", "x1^3"]), [9, 2, 0, 0, 3]);
    assert_eq!(verdict(2, EXAMPLE_3, &["x2^3", "x1 x2^2"]), [9, 2, 0, 0, 4]);
}

/// 0, 1 or more records: the room is the list's or it is not, whatever the bytes
/// that hold none.
#[test]
fn a_list_needs_exactly_its_bytes() {
    let record = |left: u8, a: u8, b: u8, coefficient: u8| [left, a, b, 0, coefficient, 0, 0, 0];
    for buffer in 0..=9 {
        let (numbers, answer) = wired_into(buffer, 1, "", &["x1^2"]);
        assert_eq!(numbers, [0, 1, 0, 0, 0]);
        assert_eq!(answer, vec![0; buffer]);
    }
    for buffer in 0..=17 {
        let (numbers, answer) = wired_into(buffer, 2, "x2' = 7 x2", &[]);
        let mut expected = vec![0; buffer];
        if buffer < 8 {
            assert_eq!(numbers, [6, 0, 0, 0, 0]);
        } else {
            assert_eq!(numbers, [0, 0, 1, 0, 0]);
            expected[..8].copy_from_slice(&record(2, 0, 2, 7));
        }
        assert_eq!(answer, expected);
    }
    // x1^3 = x1 x1^2, and (x1^2)' = 2 x1^4.
    for buffer in 0..=25 {
        let (numbers, answer) = wired_into(buffer, 1, "x1' = x1^3", &["x1^2"]);
        let mut expected = vec![0; buffer];
        if buffer < 16 {
            assert_eq!(numbers, [6, 1, 0, 0, 0]);
        } else {
            assert_eq!(numbers, [0, 1, 2, 0, 0]);
            expected[..8].copy_from_slice(&record(1, 1, 2, 1));
            expected[8..16].copy_from_slice(&record(2, 2, 2, 2));
        }
        assert_eq!(answer, expected);
    }
}

/// x1' = x1^3 with {x1^3} has the record 1 0 2 1, and then x1^5 that no two
/// signals make.
#[test]
fn not_quadratic_comes_before_full_whatever_the_room() {
    for buffer in 0..=33 {
        let (numbers, answer) = wired_into(buffer, 1, "x1' = x1^3", &["x1^3"]);
        assert_eq!(numbers, [9, 1, 0, 0, 2]);
        assert_eq!(answer, vec![0; buffer]);
        let (numbers, answer) = wired_into(buffer, 1, "x1' = 1 + x1 + x1^3", &[]);
        assert_eq!(numbers, [9, 0, 0, 0, 1]);
        assert_eq!(answer, vec![0; buffer]);
    }
}

/// What vanishes takes no room and is no nonsquare.
#[test]
fn what_cancels_takes_no_room() {
    let text = "x1' = x1^2 x2; x2' = - x1 x2^2";
    assert_eq!(wired_into(16, 2, text, &["x1 x2"]).0, [0, 1, 2, 0, 0]);
    assert_eq!(wired_into(15, 2, text, &["x1 x2"]).0, [6, 1, 0, 0, 0]);
    let into = |buffer| wired_into(buffer, 4, CANCELLING, &CANCELLING_SET).0;
    assert_eq!(into(32), [0, 4, 4, 0, 0]);
    assert_eq!(into(31), [6, 4, 0, 0, 0]);
}
