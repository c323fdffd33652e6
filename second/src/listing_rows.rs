//! The fixed rows of reading (document 02, [7]): right listings in several hands,
//! two listings damaged at every byte, and both sides of every limit that a text,
//! a name, a number or a line has.

use crate::batch::Case;
use crate::degree::Degree;
use crate::mark_rows;
use crate::marks::Marks;
use crate::monomial::Monomial;
use crate::notation::{monomial, terms};
use crate::page::{apart, plain, turned, Page};
use crate::panel::{CARDS, FULL_DEGREE, MOST_TERMS_BYTES, MOST_TEXT, TERM_BYTES, VARIABLES};
use crate::rows::{
    box_of_two, bytes_of, own_variable_times_signals, BOX_OF_TWO, CANCELLING, CANCELLING_SET,
    SIX_SIGNALS,
};
use crate::system::System;
use crate::thin_rows;
use std::collections::HashSet;

const HEADING: &str = "Introduced variables:\n";

/// Document 000, section 5.1: the system and the listing that the tool prints.
pub const EXAMPLE: &str = "x1' = x1^3 + x2^2; x2' = x1 + x2";
pub const EXAMPLE_LISTING: &str = "\
Introduced variables:
w0 = x1**2
w1 = x2**2

x1' = x1*w0 + w1
x2' = x1 + x2
w0' = 2*x1*w1 + 2*w0**2
w1' = 2*x1*x2 + 2*w1
";

/// A signal x3 beside a cube, with all that the example lacks: signs in front, a
/// constant, a product in a name, and a line that is 0.
pub const SIGNAL: &str = "x1' = x1^2 x2 - 2 x3; x4' = - 15 x1 x3 + 7";
pub const SIGNAL_LISTING: &str = "\
Introduced variables:
w0 = x1*x2

x1' = x1*w0 - 2*x3
x2' = 0
x4' = -15*x1*x3 + 7
w0' = w0**2 - 2*x2*x3
";

fn example(text: &str) -> Case {
    Case::read(2, bytes_of(EXAMPLE), text.as_bytes().to_vec())
}

fn signal(text: &str) -> Case {
    Case::read(4, bytes_of(SIGNAL), text.as_bytes().to_vec()).marked(Marks::of([3]))
}

/// A text for a system without records, in which every derivative is 0.
fn still(n: usize, text: &str) -> Case {
    Case::read(n as u64, Vec::new(), text.as_bytes().to_vec())
}

/// What is named, for variables that never change: each line is a lone 0.
fn names_alone(n: usize, marks: Marks, names: &[String]) -> Case {
    let mut page = Page::of(&at_rest(n, marks), &vec![Monomial::ONE; names.len()]);
    page.names = names.to_vec();
    let text = page.write();
    Case::read(n as u64, Vec::new(), text).marked(marks)
}

fn at_rest(n: usize, marks: Marks) -> System {
    System {
        marks,
        ..System::unmarked(n, Vec::new())
    }
}

/// One right side for x1 alone, which has these terms, without new names.
fn right_side(system: &str, right: &str) -> Case {
    let text = format!("{HEADING}\nx1' = {right}\n");
    Case::read(1, bytes_of(system), text.into_bytes())
}

/// The fixed rows of reading, each once.
pub fn rows() -> Vec<Case> {
    let parts = [
        named_rows(),
        right_listings(),
        signals_alone(),
        damaged(),
        rests(),
        headings(),
        right_sides(),
        nearly_readable(),
        coefficients(),
        sums(),
        exponents(),
        unknown_names(),
        lines_out_of_place(),
        false_at_every_line(),
        false_in_every_way(),
        names_that_form_no_set(),
        junior_kits(),
        lengths(),
        every_sequence_of_checks(),
        refused_settings_and_records(),
    ];
    let mut met = HashSet::new();
    let mut rows = parts.concat();
    rows.retain(|case| met.insert(case.clone()));
    rows
}

/// The rows that the request and its readings name.
fn named_rows() -> Vec<Case> {
    let seven: String = (0..=CARDS)
        .map(|j| format!("w{j} = x1**{}\n", j + 2))
        .collect();
    let six_lines: String = (0..CARDS).map(|j| format!("w{j}' = 0\n")).collect();
    vec![
        example(EXAMPLE_LISTING),
        example(EXAMPLE_LISTING.trim_end()),
        still(1, &format!("{HEADING}{seven}\nx1' = 0\n{six_lines}")),
        example(&EXAMPLE_LISTING.replace("x1 + x2", "x1 + x3")),
        example(&EXAMPLE_LISTING.replace("2*x1*x2", "2*x1*x2*x1")),
        right_side("x1' = x1", "1000000000*x1 - 999999999*x1"),
        right_side("x1' = x1", "1000000001*x1 - 1000000000*x1"),
        names_alone(1, Marks::NONE, &["x1**55".to_string()]),
        names_alone(1, Marks::NONE, &["x1**54".to_string()]),
        example(&EXAMPLE_LISTING.replace("2*w0**2", "3*w0**2")),
        right_side("", "x1 - x1"),
        right_side("", "0"),
        signal(SIGNAL_LISTING),
    ]
}

/// Systems with sets, and each listing in three hands: plain; with the names the
/// other way round and the last pairs; with like products. Some also for one
/// variable more, whose line is 0.
fn right_listings() -> Vec<Case> {
    type Listed<'a> = (u64, &'a str, &'a [usize], &'a [&'a str]);
    let (own, whole_box) = (own_variable_times_signals(), box_of_two());
    let mut listed: Vec<Listed> = vec![
        (2, EXAMPLE, &[], &["x1^2", "x2^2"]),
        (4, SIGNAL, &[3], &["x1 x2"]),
        (1, "x1' = x1^2 - x1 + 1", &[], &[]),
        (1, "x1' = - 1000000 x1^3 + 999999", &[], &["x1^2"]),
        (2, "x1' = x1^2 x2; x2' = - x1 x2^2", &[], &["x1 x2"]),
        (3, "x2' = x2^3; x3' = - x1", &[1], &["x2^2", "x2^4"]),
        (4, CANCELLING, &[], &CANCELLING_SET),
        (1, "x1' = x1", &[], &["x1^54", "x1^53", "x1^52", "x1^2"]),
        (6, "x6' = x1^2 + x2 x3 - x4 + 12 x5 x6", &[], &[]),
        (4, &own, &[], &SIX_SIGNALS),
        (2, &whole_box, &[], &BOX_OF_TWO),
    ];
    let own_rows = listed.len();
    let given = thin_rows::GIVEN.iter();
    listed.extend(given.map(|(n, text, set, _)| (*n, *text, &[][..], *set)));
    let given = mark_rows::GIVEN.iter();
    listed.extend(given.map(|(n, text, marked, set, ..)| (*n, *text, *marked, *set)));
    let mut cases = Vec::new();
    for (index, (n, text, marked, set)) in listed.into_iter().enumerate() {
        let new: Vec<Monomial> = set.iter().map(|name| monomial(name)).collect();
        let backwards: Vec<Monomial> = new.iter().rev().copied().collect();
        let marks = Marks::of(marked.iter().copied());
        let system = |n: u64| System {
            marks,
            ..System::unmarked(n as usize, terms(text))
        };
        let case = |n: u64, page: Page| Case::read(n, bytes_of(text), page.write()).marked(marks);
        let mut split = Page::by(&system(n), &new, apart);
        split.names = new.iter().map(|&m| one_by_one(m)).collect();
        let mut hands = vec![
            case(n, Page::of(&system(n), &new)),
            case(n, Page::by(&system(n), &backwards, turned)),
            case(n, split),
        ];
        if n < VARIABLES as u64 {
            hands.push(case(n + 1, Page::by(&system(n + 1), &backwards, plain)));
        }
        // Of sets that thinning and wiring are given two hands, by turns.
        if index >= own_rows {
            hands.rotate_left(index % 3);
            hands.truncate(2);
        }
        cases.extend(hands);
    }
    cases.retain(|case| case.given.len() <= MOST_TEXT);
    cases
}

/// A monomial with its powers from the last variable on: of each the first is
/// written by itself, as a power of 1 where it is the only one.
fn one_by_one(monomial: Monomial) -> String {
    let used = (1..).zip(monomial.0).filter(|(_, exponent)| *exponent > 0);
    let power = |(i, exponent): (usize, u16)| match exponent {
        1 => format!("x{i}**1"),
        2 => format!("x{i}*x{i}"),
        _ => format!("x{i}*x{i}**{}", exponent - 1),
    };
    let mut powers: Vec<String> = used.map(power).collect();
    powers.reverse();
    powers.join("*")
}

/// Every n with all variables marked, with the heading and the blank line alone, or
/// with a line too many; and every way of marking three.
fn signals_alone() -> Vec<Case> {
    let mut cases = Vec::new();
    for n in 1..=VARIABLES {
        let all = Marks((1 << n) - 1);
        for rest in ["\n", "", "\nx1' = 0\n", "\n\n", "w0 = x1**2\n\nw0' = 0\n"] {
            cases.push(still(n, &format!("{HEADING}{rest}")).marked(all));
        }
        cases.push(still(n, &format!("{HEADING}\n")));
        cases.push(names_alone(n, Marks::NONE, &[]));
    }
    for marks in Marks::all_of(3) {
        cases.push(names_alone(3, marks, &[]));
        cases.push(names_alone(3, marks, &["x2**2*x3".to_string()]));
        cases.push(names_alone(3, Marks::NONE, &[]).marked(marks));
    }
    cases
}

/// Bytes that stand in the stead of another, by turns.
fn others(byte: u8) -> [u8; 20] {
    [
        b'0',
        b'*',
        b'1',
        b'\n',
        b'x',
        b' ',
        b'2',
        b'w',
        b'+',
        b'9',
        b'-',
        b'\'',
        b'\t',
        b'=',
        b'\r',
        0,
        byte ^ 0x20,
        byte | 0x80,
        byte + 1,
        byte - 1,
    ]
}

/// Two listings cut at each length, and with each byte left out or another one in
/// its stead; the first also with two others, and with each byte written twice.
fn damaged() -> Vec<Case> {
    let mut cases = Vec::new();
    let mut turn = 0;
    let first = (EXAMPLE_LISTING, example as fn(&str) -> Case, 2);
    for (listing, case, times) in [first, (SIGNAL_LISTING, signal, 1)] {
        let whole = listing.as_bytes();
        let with = |text: Vec<u8>| Case {
            given: text,
            ..case("")
        };
        for (at, &byte) in whole.iter().enumerate() {
            let (before, behind) = (&whole[..at], &whole[at + 1..]);
            cases.push(with(before.to_vec()));
            cases.push(with([before, behind].concat()));
            if times > 1 {
                cases.push(with([before, &[byte, byte], behind].concat()));
            }
            // The turns share no factor with the others, so that all of them come.
            let mut others = others(byte).to_vec();
            let count = others.len();
            others.rotate_left(turn % count);
            others.retain(|other| *other != byte);
            for other in &others[..times] {
                cases.push(with([before, &[*other], behind].concat()));
            }
            turn += 7;
        }
    }
    cases
}

/// What may come behind the last line, and does not.
fn rests() -> Vec<Case> {
    let rests = [
        "\n",
        " ",
        "\r",
        "\t",
        "0",
        "\0",
        "x",
        "w",
        "x1' = 0\n",
        "x3' = 0\n",
        "w2' = 0\n",
        "w1' = 0\n",
        "w2 = x1**3\n",
        "\nx1' = 0\n",
        "Introduced variables:\n",
    ];
    let with = |rest: &str| example(&format!("{EXAMPLE_LISTING}{rest}"));
    let mut cases: Vec<Case> = rests.iter().map(|rest| with(rest)).collect();
    cases.push(example(&EXAMPLE_LISTING.repeat(2)));
    cases
}

/// The heading, the name lines and the blank line written in other ways.
fn headings() -> Vec<Case> {
    let lines = "x1' = x1*w0 + w1\nx2' = x1 + x2\nw0' = 2*x1*w1 + 2*w0**2\nw1' = 2*x1*x2 + 2*w1\n";
    let fronts = [
        "",
        "\n",
        " Introduced variables:\nw0 = x1**2\nw1 = x2**2\n\n",
        "\u{feff}Introduced variables:\nw0 = x1**2\nw1 = x2**2\n\n",
        "\nIntroduced variables:\nw0 = x1**2\nw1 = x2**2\n\n",
        "introduced variables:\nw0 = x1**2\nw1 = x2**2\n\n",
        "Introduced Variables:\nw0 = x1**2\nw1 = x2**2\n\n",
        "Introduced  variables:\nw0 = x1**2\nw1 = x2**2\n\n",
        "Introduced variables: \nw0 = x1**2\nw1 = x2**2\n\n",
        "Introduced variables\nw0 = x1**2\nw1 = x2**2\n\n",
        "Introduced variables:\r\nw0 = x1**2\nw1 = x2**2\n\n",
        "Introduced variables:\n\nw0 = x1**2\nw1 = x2**2\n\n",
        "Introduced variables:w0 = x1**2\nw1 = x2**2\n\n",
        "Introduced variables:\nw0 = x1**2\n\nw1 = x2**2\n\n",
        "Introduced variables:\nw0 = x1**2\nw1 = x2**2\n",
        "Introduced variables:\nw0 = x1**2\nw1 = x2**2\n\n\n",
        "Introduced variables:\nw0 = x1**2\nw1 = x2**2\n \n",
        "Introduced variables:\nw0 = x1**2\nw1 = x2**2\n\r\n",
        "Introduced variables:\nw0 = x1**2\r\nw1 = x2**2\n\n",
        "Introduced variables:\nw1 = x1**2\nw0 = x2**2\n\n",
        "Introduced variables:\nw1 = x2**2\nw0 = x1**2\n\n",
        "Introduced variables:\nw0 = x2**2\nw1 = x1**2\n\n",
        "Introduced variables:\nw0 = x1**2\nw0 = x2**2\n\n",
        "Introduced variables:\nw0 = x1**2\nw2 = x2**2\n\n",
        "Introduced variables:\nw1 = x1**2\nw2 = x2**2\n\n",
        "Introduced variables:\nw00 = x1**2\nw01 = x2**2\n\n",
        "Introduced variables:\nW0 = x1**2\nW1 = x2**2\n\n",
        "Introduced variables:\n w0 = x1**2\n w1 = x2**2\n\n",
        "Introduced variables:\nw0=x1**2\nw1=x2**2\n\n",
        "Introduced variables:\nw0  = x1**2\nw1 = x2**2\n\n",
        "Introduced variables:\nw0 =  x1**2\nw1 = x2**2\n\n",
        "Introduced variables:\nw0 = x1**2 \nw1 = x2**2\n\n",
        "Introduced variables:\nw0 = x1 **2\nw1 = x2**2\n\n",
        "Introduced variables:\nw0 = x1** 2\nw1 = x2**2\n\n",
        "Introduced variables:\nw0 = x1^2\nw1 = x2**2\n\n",
        "Introduced variables:\nw0 = x1**2\nw1 = x2^2\n\n",
        "Introduced variables:\nw0 = x1*x1^1\nw1 = x2**2\n\n",
        "Introduced variables:\nw0 = x1***2\nw1 = x2**2\n\n",
        "Introduced variables:\nw0 = x1**\nw1 = x2**2\n\n",
        "Introduced variables:\nw0 = x1*\nw1 = x2**2\n\n",
        "Introduced variables:\nw0 = \nw1 = x2**2\n\n",
        "Introduced variables:\nw0 = 1\nw1 = x2**2\n\n",
        "Introduced variables:\nw0 = 1*x1**2\nw1 = x2**2\n\n",
        "Introduced variables:\nw0 = 2*x1**2\nw1 = x2**2\n\n",
        "Introduced variables:\nw0 = -x1**2\nw1 = x2**2\n\n",
        "Introduced variables:\nw0 = x1**2 + x2\nw1 = x2**2\n\n",
        "Introduced variables:\nw0 = x1**2**2\nw1 = x2**2\n\n",
        "Introduced variables:\nw0 = x1**2*\nw1 = x2**2\n\n",
        "Introduced variables:\nw0 = x1**2x2\nw1 = x2**2\n\n",
        "Introduced variables:\nw0 = x1**(2)\nw1 = x2**2\n\n",
        "Introduced variables:\nw0 = (x1)**2\nw1 = x2**2\n\n",
        "Introduced variables:\nw0 = x1**-2\nw1 = x2**2\n\n",
        "Introduced variables:\nw0 = x1*x1\nw1 = x2*x2\n\n",
        "Introduced variables:\nw0 = x1**1*x1**1\nw1 = x2**1*x2\n\n",
        "Introduced variables:\nw0 = x1**2\nw1 = w0\n\n",
        "Introduced variables:\nw0 = x1**2\nw1 = x2*w0\n\n",
        "Introduced variables:\nw0 = x1**2\nw1 = x\n\n",
        "Introduced variables:\nw0 = x1**2\nw1 = X2**2\n\n",
        "Introduced variables:\nw0 = x1**2\nw1 = x2**2\nw\n",
        "Introduced variables:\nw0 = x1**2\nw1 = x2**2\nw2\n",
    ];
    fronts
        .iter()
        .map(|front| example(&format!("{front}{lines}")))
        .collect()
}

/// Right sides of one line beside w0 = x1**2, `|` between them: first those that are
/// x1^2, then those that are something else, and from the empty one on those that
/// are not readable.
fn right_sides() -> Vec<Case> {
    let sides =
        "w0|x1**2|x1*x1|1*w0|1*x1**2|1*x1*x1|2*w0 - x1**2|-w0 + 2*x1*x1|w0 + x1 - x1|w0 + 5 - 5|\
        -w0*w0 + w0 + w0**2|x1*w0 + w0 - w0*x1|1000000000*w0 - 999999999*x1**2|0|1|-1|x1|-w0|\
        2*w0|w0 + x1|w0 - 1|x1*w0|w0**2|w0*w0|1000000000|| w0|w0 |w|x|x0|x2|w1|w9|x10|w00|x1'|\
        w0'|X1**2|y1|00|01*w0|0*w0|-0|0 + w0|w0 + 0|w0 + 0*x1|+w0|- w0|--w0|w0 + -x1|w0 - -x1|\
        w0 +x1|w0+ x1|w0+x1|w0  + x1|w0 +  x1|w0 + |w0 +|w0 -|w0 + + x1|w0 x1|w0 * x1|w0* x1|\
        w0 *x1|2w0|2 w0|2 *w0|2* w0|2**w0|2*|2**2|2*3*w0|2*3|w0*2|x1*|x1**|x1***2|x1*1|x1**1|\
        x1**0|x1**3|x1**02|x1**20|x1**22|x1**x1|x1**2*x1|x1**2**2|x1*x1*x1|x1*x1**2|2*x1*x1*x1|\
        w0**2*w0|w0**3|w0*w0*2|x1^2|(w0)|2*(w0)|w0/1|w0 / 1|1/2*w0|1.0*w0|2e0*w0|1_0*w0|\
        1,000*w0|w0,|w0;|w0.|=w0|w0 = w0|w0 * 1|w0\t|\tw0|w0\r|w0\0|w0\u{a0}|x\u{b9}|x1\u{b2}|\
        w0 \u{2212} x1|w0\\|w0 + x1 +|w0 - x1 - |sqrt(w0)|x1 x1|x1*x1 x1|x1.x1|pi|t|w0\nx1' = w0";
    let mut cases = Vec::new();
    for (index, side) in sides.split('|').enumerate() {
        let text = format!("{HEADING}w0 = x1**2\n\nx1' = {side}\nw0' = 2*x1*w0\n");
        cases.push(Case::read(1, bytes_of("x1' = x1^2"), text.into_bytes()));
        // Some of them once more, at the end of the text.
        if index % 6 == 0 {
            let text = format!("{HEADING}w0 = x1**2\n\nx1' = w0\nw0' = {side}\n");
            cases.push(Case::read(1, bytes_of("x1' = x1^2"), text.into_bytes()));
        }
    }
    cases
}

/// What a reader who means well would take, in other places of other listings.
fn nearly_readable() -> Vec<Case> {
    let sides = "x1**1|2*x2**1|w0**1|-0|+0|+x1|+2*w0|- x1|- 2*x1|-x1 + -x1|x1 - -x1|x1 + 0|x1^2|\
        x1 - 0*x1|x1*x2*w0|x2*3|2*5*x1|007*x1";
    let mut cases = Vec::new();
    for side in sides.split('|') {
        cases.push(signal(
            &SIGNAL_LISTING.replace("x2' = 0", &format!("x2' = {side}")),
        ));
        cases.push(example(&EXAMPLE_LISTING.replace("2*x1*x2 + 2*w1", side)));
    }
    for (plain, other) in [
        ("I", "i"),
        ("**", "^"),
        ("**", "*"),
        ("\n", "\r\n"),
        (" = ", "="),
        (" + ", "+"),
        ("'", ""),
        ("w", "W"),
        ("w0", "w_0"),
        ("x1", "x[1]"),
    ] {
        cases.push(signal(&SIGNAL_LISTING.replace(plain, other)));
        cases.push(example(&EXAMPLE_LISTING.replace(plain, other)));
    }
    let names =
        |count: usize| -> Vec<String> { (2..2 + count).map(|e| format!("x1**{e}")).collect() };
    for n in 1..=VARIABLES {
        cases.push(names_alone(n, Marks::NONE, &names(CARDS + 1)));
        cases.push(names_alone(n, Marks::of([n]), &names(CARDS)));
    }
    cases
}

/// Coefficients on both sides of the largest, and such as fit when cut to fewer
/// bits; each as a constant, before a name, and before two.
fn coefficients() -> Vec<Case> {
    let numbers =
        "1|9|10|99|999999|1000000|1000001|999999999|1000000000|1000000001|1000000002|1000000009|\
        1000000010|1000000100|1099999999|1999999999|2000000000|2147483647|2147483648|4294967295|\
        4294967296|4294967297|9999999999|10000000000|10000000001|99999999999|100000000000|\
        9223372036854775808|18446744073709551616|18446744073709551617|\
        340282366920938463463374607431768211457|0|00|01|09|0000000001|00000000001";
    let mut cases = Vec::new();
    for number in numbers.split('|') {
        cases.push(right_side("x1' = 1", number));
        cases.push(right_side("x1' = x1", &format!("{number}*x1")));
        let both = format!("x1 + {number}*x1**2 - {number}*x1*x1");
        cases.push(right_side("x1' = x1", &both));
    }
    for number in [2, 3, 999_999, 1_000_000_i64] {
        for (coefficient, shown) in [(number, number), (number, number - 1), (-number, number)] {
            cases.push(right_side(
                &format!("x1' = {coefficient} x1"),
                &format!("{shown}*x1"),
            ));
            let system = format!("x1' = - {number} x1");
            cases.push(right_side(&system, &format!("-{shown}*x1")));
        }
    }
    cases
}

/// Sums that pass 31, 32 and more bits on their way or at their end.
fn sums() -> Vec<Case> {
    let mut cases = Vec::new();
    let largest = "1000000000*x1";
    // Up by so many and down again, alternately, or the other way.
    for count in [1, 2, 3, 5, 18] {
        let up = vec![largest; count].join(" + ");
        let down = vec![largest; count].join(" - ");
        for right in [
            format!("{up} - {down} + x1"),
            format!("-{down} + {up} + 2*x1"),
            format!("-{down} + x1 + {up}"),
            up.clone(),
        ] {
            cases.push(right_side("x1' = x1", &right));
        }
        for right in [
            format!("{up} - {down}"),
            format!("-{down} + {up}"),
            format!("-{down}"),
        ] {
            cases.push(right_side("", &right));
        }
    }
    // Sums that are 0 or 1 when cut to 32 bits: 2^32, 2^32 + 1, 2^33, -2^32.
    for right in [
        "1000000000*x1 + 1000000000*x1 + 1000000000*x1 + 1000000000*x1 + 294967296*x1",
        "1000000000*x1 + 1000000000*x1 + 1000000000*x1 + 1000000000*x1 + 294967297*x1",
        "-1000000000*x1 - 1000000000*x1 - 1000000000*x1 - 1000000000*x1 - 294967296*x1",
        "-1000000000*x1 - 1000000000*x1 - 1000000000*x1 - 1000000000*x1 - 294967295*x1",
        "1000000000*x1 + 1000000000*x1 + 147483648*x1",
        "1000000000*x1 + 1000000000*x1 + 147483647*x1",
        "1000000000 + 1000000000 + 1000000000 + 1000000000 + 294967296",
    ] {
        cases.push(right_side("x1' = x1", right));
        cases.push(right_side("", right));
    }
    // Three products of one monomial, nine times 954437176: 8 less than 2^33.
    let parts = ["x1*x1", "x1**2", "w0"].map(|name| vec![format!("954437176*{name}"); 3]);
    let right = parts.concat().join(" + ");
    for rest in ["", " + 8*w0", " - 8*w0"] {
        let text = format!("{HEADING}w0 = x1**2\n\nx1' = {right}{rest}\nw0' = 0\n");
        cases.push(still(1, &text));
    }
    cases
}

/// Exponents on both sides of the largest, and such as fit when cut to fewer bits;
/// exponents that are added; names as long as a text.
fn exponents() -> Vec<Case> {
    let numbers = "1|2|9|10|53|54|55|56|64|99|100|127|128|129|254|255|256|257|258|310|511|\
        1000|32770|65535|65536|65537|65538|2147483650|4294967295|4294967296|4294967298|\
        9223372036854775810|18446744073709551615|18446744073709551616|18446744073709551617|\
        18446744073709551618|36893488147419103234|340282366920938463463374607431768211458|\
        99999999999999999999999999999999999999999999999999|0|00|01|02|002|054|055|0x2|2.0|\
        2x|x1|2 |-2|+2";
    let sums = "x1*x1|x1*x1*x1|x1**1|x1**1*x1**1|x1**27*x1**27|x1**27*x1**28|x1**54*x1|x1*x1**54|\
        x1**53*x1|x1*x1**53|x1**55*x1|x1**54*x1**54|x1**200*x1**58|x1**255*x1**3|x1**255*x1|\
        x1**65535*x1**3|x1**4294967295*x1**3|x1**18446744073709551615*x1**3|\
        x1**18446744073709551615*x1**18446744073709551615*x1**4|\
        x1**9223372036854775808*x1**9223372036854775810|x1**55*x1**201|x1**0*x1**2";
    let mut names: Vec<String> = numbers.split('|').map(|e| format!("x1**{e}")).collect();
    names.extend(sums.split('|').map(str::to_string));
    for count in [53, 54, 55, 64, 256, 258, 300] {
        names.push(vec!["x1"; count].join("*"));
    }
    let mut cases = Vec::new();
    for name in &names {
        cases.push(names_alone(1, Marks::NONE, std::slice::from_ref(name)));
    }
    // The same as the second of two variables, behind a first name.
    for name in names.iter().step_by(3) {
        let second = format!("x1**2*{}", name.replace('1', "2"));
        cases.push(names_alone(2, Marks::NONE, &["x1*x2".to_string(), second]));
    }
    let tallest = |last: u64| {
        let powers = (1..=VARIABLES).map(|i| match i {
            VARIABLES => format!("x{i}**{last}"),
            _ => format!("x{i}**54"),
        });
        powers.collect::<Vec<_>>().join("*")
    };
    cases.extend([54, 55].map(|last| names_alone(6, Marks::NONE, &[tallest(last)])));
    // A derivative in which the exponent counts.
    for exponent in [2, 53, 54] {
        for shown in [exponent - 1, exponent, exponent + 1] {
            let text = format!("{HEADING}w0 = x1**{exponent}\n\nx1' = x1\nw0' = {shown}*w0\n");
            cases.push(Case::read(1, bytes_of("x1' = x1"), text.into_bytes()));
        }
    }
    cases
}

/// Digits behind x on both sides of those that every n has, in a name and in a term;
/// digits behind w likewise, in a name line, in a term and on the left.
fn unknown_names() -> Vec<Case> {
    let mut cases = Vec::new();
    for n in 1..=VARIABLES {
        for digit in [0, 1, n, n + 1, 7, 9] {
            let mut named = names_alone(n, Marks::NONE, &[format!("x{digit}*x1")]);
            let mut page = Page::of(&at_rest(n, Marks::NONE), &[]);
            page.rows[n - 1].terms = vec![format!("x{digit}"), format!("-x{digit}")];
            let in_a_term = still(n, &String::from_utf8(page.write()).expect("ASCII"));
            // With a signal, which is known too.
            if digit % 2 == 0 && n > 1 {
                named = named.marked(Marks::of([n]));
            }
            cases.extend([named, in_a_term]);
        }
    }
    for size in 0..=CARDS {
        let names: Vec<String> = (0..size).map(|j| format!("x1**{}", j + 2)).collect();
        let page = |term: &str| {
            let mut page = Page::of(&at_rest(1, Marks::NONE), &vec![Monomial::ONE; size]);
            page.names = names.clone();
            page.rows[0].terms = vec![term.to_string(), format!("-{term}")];
            String::from_utf8(page.write()).expect("ASCII")
        };
        for digit in [0, size.saturating_sub(1), size] {
            cases.push(still(1, &page(&format!("w{digit}"))));
            cases.push(still(1, &page(&format!("2*x1*w{digit}"))));
        }
        cases.push(still(1, &page("w9")));
        cases.push(still(1, &page("x1*w")));
        let known = page("x1");
        for digit in [size.saturating_sub(2), size] {
            if size > 0 {
                let last = size - 1;
                cases.push(still(
                    1,
                    &known.replace(&format!("w{last} ="), &format!("w{digit} =")),
                ));
                cases.push(still(
                    1,
                    &known.replace(&format!("w{last}'"), &format!("w{digit}'")),
                ));
            }
        }
    }
    cases
}

/// Lines that are missing, twice there, or in another place; a line for a signal.
fn lines_out_of_place() -> Vec<Case> {
    let mut cases = Vec::new();
    for (listing, case) in [
        (EXAMPLE_LISTING, example as fn(&str) -> Case),
        (SIGNAL_LISTING, signal),
    ] {
        let lines: Vec<&str> = listing.split_inclusive('\n').collect();
        for at in 0..lines.len() {
            let mut without = lines.clone();
            without.remove(at);
            cases.push(case(&without.concat()));
            let mut twice = lines.clone();
            twice.insert(at, lines[at]);
            cases.push(case(&twice.concat()));
            for to in at + 1..lines.len() {
                let mut swapped = lines.clone();
                swapped.swap(at, to);
                cases.push(case(&swapped.concat()));
            }
            let more = ["x3' = 0\n", "w1' = 0\n", "\n", "w1 = x1**3\n"];
            for line in [more[at % 4], more[(at + 1) % 4]] {
                let mut longer = lines.clone();
                longer.insert(at, line);
                cases.push(case(&longer.concat()));
            }
        }
    }
    cases
}

/// Code 11 at every line: for one variable, two and six with every number of names,
/// for the others with six, and with signals.
pub fn false_at_every_line() -> Vec<Case> {
    let mut cases = Vec::new();
    let mut all = |n: usize, marks: Marks, variable: usize, least: usize| {
        for size in least..=CARDS {
            let powers = (0..size).map(|j| {
                let mut power = Monomial::ONE;
                power.0[variable - 1] = 2 + j as u16;
                power
            });
            let page = Page::of(&at_rest(n, marks), &powers.collect::<Vec<_>>());
            for at in 0..page.rows.len() {
                let mut wrong = page.clone();
                wrong.rows[at].terms = vec!["1".to_string()];
                // Now and then a later one is false too.
                if at % 3 == 1 {
                    let last = wrong.rows.len() - 1;
                    wrong.rows[last].terms = vec![format!("x{variable}")];
                }
                cases.push(Case::read(n as u64, Vec::new(), wrong.write()).marked(marks));
            }
        }
    };
    for n in 1..=VARIABLES {
        let least = if [1, 2, VARIABLES].contains(&n) {
            0
        } else {
            CARDS
        };
        all(n, Marks::NONE, n, least);
    }
    all(4, Marks::of([2, 4]), 3, 0);
    cases
}

/// Each term of two listings changed: its coefficient, its sign, its names; left out
/// or written twice; another one added.
fn false_in_every_way() -> Vec<Case> {
    let mut cases = Vec::new();
    let signal_system = System {
        marks: Marks::of([3]),
        ..System::unmarked(4, terms(SIGNAL))
    };
    let example_system = System::unmarked(2, terms(EXAMPLE));
    let pages = [
        (2, EXAMPLE, example_system, vec!["x1^2", "x2^2"]),
        (4, SIGNAL, signal_system, vec!["x1 x2"]),
    ];
    for (n, text, system, names) in pages {
        let new: Vec<Monomial> = names.iter().map(|name| monomial(name)).collect();
        let page = Page::of(&system, &new);
        let mut push = |page: &Page| {
            let case = Case::read(n, bytes_of(text), page.write());
            cases.push(case.marked(system.marks));
        };
        for at in 0..page.rows.len() {
            for more in ["1", "-x2", "x1*w0", "1000000000*x2*x1"] {
                let mut changed = page.clone();
                changed.rows[at].terms.push(more.to_string());
                push(&changed);
            }
            for place in 0..page.rows[at].terms.len() {
                let term = &page.rows[at].terms[place];
                let (sign, size) = match term.strip_prefix('-') {
                    Some(size) => ("-", size),
                    None => ("", &term[..]),
                };
                let other_sign = if sign == "-" { "" } else { "-" };
                let mut in_its_stead = vec![
                    vec![],
                    vec![term.clone(), term.clone()],
                    vec![format!("{other_sign}{size}")],
                    vec![format!("{sign}1"), format!("{sign}{size}")],
                    vec![format!("{sign}x1")],
                    vec![format!("{sign}3*w0")],
                    vec![term.replace('2', "3")],
                    vec![term.replace("w0", "x1").replace("w1", "x2")],
                ];
                in_its_stead.retain(|terms| terms != &vec![term.clone()]);
                for terms in in_its_stead {
                    let mut changed = page.clone();
                    changed.rows[at].terms.splice(place..=place, terms);
                    push(&changed);
                }
            }
        }
        // Two lines with their right sides exchanged.
        for at in 1..page.rows.len() {
            let mut changed = page.clone();
            let (first, rest) = changed.rows.split_at_mut(at);
            std::mem::swap(&mut first[at - 1].terms, &mut rest[0].terms);
            push(&changed);
        }
        // The listing of another system, and this one with other records.
        let other = text.replacen("x1^", "2 x1^", 1);
        let case = Case::read(n, bytes_of(&other), page.write());
        cases.push(case.marked(system.marks));
        let fewer = bytes_of(text)[TERM_BYTES..].to_vec();
        cases.push(Case::read(n, fewer, page.write()).marked(system.marks));
    }
    // A monomial that is a product of no two names cannot be there.
    for (text, names) in [
        ("x1' = x1^4", &["x1^2"][..]),
        ("x1' = x1^4 + x1^3", &["x1^3"]),
        ("x1' = x1^3", &[]),
        ("x1' = 1", &["x1^4", "x1^9"]),
    ] {
        let new: Vec<Monomial> = names.iter().map(|name| monomial(name)).collect();
        let page = Page::of(&System::unmarked(1, terms(text)), &new);
        cases.push(Case::read(1, bytes_of(text), page.write()));
    }
    cases
}

/// Names of which one breaks a rule, at every place of six; two names for one
/// monomial, at every two places.
fn names_that_form_no_set() -> Vec<Case> {
    let mut cases = Vec::new();
    let good: Vec<String> = (0..CARDS).map(|j| format!("x1**{}*x2", j + 1)).collect();
    let push = |cases: &mut Vec<Case>, marks, names: &[String]| {
        cases.push(names_alone(3, marks, names));
    };
    for size in 1..=CARDS {
        let (none, third) = (Marks::NONE, Marks::of([3]));
        push(&mut cases, third, &good[..size]);
        for at in 0..size {
            // A place of a smaller set by turns, and every place of the largest.
            if size < CARDS && at != size / 2 {
                continue;
            }
            let mut wrong = vec!["x1", "x2**54*x1**55", "x3", "x2*x3", "x2**1", "x1**55"];
            wrong.truncate(if at % 2 == 0 { 4 } else { 6 });
            for wrong in wrong {
                let mut names = good[..size].to_vec();
                names[at] = wrong.to_string();
                push(&mut cases, third, &names);
                if size == CARDS && wrong == "x2*x3" {
                    push(&mut cases, none, &names);
                }
            }
            for again in 0..at {
                let mut names = good[..size].to_vec();
                names[at] = match again % 2 {
                    0 => names[again].clone(),
                    // The same with its variables the other way round.
                    _ => format!("x2*{}", &names[again][..names[again].len() - 3]),
                };
                push(&mut cases, third, &names);
            }
        }
    }
    // All of them wrong; a fault in the lines too.
    let single: Vec<String> = vec!["x1".to_string(); CARDS];
    push(&mut cases, Marks::NONE, &single);
    for names in [
        "w0 = x1\n",
        "w0 = x1**55\n",
        "w0 = x2*x1\n",
        "w0 = x1**2\nw1 = x1*x1\n",
    ] {
        for right in ["0", "1", "x3", "y"] {
            let new: String = (0..names.lines().count())
                .map(|j| format!("w{j}' = 0\n"))
                .collect();
            let text = format!("{HEADING}{names}\nx1' = {right}\n{new}");
            cases.push(still(2, &text).marked(Marks::of([2])));
        }
    }
    cases
}

/// Every limit of a junior kit, with degrees at it and above, at each place of three.
fn junior_kits() -> Vec<Case> {
    let mut cases = Vec::new();
    for limit in Degree::junior() {
        let at = limit.0;
        for name in [
            format!("x1**{at}"),
            format!("x1**{}", at + 1),
            format!("x1**{}*x2", at - 1),
            format!("x2*x1**{at}"),
            format!("x2*x1*x1**{}", at - 1),
        ] {
            cases.push(names_alone(2, Marks::NONE, &[name]).limited(limit));
        }
        for place in 0..3 {
            let mut names = ["x1*x2", "x2*x3", "x1*x3"].map(str::to_string).to_vec();
            names[place] = format!("x3**{}*x2", at);
            cases.push(names_alone(3, Marks::NONE, &names).limited(limit));
            names[place] = format!("x2*x3**{}", at - 1);
            cases.push(names_alone(3, Marks::NONE, &names).limited(limit));
        }
        cases.push(example(EXAMPLE_LISTING).limited(limit));
        cases.push(signal(SIGNAL_LISTING).limited(limit));
    }
    for limit in [
        0,
        1,
        10,
        FULL_DEGREE - 1,
        FULL_DEGREE,
        FULL_DEGREE + 1,
        432,
        (1 << 32) + 2,
    ] {
        cases.push(example(EXAMPLE_LISTING).limited(Degree(limit)));
    }
    cases
}

/// A right listing for variables that never change, of so many bytes from 100 on:
/// what x1 gets it loses.
pub fn of_length(length: usize) -> String {
    let front = |sum: &str| format!("{HEADING}\nx1' = {sum}");
    let mut text = front("10 - 9 - 1");
    if !(length - text.len() - 1).is_multiple_of(2) {
        text = front("20 - 9 - 11");
    }
    // What follows has eight bytes each; what is left goes into larger numbers.
    let rest = length - text.len() - 1;
    let digits = 1 + rest % 8 / 2;
    for index in 0..rest / 8 {
        let number = match index {
            0 => "1".repeat(digits),
            _ => "1".to_string(),
        };
        text += &format!(" + {number} - {number}");
    }
    text + "\n"
}

/// Texts on both sides of the longest, right ones and others; code 10 at and behind
/// the last byte.
fn lengths() -> Vec<Case> {
    let mut cases = Vec::new();
    for length in [
        100,
        101,
        255,
        256,
        257,
        MOST_TEXT - 1,
        MOST_TEXT,
        MOST_TEXT + 1,
    ] {
        cases.push(still(1, &of_length(length)));
    }
    for length in [4_099, 5_000, 8_192] {
        cases.push(still(1, &of_length(length)));
    }
    let longest = of_length(MOST_TEXT);
    let cut = &longest[..MOST_TEXT - 1];
    cases.push(still(1, cut));
    cases.push(still(1, &format!("{cut} ")));
    cases.push(still(1, &format!("{cut} +")));
    cases.push(still(1, &longest.replace("' = 10", "' = 11")));
    cases.push(still(1, &longest.replace("Introduced", "introduced")));
    cases.push(still(1, &format!("{}{}", of_length(4_095), "\n")));
    cases.push(still(1, &format!("{}{}", of_length(4_096), "\n")));
    // An exponent and a coefficient of as many digits.
    for length in [MOST_TEXT, MOST_TEXT + 1] {
        let name = |digits: usize| {
            format!(
                "{HEADING}w0 = x1**{}\n\nx1' = 0\nw0' = 0\n",
                "5".repeat(digits)
            )
        };
        cases.push(still(1, &name(length - name(0).len())));
        let number = |digits: usize| format!("{HEADING}\nx1' = {}\n", "1".repeat(digits));
        cases.push(still(1, &number(length - number(0).len())));
    }
    // The largest sums that a text has: up, and up and down again.
    let up = vec!["1000000000"; 312];
    let sum = |signs: &dyn Fn(usize) -> bool| {
        let mut right = String::new();
        for (index, number) in up.iter().enumerate() {
            right += match (index, signs(index)) {
                (0, true) => "-",
                (0, false) => "",
                (_, true) => " - ",
                (_, false) => " + ",
            };
            right += number;
        }
        format!("{HEADING}\nx1' = {right}\n")
    };
    cases.push(still(1, &sum(&|_| false)));
    cases.push(still(1, &sum(&|_| true)));
    cases.push(still(1, &sum(&|index| index >= 156)));
    cases.push(still(1, &sum(&|index| index < 156)));
    cases.push(still(1, &sum(&|index| index % 2 == 1)));
    cases.push(still(1, &sum(&|index| index >= 155)));
    // Records that are refused beside a text that is too long, and not.
    for text in [of_length(MOST_TEXT), of_length(MOST_TEXT + 1)] {
        for system in ["x1' = x1 + x1", "x1' = x1^10", "x1' = 1; x2' = 1"] {
            cases.push(Case::read(1, bytes_of(system), text.clone().into_bytes()));
        }
    }
    // Bytes that are no text at all.
    for length in [0, 1, MOST_TEXT, MOST_TEXT + 1] {
        cases.push(still(1, &"\0".repeat(length)));
    }
    cases
}

/// What can be wrong with a case, in the sequence of the checks; a text that is too
/// long by itself.
const FAULTS: usize = 7;

/// The cube's listing with these faults: setting, length of the terms, a record's
/// rule, a repeated record, the text, the names, a line.
fn with_faults(faults: [bool; FAULTS], setting: usize) -> Case {
    let [bad_setting, bad_length, bad_term, twice, unreadable, no_set, false_line] = faults;
    let mut records = bytes_of("x1' = x1^3; x2' = 2 x1");
    if twice {
        records.extend_from_within(..TERM_BYTES);
    }
    if bad_term {
        records[1] = 1;
    }
    if bad_length {
        records.pop();
    }
    let name = if no_set { "x1**55" } else { "x1**2" };
    let right = if false_line { "3*x1" } else { "2*x1" };
    let sign = if unreadable { "^" } else { "**" };
    let text = format!("{HEADING}w0 = {name}\n\nx1' = x1*w0\nx2' = {right}\nw0' = 2*w0{sign}2\n");
    let case = Case::read(2, records, text.into_bytes());
    match (bad_setting, setting % 4) {
        (false, _) => case,
        (true, 0) => Case { n: 7, ..case },
        (true, 1) => Case { n: 0, ..case },
        (true, 2) => case.marked(Marks(1 << 2)),
        (true, _) => case.limited(Degree(10)),
    }
}

/// Every choice of faults; and a text that is too long beside each one.
pub fn every_sequence_of_checks() -> Vec<Case> {
    let mut cases = Vec::new();
    for bits in 0..1_usize << FAULTS {
        let faults = std::array::from_fn(|fault| bits >> fault & 1 == 1);
        let case = with_faults(faults, bits / 2);
        // The text of one that is too long is no longer written.
        if bits.count_ones() <= 1 || bits + 1 == 1 << FAULTS {
            let mut long = case.clone();
            long.given.resize(MOST_TEXT + 1, b'\n');
            cases.push(long);
        }
        cases.push(case);
    }
    cases
}

/// Settings and records that are refused, each beside a right listing and beside an
/// empty text.
fn refused_settings_and_records() -> Vec<Case> {
    let mut cases = Vec::new();
    let both = |case: Case| {
        let empty = Case {
            given: Vec::new(),
            ..case.clone()
        };
        [case, empty]
    };
    let right = example(EXAMPLE_LISTING);
    for n in [0, 1, 3, 6, 7, 8, 256, 258, (1 << 32) + 2, u64::MAX] {
        cases.extend(both(Case { n, ..right.clone() }));
    }
    for marks in [1, 2, 3, 4, 8, 1 << 6, 1 << 32, 1 << 63, u64::MAX] {
        cases.extend(both(right.clone().marked(Marks(marks))));
    }
    for length in [1, 11, 13, 47, 49, MOST_TERMS_BYTES - 1] {
        let mut terms = right.terms.clone();
        terms.resize(length, 0);
        cases.extend(both(Case {
            terms,
            ..right.clone()
        }));
    }
    for (at, byte) in [
        (0, 0),
        (0, 3),
        (1, 1),
        (2, 10),
        (4, 1),
        (8, 0),
        (11, 1),
        (12, 9),
        (36, 0),
        (47, 128),
    ] {
        let mut terms = right.terms.clone();
        terms[at] = byte;
        cases.extend(both(Case {
            terms,
            ..right.clone()
        }));
    }
    for place in 1..4 {
        let mut terms = right.terms.clone();
        terms.copy_within(..TERM_BYTES, place * TERM_BYTES);
        cases.extend(both(Case {
            terms,
            ..right.clone()
        }));
    }
    // As many records as there may be, and one more.
    for count in [32, 33, 34] {
        let terms = crate::rows::different_records(count);
        cases.extend(both(Case {
            terms,
            ..right.clone()
        }));
    }
    cases
}

#[cfg(test)]
mod tests {
    use super::*;
    use std::collections::BTreeMap;

    fn numbers(case: &Case) -> [u64; 5] {
        case.answer().0.numbers()
    }

    #[test]
    fn right_listings_are_right() {
        for case in right_listings() {
            let (reply, _) = case.answer();
            let lines = case.given.split(|&byte| byte == b'\n');
            let names = lines.take_while(|line| !line.is_empty()).count() - 1;
            let text = String::from_utf8_lossy(&case.given);
            assert_eq!(reply.numbers(), [0, names as u64, 0, 0, 0], "{text}");
        }
    }

    #[test]
    fn texts_have_the_length_that_is_asked_for() {
        for length in (100..140).chain([255, 4_095, 4_096, 4_097, 8_192]) {
            let text = of_length(length);
            assert_eq!(text.len(), length);
            let code = if length <= MOST_TEXT { 0 } else { 2 };
            assert_eq!(numbers(&still(1, &text)), [code, 0, 0, 0, 0]);
        }
    }

    /// With k names derivative line number i is line k + 2 + i.
    #[test]
    fn code_11_is_met_at_every_line() {
        let mut places: BTreeMap<(u64, u64), Vec<u64>> = BTreeMap::new();
        for case in false_at_every_line() {
            let [code, zeros @ .., place] = numbers(&case);
            assert_eq!((code, zeros), (11, [0; 3]));
            let names = case
                .given
                .split(|&b| b == b'\n')
                .position(|line| line.is_empty());
            let names = names.expect("a blank line") as u64 - 1;
            if case.marks == 0 {
                places.entry((case.n, names)).or_default().push(place);
            }
        }
        assert_eq!(places.len(), 3 * (CARDS + 1) + 3);
        for ((n, names), places) in places {
            assert_eq!(
                places,
                (names + 3..=names + 2 + n + names).collect::<Vec<_>>()
            );
        }
    }

    /// Codes in the sequence of the checks; of two faulty records the first decides.
    #[test]
    fn the_checks_keep_their_sequence() {
        for case in every_sequence_of_checks() {
            let long = case.given.len() > MOST_TEXT;
            let faults = (0..1_usize << FAULTS)
                .map(|bits| std::array::from_fn::<bool, FAULTS, _>(|fault| bits >> fault & 1 == 1));
            let mut texts = faults.enumerate().filter(|(bits, faults)| {
                let mut other = with_faults(*faults, bits / 2);
                if long {
                    other.given.resize(MOST_TEXT + 1, b'\n');
                }
                other == case
            });
            let (_, faults) = texts.next().expect("its faults");
            let codes = [1, 2, 3, 4, 10, 8, 11];
            let first = codes.into_iter().zip(faults).find(|(_, fault)| *fault);
            let mut code = first.map_or(0, |(code, _)| code);
            if long && code != 1 {
                code = 2;
            }
            assert_eq!(numbers(&case)[0], code, "{faults:?}");
        }
    }

    #[test]
    fn every_code_of_reading_is_met() {
        let mut codes: BTreeMap<u64, usize> = BTreeMap::new();
        for case in rows() {
            let (reply, set) = case.answer();
            assert!(reply.code == 0 || set.iter().all(|&byte| byte == 0));
            *codes.entry(reply.code).or_default() += 1;
        }
        let met: Vec<u64> = codes.keys().copied().collect();
        assert_eq!(met, [0, 1, 2, 3, 4, 8, 10, 11]);
        assert!(codes.values().all(|&count| count >= 10), "{codes:?}");
    }
}
