//! Rows of reading, worked by hand from document 02, [7] and docs/LISTING.md; places
//! by every readable text of a few bytes; lines by the values that they have.

use crate::batch::Case;
use crate::degree::Degree;
use crate::listing::{read, Line, Name, Unreadable};
use crate::listing_rows::{EXAMPLE, EXAMPLE_LISTING, SIGNAL, SIGNAL_LISTING};
use crate::maker::stored_listings;
use crate::marks::Marks;
use crate::page::Page;
use crate::panel::{MOST_TEXT, MOST_WIRES_BYTES, SET_BYTES, VARIABLES};
use crate::random::Random;
use crate::reading::named;
use crate::records::{read_terms, write_terms};
use crate::rows::{bytes_of, set_of};
use crate::setting::Setting;
use crate::system::System;
use crate::systems::{self, Kit, Outside};
use std::collections::BTreeSet;

fn case(n: u64, system: &str, text: &str) -> Case {
    Case::read(n, bytes_of(system), text.as_bytes().to_vec())
}

/// A row: its numbers, and the set that comes back.
fn row(case: Case, numbers: [u64; 5], set: &[&str]) {
    let text = String::from_utf8_lossy(&case.given).to_string();
    let (reply, bytes) = case.answer();
    assert_eq!(reply.numbers(), numbers, "{text}");
    assert_eq!(bytes, set_of(set), "{text}");
}

fn refused(case: Case, code: u64, place: usize) {
    row(case, [code, 0, 0, 0, place as u64], &[]);
}

/// A text of x1 alone.
fn one(system: &str, right: &str) -> Case {
    case(
        1,
        system,
        &format!("Introduced variables:\n\nx1' = {right}\n"),
    )
}

/// The heading has 22 bytes, each name line 11, the blank line 1; `x1' = ` has six.
const BEFORE_RIGHT: usize = 22 + 1 + 6;

#[test]
fn the_example_of_document_000() {
    row(
        case(2, EXAMPLE, EXAMPLE_LISTING),
        [0, 2, 0, 0, 0],
        &["x2^2", "x1^2"],
    );
    // 22 + 11 + 11 + 1 + 17 + 14 + 24 + 21 bytes.
    assert_eq!(EXAMPLE_LISTING.len(), 121);
    refused(case(2, EXAMPLE, EXAMPLE_LISTING.trim_end()), 10, 121);
    refused(case(2, EXAMPLE, &EXAMPLE_LISTING[..119]), 10, 120);
    refused(case(2, EXAMPLE, &format!("{EXAMPLE_LISTING}\n")), 10, 122);
    refused(case(2, EXAMPLE, ""), 10, 1);
    // With one variable the 2 of x2 in the second name line is the first unknown.
    let squares = "x1' = x1^3";
    refused(case(1, squares, EXAMPLE_LISTING), 10, 22 + 11 + 7);
    // With three the line of x3 is missing: w0 stands in its place.
    refused(case(3, EXAMPLE, EXAMPLE_LISTING), 10, 45 + 17 + 14 + 1);
    // A junior kit of 2 has both squares.
    let junior = |limit| case(2, EXAMPLE, EXAMPLE_LISTING).limited(Degree(limit));
    row(junior(2), [0, 2, 0, 0, 0], &["x2^2", "x1^2"]);
    refused(junior(1), 1, 0);
}

/// (x1 x2)' is x1' x2, that is x1^2 x2^2 - 2 x2 x3: w0**2 and a signal.
#[test]
fn a_signal_may_stand_in_a_term_and_has_no_line() {
    let marked = |text: &str| case(4, SIGNAL, text).marked(Marks::of([3]));
    row(marked(SIGNAL_LISTING), [0, 1, 0, 0, 0], &["x1 x2"]);
    let with_line = SIGNAL_LISTING.replace("x4'", "x3' = 0\nx4'");
    // 22 + 11 + 1, then 19 and 8 for the lines of x1 and x2: the 3 of x3 is next but one.
    refused(marked(&with_line), 10, 34 + 19 + 8 + 2);
    let named = SIGNAL_LISTING.replace("w0 = x1*x2", "w0 = x1*x3");
    refused(marked(&named), 8, 0);
    // All are signals: the heading and the blank line are all.
    let all = |text: &str| case(2, "", text).marked(Marks::of([1, 2]));
    row(all("Introduced variables:\n\n"), [0, 0, 0, 0, 0], &[]);
    refused(all("Introduced variables:\n"), 10, 23);
    refused(all("Introduced variables:\n\nx1' = 0\n"), 10, 24);
    refused(all("Introduced variables:\nw0 = x1**2\n\nw0' = 0\n"), 8, 0);
}

#[test]
fn names_that_are_not_known() {
    // x3 with two variables, at the digit: 45 + 17 bytes, and `x2' = x1 + x`.
    let unknown = EXAMPLE_LISTING.replace("x1 + x2", "x1 + x3");
    refused(case(2, EXAMPLE, &unknown), 10, 45 + 17 + 13);
    // w2 with two names, at the digit; without names not even a w is readable.
    let unknown = EXAMPLE_LISTING.replace("2*w1\n", "2*w2\n");
    refused(case(2, EXAMPLE, &unknown), 10, 120);
    refused(one("", "w0 - w0"), 10, BEFORE_RIGHT + 1);
    refused(one("", "x1*w0"), 10, BEFORE_RIGHT + 4);
    // A seventh name line is refused at its w: six lines of 11 bytes are before it.
    let mut names = (0..6)
        .map(|j| format!("w{j} = x1**{}\n", j + 2))
        .collect::<String>();
    let six = format!("Introduced variables:\n{names}");
    refused(case(1, "", &six), 10, 22 + 66 + 1);
    names += "w6 = x1**8\n";
    let seven = format!("Introduced variables:\n{names}\n");
    refused(case(1, "", &seven), 10, 22 + 66 + 1);
    // Names count from w0.
    refused(case(1, "", "Introduced variables:\nw1 = x1**2\n"), 10, 24);
}

#[test]
fn terms_have_two_names_at_most() {
    let three = EXAMPLE_LISTING.replace("2*x1*x2", "2*x1*x2*x1");
    // 45 + 17 + 14 + 24 bytes, and `w1' = 2*x1*x2`: the third star.
    refused(case(2, EXAMPLE, &three), 10, 100 + 6 + 7 + 1);
    refused(one("", "x1**2*x1"), 10, BEFORE_RIGHT + 6);
    refused(one("", "x1*x1**2"), 10, BEFORE_RIGHT + 6);
    refused(one("", "x1**3"), 10, BEFORE_RIGHT + 5);
    refused(one("", "x1**1"), 10, BEFORE_RIGHT + 5);
    refused(one("", "x1**22"), 10, BEFORE_RIGHT + 6);
    row(one("x1' = 2 x1^2", "x1**2 + x1*x1"), [0; 5], &[]);
}

#[test]
fn coefficients_up_to_a_thousand_million() {
    row(one("x1' = x1", "1000000000*x1 - 999999999*x1"), [0; 5], &[]);
    refused(
        one("x1' = x1", "1000000001*x1 - 1000000000*x1"),
        10,
        BEFORE_RIGHT + 10,
    );
    refused(one("x1' = x1", "2000000000*x1"), 10, BEFORE_RIGHT + 10);
    refused(one("x1' = x1", "10000000000*x1"), 10, BEFORE_RIGHT + 11);
    refused(one("x1' = x1", "0*x1"), 10, BEFORE_RIGHT + 2);
    refused(one("x1' = x1", "x1 + 0"), 10, BEFORE_RIGHT + 6);
    refused(one("x1' = x1", "-0"), 10, BEFORE_RIGHT + 2);
    refused(one("x1' = x1", "01*x1"), 10, BEFORE_RIGHT + 2);
    row(one("x1' = x1", "1*x1"), [0; 5], &[]);
    // 4 times the largest and 294967296 is 2 to the power of 32.
    let sum = "1000000000 + 1000000000 + 1000000000 + 1000000000 + 294967296";
    refused(one("", sum), 11, 3);
    row(
        one("", &format!("{sum} - {}", sum.replace('+', "-"))),
        [0; 5],
        &[],
    );
}

#[test]
fn zero_derivatives() {
    row(one("", "0"), [0; 5], &[]);
    row(one("", "x1 - x1"), [0; 5], &[]);
    row(one("", "-x1**2 + x1*x1"), [0; 5], &[]);
    refused(one("", ""), 10, BEFORE_RIGHT + 1);
    refused(one("", "00"), 10, BEFORE_RIGHT + 2);
    refused(one("x1' = 1", "0"), 11, 3);
    refused(one("", "1"), 11, 3);
}

/// Without records every line is 0, and only the name matters.
#[test]
fn names_and_the_set_that_they_form() {
    let named = |name: &str| {
        let text = format!("Introduced variables:\nw0 = {name}\n\nx1' = 0\nx2' = 0\nw0' = 0\n");
        case(2, "", &text)
    };
    let good = |name: &str, member: &str| row(named(name), [0, 1, 0, 0, 0], &[member]);
    good("x1**54", "x1^54");
    good("x2*x1", "x1 x2");
    good("x1*x1", "x1^2");
    good("x1**1*x2**1", "x1 x2");
    good("x1**27*x2*x1**27", "x1^54 x2");
    for name in [
        "x1**55",
        "x1**54*x1",
        "x1",
        "x2**1",
        "x1**18446744073709551618",
    ] {
        refused(named(name), 8, 0);
    }
    // 22 bytes and `w0 = x1**`.
    for name in ["x1**0", "x1**02", "x1**", "x1***2"] {
        refused(named(name), 10, 22 + 9 + 1);
    }
    refused(named("1"), 10, 22 + 5 + 1);
    refused(named("x0"), 10, 22 + 6 + 1);
    let two = |first: &str, second: &str| {
        let names = format!("w0 = {first}\nw1 = {second}\n");
        let text = format!("Introduced variables:\n{names}\nx1' = 0\nx2' = 0\nw0' = 0\nw1' = 0\n");
        case(2, "", &text)
    };
    row(two("x1**2", "x2**2"), [0, 2, 0, 0, 0], &["x2^2", "x1^2"]);
    row(two("x2**2", "x1**2"), [0, 2, 0, 0, 0], &["x2^2", "x1^2"]);
    refused(two("x1*x2", "x2*x1"), 8, 0);
    // A junior kit of 3: all exponents count together.
    row(
        two("x1**3", "x1*x2**2").limited(Degree(3)),
        [0, 2, 0, 0, 0],
        &["x1 x2^2", "x1^3"],
    );
    refused(two("x1**3", "x1**2*x2**2").limited(Degree(3)), 8, 0);
}

/// w1 stands for what its own line names, not for the second of the set.
#[test]
fn names_keep_their_meaning() {
    let system = "x1' = x2^3";
    let text =
        "Introduced variables:\nw0 = x2**3\nw1 = x2**2\n\nx1' = x2*w1\nx2' = 0\nw0' = 0\nw1' = 0\n";
    row(case(2, system, text), [0, 2, 0, 0, 0], &["x2^2", "x2^3"]);
    let other = text.replace("x2*w1", "x2*w0");
    refused(case(2, system, &other), 11, 5);
    row(
        case(2, system, &text.replace("x2*w1", "w0")),
        [0, 2, 0, 0, 0],
        &["x2^2", "x2^3"],
    );
}

/// Document 000's example has its derivative lines in lines 5 to 8.
#[test]
fn false_lines_by_their_line_in_the_text() {
    let changed = |from: &str, to: &str| case(2, EXAMPLE, &EXAMPLE_LISTING.replacen(from, to, 1));
    refused(changed("x1*w0 + w1", "x1*w0 - w1"), 11, 5);
    refused(changed("x1 + x2", "x1"), 11, 6);
    refused(changed("2*w0**2", "3*w0**2"), 11, 7);
    refused(changed("2*x1*x2 + 2*w1", "2*x1*x2 + 2*w1 + 1"), 11, 8);
    refused(changed("2*x1*x2 + 2*w1", "2*x1 + 2*w1"), 11, 8);
    row(
        changed("x1 + x2", "x2 + x1"),
        [0, 2, 0, 0, 0],
        &["x2^2", "x1^2"],
    );
    row(
        changed("x1*w0 + w1", "w0*x1 + x2**2"),
        [0, 2, 0, 0, 0],
        &["x2^2", "x1^2"],
    );
    row(
        changed("2*w0**2", "w0*w0 + w0**2"),
        [0, 2, 0, 0, 0],
        &["x2^2", "x1^2"],
    );
}

#[test]
fn the_checks_come_one_after_the_other() {
    let bad_text = "Introduced";
    refused(
        Case {
            n: 7,
            ..case(1, "x1' = x1^10", bad_text)
        },
        1,
        0,
    );
    let long = "\n".repeat(MOST_TEXT + 1);
    refused(case(1, "x1' = x1^10", &long), 2, 0);
    refused(case(1, "", &long[..MOST_TEXT]), 10, 1);
    refused(case(1, "x1' = x1^10", bad_text), 3, 1);
    refused(case(1, "x1' = x1 + x1", bad_text), 4, 2);
    // Unreadable in its last byte, a single variable, and a false line.
    let text = "Introduced variables:\nw0 = x1\n\nx1' = 1\nw0' = 1\n\n";
    refused(case(1, "", text), 10, text.len());
    refused(case(1, "", text.trim_end_matches('\n')), 10, text.len() - 1);
    refused(case(1, "", &text[..text.len() - 1]), 8, 0);
    refused(
        case(
            1,
            "",
            &text[..text.len() - 1].replace("x1\n\n", "x1**2\n\n"),
        ),
        11,
        4,
    );
}

/// Every sum of up to so many bytes from terms that may stand there, with a newline.
fn all_sums(terms: &[String], most: usize) -> Vec<String> {
    let mut sums = Vec::new();
    let fits = |sum: &String| sum.len() < most;
    let mut open: Vec<String> = Vec::new();
    for term in terms {
        open.extend([term.clone(), format!("-{term}")]);
    }
    open.retain(fits);
    while !open.is_empty() {
        sums.extend(open.iter().cloned());
        let mut longer = Vec::new();
        for sum in &open {
            for term in terms {
                longer.extend([format!("{sum} + {term}"), format!("{sum} - {term}")]);
            }
        }
        longer.retain(fits);
        open = longer;
    }
    sums.push("0".to_string());
    sums.iter().map(|sum| format!("{sum}\n")).collect()
}

/// Every number of up to so many of these digits that has no zero in front.
fn all_numbers(digits: &[char], most: usize) -> Vec<String> {
    let mut numbers = vec![String::new()];
    for at in 0..most {
        let longest: Vec<String> = numbers.iter().filter(|n| n.len() == at).cloned().collect();
        for number in longest {
            let next = digits.iter().filter(|digit| at > 0 || **digit != '0');
            numbers.extend(next.map(|digit| format!("{number}{digit}")));
        }
    }
    numbers.retain(|number| !number.is_empty());
    numbers
}

/// All that stands before some readable end: a text goes on as long as it is here.
fn beginnings(ends: &[String]) -> BTreeSet<&[u8]> {
    let mut beginnings = BTreeSet::new();
    for end in ends {
        let bytes = end.as_bytes();
        beginnings.extend((0..=bytes.len()).map(|length| &bytes[..length]));
    }
    beginnings
}

/// Looks at every text of a few bytes behind a front, with the rest of the text after
/// it where it ends in a newline.
fn every_text(n: usize, front: &str, ends: &[String], alphabet: &[u8], length: usize, rest: &str) {
    let beginnings = beginnings(ends);
    let whole: BTreeSet<&[u8]> = ends.iter().map(String::as_bytes).collect();
    let mut counts = [0, 0];
    for number in 0..alphabet.len().pow(length as u32) {
        let letter = |at: usize| alphabet[number / alphabet.len().pow(at as u32) % alphabet.len()];
        let mut middle: Vec<u8> = (0..length).map(letter).collect();
        if let Some(end) = middle.iter().position(|&byte| byte == b'\n') {
            middle.truncate(end + 1);
        }
        let goes_on = (0..=middle.len()).take_while(|&end| beginnings.contains(&middle[..end]));
        let read_bytes = goes_on.last().expect("the empty text");
        let is_whole = whole.contains(&middle[..]);
        let text = [front.as_bytes(), &middle, rest.as_bytes()].concat();
        let expected = (!is_whole).then_some(Unreadable(front.len() + read_bytes + 1));
        // Behind a text that is cut the rest would be read on.
        let text = match is_whole {
            true => &text[..],
            false => &text[..front.len() + middle.len()],
        };
        let given = read(Setting::full(n, Marks::NONE), text).err();
        assert_eq!(given, expected, "{}", String::from_utf8_lossy(text));
        counts[usize::from(is_whole)] += 1;
    }
    assert!(counts[1] > 20, "{counts:?}");
}

/// A text of five bytes can be ended with three more, so that eight bytes are enough
/// to know what goes on.
#[test]
fn every_right_side_of_five_bytes() {
    let front = "Introduced variables:\nw0 = x1**2\n\nx1' = ";
    let names = ["x1", "w0"].map(str::to_string);
    let mut products = names.to_vec();
    for first in &names {
        products.push(format!("{first}**2"));
        products.extend(names.iter().map(|second| format!("{first}*{second}")));
    }
    let mut terms = all_numbers(&['0', '1', '2'], 7);
    let numbers = terms.clone();
    terms.extend(products.iter().cloned());
    for number in &numbers {
        terms.extend(products.iter().map(|product| format!("{number}*{product}")));
    }
    terms.retain(|term| term.len() < 9);
    let ends = all_sums(&terms, 9);
    every_text(1, front, &ends, b"xw012*-+ \n", 5, "w0' = 0\n");
}

#[test]
fn every_name_of_six_bytes() {
    let front = "Introduced variables:\nw0 = ";
    let mut powers = vec!["x1".to_string(), "x2".to_string()];
    for exponent in all_numbers(&['0', '1', '2', '3'], 5) {
        powers.extend([format!("x1**{exponent}"), format!("x2**{exponent}")]);
    }
    let mut ends = Vec::new();
    let mut open = powers.clone();
    while !open.is_empty() {
        open.retain(|product| product.len() < 10);
        ends.extend(open.iter().map(|product| format!("{product}\n")));
        let longer = open
            .iter()
            .flat_map(|product| powers.iter().map(move |power| format!("{product}*{power}")));
        open = longer.filter(|product| product.len() < 10).collect();
    }
    every_text(
        2,
        front,
        &ends,
        b"x0123*\n",
        6,
        "\nx1' = 0\nx2' = 0\nw0' = 0\n",
    );
}

/// A prime; lines are compared by their values for random numbers below it.
const PRIME: u128 = (1 << 61) - 1;

fn power(base: u128, exponent: u64) -> u128 {
    (0..exponent).fold(1, |product, _| product * base % PRIME)
}

/// A whole number below the prime.
fn residue(number: i128) -> u128 {
    number.rem_euclid(PRIME as i128) as u128
}

/// The panel at one moment: the value of each variable.
type Values = [u128; VARIABLES];

/// The value of x1', x2' and so on.
fn slopes(system: &System, values: &Values) -> Values {
    let mut slopes = [0; VARIABLES];
    for term in &system.terms {
        let powers = term.monomial.0.iter().zip(values);
        let product = powers.fold(1, |p, (&e, &value)| p * power(value, e.into()) % PRIME);
        let slope = &mut slopes[term.equation - 1];
        *slope = (*slope + residue(term.coefficient.into()) * product) % PRIME;
    }
    slopes
}

/// Whether a line's two sides have the same value. The left one is worked out by the
/// rule for powers, one variable at a time.
fn holds(system: &System, names: &[[u64; VARIABLES]], line: &Line, values: &Values) -> bool {
    let exponents = |name: Name| match name {
        Name::Variable(i) => std::array::from_fn(|at| u64::from(at + 1 == i)),
        Name::New(j) => names[j],
    };
    let value = |name: Name| {
        let powers = exponents(name).into_iter().zip(values);
        powers.fold(1, |p, (e, &value)| p * power(value, e) % PRIME)
    };
    let slopes = slopes(system, values);
    let left = exponents(line.left);
    let mut slope = 0;
    for i in (0..VARIABLES).filter(|&i| left[i] > 0) {
        let mut product = u128::from(left[i]) * slopes[i] % PRIME;
        for (at, &value) in values.iter().enumerate() {
            let exponent = left[at] - u64::from(at == i);
            product = product * power(value, exponent) % PRIME;
        }
        slope = (slope + product) % PRIME;
    }
    let term = |coefficient: i128, names: &[Name]| {
        let product = names.iter().fold(1, |p, &name| p * value(name) % PRIME);
        residue(coefficient) * product % PRIME
    };
    let terms = line.terms.iter().map(|t| term(t.coefficient, &t.names));
    slope == terms.fold(0, |sum, term| (sum + term) % PRIME)
}

#[test]
fn true_lines_have_the_values_of_the_derivatives() {
    let mut random = Random::from_seed(41);
    let mut codes = [0, 0];
    for case in stored_listings() {
        let (reply, _) = case.answer();
        if ![0, 11].contains(&reply.code) {
            continue;
        }
        let system = read_terms(case.setting(), &case.terms).unwrap();
        let listing = read(case.setting(), &case.given).unwrap();
        assert!(named(&listing).is_some());
        let values = std::array::from_fn(|_| random.between(1, PRIME as usize - 1) as u128);
        let holds = |line: &Line| holds(&system, &listing.names, line, &values);
        let wrong = listing.lines.iter().position(|line| !holds(line));
        let line = wrong.map_or(0, |index| listing.names.len() + 3 + index);
        assert_eq!(reply.place, line as u64);
        codes[usize::from(reply.code == 11)] += 1;
    }
    assert!(codes.iter().all(|&count| count > 300), "{codes:?}");
}

/// Code 9 is not needed: wiring never says it of a set that reading gives back. And
/// where wiring does not say it, there is a listing that reading takes.
#[test]
fn a_set_has_a_right_listing_exactly_when_it_is_quadratic() {
    for case in stored_listings() {
        let (reply, set) = case.answer();
        if reply.code == 0 {
            let wiring = Case::wire(case.n, case.terms.clone(), set, MOST_WIRES_BYTES);
            let wired = wiring
                .marked(Marks(case.marks))
                .limited(Degree(case.degree))
                .answer()
                .0;
            assert_eq!((wired.code, wired.order), (0, reply.order));
        }
    }
    let mut random = Random::from_seed(42);
    let mut codes = [0, 0];
    for _ in 0..300 {
        let (system, set) = systems::closed(&mut random, Outside::NowAndThen);
        let system = Kit::Full.limit_near(&mut random, system, &set);
        let mut members: Vec<_> = set.iter().copied().collect();
        if random.chance(40) {
            members.pop();
        }
        let set: BTreeSet<_> = members.iter().copied().collect();
        random.shuffle(&mut members);
        let text = Page::of(&system, &members).write();
        if text.len() > MOST_TEXT {
            continue;
        }
        let terms = write_terms(&system.terms);
        let case = Case::read(system.n as u64, terms, text).kit_of(&system);
        let (reply, bytes) = case.answer();
        match system.is_quadratic(&set) {
            true => {
                assert_eq!(reply.numbers(), [0, set.len() as u64, 0, 0, 0]);
                assert_eq!(bytes, crate::records::write_set(&set));
                codes[0] += 1;
            }
            false => {
                assert_eq!(reply.code, 11);
                assert_eq!(bytes, [0; SET_BYTES]);
                codes[1] += 1;
            }
        }
    }
    assert!(codes.iter().all(|&count| count > 30), "{codes:?}");
}
