//! What makes one text different from another: where it stops being readable, why
//! its names form no set, how a line is false, and where a hasty way of reading a
//! true one would go astray.

use crate::batch::Case;
use crate::listing::{read, Line, Listing, Product, Unreadable};
use crate::monomial::Monomial;
use crate::panel::{MOST_LISTED_COEFFICIENT, MOST_SET_EXPONENT, MOST_TEXT, TERM_BYTES};
use crate::reading::{first_false, is_true, multiplied_out, named, set_of_names};
use crate::records::{read_terms, set_faults, write_places};
use crate::system::System;
use std::collections::BTreeSet;

/// The part of a text that a byte is in, by the lines before it.
fn part(text: &[u8], place: usize) -> &'static str {
    let before = &text[..place - 1];
    let lines: Vec<&[u8]> = before.split(|&byte| byte == b'\n').collect();
    let (last, whole) = lines.split_last().expect("a line");
    let is_behind_blank = whole.iter().any(|line| line.is_empty());
    match (whole.len(), is_behind_blank, last.first()) {
        (0, ..) => "the heading",
        (_, true, None) => "the first byte of a derivative line, or what is behind them",
        (_, true, _) => "a derivative line",
        (_, false, None) => "the first byte of a name line or the blank one",
        (_, false, _) => "a name line",
    }
}

/// What kind of byte is not readable there.
fn kind(text: &[u8], place: usize) -> String {
    match text.get(place - 1) {
        None => "the end".to_string(),
        Some(b'\n') => "a newline".to_string(),
        Some(b' ') => "a space".to_string(),
        Some(b'0') => "a zero".to_string(),
        Some(b'1'..=b'9') => "a digit".to_string(),
        Some(b'a'..=b'z' | b'A'..=b'Z') => "a letter".to_string(),
        Some(byte @ 33..=126) => format!("{}", *byte as char),
        Some(_) => "another byte".to_string(),
    }
}

/// The rules that the names break.
fn broken_names(case: &Case, listing: &Listing) -> Vec<String> {
    let Some(mut members) = named(listing) else {
        return vec![format!("exponent above {MOST_SET_EXPONENT}")];
    };
    members.sort();
    let faults = set_faults(case.setting(), &write_places(&members));
    faults.iter().map(|fault| fault.to_string()).collect()
}

/// The codes of the refusals that are about the text alone, each rule by itself.
/// The setting's variables are in range.
pub fn faults(case: &Case) -> BTreeSet<u64> {
    let setting = case.setting();
    let Ok(listing) = read(setting, &case.given) else {
        return BTreeSet::from([10]);
    };
    let mut codes = BTreeSet::new();
    let names = named(&listing);
    let set = names
        .as_ref()
        .and_then(|names| set_of_names(setting, names));
    if set.is_none() {
        codes.insert(8);
    }
    let whole = case.terms.len() / TERM_BYTES * TERM_BYTES;
    let system = read_terms(setting, &case.terms[..whole]);
    if let (Some(names), Ok(system)) = (names, system) {
        if first_false(&system, &names, &listing).is_some() {
            codes.insert(11);
        }
    }
    codes
}

/// What a case that is not refused before its text is read is an example of.
pub fn facts(case: &Case) -> Vec<String> {
    let text = &case.given;
    let listing = match read(case.setting(), text) {
        Ok(listing) => listing,
        Err(Unreadable(place)) => {
            let (part, kind) = (part(text, place), kind(text, place));
            return vec![format!("unreadable in {part}: {kind}")];
        }
    };
    let system = read_terms(case.setting(), &case.terms).expect("the records are taken");
    let broken = broken_names(case, &listing);
    if !broken.is_empty() {
        return match &broken[..] {
            [one] => vec![format!("no set: {one}")],
            _ => vec!["no set: several rules broken".to_string()],
        };
    }
    let names = named(&listing).expect("they form a set");
    let falsehood = |line: &Line| falsehood(&system, &names, line);
    match listing.lines.iter().find_map(falsehood) {
        Some(name) => vec![name.to_string()],
        None => truths(&system, &names, &listing, text),
    }
}

/// How a line is false, if it is.
fn falsehood(system: &System, names: &[Monomial], line: &Line) -> Option<&'static str> {
    if is_true(system, names, line) {
        return None;
    }
    let said = multiplied_out(names, line);
    let left = Line {
        left: line.left,
        terms: vec![Product {
            coefficient: 1,
            names: vec![line.left],
        }],
    };
    let left = multiplied_out(names, &left);
    let (&left, _) = left.first_key_value().expect("the left side");
    let derivative = system.derivative(left);
    let missing = derivative.keys().any(|m| !said.contains_key(m));
    let extra = said.keys().any(|m| !derivative.contains_key(m));
    let negated = said.len() == derivative.len()
        && derivative
            .iter()
            .all(|(m, &c)| said.get(m) == Some(&i128::from(-c)));
    Some(match (missing, extra) {
        (true, true) => "false line: another monomial",
        (true, false) => "false line: a monomial is missing",
        (false, true) => "false line: a monomial too many",
        (false, false) if negated => "false line: every sign is wrong",
        (false, false) => "false line: another coefficient",
    })
}

/// What a right listing is an example of.
fn truths(system: &System, names: &[Monomial], listing: &Listing, text: &[u8]) -> Vec<String> {
    let ascending = names.windows(2).all(|two| two[0] < two[1]);
    let mut facts = vec![
        (!ascending, "names out of order"),
        (text.len() == MOST_TEXT, "as long as a text may be"),
        (listing.lines.is_empty(), "no derivative line"),
        (system.terms.is_empty(), "no records"),
    ];
    for line in &listing.lines {
        let said = multiplied_out(names, line);
        let mut partial = 0_i128;
        let mut most = 0;
        for term in &line.terms {
            partial += term.coefficient;
            most = most.max(partial.abs());
        }
        let has_largest = |term: &Product| term.coefficient.abs() == MOST_LISTED_COEFFICIENT;
        let squares = |term: &Product| term.names.len() == 2 && term.names[0] == term.names[1];
        facts.extend([
            (line.terms.is_empty(), "a lone 0"),
            (line.terms.len() > said.len(), "like products"),
            (
                said.is_empty() && !line.terms.is_empty(),
                "products that cancel",
            ),
            (
                line.terms.iter().any(has_largest),
                "the largest coefficient",
            ),
            (line.terms.iter().any(squares), "a square"),
            (line.terms.iter().any(|t| t.names.is_empty()), "a constant"),
            (most > i128::from(i32::MAX), "a sum beyond 32 bits"),
        ]);
    }
    let holding: BTreeSet<&str> = facts
        .into_iter()
        .filter(|(holds, _)| *holds)
        .map(|(_, name)| name)
        .collect();
    holding
        .iter()
        .map(|name| format!("right: {name}"))
        .collect()
}

#[cfg(test)]
mod tests {
    use super::*;
    use crate::marks::Marks;
    use crate::rows::bytes_of;

    fn facts_of(system: &str, text: &str) -> Vec<String> {
        facts(&Case::read(1, bytes_of(system), text.as_bytes().to_vec()))
    }

    #[test]
    fn parts_of_a_text_are_recognised() {
        let heading = "Introduced variables:\n";
        for (rest, fact) in [
            (
                "",
                "the first byte of a name line or the blank one: the end",
            ),
            ("w1", "a name line: a digit"),
            ("w0 = x1\r\n", "a name line: another byte"),
            (
                "\nw",
                "the first byte of a derivative line, or what is behind them: a letter",
            ),
            ("\nx1' = x1^2\n", "a derivative line: ^"),
            ("\nx1' = x1*\n", "a derivative line: a newline"),
            (
                "\nx1' = 0\n ",
                "the first byte of a derivative line, or what is behind them: a space",
            ),
        ] {
            let text = format!("{heading}{rest}");
            assert_eq!(facts_of("", &text), [format!("unreadable in {fact}")]);
        }
        let whole = facts_of("", "Introduced  variables:\n");
        assert_eq!(whole, ["unreadable in the heading: a space"]);
    }

    #[test]
    fn false_and_right_lines_are_told_apart() {
        let line = |right: &str| format!("Introduced variables:\n\nx1' = {right}\n");
        for (right, fact) in [
            ("0", "false line: a monomial is missing"),
            ("-x1", "false line: every sign is wrong"),
            ("2*x1", "false line: another coefficient"),
            ("x1 + 1", "false line: a monomial too many"),
            ("x1**2", "false line: another monomial"),
        ] {
            assert_eq!(facts_of("x1' = x1", &line(right)), [fact]);
        }
        let facts = facts_of("x1' = x1", &line("1000000000*x1 - 999999999*x1"));
        assert_eq!(
            facts,
            ["right: like products", "right: the largest coefficient"]
        );
        assert_eq!(
            facts_of("", &line("0")),
            ["right: a lone 0", "right: no records"]
        );
    }

    #[test]
    fn every_fault_of_a_text_is_named() {
        let text = "Introduced variables:\nw0 = x1\n\nx1' = 0\nw0' = 0\n";
        let case = Case::read(1, bytes_of("x1' = 1"), text.as_bytes().to_vec());
        assert_eq!(faults(&case), BTreeSet::from([8, 11]));
        assert_eq!(facts(&case), ["no set: single variable"]);
        assert_eq!(faults(&case.marked(Marks(1))), BTreeSet::from([10]));
    }
}
