//! The words for a reply about the desktop tool's listing: whether it is right, and if not, where. The planner judges it;
//! of what its code does not tell, no more is said than is seen in the text.

use crate::algebra::{self, Exponents};
use crate::asking::answer::{Reply, DONE, FALSE, LENGTH, SET, SETTING, TERM, TWICE, UNREADABLE};
use crate::derivative::{derivative, times, Totals};
use crate::panel::{LISTING_BYTES, TERMS};
use crate::saying::numbers::{counted, grouped};
use crate::saying::words::{self, listed, Said, REPEATED};
use crate::saying::{rule, wired};
use crate::typed::listing::{self, Line, Listing};
use crate::typed::pasted::{named, Pasted};
use crate::typed::settings::Settings;
use crate::typed::system::{exponents, System};
use crate::typed::text::{short, text_of, Source};

/// Where the rules of a listing are written out.
const GRAMMAR: &str = "docs/LISTING.md has the grammar.";

pub fn said(reply: &Reply, pasted: &Pasted, settings: &Settings, system: &System, sources: &[Source]) -> Said {
    match reply.code {
        DONE => right(reply).into(),
        LENGTH if system.terms.len() <= TERMS => too_long(pasted).into(),
        SETTING | LENGTH | TERM | TWICE => words::said(reply, settings, system, sources),
        SET => no_set(pasted, settings, system, sources),
        UNREADABLE => unreadable(reply.place as usize, pasted),
        FALSE => false_line(reply.place as usize, pasted, system),
        code => format!("Code {code}, which reading never gives.").into(),
    }
}

/// Where the terms are not too many, it is the listing that is too long.
fn too_long(pasted: &Pasted) -> String {
    let most = grouped(LISTING_BYTES as u64);
    match pasted.is_too_long() {
        true => format!("Refused: the listing has more than {most} bytes, and no longer one is read."),
        false => "Refused: a length is out of range.".into(),
    }
}

/// Which variable each name of a listing is, where an owner's names are others.
pub fn mapping(system: &System) -> Option<String> {
    let number = |(i, own): (usize, &String)| {
        let name = listing::name(system.names.len(), i + 1);
        (name != *own).then(|| format!("{name} is {own}"))
    };
    let names: Vec<String> = system.names.iter().enumerate().filter_map(number).collect();
    let names: Vec<&str> = names.iter().map(String::as_str).collect();
    (!names.is_empty()).then(|| format!("In a listing {}.", listed(&names)))
}

fn right(reply: &Reply) -> String {
    const RIGHT: &str =
        "Right: each derivative line, multiplied out, is the true derivative; each of its terms has at most two names.";
    match reply.order {
        0 => RIGHT.into(),
        _ => format!("{RIGHT}\n{}", wired::UNASKED),
    }
}

/// The listing as it is read here.
fn own(pasted: &Pasted, system: &System) -> Option<Listing> {
    listing::read(&pasted.bytes, system.names.len(), system.marks()).ok()
}

/// The reply has no place, so the name line is looked for here.
fn no_set(pasted: &Pasted, settings: &Settings, system: &System, sources: &[Source]) -> Said {
    const NO_SET: &str = "Refused: the new names form no set";
    let names = own(pasted, system).map_or(Vec::new(), |listing| listing.names);
    for (i, powers) in names.iter().enumerate() {
        let earlier = names[..i].iter().position(|other| other == powers);
        let broken = rule::broken_signal(powers, system, settings.junior())
            .or_else(|| earlier.map(|_| "another name has this product already".into()));
        let line = |i| pasted.line(Listing::name_line(i)).map(|(_, span)| span);
        if let (Some(broken), Some(span)) = (broken, line(i)) {
            let broken = broken.trim_end_matches(rule::LEAVE_OUT);
            let mut places = vec![("", span)];
            places.extend(earlier.and_then(line).map(|earlier| (REPEATED, earlier)));
            let text = short(text_of(sources, span));
            return Said { words: format!("{NO_SET}: line {}, {text}: {broken}.", Listing::name_line(i)), places };
        }
    }
    format!("{NO_SET}.").into()
}

/// The place is that of the first byte where no readable listing goes on.
fn unreadable(place: usize, pasted: &Pasted) -> Said {
    let (line, byte) = pasted.line_of(place);
    let mut words = match pasted.byte(place) {
        Some(stands) => format!(
            "Not readable: no readable listing goes on at byte {place}, which is byte {byte} of line {line}: {}.\n\
             Some readable listing begins with all that stands before it. {GRAMMAR}",
            named(stands)
        ),
        None => format!(
            "Not readable: {}.\nEach readable listing that begins so goes on at byte {byte} of line {line}. {GRAMMAR}",
            match pasted.bytes.len() {
                0 => "the listing is empty".into(),
                length => format!("the listing stops short, after {}", counted(length as u64, "byte")),
            }
        ),
    };
    if pasted.has_numbers(line) {
        words += "\nA number in < > is a byte that is no printable ASCII character.";
    }
    Said { words, places: vec![("", pasted.span(place))] }
}

/// The place is the line of the text, from 1, that is the first false one.
fn false_line(place: usize, pasted: &Pasted, system: &System) -> Said {
    let listing = own(pasted, system);
    let line = listing.as_ref().and_then(|listing| listing.derivative_line(place));
    let of = line.map_or("its name".into(), |line| listing::name(system.names.len(), line.left));
    let mut words =
        format!("False: line {place}, multiplied out, is not the derivative of {of}. It is the first such line.");
    if let Some(Difference { product, listed, derivative, .. }) = difference(place, pasted, system) {
        let names: Vec<String> = (1..=system.names.len()).map(|i| listing::name(system.names.len(), i)).collect();
        let product = algebra::monomial(&names, &product);
        let has = |total: i64| match (total, product.as_str()) {
            (0, "1") => "no constant".into(),
            (0, product) => format!("no {product}"),
            (total, product) => algebra::sum([(total, product)]),
        };
        words += &format!(
            "\nAs worked out here, beside the planner: the line has {}, and the derivative has {}.",
            has(listed),
            has(derivative)
        );
    }
    Said { words, places: pasted.line(place).map(|(_, span)| ("", span)).into_iter().collect() }
}

/// Where a derivative line and the derivative differ: a product, with its total in both.
#[derive(Debug, PartialEq)]
pub struct Difference {
    /// The name of the line.
    pub of: String,
    pub product: Exponents,
    pub listed: i64,
    pub derivative: i64,
}

/// The first product, ascending, in which the line at that place of the text is false. Nothing where none is found.
pub fn difference(place: usize, pasted: &Pasted, system: &System) -> Option<Difference> {
    let listing = own(pasted, system)?;
    let line = listing.derivative_line(place)?;
    let set: Vec<Exponents> = listing.names.iter().map(exponents).collect::<Option<_>>()?;
    let signals = system.signals(&set);
    let listed = multiplied_out(line, &signals)?;
    let derivative = derivative(&system.records().ok()?, signals.get(line.left)?)?;
    let products = listed.keys().chain(derivative.keys());
    let total = |of: &Totals, product: &Exponents| of.get(product).copied().unwrap_or(0);
    let product = *products.filter(|product| total(&listed, product) != total(&derivative, product)).min()?;
    Some(Difference {
        of: listing::name(system.names.len(), line.left),
        product,
        listed: total(&listed, &product),
        derivative: total(&derivative, &product),
    })
}

fn multiplied_out(line: &Line, signals: &[Exponents]) -> Option<Totals> {
    let mut totals = Totals::new();
    for term in &line.terms {
        *totals.entry(times(signals.get(term.a)?, signals.get(term.b)?)?).or_insert(0) += term.coefficient;
    }
    Some(totals)
}

#[cfg(test)]
mod tests {
    use super::*;
    use crate::asking::answer::OF_READING;
    use crate::recorded;
    use crate::typed::listing::tests::EXAMPLE;
    use crate::typed::names::Kind;
    use crate::typed::system::tests::{said as said_to_be, system, system_of, typed, with_signals};
    use crate::typed::text::point;

    const TEXT: &str = "x1' = x1^3 + x2^2, x2' = x1 + x2";

    /// What is said of a reply about a listing, and what is pointed at.
    fn said_with(settings: &Settings, reply: [u64; 5], text: &str, system: &System, listing: &[u8]) -> [String; 2] {
        let [code, order, count, steps, place] = reply;
        let reply = Reply { code, order, count, steps, place };
        let (pasted, source) = Pasted::of(1, "a.txt", listing.to_vec());
        let sources = [&typed(text)[..], &[source]].concat();
        let said = said(&reply, &pasted, settings, system, &sources);
        let pointed = |(words, span): &(&str, _)| format!("{words}{}", point(&sources, *span));
        [said.words, said.places.iter().map(pointed).collect()]
    }

    fn said_of(code: u64, place: u64, listing: &str) -> [String; 2] {
        said_with(&Settings::default(), [code, 0, 0, 0, place], TEXT, &system(TEXT), listing.as_bytes())
    }

    /// What the program and these words say of document 000's listing with a text put in the place of another.
    fn said_of_edit(right: &str, wrong: &str) -> [String; 2] {
        let (listing, system, settings) = (EXAMPLE.replacen(right, wrong, 1), system(TEXT), Settings::default());
        let Reply { code, order, count, steps, place } =
            recorded::reading(&system, &settings, listing.as_bytes()).reply;
        said_with(&settings, [code, order, count, steps, place], TEXT, &system, listing.as_bytes())
    }

    const RIGHT: &str =
        "Right: each derivative line, multiplied out, is the true derivative; each of its terms has at most two names.";

    #[test]
    fn code_0() {
        let words = |order| said_with(&Settings::default(), [0, order, 0, 0, 0], TEXT, &system(TEXT), b"");
        assert_eq!(words(0), [RIGHT.to_string(), String::new()]);
        assert_eq!(words(2), [format!("{RIGHT}\n{}", wired::UNASKED), String::new()]);
        assert_eq!(said_of_edit("x1", "x1"), words(2));
    }

    #[test]
    fn codes_1_to_4_are_said_as_of_a_plan() {
        let words = |code, place, text: &str| {
            let reply = [code, 0, 0, 0, place];
            said_with(&Settings::default(), reply, text, &system(text), EXAMPLE.as_bytes())
        };
        assert_eq!(words(1, 0, TEXT)[0], "Refused: a setting is out of range.");
        assert_eq!(
            words(3, 1, "x' = x^10")[0],
            "Refused: term 1, x^10: the power of x is 10, and the box takes 0 to 9."
        );
        assert!(words(4, 2, "x' = x + x")[0].contains("has this product already; add the two up"));
        let terms = (1..=33).map(|i| i.to_string()).collect::<Vec<_>>().join(" + ");
        assert!(words(2, 0, &format!("x' = {terms}"))[0].starts_with("Refused: 33 terms were typed"));
        let long = "x".repeat(LISTING_BYTES + 1);
        assert_eq!(
            said_of(2, 0, &long)[0],
            "Refused: the listing has more than 4,096 bytes, and no longer one is read."
        );
        assert_eq!(said_of(2, 0, EXAMPLE)[0], "Refused: a length is out of range.");
        let many = format!("x' = {terms}");
        let both = said_with(&Settings::default(), [2, 0, 0, 0, 0], &many, &system(&many), long.as_bytes());
        assert!(both[0].starts_with("Refused: 33 terms were typed"), "{}", both[0]);
    }

    #[test]
    fn code_10() {
        let [words, pointed] = said_of_edit("2*x1*w1", "2*x1*x2*x1");
        assert_eq!(
            words,
            "Not readable: no readable listing goes on at byte 90, which is byte 14 of line 7: \"*\".\n\
             Some readable listing begins with all that stands before it. docs/LISTING.md has the grammar."
        );
        assert_eq!(pointed, "  a.txt, line 7:\n  w0' = 2*x1*x2*x1 + 2*w0**2\n               ^\n");
        let [words, pointed] = said_of_edit("2*w1\n", "2*w1");
        assert_eq!(
            words,
            "Not readable: the listing stops short, after 120 bytes.\n\
             Each readable listing that begins so goes on at byte 21 of line 8. docs/LISTING.md has the grammar."
        );
        assert_eq!(pointed, "  a.txt, line 8:\n  w1' = 2*x1*x2 + 2*w1\n                      ^\n");
        let [words, pointed] = said_of(10, 1, "");
        assert!(words.starts_with("Not readable: the listing is empty.\nEach readable listing that begins so goes on"));
        assert_eq!(pointed, "  a.txt, line 1:\n\n  ^\n");
        let number = "\nA number in < > is a byte that is no printable ASCII character.";
        let [words, pointed] = said_of(10, 22, &EXAMPLE.replace('\n', "\r\n"));
        assert!(words.contains("byte 22 of line 1: a carriage return, byte 13.\n") && words.ends_with(number));
        assert_eq!(pointed, "  a.txt, line 1:\n  Introduced variables:<13>\n                       ^^^^\n");
    }

    #[test]
    fn code_8() {
        let no_set = |line: u64, text: &str, why: &str| {
            format!("Refused: the new names form no set: line {line}, {text}: {why}.")
        };
        let [words, pointed] = said_of_edit("w0 = x1**2", "w0 = x1**55");
        assert_eq!(words, no_set(2, "w0 = x1**55", "the power of x1 is 55, and the box takes 0 to 54"));
        assert_eq!(pointed, "  a.txt, line 2:\n  w0 = x1**55\n  ^^^^^^^^^^^\n");
        let [words, _] = said_of_edit("w1 = x2**2", "w1 = x2");
        assert_eq!(words, no_set(3, "w1 = x2", "it is a variable, and no new signal"));
        let [words, pointed] = said_of_edit("w1 = x2**2", "w1 = x1*x1");
        assert_eq!(words, no_set(3, "w1 = x1*x1", "another name has this product already"));
        assert!(pointed.ends_with("It repeats this one:  a.txt, line 2:\n  w0 = x1**2\n  ^^^^^^^^^^\n"), "{pointed}");
        let long = EXAMPLE.replace("x2**2", &format!("x2**{}", "9".repeat(90)));
        assert!(said_of(8, 0, &long)[0]
            .ends_with("99999999999999999999 ..: the power of x2 is too long to show, and the box takes 0 to 54."));
        assert_eq!(said_of(8, 0, EXAMPLE), ["Refused: the new names form no set.".to_string(), String::new()]);
        assert_eq!(said_of(8, 0, "w0 = x1\n")[0], "Refused: the new names form no set.", "it cannot be read here");
    }

    #[test]
    fn code_8_of_a_signal_and_of_a_junior_kit() {
        let text = "x1' = x1^3 + u x1";
        let listing = |name: &str| format!("Introduced variables:\nw0 = {name}\n\nx1' = 0\nw0' = 0\n");
        let kit = Settings { degree: 3.into(), ..Settings::default() };
        let words = |name: &str| {
            let system = with_signals(text, "u");
            let [words, _] = said_with(&kit, [8, 0, 0, 0, 0], text, &system, listing(name).as_bytes());
            words.rsplit_once(": ").unwrap().1.to_string()
        };
        assert_eq!(words("x1*x2"), "it holds u, fed from outside, which no new signal may hold.");
        assert_eq!(words("x1**4"), "its total degree is 4, and the junior kit takes up to 3.");
        assert_eq!(words("x1**3"), "the new names form no set.");
    }

    #[test]
    fn code_11() {
        let false_line = |line: u64, of: &str, has: &str| {
            format!(
                "False: line {line}, multiplied out, is not the derivative of {of}. It is the first such line.\n\
                 As worked out here, beside the planner: {has}."
            )
        };
        let [words, pointed] = said_of_edit("2*x1*w1", "3*x1*w1");
        let has = "the line has 3*x1*x2^2, and the derivative has 2*x1*x2^2";
        assert_eq!(words, false_line(7, "w0", has));
        assert_eq!(pointed, "  a.txt, line 7:\n  w0' = 3*x1*w1 + 2*w0**2\n  ^^^^^^^^^^^^^^^^^^^^^^^\n");
        let [words, _] = said_of_edit("x2' = x1 + x2", "x2' = x1 - x1");
        assert_eq!(words, false_line(6, "x2", "the line has no x2, and the derivative has x2"));
        let [words, _] = said_of(11, 6, &EXAMPLE.replace("x1 + x2", "x1 + x2 - 3"));
        assert_eq!(words, false_line(6, "x2", "the line has -3, and the derivative has no constant"));
        // Of a line that is not false here, no more is said than the code tells.
        let [words, pointed] = said_of(11, 5, EXAMPLE);
        assert_eq!(words, "False: line 5, multiplied out, is not the derivative of x1. It is the first such line.");
        assert!(pointed.contains("x1' = x1*w0 + w1\n"), "{pointed}");
        let [words, _] = said_of(11, 2, EXAMPLE);
        assert_eq!(
            words,
            "False: line 2, multiplied out, is not the derivative of its name. It is the first such line."
        );
    }

    #[test]
    fn names_of_a_listing_are_numbers() {
        assert_eq!(mapping(&system("x1' = x2")), None);
        assert_eq!(mapping(&system("x' = x")).unwrap(), "In a listing x1 is x.");
        assert_eq!(mapping(&system("S' = -2 S I, I' = 2 S I")).unwrap(), "In a listing x1 is S and x2 is I.");
        let sources = [&typed("x1' = u a, x4' = 1")[..], &said_to_be(&[(Kind::Signal, "u"), (Kind::Knob, "a")])];
        let some = system_of(&sources.concat());
        assert_eq!(mapping(&some).unwrap(), "In a listing x2 is u and x3 is a.");
    }

    #[test]
    fn nothing_is_said_to_be_small_or_best() {
        for code in 0..13 {
            for order in [0, 2] {
                let reply = [code, order, 0, 0, 1];
                let [words, _] = said_with(&Settings::default(), reply, TEXT, &system(TEXT), EXAMPLE.as_bytes());
                let said = words.to_lowercase();
                for boast in ["smallest", "minimal", "optimal", "best", "fewest", "found", "search", "step", "level"] {
                    assert!(!said.contains(boast), "{said}");
                }
                assert_eq!(said.starts_with("right"), code == DONE, "{said}");
                assert_eq!(said.contains("never gives"), !OF_READING.contains(&code), "{said}");
                let open = code == DONE && 0 < order;
                assert_eq!(said.contains("whether fewer signals will do was not asked"), open, "{said}");
            }
        }
    }
}
