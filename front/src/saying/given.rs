//! The words for a reply about a given set, whatever is asked of it: which rule of the box it breaks, or why it is not
//! quadratic.

use crate::algebra::{self, Exponents};
use crate::asking::answer::{Reply, NOT_QUADRATIC, SET};
use crate::panel::CARDS;
use crate::saying::numbers::counted;
use crate::saying::words::{Said, REPEATED};
use crate::saying::{rule, thinned, unwired, wired};
use crate::typed::given::{Aim, Given};
use crate::typed::settings::Settings;
use crate::typed::system::System;
use crate::typed::text::{short, text_of, Source};

pub fn said(reply: &Reply, given: &Given, settings: &Settings, system: &System, sources: &[Source]) -> Said {
    if reply.code == SET {
        return refused(given, settings, system, sources);
    }
    let said = match given.aim {
        Aim::Thinning => thinned::said(reply, given),
        Aim::Wiring => wired::said(reply),
    };
    let why = why(reply, given, system).map_or(String::new(), |why| format!("\n{why}"));
    (said + &why).into()
}

/// The reply has no place, so the fault is looked for here: first their number, then signal by signal.
fn refused(given: &Given, settings: &Settings, system: &System, sources: &[Source]) -> Said {
    const MOST: usize = CARDS as usize;
    if let Some(first) = given.signals.get(MOST) {
        let typed = counted(given.signals.len() as u64, "signal");
        let words = format!("Refused: {typed} were typed, and a set has up to {MOST}. This is signal {}:", MOST + 1);
        return Said { words, places: vec![("", first.span)] };
    }
    for (i, signal) in given.signals.iter().enumerate() {
        let earlier = given.signals[..i].iter().find(|other| other.powers == signal.powers);
        let broken = rule::broken_signal(&signal.powers, system, settings.junior())
            .or_else(|| earlier.map(|_| "the set has this product already; leave one out".into()));
        if let Some(broken) = broken {
            let text = short(text_of(sources, signal.span));
            let mut places = vec![("", signal.span)];
            places.extend(earlier.map(|earlier| (REPEATED, earlier.span)));
            return Said { words: format!("Refused: signal {} of the given set, {text}: {broken}.", i + 1), places };
        }
    }
    "Refused: the given set breaks a rule of the box.".to_string().into()
}

/// The signals of the patch by number, where one of them cannot be wired.
fn signals(reply: &Reply, given: &Given, system: &System) -> Option<Vec<Exponents>> {
    given.set().filter(|_| reply.code == NOT_QUADRATIC).map(|set| system.signals(&set))
}

/// Why the set is not quadratic: a product in the derivative of the signal that the reply names, with its total
/// coefficient. Nothing after any other reply, and where no such product is found.
pub fn reason(reply: &Reply, given: &Given, system: &System) -> Option<(i64, Exponents)> {
    unwired::product(&system.records().ok()?, &signals(reply, given, system)?, reply.place as usize)
}

/// The same in words. The planner names the signal; where no product is found, nothing but that is said.
fn why(reply: &Reply, given: &Given, system: &System) -> Option<String> {
    let place = reply.place as usize;
    let signals = signals(reply, given, system).filter(|_| 0 < place)?;
    let monomial = algebra::monomial(&system.names, signals.get(place)?);
    let name = match place.checked_sub(system.names.len()) {
        None | Some(0) => monomial,
        Some(i) => format!("{} = {monomial}", system.new_name(i)),
    };
    let has = match reason(reply, given, system) {
        Some((total, product)) => {
            let product = algebra::monomial(&system.names, &product);
            let term = algebra::sum([(total, product.as_str())]);
            format!("{term}, and no two signals multiply to {product}")
        }
        None => "a product that no two signals multiply to".into(),
    };
    Some(format!("The first signal that cannot be wired is {name}: its derivative has {has}."))
}

#[cfg(test)]
pub mod tests {
    use super::*;
    use crate::typed::settings::Settings;
    use crate::typed::system::tests::{given, typed_with_set};
    use crate::typed::text::point;

    const AIMS: [Aim; 2] = [Aim::Thinning, Aim::Wiring];

    /// What is said of a reply about a set.
    pub fn said_of(aim: Aim, reply: [u64; 5], text: &str, set: &str) -> Said {
        said_with(&Settings::default(), aim, reply, text, set)
    }

    /// The same with settings.
    fn said_with(settings: &Settings, aim: Aim, reply: [u64; 5], text: &str, set: &str) -> Said {
        let [code, order, count, steps, place] = reply;
        let reply = Reply { code, order, count, steps, place };
        let sources = typed_with_set(aim, text, set);
        crate::saying::words::said(&reply, settings, &given(aim, text, set), &sources)
    }

    /// What is said whatever is asked of the set.
    fn said_of_both(reply: [u64; 5], text: &str, set: &str) -> Said {
        let [thinned, wired] = AIMS.map(|aim| said_of(aim, reply, text, set));
        assert_eq!(thinned, wired);
        wired
    }

    /// The words of a refused set, and all that is pointed at.
    fn refused(set: &str) -> (String, String) {
        let said = said_of_both([8, 0, 0, 0, 0], "x' = y", set);
        let sources = typed_with_set(Aim::Wiring, "", set);
        let pointed = |(words, span): &(&str, _)| format!("{words}{}", point(&sources, *span));
        (said.words, said.places.iter().map(pointed).collect())
    }

    /// The second line of code 9.
    fn why(place: u64, text: &str, set: &str) -> String {
        let [thinned, wired] = AIMS.map(|aim| {
            let words = said_of(aim, [9, 1, 0, 0, place], text, set).words;
            words.split_once('\n').map_or(String::new(), |(_, why)| why.to_string())
        });
        assert_eq!(thinned, wired);
        wired
    }

    #[test]
    fn codes_1_to_4_are_said_as_of_a_plan() {
        let words = |reply, text: &str| said_of_both(reply, text, "x^2").words;
        assert_eq!(words([1, 0, 0, 0, 0], "x' = x"), "Refused: a setting is out of range.");
        let terms = (1..=33).map(|i| i.to_string()).collect::<Vec<_>>().join(" + ");
        let many = words([2, 0, 0, 0, 0], &format!("x' = {terms}"));
        assert_eq!(many, "Refused: 33 terms were typed, and the box takes up to 32. This is term 33:");
        let high = words([3, 0, 0, 0, 1], "x' = x^10");
        assert_eq!(high, "Refused: term 1, x^10: the power of x is 10, and the box takes 0 to 9.");
        let twice = words([4, 0, 0, 0, 2], "x' = x + x");
        assert_eq!(twice, "Refused: term 2, x: the equation of x has this product already; add the two up.");
    }

    #[test]
    fn code_8() {
        let (words, pointed) = refused("x^2, y");
        assert_eq!(words, "Refused: signal 2 of the given set, y: it is a variable, and no new signal; leave it out.");
        assert_eq!(pointed, "  x^2, y\n       ^\n");
        let (words, pointed) = refused("x^99 y, x^2");
        assert_eq!(
            words,
            "Refused: signal 1 of the given set, x^99 y: the power of x is 99, and the box takes 0 to 54."
        );
        assert_eq!(pointed, "  x^99 y, x^2\n  ^^^^^^\n");
        let (words, pointed) = refused("x*y, x^2, y x");
        assert_eq!(words, "Refused: signal 3 of the given set, y x: the set has this product already; leave one out.");
        assert_eq!(pointed, "  x*y, x^2, y x\n            ^^^\nIt repeats this one:  x*y, x^2, y x\n  ^^^\n");
        let (words, pointed) = refused("x^2, x^3, x^4, x^5, x^6, x^7, x^8, x");
        assert_eq!(words, "Refused: 8 signals were typed, and a set has up to 6. This is signal 7:");
        assert!(pointed.ends_with("                                ^^^\n"), "{pointed}");
        assert_eq!(refused("x^2"), ("Refused: the given set breaks a rule of the box.".into(), String::new()));
    }

    #[test]
    fn code_8_of_a_junior_kit() {
        let kit = |degree: u64| Settings { degree: degree.into(), ..Settings::default() };
        let refused = |degree, set| AIMS.map(|aim| said_with(&kit(degree), aim, [8, 0, 0, 0, 0], "x' = y", set));
        for said in refused(3, "x^3, x^2 y^2, x^4") {
            assert_eq!(
                said.words,
                "Refused: signal 2 of the given set, x^2 y^2: its total degree is 4, and the junior kit takes up to 3."
            );
            let (_, span) = said.places[0];
            assert_eq!((span.from, span.to, said.places.len()), (5, 12, 1));
        }
        // Of a limit that no kit has nothing is said: what fits no record is refused before the planner refuses it.
        for said in refused(10, "x^11, x^0") {
            assert!(said.words.starts_with("Refused: signal 2 of the given set, x^0: it is 1"), "{}", said.words);
        }
    }

    #[test]
    fn code_9() {
        assert_eq!(
            why(2, "x' = x^4", "x^2"),
            "The first signal that cannot be wired is w1 = x^2: its derivative has 2*x^5, and no two signals multiply \
             to x^5."
        );
        assert_eq!(
            why(2, "y' = -x^3 + x", "x*y"),
            "The first signal that cannot be wired is y: its derivative has -x^3, and no two signals multiply to x^3."
        );
        assert_eq!(
            why(1, "y' = -x^3 + x", "x*y"),
            "The first signal that cannot be wired is x: its derivative has a product that no two signals multiply \
             to.",
            "where no reason is found, none is given"
        );
        assert_eq!(why(0, "x' = x^4", "x^2"), "");
        assert_eq!(why(9, "x' = x^4", "x^2"), "");
    }

    #[test]
    fn a_new_signal_is_numbered_as_in_the_record() {
        let why_of_two = why(3, "x' = x^5", "x^6, x^2");
        assert!(why_of_two.contains("wired is w2 = x^6: its derivative has 6*x^10"), "{why_of_two}");
        let why_of_pasted = why(3, "x' = w1^3, w1' = 1", "x^2");
        assert!(why_of_pasted.contains("wired is w2 = x^2: its derivative has 2*x*w1^3"), "{why_of_pasted}");
    }

    #[test]
    fn only_code_9_has_a_reason() {
        let system = given(Aim::Wiring, "x' = x^4", "x^2");
        let set = system.given.as_ref().unwrap();
        for code in 0..11 {
            let reply = Reply { code, place: 2, ..Reply::default() };
            let expected = (code == NOT_QUADRATIC).then_some((2, [5, 0, 0, 0, 0, 0]));
            assert_eq!(reason(&reply, set, &system), expected);
        }
    }
}
