//! The words for a reply. Of a plan "smallest" is said after code 0 alone: only then has the whole search ended. Short
//! of that the words say how far the search got, and nothing of what it met on its way.

use crate::asking::answer::{Reply, DONE, FULL, LENGTH, NONE, SETTING, SPENT, TERM, TWICE};
use crate::panel::{CARDS, SETS, STEPS, TERMS};
use crate::saying::numbers::{counted, grouped};
use crate::saying::searched::Searched;
use crate::saying::{given, rule};
use crate::typed::settings::{Range, Settings};
use crate::typed::system::System;
use crate::typed::text::{short, text_of, Source, Span};

/// What is said of a reply, in lines, and the places in the typed text that it is about, each with words of its own.
#[derive(Debug, PartialEq)]
pub struct Said {
    pub words: String,
    pub places: Vec<(&'static str, Span)>,
}

impl From<String> for Said {
    fn from(words: String) -> Said {
        Said { words, places: Vec::new() }
    }
}

/// What is said of the place that another repeats.
pub const REPEATED: &str = "It repeats this one:";

/// Why a system needs no new signals.
pub const QUADRATIC: &str = "each term is a product of at most two variables";

pub fn signals(number: u64) -> String {
    counted(number, "new signal")
}

/// "u", "u and v", "u, v and w".
pub fn listed(names: &[&str]) -> String {
    match names {
        [] => String::new(),
        [name] => name.to_string(),
        [first @ .., last] => format!("{} and {last}", first.join(", ")),
    }
}

/// What is known where the walk stopped in a level.
fn stopped(reply: &Reply, searched: &Searched) -> String {
    let place = format!("stopped in level {} after {}", reply.order, counted(reply.steps, "step"));
    match reply.order {
        0 => place,
        level => format!("{}; {place}", searched.excluded(level - 1)),
    }
}

pub fn said(reply: &Reply, settings: &Settings, system: &System, sources: &[Source]) -> Said {
    let mut places = Vec::new();
    let words = match reply.code {
        SETTING => setting(settings),
        LENGTH => {
            if let Some(first) = system.terms.get(TERMS) {
                places.push(("", first.span));
            }
            format!(
                "Refused: {} were typed, and the box takes up to {TERMS}. This is term {}:",
                counted(system.terms.len() as u64, "term"),
                TERMS + 1
            )
        }
        TERM | TWICE => {
            let place = reply.place as usize;
            let Some(term) = place.checked_sub(1).and_then(|i| system.terms.get(i)) else {
                return format!("Refused: term {place}.").into();
            };
            let text = short(text_of(sources, term.span));
            places.push(("", term.span));
            if reply.code == TERM {
                let broken = rule::broken(term, &system.names).unwrap_or("a field of it breaks its rule".into());
                format!("Refused: term {place}, {text}: {broken}.")
            } else {
                let earlier = system.terms[..place - 1]
                    .iter()
                    .find(|other| other.equation == term.equation && other.powers == term.powers);
                if let Some(earlier) = earlier {
                    places.push((REPEATED, earlier.span));
                }
                let left = &system.names[term.equation - 1];
                format!(
                    "Refused: term {place}, {text}: the equation of {left} has this product already; add the two up."
                )
            }
        }
        _ => match &system.given {
            Some(set) => return given::said(reply, set, settings, system, sources),
            None => planned(reply, settings, &Searched::of(system, settings)),
        },
    };
    Said { words, places }
}

fn planned(reply: &Reply, settings: &Settings, searched: &Searched) -> String {
    match reply.code {
        DONE => done(reply, searched),
        NONE => none(reply, searched),
        FULL => full(reply, settings, searched),
        SPENT => spent(reply, searched),
        code => format!("Code {code}, which planning never gives."),
    }
}

fn done(reply: &Reply, searched: &Searched) -> String {
    let (size, among) = (signals(reply.order), searched.among());
    let found = match (reply.order, reply.count) {
        (0, _) => format!("Nothing needs to be added: {QUADRATIC}."),
        (_, 1) => format!("Found: 1 smallest set{among}, of {size}, and it is the only one."),
        (_, count) => format!("Found: {} smallest sets{among}, of {size} each, and these are all.", grouped(count)),
    };
    format!("{found}\nThe whole search has ended, after {}.", counted(reply.steps, "step"))
}

fn setting(settings: &Settings) -> String {
    let faults: Vec<String> = settings
        .out_of_range()
        .iter()
        .map(|(option, count, range)| format!("{option} is {}, and may be {}", grouped(count.digits()), taken(range)))
        .collect();
    if faults.is_empty() {
        return "Refused: a setting is out of range.".into();
    }
    format!("Refused: {}.", faults.join("; "))
}

/// The numbers that an option takes.
fn taken(range: &Range) -> String {
    let open = range.open.map_or(String::new(), |open| format!(", or {open} for the full kit"));
    format!("{} to {}{open}", grouped(range.least), grouped(range.most))
}

fn none(reply: &Reply, searched: &Searched) -> String {
    let cap = reply.order.saturating_sub(1);
    let further = match cap {
        CARDS => "The box has no more cards than that.".to_string(),
        cap => format!("--cards {} looks further.", cap + 1),
    };
    format!(
        "None: {}.\nThe search up to there has ended, after {}. {further}{}",
        searched.excluded(cap),
        counted(reply.steps, "step"),
        if cap == 0 { String::new() } else { searched.left_out() }
    )
}

fn spent(reply: &Reply, searched: &Searched) -> String {
    let further = match reply.steps {
        STEPS => "No higher limit is taken.",
        _ => "--steps sets another limit.",
    };
    format!(
        "Spent: {}, the limit.\nSets of {} have not been searched to the end, so nothing is said of them. {further}",
        stopped(reply, searched),
        signals(reply.order)
    )
}

fn full(reply: &Reply, settings: &Settings, searched: &Searched) -> String {
    let stopped = stopped(reply, searched);
    if reply.order == 0 {
        return format!("Full: nothing needs to be added, and there is no room to list the empty set; {stopped}.");
    }
    let further = match settings.sets.value() {
        Some(SETS) => "There is no more room than that.",
        _ => "--sets makes more room.",
    };
    format!(
        "Full: {stopped}.\nThere are more sets of {} than there is room for ({}); none is listed, since they would not \
         be all. {further}",
        signals(reply.order),
        grouped(settings.sets.digits())
    )
}

#[cfg(test)]
mod tests {
    use super::*;
    use crate::typed::system::tests::{system, typed, with_signals};
    use crate::typed::text::point;

    const TEXT: &str = "x' = x^4 + x^3";

    fn words_of(reply: [u64; 5], settings: &Settings, text: &str, system: &System) -> Said {
        let [code, order, count, steps, place] = reply;
        said(&Reply { code, order, count, steps, place }, settings, system, &typed(text))
    }

    fn words_with(reply: [u64; 5], settings: &Settings, text: &str) -> Said {
        words_of(reply, settings, text, &system(text))
    }

    /// The same where signals are fed from outside.
    fn words_fed(reply: [u64; 5], signals: &str) -> String {
        let text = format!("x' = x^3*{}", signals.replace(',', "*"));
        words_of(reply, &Settings::default(), &text, &with_signals(&text, signals)).words
    }

    fn words(reply: [u64; 5]) -> String {
        words_with(reply, &Settings::default(), TEXT).words
    }

    /// The same on a junior kit.
    fn words_junior(reply: [u64; 5], degree: u64) -> String {
        words_with(reply, &Settings { degree: degree.into(), ..Settings::default() }, TEXT).words
    }

    #[test]
    fn code_0() {
        assert_eq!(
            words([0, 2, 2, 23, 0]),
            "Found: 2 smallest sets, of 2 new signals each, and these are all.\nThe whole search has ended, after 23 steps."
        );
        assert_eq!(
            words([0, 1, 1, 6, 0]),
            "Found: 1 smallest set, of 1 new signal, and it is the only one.\nThe whole search has ended, after 6 steps."
        );
        assert_eq!(
            words([0, 0, 1, 1, 0]),
            "Nothing needs to be added: each term is a product of at most two variables.\n\
             The whole search has ended, after 1 step."
        );
    }

    #[test]
    fn code_1() {
        let settings = Settings { cards: 7.into(), steps: 0.into(), ..Settings::default() };
        assert_eq!(
            words_with([1, 0, 0, 0, 0], &settings, TEXT).words,
            "Refused: --cards is 7, and may be 0 to 6; --steps is 0, and may be 1 to 1,000,000,000."
        );
        for degree in [0, 1, 10, 323, 325] {
            let refused = format!("Refused: --degree is {degree}, and may be 2 to 9, or 324 for the full kit.");
            assert_eq!(words_junior([1, 0, 0, 0, 0], degree), refused);
        }
    }

    #[test]
    fn code_2() {
        let text = format!("x' = {}", (0..33).map(|i| format!("{}", i + 1)).collect::<Vec<_>>().join(" + "));
        let said = words_with([2, 0, 0, 0, 0], &Settings::default(), &text);
        assert_eq!(said.words, "Refused: 33 terms were typed, and the box takes up to 32. This is term 33:");
        let (_, span) = said.places[0];
        assert_eq!(&text[span.from..span.to], "33");
    }

    #[test]
    fn code_3() {
        let text = "x' = x + x^10";
        let said = words_with([3, 0, 0, 0, 2], &Settings::default(), text);
        assert_eq!(said.words, "Refused: term 2, x^10: the power of x is 10, and the box takes 0 to 9.");
        assert_eq!(point(&typed(text), said.places[0].1), "  x' = x + x^10\n           ^^^^\n");
    }

    #[test]
    fn code_4() {
        let said = words_with([4, 0, 0, 0, 3], &Settings::default(), "x' = x*y + 1 - 2*y x");
        assert_eq!(said.words, "Refused: term 3, 2*y x: the equation of x has this product already; add the two up.");
        assert_eq!(said.places.len(), 2);
        assert_eq!((said.places[1].1.from, said.places[1].1.to), (5, 8));
    }

    #[test]
    fn code_5() {
        assert_eq!(
            words([5, 3, 0, 1234, 0]),
            "None: no set of up to 2 new signals exists.\nThe search up to there has ended, after 1,234 steps. \
             --cards 3 looks further."
        );
        assert_eq!(
            words([5, 1, 0, 1, 0]),
            "None: without new signals it cannot be wired.\nThe search up to there has ended, after 1 step. \
             --cards 1 looks further."
        );
        assert!(words([5, 7, 0, 99, 0]).ends_with("The box has no more cards than that."));
    }

    #[test]
    fn code_6() {
        let room = |sets: u64| Settings { sets: sets.into(), ..Settings::default() };
        assert_eq!(
            words_with([6, 2, 0, 15, 0], &room(1), TEXT).words,
            "Full: no set of up to 1 new signal exists; stopped in level 2 after 15 steps.\nThere are more sets of 2 \
             new signals than there is room for (1); none is listed, since they would not be all. --sets makes more room."
        );
        let most = words_with([6, 2, 0, 15, 0], &room(20_000), TEXT).words;
        assert!(most.ends_with("There is no more room than that."), "{most}");
        assert_eq!(
            words_with([6, 0, 0, 1, 0], &room(0), "x' = x^2").words,
            "Full: nothing needs to be added, and there is no room to list the empty set; \
             stopped in level 0 after 1 step."
        );
    }

    #[test]
    fn code_7() {
        assert_eq!(
            words([7, 3, 0, 1000000, 0]),
            "Spent: no set of up to 2 new signals exists; stopped in level 3 after 1,000,000 steps, the limit.\n\
             Sets of 3 new signals have not been searched to the end, so nothing is said of them. --steps sets another limit."
        );
        assert!(words([7, 1, 0, 1_000_000_000, 0]).ends_with("nothing is said of them. No higher limit is taken."));
        assert!(words([7, 1, 0, 6, 0]).starts_with("Spent: without new signals it cannot be wired; stopped in level 1"));
    }

    #[test]
    fn names_in_a_row() {
        assert_eq!(
            ["u", "u v", "u v w"].map(|s| listed(&s.split(' ').collect::<Vec<_>>())),
            ["u", "u and v", "u, v and w"]
        );
    }

    #[test]
    fn what_is_found_leaves_signals_outside() {
        assert_eq!(
            words_fed([0, 1, 1, 6, 0], "u"),
            "Found: 1 smallest set among those that leave u outside the new signals, of 1 new signal, and it is the \
             only one.\nThe whole search has ended, after 6 steps."
        );
        assert_eq!(
            words_fed([0, 2, 3, 60, 0], "u,v"),
            "Found: 3 smallest sets among those that leave u and v outside the new signals, of 2 new signals each, and \
             these are all.\nThe whole search has ended, after 60 steps."
        );
        assert!(words_fed([0, 0, 1, 1, 0], "u").starts_with("Nothing needs to be added: each term"));
    }

    #[test]
    fn what_is_not_found_left_signals_outside() {
        assert_eq!(
            words_fed([5, 7, 0, 126, 0], "u"),
            "None: no patch of up to 6 new signals exists that leaves u outside the new signals.\n\
             The search up to there has ended, after 126 steps. The box has no more cards than that.\n\
             If u never moves during a run, it is a knob, which new signals may hold: --knob u enters it without the \
             mark."
        );
        let three = words_fed([5, 2, 0, 6, 0], "u,v,w");
        assert!(
            three.starts_with("None: no patch of up to 1 new signal exists that leaves u, v and w outside"),
            "{three}"
        );
        assert!(three.ends_with(
            "If one of u, v and w never moves during a run, it is a knob, which new signals may \
                                 hold: --knob enters it without the mark."
        ));
        let level_0 = words_fed([5, 1, 0, 1, 0], "u");
        assert!(level_0.starts_with("None: without new signals it cannot be wired.") && !level_0.contains("knob"));
        for (code, begins) in [(6, "Full"), (7, "Spent")] {
            let said = words_fed([code, 3, 0, 9, 0], "u");
            let expected = format!(
                "{begins}: no patch of up to 2 new signals exists that leaves u outside the new signals; stopped"
            );
            assert!(said.starts_with(&expected), "{said}");
            assert!(!said.contains("knob"), "{said}");
        }
    }

    #[test]
    fn what_is_found_for_a_junior_kit_keeps_its_limit() {
        assert_eq!(
            words_junior([0, 2, 1, 19, 0], 3),
            "Found: 1 smallest set among those whose new signals have total degree up to 3, of 2 new signals, and it \
             is the only one.\nThe whole search has ended, after 19 steps."
        );
        assert!(words_junior([0, 2, 2, 21, 0], 4).starts_with(
            "Found: 2 smallest sets among those whose new signals have total degree up to 4, of 2 new signals each, \
             and these are all.\n"
        ));
        assert_eq!(words_junior([0, 0, 1, 1, 0], 2), words([0, 0, 1, 1, 0]), "the same for every kit");
        assert_eq!(words_junior([0, 2, 2, 23, 0], 324), words([0, 2, 2, 23, 0]), "the full kit");
    }

    #[test]
    fn what_is_not_found_for_a_junior_kit_may_be_found_for_the_full_one() {
        assert_eq!(
            words_junior([5, 7, 0, 40, 0], 2),
            "None: no set of up to 6 new signals of total degree up to 2 exists.\n\
             The search up to there has ended, after 40 steps. The box has no more cards than that.\n\
             The search was among new signals of total degree up to 2. The full kit may have a set: without --degree \
             it is asked."
        );
        assert_eq!(words_junior([5, 1, 0, 1, 0], 2), words([5, 1, 0, 1, 0]), "no kit is wired without new signals");
        for (code, begins) in [(6, "Full"), (7, "Spent")] {
            let said = words_junior([code, 2, 0, 9, 0], 3);
            let expected = format!("{begins}: no set of up to 1 new signal of total degree up to 3 exists; stopped in");
            assert!(said.starts_with(&expected) && !said.contains("full kit"), "{said}");
            let first = words_junior([code, 1, 0, 9, 0], 3);
            assert!(
                first.starts_with(&format!("{begins}: without new signals it cannot be wired; stopped")),
                "{first}"
            );
        }
    }

    #[test]
    fn no_set_is_denied_without_the_limit() {
        for code in [5, 6, 7] {
            for order in 0..8 {
                let said = words_junior([code, order, 0, 9, 0], 5);
                let limited = said.matches("new signals of total degree up to 5 exists").count()
                    + said.matches("new signal of total degree up to 5 exists").count();
                assert_eq!(said.matches("no set").count(), limited, "{said}");
            }
        }
    }

    #[test]
    fn smallest_is_said_of_a_whole_search_alone() {
        for code in 0..8 {
            for order in 0..8 {
                let reply = [code, order, 1, 1, 1];
                let may = code == 0 && 0 < order;
                for (said, fed, junior) in [
                    (words(reply), false, false),
                    (words_fed(reply, "u"), true, false),
                    (words_junior(reply, 3), false, true),
                ] {
                    let said = said.to_lowercase();
                    assert_eq!(said.contains("smallest"), may, "{said}");
                    assert_eq!(said.contains("among those that leave u outside"), may && fed, "{said}");
                    assert_eq!(
                        said.contains("among those whose new signals have total degree"),
                        may && junior,
                        "{said}"
                    );
                    for boast in ["minimal", "optimal", "best", "fewest", "found:"] {
                        assert!(may || !said.contains(boast), "{said}");
                    }
                }
            }
        }
    }
}
