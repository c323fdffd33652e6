//! The words for a patch that works. It was met beside the search: of how many signals are needed no more is said than
//! the search has shown, and the word for that which a whole search finds is never said of it.

use crate::asking::answer::{Reply, FULL};
use crate::saying::searched::{Searched, UNWIRED};
use crate::saying::words::signals;
use crate::works::{Met, Works};

/// What is known of how many new signals are needed.
#[derive(Debug, Clone, Copy, PartialEq)]
pub struct Known {
    /// With fewer it cannot be wired.
    pub least: u64,
    /// Whether sets of so many were met.
    met: bool,
}

impl Known {
    /// What a search has shown that is in this level, with none in those below.
    pub fn in_level(level: u64) -> Known {
        Known { least: level, met: false }
    }

    /// What a search has shown that was stopped short. Where it was full, sets of its level are there.
    pub fn stopped(reply: &Reply) -> Known {
        Known { least: reply.order, met: reply.code == FULL }
    }

    /// What is known without a search. The empty set was judged first; where it is not the patch itself, it will not do.
    pub fn unsearched(size: Option<u64>) -> Known {
        Known::in_level(if size == Some(0) { 0 } else { 1 })
    }
}

pub fn said(works: &Works, known: Known, searched: &Searched) -> String {
    let (size, least) = (works.size(), known.least);
    if size == 0 {
        return "A patch that works, without new signals.".into();
    }
    let works = format!("A patch that works, with {}", signals(size));
    match least {
        // That fewer will not do is known then, and "not known" would be untrue.
        _ if size <= least => format!("{works}; {}.", searched.needed(least)),
        _ if known.met => format!("{works}. Fewer would do: there are sets of {}.", signals(least)),
        0 => format!("{works}. Whether fewer would do is not known."),
        _ => format!("{works}. Whether fewer would do is not known; {}.", searched.needed(least)),
    }
}

/// The same while the search goes on, with the patch itself below; `drawn` is what became of the drawing.
pub fn told(works: &Works, known: Known, searched: &Searched, drawn: Option<String>) -> String {
    let first = format!("{} The search goes on.", said(works, known, searched));
    let equations = works.patch.equations().into_iter().map(|equation| format!("  {equation}"));
    std::iter::once(first).chain(equations).chain(drawn).map(|line| line + "\n").collect()
}

/// What is said after a search that was stopped short; nothing where nobody asks.
pub fn after(met: &Met, known: Known, searched: &Searched) -> Option<String> {
    match met {
        Met::NotAsked => None,
        Met::Nothing => Some("No patch was met beside the search, which does not say that there is none.".into()),
        Met::Patch(works) => Some(said(works, known, searched)),
        Met::Unasked(why) => Some(format!("No patch is shown: {why}.")),
    }
}

/// What is said where no search was asked for.
pub fn alone(met: &Met, cards: u64, searched: &Searched) -> String {
    const NO_SEARCH: &str = "No search was made";
    let size = met.patch().map(Works::size);
    let known = Known::unsearched(size);
    match (met.patch(), cards) {
        (Some(works), _) if size == Some(0) => format!("{}\n{NO_SEARCH}.", said(works, known, searched)),
        (Some(works), _) => format!("{}\n{NO_SEARCH}; without --quick one is.", said(works, known, searched)),
        (None, 0) => format!("No patch: {UNWIRED}.\n{NO_SEARCH}; --cards 1 lets a new signal in."),
        (None, cards) => format!(
            "No patch was met.\n{NO_SEARCH}, so whether there is a patch with up to {} is not known. Without --quick \
             all are searched.",
            searched.signals(cards)
        ),
    }
}

/// Over the drawing of a patch.
pub fn heading(works: &Works) -> String {
    match works.patch.new.len() {
        0 => "A patch that works, without new signals".into(),
        size => format!("A patch that works: {}", works.patch.equations()[..size].join(", ")),
    }
}

#[cfg(test)]
mod tests {
    use super::*;
    use crate::asking::answer::{Answer, DONE, NOT_QUADRATIC, SPENT};
    use crate::panel::CARDS;
    use crate::saying::drawn::Drawn;
    use crate::saying::export;
    use crate::saying::report::Report;
    use crate::typed::settings::Settings;
    use crate::typed::system::tests::{system, with_signals};
    use crate::typed::system::System;

    const TEXT: &str = "x' = x^9 u";

    /// A patch of so many new signals. The words do not ask whether it is right.
    fn works(system: &System, size: u64) -> Works {
        let set = (0..size as u8).map(|i| [2 + i, 0, 0, 0, 0, 0]).collect();
        let reply = Reply { code: DONE, order: size, ..Reply::default() };
        let listing = Some("Introduced variables:\n\n".into());
        Works::of(system, Answer { reply, sets: vec![set], listing, ..Answer::default() }).unwrap()
    }

    fn plain(size: u64, known: Known) -> String {
        said(&works(&system("x' = x^9"), size), known, &Searched::default())
    }

    fn stopped(code: u64, order: u64) -> Known {
        Known::stopped(&Reply { code, order, ..Reply::default() })
    }

    #[test]
    fn after_spent() {
        assert_eq!(
            plain(3, stopped(SPENT, 2)),
            "A patch that works, with 3 new signals. Whether fewer would do is not known; at least 2 are needed."
        );
        assert_eq!(
            plain(6, stopped(SPENT, 1)),
            "A patch that works, with 6 new signals. Whether fewer would do is not known; at least 1 is needed."
        );
        assert_eq!(plain(2, stopped(SPENT, 2)), "A patch that works, with 2 new signals; at least 2 are needed.");
        assert_eq!(plain(1, stopped(SPENT, 1)), "A patch that works, with 1 new signal; at least 1 is needed.");
    }

    #[test]
    fn after_full_there_are_sets_of_its_level() {
        assert_eq!(plain(2, stopped(FULL, 2)), "A patch that works, with 2 new signals; at least 2 are needed.");
        assert_eq!(
            plain(3, stopped(FULL, 2)),
            "A patch that works, with 3 new signals. Fewer would do: there are sets of 2 new signals."
        );
        assert_eq!(plain(0, stopped(FULL, 0)), "A patch that works, without new signals.");
        assert_eq!(
            plain(1, stopped(FULL, 0)),
            "A patch that works, with 1 new signal. Fewer would do: there are sets of 0 new signals."
        );
    }

    #[test]
    fn while_the_search_goes_on() {
        let system = system("x' = x^3");
        let told = |level, drawn| told(&works(&system, 2), Known::in_level(level), &Searched::default(), drawn);
        let equations = "  w1 = x^2\n  w2 = x^3\n  x' = 0\n  w1' = 0\n  w2' = 0\n";
        assert_eq!(
            told(1, None),
            format!(
                "A patch that works, with 2 new signals. Whether fewer would do is not known; at least 1 is needed. The \
                 search goes on.\n{equations}"
            )
        );
        assert_eq!(
            told(0, Some("Drawn in a.svg.".into())),
            format!(
                "A patch that works, with 2 new signals. Whether fewer would do is not known. The search goes \
                 on.\n{equations}Drawn in a.svg.\n"
            )
        );
        assert!(told(2, None).starts_with("A patch that works, with 2 new signals; at least 2 are needed. The search"));
    }

    #[test]
    fn of_which_sets_the_search_has_shown_it() {
        let known = stopped(SPENT, 2);
        let fed = with_signals(TEXT, "u");
        let outside = Searched { outside: vec!["u"], junior: None };
        assert_eq!(
            said(&works(&fed, 3), known, &outside),
            "A patch that works, with 3 new signals. Whether fewer would do is not known; at least 2 are needed where u \
             stays outside the new signals."
        );
        let junior = Searched { outside: vec![], junior: Some(3) };
        assert_eq!(
            said(&works(&fed, 2), known, &junior),
            "A patch that works, with 2 new signals; at least 2 are needed where each has total degree up to 3."
        );
    }

    #[test]
    fn without_a_search() {
        let alone = |met, cards| alone(&met, cards, &Searched::default());
        let patch = |size| Met::Patch(works(&system("x' = x^9"), size));
        assert_eq!(
            alone(patch(3), 6),
            "A patch that works, with 3 new signals. Whether fewer would do is not known; at least 1 is needed.\n\
             No search was made; without --quick one is."
        );
        assert_eq!(
            alone(patch(1), 6),
            "A patch that works, with 1 new signal; at least 1 is needed.\nNo search was made; without --quick one is."
        );
        assert_eq!(alone(patch(0), 0), "A patch that works, without new signals.\nNo search was made.");
        assert_eq!(
            alone(Met::Nothing, 6),
            "No patch was met.\nNo search was made, so whether there is a patch with up to 6 new signals is not known. \
             Without --quick all are searched."
        );
        assert_eq!(
            alone(Met::Nothing, 0),
            "No patch: without new signals it cannot be wired.\nNo search was made; --cards 1 lets a new signal in."
        );
    }

    #[test]
    fn where_there_is_none_to_show() {
        let after = |met| after(&met, stopped(SPENT, 2), &Searched::default());
        assert_eq!(
            after(Met::Nothing).unwrap(),
            "No patch was met beside the search, which does not say that there is none."
        );
        assert_eq!(after(Met::Unasked("it fell asleep".into())).unwrap(), "No patch is shown: it fell asleep.");
        assert_eq!(after(Met::NotAsked), None);
    }

    /// All that is printed, exported and drawn of a reply where this was met.
    fn said_of(settings: &Settings, system: &System, reply: Reply, met: &Met, quick: bool) -> Vec<String> {
        let answer = Answer { reply, ..Answer::default() };
        let drawn = || Drawn::In("a.svg".into());
        let report = |as_listing| Report {
            as_listing,
            met,
            quick,
            drawn: drawn(),
            ..Report::of(&[], system, settings, &answer)
        };
        let said = [false, true].map(report).map(|report| [report.for_a_person(), export::answer(&report)]);
        said.concat().into_iter().chain(met.patch().map(heading)).collect()
    }

    /// The same on every path to a patch of so many new signals, or to none.
    fn every_path(settings: &Settings, system: &System, size: u64) -> Vec<String> {
        let patch = works(system, size);
        let levels = (0..=size).map(Known::in_level);
        let mut said: Vec<String> =
            levels.map(|known| told(&patch, known, &Searched::of(system, settings), None)).collect();
        for met in [Met::Patch(patch), Met::Nothing, Met::Unasked("it fell asleep".into())] {
            for (code, order) in (0..=size).flat_map(|order| [(FULL, order), (SPENT, order)]) {
                let reply = Reply { code, order, steps: 9, ..Reply::default() };
                said.extend(said_of(settings, system, reply, &met, false));
            }
            let (code, order) = if met.patch().is_some() { (DONE, size) } else { (NOT_QUADRATIC, 0) };
            said.extend(said_of(settings, system, Reply { code, order, ..Reply::default() }, &met, true));
        }
        said
    }

    #[test]
    fn smallest_is_said_of_it_on_no_path() {
        let fed = with_signals(TEXT, "u");
        let settings = [3, 324].map(|degree| Settings { degree: degree.into(), ..Settings::default() });
        let paths = settings.iter().flat_map(|settings| (0..=CARDS).flat_map(|size| every_path(settings, &fed, size)));
        let (mut works, mut others) = (0, 0);
        for said in paths {
            let words = said.to_lowercase();
            for boast in ["smallest", "minimal", "optimal", "best", "fewest", "found"] {
                assert!(!words.contains(boast), "{boast}: {said}");
            }
            *if words.contains("a patch that works") { &mut works } else { &mut others } += 1;
        }
        assert!(500 < works && 500 < others, "{works}, {others}");
    }

    #[test]
    fn what_is_said_not_to_be_known_is_not_known() {
        for size in 1..=CARDS {
            for (known, full) in (0..=size).flat_map(|n| [(stopped(SPENT, n), false), (stopped(FULL, n), true)]) {
                let said = plain(size, known);
                assert_eq!(said.contains("not known"), known.least < size && !full, "{said}");
                assert_eq!(said.contains("Fewer would do"), known.least < size && full, "{said}");
                let needed = format!("at least {} ", known.least);
                assert_eq!(said.contains(&needed), 0 < known.least && (known.least == size || !full), "{said}");
            }
        }
    }
}
