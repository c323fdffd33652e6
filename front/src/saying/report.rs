//! The whole answer, for a person.

use crate::asking::answer::{Answer, DONE, SET, TWICE};
use crate::panel::{CARDS, LISTING_BYTES};
use crate::patch::Patch;
use crate::saying::drawn::Drawn;
use crate::saying::numbers::{counted, grouped};
use crate::saying::read;
use crate::saying::searched::Searched;
use crate::saying::words::{said, Said};
use crate::saying::works::{self, Known};
use crate::typed::given::Aim;
use crate::typed::names::Kind;
use crate::typed::pasted::Pasted;
use crate::typed::settings::Settings;
use crate::typed::system::System;
use crate::typed::text::{point, Fault, Source};
use crate::works::{Met, Works};

pub struct Report<'a> {
    pub sources: &'a [Source],
    pub system: &'a System,
    pub settings: &'a Settings,
    pub answer: &'a Answer,
    pub patch: Option<&'a Patch>,
    /// The listing that was to be read; nothing where none was given.
    pub pasted: Option<&'a Pasted>,
    /// Whether the wired set was to be printed as a listing.
    pub as_listing: bool,
    /// What was met beside the search, or without one.
    pub met: &'a Met,
    /// Whether no search was asked for.
    pub quick: bool,
    pub drawn: Drawn,
}

impl<'a> Report<'a> {
    /// Of an answer where nothing is wired, read, met or drawn.
    pub fn of(sources: &'a [Source], system: &'a System, settings: &'a Settings, answer: &'a Answer) -> Report<'a> {
        Report {
            sources,
            system,
            settings,
            answer,
            patch: None,
            pasted: None,
            as_listing: false,
            met: &Met::NotAsked,
            quick: false,
            drawn: Drawn::NotAsked,
        }
    }
}

impl Report<'_> {
    pub fn said(&self) -> Said {
        let (reply, settings, system, sources) = (&self.answer.reply, self.settings, self.system, self.sources);
        match self.pasted {
            Some(pasted) => read::said(reply, pasted, settings, system, sources),
            None if self.quick && self.was_taken() => {
                works::alone(self.met, settings.cards.value().unwrap_or(CARDS), &self.searched()).into()
            }
            None => said(reply, settings, system, sources),
        }
    }

    fn searched(&self) -> Searched<'_> {
        Searched::of(self.system, self.settings)
    }

    /// What is known of how many new signals are needed, where a patch was met.
    pub fn known(&self) -> Known {
        match self.quick {
            true => Known::unsearched(self.met.patch().map(Works::size)),
            false => Known::stopped(&self.answer.reply),
        }
    }

    /// What is said of a patch beside the words for the reply.
    pub fn beside(&self) -> Option<String> {
        works::after(self.met, self.known(), &self.searched()).filter(|_| !self.quick)
    }

    /// What is listed; nothing where the given set was only wired, a listing read, or nothing searched.
    pub fn thing(&self) -> Option<&'static str> {
        match self.system.aim() {
            None if self.pasted.is_some() || self.quick => None,
            None => Some("set"),
            Some(Aim::Thinning) => Some("subset"),
            Some(Aim::Wiring) => None,
        }
    }

    /// What is taken for granted about the typed text.
    pub fn notes(&self) -> Vec<String> {
        // What is said of a name is not taken for granted.
        let said = [self.system.said_to_be(Kind::Knob), self.system.outside()].concat();
        let mut notes = Vec::new();
        for (mut names, has, have) in [
            (self.system.unfed(), "has no equation", "have no equations"),
            (self.system.only_given(), "stands in the given set alone", "stand in the given set alone"),
        ] {
            names.retain(|name| !said.contains(name));
            notes.extend(constant(&names, has, have));
        }
        if !self.system.namings.is_empty() {
            let names = self.system.namings.join(", ");
            notes.push(format!("{names}: taken as variables of their own; the lines that name them are not used."));
        }
        notes.extend(read::mapping(self.system).filter(|_| self.pasted.is_some() || self.listing().is_some()));
        notes
    }

    /// What options say of names.
    fn kinds(&self) -> Vec<String> {
        let kinds = [(Kind::Knob, "knob", "knobs"), (Kind::Signal, "signal from outside", "signals from outside")];
        let line = |(kind, one, several)| match self.system.said_to_be(kind)[..] {
            [] => None,
            [name] => Some(format!("{one}: {name}")),
            ref names => Some(format!("{several}: {}", names.join(", "))),
        };
        kinds.into_iter().filter_map(line).collect()
    }

    /// The limit of a junior kit.
    fn kit(&self) -> Option<String> {
        self.settings.junior().map(|most| format!("junior kit: new signals up to total degree {most}"))
    }

    /// The signals of a set, from 0.
    pub fn set(&self, number: usize) -> Vec<String> {
        self.system.set(&self.answer.sets[number])
    }

    /// The signals of the given set, ascending; nothing where none was given or it fits no record.
    fn given(&self) -> Option<Vec<String>> {
        Some(self.system.set(&self.system.given.as_ref()?.set()?))
    }

    /// The signals of the given set that a subset, from 0, leaves out.
    pub fn can_go(&self, number: usize) -> Vec<String> {
        let kept = self.set(number);
        self.given().unwrap_or_default().into_iter().filter(|signal| !kept.contains(signal)).collect()
    }

    /// The given set in words.
    pub fn given_text(&self) -> Option<String> {
        self.given().map(|given| if given.is_empty() { "empty".into() } else { given.join(", ") })
    }

    /// Which set the patch is of, and what its signals are. "Smallest" is said of a whole search alone, where a set was
    /// thinned of its subsets alone, and where it was only wired, or met beside a search, not at all.
    pub fn which_set(&self) -> String {
        if let Some(works) = self.met.patch() {
            return works::heading(works);
        }
        let Some(patch) = self.patch.filter(|patch| !patch.new.is_empty()) else {
            return "Nothing needs to be added.".into();
        };
        let (which, count) = (self.settings.which, self.answer.reply.count);
        let among = self.searched().among();
        let set = match (self.system.aim(), count) {
            (None, 1) => format!("The smallest set{among}"),
            (None, count) => format!("Set {which} of the {} smallest sets{among}", grouped(count)),
            (Some(Aim::Thinning), 1) => "The smallest subset of the given set that will do".to_string(),
            (Some(Aim::Thinning), count) => {
                format!("Subset {which} of the {} smallest subsets of the given set that will do", grouped(count))
            }
            (Some(Aim::Wiring), _) => "New signals".to_string(),
        };
        format!("{set}: {}", patch.equations()[..patch.new.len()].join(", "))
    }

    /// Why the asked set is not wired.
    pub fn no_such_set(&self) -> Option<String> {
        let (which, count) = (self.settings.which, self.answer.reply.count);
        let missing = self.answer.reply.code == DONE && self.patch.is_none();
        let thing = self.thing()?;
        missing.then(|| format!("There is no {thing} {which}: the list has {}.", counted(count, thing)))
    }

    /// After code 1 to 4 there is no system that was planned, and after 8 no set that was judged; the system of a listing
    /// was taken then.
    fn was_taken(&self) -> bool {
        let code = self.answer.reply.code;
        code == DONE || TWICE < code && (code != SET || self.pasted.is_some())
    }

    /// All of it; of a listing that is printed what stands before it.
    pub fn for_a_person(&self) -> String {
        let mut out = self.taken() + &self.answered() + &self.list();
        let wired = self.wired().filter(|_| !self.as_listing);
        let last = [self.further(), self.drawn.words(), self.long_listing(), self.above_listing()];
        for words in [self.beside(), wired].into_iter().chain(last).flatten() {
            out += &format!("\n{words}\n");
        }
        out
    }

    /// The patch that is shown and drawn.
    pub fn shown(&self) -> Option<&Patch> {
        self.patch.or(self.met.patch().map(|works| &works.patch))
    }

    /// It as a listing, where that was asked for.
    pub fn listing(&self) -> Option<&str> {
        let answer = self.met.patch().map_or(self.answer, |works| &works.answer);
        answer.listing.as_deref()
    }

    /// Of which set the listing is that is printed.
    fn above_listing(&self) -> Option<String> {
        self.listing()?;
        if self.met.patch().is_some() {
            return Some("That patch as a listing:".into());
        }
        let which = self.settings.which;
        let set = match (self.answer.reply.order, self.system.aim()) {
            (0, _) => "The system".into(),
            (_, None) => format!("Set {which}"),
            (_, Some(Aim::Thinning)) => format!("Subset {which}"),
            (_, Some(Aim::Wiring)) => "The given set".into(),
        };
        Some(format!("{set} as a listing:"))
    }

    /// What is printed may be longer than what is read.
    pub fn long_listing(&self) -> Option<String> {
        let length = self.listing()?.len();
        let (has, most) = (grouped(length as u64), grouped(LISTING_BYTES as u64));
        (LISTING_BYTES < length).then(|| format!("The listing has {has} bytes, and --read takes up to {most}."))
    }

    /// The system and the set as they were read; nothing where they were refused.
    fn taken(&self) -> String {
        if !self.was_taken() {
            return String::new();
        }
        let given = self.given_text().map(|text| format!("given set: {text}"));
        let listing = self.pasted.map(|pasted| format!("listing: {}", pasted.file));
        let lines = self.system.as_read().into_iter().chain(self.kinds()).chain(self.kit()).chain(given).chain(listing);
        let read = lines.map(|line| format!("  {line}\n"));
        let notes = self.notes().into_iter().map(|note| format!("{note}\n"));
        read.chain(notes).chain(std::iter::once("\n".into())).collect()
    }

    /// The words for the reply, and what they point at.
    fn answered(&self) -> String {
        let said = self.said();
        let mut out = format!("{}\n", said.words);
        for (words, span) in said.places {
            if !words.is_empty() {
                out += &format!("{words}\n");
            }
            out += &point(self.sources, span);
        }
        out
    }

    /// The sets that were asked for, or that of a listing. Of the empty one the words of a plan have told.
    fn list(&self) -> String {
        if self.pasted.is_some() {
            return self.set_of_listing().map_or(String::new(), |set| format!("  set of the new names: {set}\n"));
        }
        let Some(thing) = self.thing().filter(|_| 0 < self.answer.reply.order) else {
            return String::new();
        };
        let line = |number: usize| {
            let spare = match self.can_go(number)[..] {
                [] => String::new(),
                ref spare => format!("; {} can go", spare.join(", ")),
            };
            format!("  {thing} {}: {}{spare}\n", number + 1, self.set(number).join(", "))
        };
        (0..self.answer.sets.len()).map(line).collect()
    }

    /// The set of a listing that is right.
    fn set_of_listing(&self) -> Option<String> {
        self.pasted.filter(|_| !self.answer.sets.is_empty()).map(|_| match self.set(0)[..] {
            [] => "empty".into(),
            ref set => set.join(", "),
        })
    }

    /// The patch as equations, under a line that says of which set it is.
    fn wired(&self) -> Option<String> {
        let (patch, which) = (self.shown()?, self.settings.which);
        // A set that stands in a list is named by its number there.
        let listed = self.thing().is_some() && self.patch.is_some() && self.answer.reply.order != 0;
        let heading = match self.system.aim() {
            _ if !listed => "Wired:".to_string(),
            None => format!("Set {which} wired:"),
            Some(_) => format!("Subset {which} wired:"),
        };
        let equations = patch.equations().into_iter().map(|equation| format!("\n  {equation}"));
        Some(std::iter::once(heading).chain(equations).collect())
    }

    /// How to wire another set, or that of a listing, or why this one is not there.
    fn further(&self) -> Option<String> {
        let count = self.answer.sets.len();
        if self.pasted.is_some() {
            return (0 < count).then(|| format!("--given {:?} wires that set.", self.set(0).join(", ")));
        }
        let thing = self.thing()?;
        let does = if self.as_listing { "prints" } else { "wires" };
        let anew = if self.system.given.is_some() { "judges them" } else { "searches" };
        let others = || format!("--set N {does} another {thing}, 1 to {count}; it {anew} anew.");
        self.no_such_set().or_else(|| (1 < count).then(others))
    }
}

/// Says of variables why they are taken as constant; `has` of one, `have` of several.
fn constant(names: &[&str], has: &str, have: &str) -> Option<String> {
    match names {
        [] => None,
        [name] => Some(format!("{name} {has}: it is taken as a variable that never changes.")),
        names => Some(format!("{} {have}: they are taken as variables that never change.", names.join(", "))),
    }
}

/// Says why a text is no system, and points at the place.
pub fn not_understood(sources: &[Source], fault: &Fault) -> String {
    let mut out = format!("Not understood: {}.\n", fault.words);
    if let Some(span) = fault.span {
        out += &point(sources, span);
    }
    out
}

#[cfg(test)]
mod tests {
    use super::*;
    use crate::asking::answer::{planned, wired, Reply, FULL, NOT_QUADRATIC, OF_A_SET, OF_READING};
    use crate::recorded;
    use crate::saying::export;
    use crate::typed::listing::tests::EXAMPLE as LISTING;
    use crate::typed::system::tests::{given, system, typed, typed_with_set, with_set};

    /// What is said of an answer about a system, where set `which` is asked to be wired.
    fn report<T>(
        sources: &[Source],
        system: &System,
        answer: &Answer,
        which: u64,
        said: impl FnOnce(&Report) -> T,
    ) -> T {
        report_with(&Settings { which, ..Settings::default() }, sources, system, answer, said)
    }

    fn report_with<T>(
        settings: &Settings,
        sources: &[Source],
        system: &System,
        answer: &Answer,
        said: impl FnOnce(&Report) -> T,
    ) -> T {
        let patch = Patch::of(system, answer, settings.which);
        let as_listing = answer.listing.is_some();
        said(&Report { patch: patch.as_ref(), as_listing, ..Report::of(sources, system, settings, answer) })
    }

    /// What is printed for a text and an answer, and whether set `which` is wired.
    fn printed(text: &str, answer: &Answer, which: u64) -> String {
        report(&typed(text), &system(text), answer, which, |report| report.for_a_person())
    }

    /// The same where a set is thinned.
    fn printed_of_set(text: &str, set: &str, answer: &Answer, which: u64) -> String {
        let sources = typed_with_set(Aim::Thinning, text, set);
        report(&sources, &with_set(text, set), answer, which, |report| report.for_a_person())
    }

    /// The same where it is only wired; and all else that is said of it.
    fn said_of_wiring(text: &str, set: &str, answer: &Answer) -> [String; 3] {
        let (sources, system) = (typed_with_set(Aim::Wiring, text, set), given(Aim::Wiring, text, set));
        report(&sources, &system, answer, 1, |r| [r.for_a_person(), export::answer(r), r.which_set()])
    }

    #[test]
    fn a_variable_without_an_equation_is_said_to_be_taken_as_constant() {
        let answer = planned(2, "0 1 1 8 0\n1.1.0.0.0.0\n1 1 3 1\n3 3 3 1\n").unwrap();
        let text = printed("x' = x^2 y", &answer, 1);
        assert!(text.contains("y has no equation: it is taken as a variable that never changes.\n"), "{text}");
        let answer = planned(3, "0 0 1 1 0\n\n1 2 3 1\n").unwrap();
        let text = printed("x' = y z", &answer, 1);
        assert!(text.contains("y, z have no equations: they are taken as variables that never change.\n"), "{text}");
        assert!(!printed("x' = 0*x", &Answer::default(), 1).contains("no equation"));
    }

    #[test]
    fn sets_and_wiring_are_printed_after_code_0_alone() {
        for code in 1..8 {
            let reply = Reply { code, order: 2, count: 0, steps: 9, place: 1 };
            let text = printed("x' = x^4 + x^3", &Answer { reply, ..Answer::default() }, 1);
            assert!(!text.contains("set 1") && !text.contains("wired:") && !text.contains("w1"), "{text}");
        }
    }

    #[test]
    fn a_set_that_is_not_there_is_not_wired() {
        let answer = planned(1, crate::asking::answer::tests::EXAMPLE).unwrap();
        let text = printed("x' = x^4 + x^3", &answer, 3);
        assert!(text.ends_with("\nThere is no set 3: the list has 2 sets.\n"), "{text}");
        assert!(!text.contains("wired:"), "{text}");
    }

    #[test]
    fn a_junior_kit_stands_beside_the_system() {
        let (text, set) = recorded::WIRED[0];
        let all = |r: &Report| [r.for_a_person(), export::answer(r), r.which_set()];
        for (degree, head, among) in [
            (
                4,
                "  junior kit: new signals up to total degree 4\n",
                " among those whose new signals have total degree up to 4",
            ),
            (324, "", ""),
        ] {
            let kit = Settings { degree: degree.into(), ..Settings::default() };
            let answer = planned(1, crate::asking::answer::tests::EXAMPLE).unwrap();
            let [printed, json, which] = report_with(&kit, &typed(text), &system(text), &answer, all);
            assert!(printed.starts_with(&format!("  {text}\n{head}\nFound: 2 smallest sets{among}, of")), "{printed}");
            assert!(json.contains(&format!("\"marks\": 0,\n    \"degree\": {degree},\n    \"cards\": 6")), "{json}");
            assert_eq!(which, format!("Set 1 of the 2 smallest sets{among}: w1 = x^2, w2 = x^3"));
            let (sources, system) = (typed_with_set(Aim::Wiring, text, set), given(Aim::Wiring, text, set));
            let [printed, json, which] = report_with(&kit, &sources, &system, &recorded::wiring(&system), all);
            assert!(printed.starts_with(&format!("  {text}\n{head}  given set: {set}\n\nQuadratic:")), "{printed}");
            assert!(json.contains(&format!("\"marks\": 0,\n    \"degree\": {degree}\n")), "{json}");
            assert_eq!(which, "New signals: w1 = x^3, w2 = x^4");
        }
    }

    /// Systems with sets of many kinds: several smallest subsets, one, the whole set, the empty one.
    const THINNED: [(&str, &str); 7] = [
        ("x' = x^4 + x^3", "x^2, x^3, x^4"),
        ("x' = x^4 + x^3", "x^2, x^3, x^4, x^5, x^6, x^7"),
        ("x' = x^3", "x^2, x^4, x*y, z^2"),
        ("x' = x^4 + x^3", "x^3, x^4"),
        ("x' = x", "x^2, x^3"),
        ("x' = x^2", ""),
        ("x1' = x1^2 x2, x2' = -x1 x2^2", "x1 x2^2, x1 x2, x1^2 x2"),
    ];

    #[test]
    fn what_can_go_is_what_a_subset_leaves_out() {
        let mut gone = 0;
        for (text, set) in THINNED {
            let system = with_set(text, set);
            let answer = recorded::thinning(&system, 1);
            let given = system.set(&system.given.as_ref().unwrap().set().unwrap());
            report(&[], &system, &answer, 1, |report| {
                for number in 0..answer.sets.len() {
                    let mut both = [report.set(number), report.can_go(number)].concat();
                    gone += report.can_go(number).len();
                    both.sort_by_key(|signal| given.iter().position(|other| other == signal));
                    assert_eq!(both, given);
                }
            });
        }
        assert!(0 < gone);
        let (text, set) = THINNED[0];
        let printed = printed_of_set(text, set, &recorded::thinning(&with_set(text, set), 1), 1);
        assert!(
            printed.contains("\n  subset 1: x^2, x^3; x^4 can go\n  subset 2: x^3, x^4; x^2 can go\n"),
            "{printed}"
        );
        assert!(printed.contains("\nSubset 1 wired:\n  w1 = x^2\n"), "{printed}");
    }

    #[test]
    fn smallest_is_said_of_subsets_of_the_given_set_alone() {
        let mut heard = 0;
        for (text, set) in THINNED {
            let (sources, system) = (typed_with_set(Aim::Thinning, text, set), with_set(text, set));
            let answer = recorded::thinning(&system, 1);
            let all = |report: &Report| [report.for_a_person(), export::answer(report), report.which_set()];
            for said in report(&sources, &system, &answer, 1, all) {
                for (at, word) in said.match_indices("smallest") {
                    heard += 1;
                    assert!(said[at..].starts_with("smallest subset"), "{said}");
                    let around = &said[at.saturating_sub(30)..said.len().min(at + word.len() + 30)];
                    assert!(around.contains("the given set"), "{around}");
                }
            }
        }
        assert!(0 < heard);
    }

    #[test]
    fn a_variable_of_the_given_set_alone_is_said_to_be_taken_as_constant() {
        let (text, set) = THINNED[2];
        let printed = printed_of_set(text, set, &recorded::thinning(&with_set(text, set), 1), 1);
        let note = "\ny, z stand in the given set alone: they are taken as variables that never change.\n";
        assert!(printed.contains(note), "{printed}");
        assert!(!printed.contains("y'") && !printed.contains("z'"), "nothing of the patch rests on them: {printed}");
        let one = printed_of_set("x' = x^4", "x^2, y^2", &Answer::refused(NOT_QUADRATIC, 3), 1);
        assert!(one.contains("\ny stands in the given set alone: it is taken as a variable that"), "{one}");
    }

    #[test]
    fn a_refused_set_is_neither_shown_as_taken_nor_wired() {
        let printed = printed_of_set("x' = x^3", "x^2, x", &Answer::refused(SET, 0), 1);
        assert!(printed.starts_with("Refused: signal 2"), "{printed}");
        for code in OF_A_SET.into_iter().filter(|&code| code != DONE) {
            let reply = Reply { code, order: 2, count: 0, steps: 4, place: 1 };
            let printed = printed_of_set("x' = x^3", "x^2, x", &Answer { reply, ..Answer::default() }, 1);
            assert_eq!(printed.contains("given set: "), matches!(code, FULL | NOT_QUADRATIC), "{printed}");
            assert!(!printed.contains("subset 1") && !printed.contains("wired:"), "{printed}");
        }
    }

    #[test]
    fn a_subset_that_is_not_there_is_not_wired() {
        let (text, set) = THINNED[0];
        let printed = printed_of_set(text, set, &recorded::thinning(&with_set(text, set), 3), 3);
        assert!(printed.ends_with("\nThere is no subset 3: the list has 2 subsets.\n"), "{printed}");
        assert!(!printed.contains("wired:"), "{printed}");
    }

    #[test]
    fn a_set_that_is_wired_is_listed_once() {
        let (text, set) = recorded::WIRED[0];
        let [printed, json, which] = said_of_wiring(text, set, &recorded::wiring(&given(Aim::Wiring, text, set)));
        assert!(printed.starts_with("  x' = x^4 + x^3\n  given set: x^3, x^4\n\nQuadratic: "), "{printed}");
        let wired = "\n\nWired:\n  w1 = x^3\n  w2 = x^4\n  x' = w1 + w2\n  w1' = 3*x*w2 + 3*w1^2\n  \
                     w2' = 4*w1^2 + 4*w1*w2\n";
        assert!(printed.ends_with(wired), "{printed}");
        assert_eq!(printed.matches("x^3, x^4").count(), 1, "{printed}");
        assert!(json.contains("\"verdict\": \"quadratic\",\n  \"reason\": null,\n  \"wiring\": {\n    \"signals\""));
        assert!(!json.contains("\"sets\"") && !json.contains("\"subsets\"") && !json.contains("\"set\""), "{json}");
        assert_eq!(which, "New signals: w1 = x^3, w2 = x^4");
    }

    #[test]
    fn smallest_is_never_said_of_a_set_that_is_only_wired() {
        let mut quadratic = 0;
        for (text, set) in recorded::WIRED {
            let answer = recorded::wiring(&given(Aim::Wiring, text, set));
            quadratic += answer.sets.len();
            let others = OF_A_SET.into_iter().filter(|&code| code != DONE).map(|code| Answer::refused(code, 1));
            for answer in others.chain([answer]) {
                for said in said_of_wiring(text, set, &answer).map(|said| said.to_lowercase()) {
                    for boast in ["smallest", "minimal", "optimal", "fewest", "best", "subset 1", "set 1", "level"] {
                        assert!(!said.contains(boast), "{boast}: {said}");
                    }
                    // The reply's own number is for other programs alone.
                    assert!(!said.replace("\"steps\": 0,", "").contains("step"), "{said}");
                }
            }
        }
        assert!(0 < quadratic && quadratic < recorded::WIRED.len());
    }

    #[test]
    fn a_set_that_will_not_do_is_not_wired() {
        let (text, set) = recorded::WIRED[2];
        let [printed, json, _] = said_of_wiring(text, set, &recorded::wiring(&given(Aim::Wiring, text, set)));
        assert!(printed.contains("\nNot quadratic: the given set will not do.\n"), "{printed}");
        assert!(!printed.contains("Wired:"), "{printed}");
        let reason = "\"signal\": 2,\n    \"exponents\": [5, 0, 0, 0, 0, 0],\n    \"coefficient\": 2\n";
        assert!(json.contains(reason) && json.contains("\"verdict\": \"not quadratic\""), "{json}");
        let full = wired(1, &[], "6 0 0 0 0\n").unwrap();
        let [printed, json, _] = said_of_wiring("x' = x", "", &full);
        assert!(printed.contains("longer than there is room for") && !printed.contains("Wired:"), "{printed}");
        assert!(json.contains("\"wiring\": null"), "{json}");
    }

    #[test]
    fn a_listing_is_printed_below_the_words() {
        let (text, set) = recorded::WIRED[0];
        let planned = planned(1, crate::asking::answer::tests::EXAMPLE).unwrap();
        let answer = recorded::with_listing(&system(text), planned);
        let listing = "Introduced variables:\nw0 = x1**2\nw1 = x1**3\n\nx1' = w1 + x1*w1\nw0' = 2*x1*w1 + 2*w0*w1\n\
                       w1' = 3*w0*w1 + 3*w1**2\n";
        assert_eq!(answer.listing.as_deref(), Some(listing));
        let words = printed(text, &answer, 1);
        assert!(words.starts_with(&format!("  {text}\nIn a listing x1 is x.\n\nFound: 2 smallest sets")), "{words}");
        let last = "\n--set N prints another set, 1 to 2; it searches anew.\n\nSet 1 as a listing:\n";
        assert!(words.ends_with(last) && !words.contains("wired:"), "{words}");
        let json = report(&typed(text), &system(text), &answer, 1, export::answer);
        assert!(json.contains("\"listing\": \"Introduced variables:\\nw0 = x1**2\\n"), "{json}");
        let system = given(Aim::Wiring, text, set);
        let answer = recorded::with_listing(&system, recorded::wiring(&system));
        let [words, json, _] = said_of_wiring(text, set, &answer);
        assert!(words.ends_with("and so does planning.\n\nThe given set as a listing:\n"), "{words}");
        assert!(!words.contains("smallest") && !json.contains("smallest"), "{words}{json}");
    }

    #[test]
    fn a_listing_that_is_too_long_to_be_read_is_printed_all_the_same() {
        let mut answer = planned(1, crate::asking::answer::tests::EXAMPLE).unwrap();
        for (length, long) in [(4096, false), (4097, true)] {
            answer.listing = Some(" ".repeat(length));
            let (text, note) = ("x' = x^4 + x^3", "The listing has 4,097 bytes, and --read takes up to 4,096.");
            assert_eq!(printed(text, &answer, 1).contains(note), long);
            assert_eq!(report(&typed(text), &system(text), &answer, 1, export::answer).contains(note), long);
        }
    }

    /// What is said of an answer about document 000's listing, in words and for other programs.
    fn said_of_reading(text: &str, answer: &Answer) -> [String; 2] {
        let (pasted, source) = Pasted::of(1, "a.txt", LISTING.into());
        let (sources, system, settings) = ([&typed(text)[..], &[source]].concat(), system(text), Settings::default());
        let report = Report { pasted: Some(&pasted), ..Report::of(&sources, &system, &settings, answer) };
        [report.for_a_person(), export::answer(&report)]
    }

    #[test]
    fn a_listing_that_is_right_has_a_set_and_no_other_has_one() {
        let text = "S' = S^3 + I^2, I' = S + I";
        let system = system(text);
        let right = recorded::reading(&system, &Settings::default(), LISTING.as_bytes());
        let [words, json] = said_of_reading(text, &right);
        assert!(words.contains("\n  listing: a.txt\nIn a listing x1 is S and x2 is I.\n\nRight: each"), "{words}");
        assert!(
            words.ends_with("\n  set of the new names: I^2, S^2\n\n--given \"I^2, S^2\" wires that set.\n"),
            "{words}"
        );
        assert!(
            json.contains("\"operation\": \"reading\"") && json.contains("\"signals\": [\"I^2\", \"S^2\"]"),
            "{json}"
        );
        for code in OF_READING.into_iter().filter(|&code| code != DONE) {
            let [words, json] = said_of_reading(text, &Answer::refused(code, 3));
            assert!(!words.contains("set of the new names") && !words.contains("--given"), "{words}");
            assert!(json.ends_with("\"set\": null\n}\n") && !words.contains("Right"), "{words}{json}");
            assert_eq!(words.contains("listing: a.txt"), TWICE < code, "{words}");
            for said in [words, json] {
                assert!(!said.contains("smallest") && !said.contains("wired:"), "{said}");
            }
        }
    }
}
