//! What a batch covers: counts by operation and code, places, kinds of damage,
//! and how near the cases come to their own limits.

use crate::batch::{Case, Operation};
use crate::closing::lacks;
use crate::degree::Degree;
use crate::listing_cover;
use crate::marks::Marks;
use crate::monomial::Monomial;
use crate::operations::{cap_is_in_range, limit_is_in_range, text_has_a_length};
use crate::panel::{
    MOST_COEFFICIENT, MOST_EXPONENT, MOST_LIMIT, MOST_SET_EXPONENT, MOST_WIRES_BYTES, SET_BYTES,
    TERM_BYTES, WIRE_BYTES,
};
use crate::records::{
    read_set, read_terms, set_faults, set_places, terms_have_a_length, Fields, SetFault, TermFault,
};
use crate::reply::{Reply, NAMES};
use crate::setting::n_is_in_range;
use crate::system::{Set, System, Term};
use crate::thin_cover::Thinning;
use crate::thinning::thinned;
use crate::walk::{walk, Rules};
use crate::wire_cover::Derivatives;
use std::collections::{BTreeMap, BTreeSet};

/// Walks with a higher limit are not walked again.
const FAR: u64 = 3_000;

/// Counts and sets of numbers by name.
#[derive(Default)]
pub struct Cover {
    cases: usize,
    steps: u64,
    counts: BTreeMap<String, usize>,
    numbers: BTreeMap<String, BTreeSet<u64>>,
}

impl Cover {
    fn count(&mut self, name: impl Into<String>) {
        *self.counts.entry(name.into()).or_default() += 1;
    }

    fn number(&mut self, name: impl Into<String>, number: u64) {
        self.numbers.entry(name.into()).or_default().insert(number);
    }

    /// Takes one case into account.
    pub fn add(&mut self, case: &Case) {
        let (reply, _) = case.answer();
        let operation = case.operation.name();
        self.cases += 1;
        self.steps += reply.steps;
        let name = NAMES[reply.code as usize];
        self.count(format!("{operation}: code {} {name}", reply.code));
        if case.operation == Operation::Wire {
            self.lent(case, &reply);
        }
        let degree = case.setting().degree;
        if degree != Degree::FULL && degree.is_in_range() {
            self.limited(case, &reply);
        }
        match reply.code {
            1 => self.setting(case),
            2 => self.length(case),
            3 | 4 => self.record(case, &reply),
            _ if case.operation == Operation::Read => self.listing(case, &reply),
            8 => self.set_rule(case),
            9 => {
                self.number(format!("{operation}: places of code 9"), reply.place);
                let which = format!("code 9, n {}, size {}: places", case.n, reply.order);
                self.number(which, reply.place);
                if case.operation == Operation::Wire {
                    self.derivatives(case);
                }
            }
            _ => self.taken(case, &reply),
        }
        self.sequence(case, &reply);
        if let Some((system, set)) = good_input(case) {
            self.system(case, &system, &set);
        }
    }

    /// A case of a junior kit, beside the same one of the full kit.
    fn limited(&mut self, case: &Case, reply: &Reply) {
        let (operation, code) = (case.operation.name(), reply.code);
        let name = format!("{operation}: degrees with code {code}");
        self.number(name, case.degree);
        let (full, _) = case.clone().limited(Degree::FULL).answer();
        if full.code != code {
            let before = full.code;
            self.count(format!(
                "{operation}: code {before} full kit, {code} junior"
            ));
        }
        if case.operation == Operation::Plan && [full.code, code] == [0, 0] {
            let facts = [
                (reply.order > full.order, "larger sets"),
                (reply.count < full.count, "fewer sets"),
                (reply.count > full.count, "more sets"),
                (reply.steps < full.steps, "fewer steps"),
                (reply.steps > full.steps, "more steps"),
                (*reply == full, "the same numbers"),
            ];
            for (_, name) in facts.into_iter().filter(|(holds, _)| *holds) {
                self.count(format!("plan: {name} with a junior kit"));
            }
        }
    }

    /// What is lent to wiring, by the code that answers it.
    fn lent(&mut self, case: &Case, reply: &Reply) {
        let code = reply.code;
        if case.buffer <= WIRE_BYTES + 1 {
            let name = format!("wire: code {code}, bytes about a record");
            self.number(name, case.buffer as u64);
        }
        let room = match case.buffer {
            0 => "no bytes",
            1..WIRE_BYTES => "bytes without room",
            WIRE_BYTES..MOST_WIRES_BYTES => "some room",
            _ => "room for any list",
        };
        self.count(format!("wire: code {code}, {room}"));
    }

    fn setting(&mut self, case: &Case) {
        let (operation, setting) = (case.operation.name(), case.setting());
        if !n_is_in_range(case.n) {
            self.number(format!("{operation}: n refused"), case.n);
        } else if !setting.variables_are_in_range() {
            let name = format!("{operation}, n {}: marks refused", case.n);
            self.number(name, case.marks);
        }
        if !setting.degree.is_in_range() {
            self.number(format!("{operation}: degrees refused"), case.degree);
        }
        if case.operation == Operation::Plan {
            if !cap_is_in_range(case.cap) {
                self.number("plan: K refused", case.cap);
            }
            if !limit_is_in_range(case.limit) {
                self.number("plan: limits refused", case.limit);
            }
        }
    }

    fn length(&mut self, case: &Case) {
        let operation = case.operation.name();
        if !terms_have_a_length(&case.terms) {
            let length = case.terms.len() as u64;
            self.number(format!("{operation}: lengths of terms refused"), length);
        }
        if !given_has_a_length(case) {
            let given = match case.operation {
                Operation::Read => "texts",
                _ => "sets",
            };
            let length = case.given.len() as u64;
            self.number(format!("{operation}: lengths of {given} refused"), length);
        }
    }

    /// Codes 3 and 4: the place, and what is wrong there.
    fn record(&mut self, case: &Case, reply: &Reply) {
        let (code, place) = (reply.code, reply.place);
        let operation = case.operation.name();
        self.number(format!("{operation}: places of code {code}"), place);
        self.number(format!("code {code}: n"), case.n);
        let records: Vec<Fields> = case.terms.chunks(TERM_BYTES).map(Fields::of).collect();
        let at = place as usize - 1;
        let record = records[at];
        let same = |r: &&Fields| r.equation == record.equation && r.exponents == record.exponents;
        let earlier = records[..at].iter().find(same);
        if code == 3 {
            let kind = broken(&record, case);
            self.number(format!("code 3, {kind}: places"), place);
            if earlier.is_some() {
                self.count("code 3: the record is also a repeat");
            }
        } else if let Some(earlier) = earlier {
            let kind = if earlier.coefficient == record.coefficient {
                "the same"
            } else {
                "another"
            };
            self.number(format!("code 4, {kind} coefficient: places"), place);
        }
        let later = &case.terms[(at + 1) * TERM_BYTES..];
        if let Err(second) = read_terms(case.setting(), later) {
            self.count(format!(
                "code {code}: a later record has code {}",
                second.code
            ));
        }
    }

    fn set_rule(&mut self, case: &Case) {
        let faults = set_faults(case.setting(), &case.given);
        let [fault] = faults[..] else {
            self.count("code 8: several rules broken");
            return;
        };
        self.count(format!("code 8: {fault}"));
        if fault == SetFault::DegreeAbove {
            self.above(case);
        }
        for (j, monomial) in set_places(&case.given).iter().enumerate() {
            let Monomial(exponents) = monomial;
            if fault == SetFault::SingleVariable && monomial.is_variable() {
                let variable = exponents.iter().position(|&e| e == 1).expect("a variable");
                self.number("code 8: single variables", variable as u64 + 1);
                self.number("code 8: single variables' places", j as u64 + 1);
            }
            for &exponent in exponents.iter().filter(|&&e| e > MOST_SET_EXPONENT) {
                let name = format!("code 8: exponents above {MOST_SET_EXPONENT}");
                self.number(name, u64::from(exponent));
            }
        }
    }

    /// Codes 0, 8, 10 and 11 of reading: what the text is an example of.
    fn listing(&mut self, case: &Case, reply: &Reply) {
        for fact in listing_cover::facts(case) {
            self.count(format!("read: {fact}"));
        }
        match reply.code {
            0 => {
                self.number("read: sizes of sets", reply.order);
                self.number("read: n of answers", case.n);
            }
            8 => {}
            code => {
                self.number(format!("read: places of code {code}"), reply.place);
                self.number(
                    format!("read, n {}: places of code {code}", case.n),
                    reply.place,
                );
            }
        }
    }

    /// Where a set is above its limit, and by what.
    fn above(&mut self, case: &Case) {
        let limit = case.degree;
        let mut by_exponent = false;
        for (j, monomial) in set_places(&case.given).iter().enumerate() {
            if monomial.degree() > limit {
                self.number("code 8: places above the limit", j as u64 + 1);
                let name = format!("code 8, limit {limit}: degrees above it");
                self.number(name, monomial.degree());
            }
            by_exponent |= monomial.0.iter().any(|&e| u64::from(e) > limit);
        }
        if !by_exponent {
            self.count("code 8: degree above the limit, and no exponent");
        }
    }

    /// Codes 0, 5, 6 and 7: how near the case is to its limit and its room.
    fn taken(&mut self, case: &Case, reply: &Reply) {
        match case.operation {
            Operation::Plan => self.planned(case, reply),
            Operation::Wire => self.wired(case, reply),
            Operation::Thin => self.thinned(case, reply),
            Operation::Read => {}
        }
        self.number(format!("{}: n of answers", case.operation.name()), case.n);
    }

    fn planned(&mut self, case: &Case, reply: &Reply) {
        let room = (case.buffer / SET_BYTES) as u64;
        let code = reply.code;
        self.number(format!("plan: K with code {code}"), case.cap);
        self.number(format!("plan: orders with code {code}"), reply.order);
        self.number(
            "plan: bytes of room that hold no set",
            (case.buffer % SET_BYTES) as u64,
        );
        match (code, case.limit - reply.steps) {
            (7, _) => {}
            (_, 0) => self.count(format!("plan: code {code} exactly at the limit")),
            (_, 1) => self.count(format!("plan: code {code} one step below the limit")),
            _ => {}
        }
        if case.limit == MOST_LIMIT {
            self.count("plan: the largest limit");
        }
        self.closed(case, reply);
        self.ordered(case, reply);
        match code {
            0 => {
                self.number("plan: counts of sets", reply.count);
                match room - reply.count {
                    0 => self.count("plan: room exactly taken"),
                    1 => self.count("plan: room for one more"),
                    _ => {}
                }
            }
            6 => {
                let mut more = case.clone();
                more.buffer += SET_BYTES;
                if more.answer().0.code == 0 {
                    self.count("plan: full, one set short");
                }
                if room == 0 {
                    self.count("plan: full without room");
                }
            }
            7 => self.spent(case, reply),
            _ => {}
        }
    }

    /// Where the walk closes sets, and what it would say if it tried them.
    fn closed(&mut self, case: &Case, reply: &Reply) {
        let (system, _) = good_input(case).expect("the input is not refused");
        let room = case.buffer / SET_BYTES;
        let cap = case.cap as usize;
        let walked = walk(&system, Rules::NOW, cap, case.limit, room);
        let full = system.clone().limited(Degree::FULL);
        for (level, set) in walked.closed {
            let room = (level - set.len()) as u64;
            self.number("plan: room for what is closed", room);
            if system.marks != Marks::NONE {
                self.number("plan: room for what is closed, with signals", room);
            }
            let junior = system.degree != Degree::FULL;
            if junior && set.len() + lacks(&full, &set, &full.nonsquares(&set)) <= level {
                self.number("plan: room for what a junior kit alone closes", room);
            }
        }
        if case.limit <= FAR {
            let (tried, _) = case.answer_by(Rules::TRYING);
            if tried != *reply {
                let (before, now) = (tried.code, reply.code);
                self.count(format!("plan: code {before} by trying, {now} by closing"));
            }
        }
    }

    /// What the walk would say if all pairs came by ascending m1.
    fn ordered(&mut self, case: &Case, reply: &Reply) {
        if case.limit > FAR {
            return;
        }
        let (before, _) = case.answer_by(Rules::BEFORE_CHEAP_FIRST);
        if before == *reply {
            return;
        }
        let change = match (before.code, reply.code) {
            (6, 6) if reply.steps < before.steps => "full sooner".to_string(),
            (6, 6) => "full later".to_string(),
            (before, now) => format!("code {before} by ascending m1, {now}"),
        };
        self.count(format!("plan: {change} with cheap pairs first"));
        let room = (case.buffer / SET_BYTES) as u64;
        self.number("plan: rooms where the order shows", room);
        if case.marks != 0 {
            self.number("plan: rooms where the order shows, with signals", room);
        }
        if case.degree != Degree::FULL.0 {
            self.number("plan: rooms where the order shows, with a junior kit", room);
            self.number("plan: degrees where the order shows", case.degree);
        }
        self.number("plan: levels where the order shows", reply.order);
    }

    fn spent(&mut self, case: &Case, reply: &Reply) {
        let mut more = case.clone();
        more.limit += 1;
        let code = more.answer().0.code;
        if code != 7 {
            self.count(format!("plan: spent one step before code {code}"));
        }
        if reply.order > 0 {
            more.cap = reply.order - 1;
            let (level, _) = more.answer();
            if level.code == 5 && level.steps == case.limit {
                self.count("plan: spent between two levels");
            }
        }
    }

    fn wired(&mut self, case: &Case, reply: &Reply) {
        self.number("wire: sizes of quadratic sets", reply.order);
        let count = self.derivatives(case).count();
        self.number("wire: lengths of lists", count as u64);
        if count == 0 {
            let name = format!("wire, n {}: sizes with an empty list", case.n);
            self.number(name, reply.order);
        }
    }

    /// What the derivatives of a wiring are an example of.
    fn derivatives(&mut self, case: &Case) -> Derivatives {
        let (system, set) = good_input(case).expect("the input is not refused");
        let derivatives = Derivatives::of(&system, &set);
        for name in derivatives.names(case.buffer) {
            self.count(format!("wire: {name}"));
        }
        derivatives
    }

    fn thinned(&mut self, case: &Case, reply: &Reply) {
        let (system, set) = good_input(case).expect("neither code refuses the input");
        let thinning = Thinning::of(&system, &set);
        for name in thinning.names() {
            self.count(format!("thin: {name}"));
        }
        let size = set.len();
        self.number(format!("thin, size {size}: orders"), reply.order);
        self.number("thin: counts of subsets", thinning.count() as u64);
        self.number(
            "thin: bytes of room that hold no set",
            (case.buffer % SET_BYTES) as u64,
        );
        let tallest = |signals: &Set| signals.iter().flat_map(|m| m.0).max().unwrap_or(0);
        self.number("thin: exponents of given sets", u64::from(tallest(&set)));
        let kept = u64::from(tallest(&thinning.kept()));
        self.number("thin: exponents of kept signals", kept);
        match case.buffer.checked_sub(thinning.count() * SET_BYTES) {
            Some(0) => self.count("thin: list exactly as long as the buffer"),
            Some(1) => self.count("thin: buffer one byte longer"),
            Some(_) => {}
            None => self.too_long(case, &thinning),
        }
    }

    fn too_long(&mut self, case: &Case, thinning: &Thinning) {
        let needed = thinning.count() * SET_BYTES;
        if case.buffer + 1 == needed {
            self.count("thin: buffer one byte short");
            if thinning.only_empty_is_left() {
                self.count("thin: buffer one byte short for the empty set");
            }
        }
        if case.buffer == 0 {
            self.count("thin: full without a byte");
        } else if case.buffer >= SET_BYTES {
            self.count("thin: full with room for some");
        }
    }

    /// Which fault decides where a case has several.
    fn sequence(&mut self, case: &Case, reply: &Reply) {
        for other in all_faults(case) {
            if other != reply.code {
                self.count(format!("checks: {} before {other}", reply.code));
            }
        }
    }

    /// What kinds of systems are met.
    fn system(&mut self, case: &Case, system: &System, set: &Set) {
        self.number("systems: numbers of records", system.terms.len() as u64);
        let terms = &system.terms;
        for term in terms {
            let tallest = term.monomial.0.iter().max().expect("exponents");
            self.number("systems: exponents", u64::from(*tallest));
            if term.coefficient.abs() == MOST_COEFFICIENT {
                self.count(format!("systems: records with {}", term.coefficient));
            }
        }
        let unused = |i: usize| {
            let free = |t: &Term| t.equation != i && t.monomial.0[i - 1] == 0;
            terms.iter().all(free)
        };
        if (1..=system.n).any(unused) {
            self.count("systems: with an unused variable");
        }
        let shared = |a: &Term| {
            let same = |b: &Term| a.monomial == b.monomial && a.equation != b.equation;
            terms.iter().any(same)
        };
        if terms.iter().any(shared) {
            self.count("systems: with one monomial in two equations");
        }
        if set.iter().any(|&z| cancels(system, z)) {
            let name = case.operation.name();
            self.count(format!("{name}: a member's derivative cancels"));
        }
    }

    /// The report, line by line.
    pub fn report(&self) -> String {
        let mut text = format!("{} cases, {} steps\n", self.cases, self.steps);
        for (name, count) in &self.counts {
            text += &format!("{name}: {count}\n");
        }
        for (name, numbers) in &self.numbers {
            text += &format!("{name}: {} ({})\n", runs(numbers), numbers.len());
        }
        text
    }
}

/// The report on some cases.
#[cfg(test)]
pub fn report_of(cases: &[Case]) -> String {
    let mut cover = Cover::default();
    cases.iter().for_each(|case| cover.add(case));
    cover.report()
}

/// The kind of a broken field, finer than the rule it breaks.
fn broken(record: &Fields, case: &Case) -> String {
    let n = case.n as usize;
    let faults = record.faults(n, Marks(case.marks));
    let [fault] = faults[..] else {
        return "several fields".to_string();
    };
    let equation = record.equation;
    let tallest = *record.exponents[..n].iter().max().expect("a variable");
    let nearest = u16::from(tallest) == MOST_EXPONENT + 1;
    match fault {
        TermFault::EquationBeyondN if usize::from(equation) == n + 1 => "equation n + 1".into(),
        TermFault::EquationBeyondN if equation == u8::MAX => format!("equation {equation}"),
        TermFault::ExponentAbove if nearest || tallest == u8::MAX => format!("exponent {tallest}"),
        TermFault::CoefficientBeyond => match record.coefficient {
            i32::MIN => "least coefficient".into(),
            i32::MAX => "most coefficient".into(),
            c if i64::from(c).abs() == MOST_COEFFICIENT + 1 => format!("coefficient {c}"),
            _ => fault.to_string(),
        },
        _ => fault.to_string(),
    }
}

/// Code 2 as far as it is about what is given beside the terms.
fn given_has_a_length(case: &Case) -> bool {
    match case.operation {
        Operation::Plan => true,
        Operation::Wire | Operation::Thin => case.given.len() == SET_BYTES,
        Operation::Read => text_has_a_length(&case.given),
    }
}

/// The system and the set (empty for planning and reading) where both are good.
fn good_input(case: &Case) -> Option<(System, Set)> {
    let setting = case.setting();
    if !setting.is_in_range() || !terms_have_a_length(&case.terms) {
        return None;
    }
    let system = read_terms(setting, &case.terms).ok()?;
    if !given_has_a_length(case) {
        return None;
    }
    if [Operation::Plan, Operation::Read].contains(&case.operation) {
        return Some((system, Set::new()));
    }
    Some((system, read_set(setting, &case.given).ok()?))
}

/// The codes of all refusals that the case would give, each rule by itself.
fn all_faults(case: &Case) -> BTreeSet<u64> {
    let mut codes = BTreeSet::new();
    let planning = case.operation == Operation::Plan;
    let setting = case.setting();
    let good_walk = cap_is_in_range(case.cap) && limit_is_in_range(case.limit);
    if !setting.is_in_range() || planning && !good_walk {
        codes.insert(1);
    }
    let good_given = given_has_a_length(case);
    if !terms_have_a_length(&case.terms) || !good_given {
        codes.insert(2);
    }
    if !setting.variables_are_in_range() {
        return codes;
    }
    let whole = case.terms.len() / TERM_BYTES * TERM_BYTES;
    if let Err(refusal) = read_terms(setting, &case.terms[..whole]) {
        codes.insert(refusal.code);
    }
    if case.operation == Operation::Read {
        codes.extend(listing_cover::faults(case));
        return codes;
    }
    if !planning && good_given && read_set(setting, &case.given).is_err() {
        codes.insert(8);
    }
    // A set above the limit is judged as the full kit would.
    let unlimited = case.clone().limited(Degree::FULL);
    if let Some((system, set)) = good_input(&unlimited).filter(|_| !planning) {
        if !system.is_quadratic(&set) {
            codes.insert(9);
        }
        let records = Derivatives::of(&system, &set).count();
        if case.operation == Operation::Wire && records > case.buffer / WIRE_BYTES {
            codes.insert(6);
        }
        if case.operation == Operation::Thin {
            let found = thinned(&set, |subset| system.is_quadratic(subset));
            let list = found.map_or(0, |found| found.subsets.len());
            if list > case.buffer / SET_BYTES {
                codes.insert(6);
            }
        }
    }
    codes
}

/// Whether like monomials in the derivative of z add up to nothing.
fn cancels(system: &System, z: Monomial) -> bool {
    system.totals(z).values().any(|&total| total == 0)
}

/// Numbers as runs: `1-5 7 9-10`.
fn runs(numbers: &BTreeSet<u64>) -> String {
    let mut runs: Vec<(u64, u64)> = Vec::new();
    for &number in numbers {
        match runs.last_mut() {
            Some((_, last)) if *last + 1 == number => *last = number,
            _ => runs.push((number, number)),
        }
    }
    let text = |&(first, last): &(u64, u64)| match first == last {
        true => first.to_string(),
        false => format!("{first}-{last}"),
    };
    runs.iter().map(text).collect::<Vec<_>>().join(" ")
}

#[cfg(test)]
mod tests {
    use super::*;
    use crate::notation::{monomial, system, terms};
    use crate::panel::USUAL_CAP;
    use crate::records::write_terms;
    use crate::rows::set_of;

    #[test]
    fn numbers_are_written_as_runs() {
        let numbers = BTreeSet::from([1, 2, 3, 7, 9, 10]);
        assert_eq!(runs(&numbers), "1-3 7 9-10");
        assert_eq!(runs(&BTreeSet::new()), "");
    }

    #[test]
    fn limits_and_rooms_are_recognised() {
        let input = write_terms(&terms("x1' = x1^4 + x1^3"));
        let plan = |limit, room| Case::plan(1, USUAL_CAP, limit, room * SET_BYTES, input.clone());
        let text = report_of(&[plan(23, 2), plan(22, 2), plan(24, 3), plan(90, 1)]);
        for line in [
            "plan: code 0 done: 2",
            "plan: code 0 exactly at the limit: 1",
            "plan: code 0 one step below the limit: 1",
            "plan: spent one step before code 0: 1",
            "plan: room exactly taken: 1",
            "plan: room for one more: 1",
            "plan: full, one set short: 1",
        ] {
            assert!(text.lines().any(|l| l == line), "{line} in\n{text}");
        }
    }

    /// Room for two sets of four: full at the eighth step, and once at the ninth.
    #[test]
    fn the_order_of_pairs_is_recognised() {
        let input = write_terms(&terms("x1' = x2^2 x3^2"));
        let plan = |limit, room| Case::plan(3, USUAL_CAP, limit, room * SET_BYTES, input.clone());
        let text = report_of(&[
            plan(90, 2),
            plan(8, 2),
            plan(7, 2),
            plan(90, 1),
            plan(90, 4),
        ]);
        for line in [
            "plan: full sooner with cheap pairs first: 1",
            "plan: code 7 by ascending m1, 6 with cheap pairs first: 1",
            "plan: rooms where the order shows: 2 (1)",
        ] {
            assert!(text.lines().any(|l| l == line), "{line} in\n{text}");
        }
        let input = write_terms(&terms("x1' = x2 x3^3"));
        let plan = |limit| Case::plan(3, USUAL_CAP, limit, 0, input.clone()).limited(Degree(2));
        let text = report_of(&[plan(90), plan(11)]);
        for line in [
            "plan: full later with cheap pairs first: 1",
            "plan: code 6 by ascending m1, 7 with cheap pairs first: 1",
            "plan: degrees where the order shows: 2 (1)",
        ] {
            assert!(text.lines().any(|l| l == line), "{line} in\n{text}");
        }
    }

    #[test]
    fn buffers_of_wiring_are_recognised() {
        let input = write_terms(&terms("x1' = x1^3"));
        let wire = |buffer| Case::wire(1, input.clone(), set_of(&["x1^2"]), buffer);
        let text = report_of(&[0, 7, 8, 15, 16, 17, MOST_WIRES_BYTES].map(wire));
        for line in [
            "wire: code 0 done: 3",
            "wire: code 6 full: 4",
            "wire: code 6, no bytes: 1",
            "wire: code 6, bytes without room: 1",
            "wire: code 6, some room: 2",
            "wire: code 6, bytes about a record: 0 7-8 (3)",
            "wire: code 0, some room: 2",
            "wire: code 0, room for any list: 1",
            "wire: buffer one record short: 1",
            "wire: buffer one byte short: 1",
            "wire: list exactly as long as the buffer: 1",
            "wire: buffer one byte longer: 1",
            "wire: full with room for some: 2",
            "wire: lengths of lists: 2 (1)",
        ] {
            assert!(text.lines().any(|l| l == line), "{line} in\n{text}");
        }
        let empty = Case::wire(1, Vec::new(), set_of(&["x1^2"]), 0);
        assert!(report_of(&[empty]).contains("wire, n 1: sizes with an empty list: 1 (1)\n"));
    }

    #[test]
    fn buffers_of_thinning_are_recognised() {
        let input = write_terms(&terms("x1' = x1^4 + x1^3"));
        let set = set_of(&["x1^2", "x1^3", "x1^4"]);
        let thin = |buffer| Case::thin(1, input.clone(), set.clone(), buffer);
        let text = report_of(&[thin(0), thin(36), thin(71), thin(72), thin(73), thin(99)]);
        for line in [
            "thin: code 0 done: 3",
            "thin: code 6 full: 3",
            "thin: full without a byte: 1",
            "thin: full with room for some: 2",
            "thin: buffer one byte short: 1",
            "thin: list exactly as long as the buffer: 1",
            "thin: buffer one byte longer: 1",
            "thin: bytes of room that hold no set: 0-1 27 35 (4)",
            "thin: counts of subsets: 2 (1)",
            "thin: exponents of kept signals: 4 (1)",
            "thin, size 3: orders: 2 (1)",
        ] {
            assert!(text.lines().any(|l| l == line), "{line} in\n{text}");
        }
        let empty = Case::thin(1, Vec::new(), set, 35);
        assert!(report_of(&[empty]).contains("thin: buffer one byte short for the empty set: 1\n"));
    }

    #[test]
    fn junior_kits_are_recognised() {
        let input = write_terms(&terms("x1' = x1^4 + x1^3"));
        let plan = |limit| {
            let plan = Case::plan(1, USUAL_CAP, 90, 3 * SET_BYTES, input.clone());
            plan.limited(Degree(limit))
        };
        let set = set_of(&["x1^2", "x1^3"]);
        let wiring = Case::wire(1, input.clone(), set, 0).limited(Degree(2));
        let text = report_of(&[plan(2), plan(3), plan(4), plan(5), plan(10), wiring]);
        for line in [
            "plan: code 0 full kit, 5 junior: 1",
            "plan: fewer sets with a junior kit: 1",
            "plan: fewer steps with a junior kit: 2",
            "plan: the same numbers with a junior kit: 1",
            "plan: degrees with code 0: 3-5 (3)",
            "plan: degrees refused: 10 (1)",
            "wire: code 6 full kit, 8 junior: 1",
            "code 8: degree above the limit: 1",
            "code 8: places above the limit: 2 (1)",
            "code 8, limit 2: degrees above it: 3 (1)",
            "checks: 8 before 6: 1",
        ] {
            assert!(text.lines().any(|l| l == line), "{line} in\n{text}");
        }
    }

    #[test]
    fn a_list_too_long_is_a_fault_after_the_set_is_judged() {
        let input = write_terms(&terms("x1' = 1"));
        let case = Case::thin(1, input, set_of(&["x1^4"]), 35);
        assert_eq!(all_faults(&case), BTreeSet::from([6, 9]));
        assert!(report_of(&[case]).contains("checks: 9 before 6: 1\n"));
    }

    #[test]
    fn every_fault_of_a_case_is_named() {
        let wrong = write_terms(&terms("x1' = x1^10"));
        let case = Case::wire(1, wrong, set_of(&["x1"]), 0);
        assert_eq!(all_faults(&case), BTreeSet::from([3, 8]));
        assert!(report_of(&[case]).contains("checks: 3 before 8: 1\n"));
    }

    #[test]
    fn cancelling_is_recognised() {
        let cancel = system(2, "x1' = x1^2 x2; x2' = - x1 x2^2");
        assert!(cancels(&cancel, monomial("x1 x2")));
        assert!(!cancels(&cancel, monomial("x1^2 x2")));
    }
}
