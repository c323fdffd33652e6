//! The four operations, with the checks in their sequence
//! (document 01, What the box says; document 02, [1] to [4] and [6] to [8]).

use crate::listing::{read, Unreadable};
use crate::monomial::Monomial;
use crate::panel::{MOST_CAP, MOST_LIMIT, MOST_TEXT, SET_BYTES, WIRE_BYTES};
use crate::reading::{first_false, named, set_of_names};
use crate::records::{
    read_set, read_terms, terms_have_a_length, write_places, write_set, write_wire,
};
use crate::reply::Reply;
use crate::setting::Setting;
use crate::system::{Set, System};
use crate::thinning::thinned;
use crate::walk::{walk, End, Rules};
use crate::wiring::wiring;
use std::collections::BTreeSet;

pub fn cap_is_in_range(cap: u64) -> bool {
    cap <= MOST_CAP
}

pub fn limit_is_in_range(limit: u64) -> bool {
    (1..=MOST_LIMIT).contains(&limit)
}

/// Planning. Whatever the code, every byte of the answer is written.
pub fn plan(setting: Setting, cap: u64, limit: u64, terms: &[u8], answer: &mut [u8]) -> Reply {
    plan_by(Rules::NOW, setting, cap, limit, terms, answer)
}

/// The same by a walk of other rules.
pub fn plan_by(
    rules: Rules,
    setting: Setting,
    cap: u64,
    limit: u64,
    terms: &[u8],
    answer: &mut [u8],
) -> Reply {
    answer.fill(0);
    if !(setting.is_in_range() && cap_is_in_range(cap) && limit_is_in_range(limit)) {
        return Reply::bare(1);
    }
    if !terms_have_a_length(terms) {
        return Reply::bare(2);
    }
    match read_terms(setting, terms) {
        Ok(system) => planned(rules, &system, cap, limit, answer),
        Err(refusal) => refusal,
    }
}

/// Planning of a system that is taken, into a buffer of zeros.
pub fn planned(rules: Rules, system: &System, cap: u64, limit: u64, answer: &mut [u8]) -> Reply {
    let walked = walk(system, rules, cap as usize, limit, answer.len() / SET_BYTES);
    let order = walked.level as u64;
    let steps = walked.steps;
    let (code, order, count) = match walked.end {
        End::Done => (0, order, walked.finds.len() as u64),
        End::None => (5, cap + 1, 0),
        End::Full => (6, order, 0),
        End::Spent => (7, order, 0),
    };
    if code == 0 {
        list_sets(&walked.finds, answer);
    }
    Reply {
        code,
        order,
        count,
        steps,
        place: 0,
    }
}

/// Writes the sets ascending from the buffer's first byte, which has room.
fn list_sets(sets: &BTreeSet<Vec<Monomial>>, answer: &mut [u8]) {
    for (place, set) in answer.chunks_mut(SET_BYTES).zip(sets) {
        place.copy_from_slice(&write_places(set));
    }
}

/// The system and the set, or the refusal.
fn given(setting: Setting, terms: &[u8], set: &[u8]) -> Result<(System, Set), Reply> {
    if !setting.is_in_range() {
        return Err(Reply::bare(1));
    }
    if !terms_have_a_length(terms) || set.len() != SET_BYTES {
        return Err(Reply::bare(2));
    }
    let system = read_terms(setting, terms)?;
    let set = read_set(setting, set)?;
    Ok((system, set))
}

/// Wiring, and the verdict with it. Whatever the code, every byte of the answer
/// is written.
pub fn wire(setting: Setting, terms: &[u8], set: &[u8], answer: &mut [u8]) -> Reply {
    answer.fill(0);
    match given(setting, terms, set) {
        Ok((system, set)) => wired(&system, &set, answer),
        Err(refusal) => refusal,
    }
}

/// Verdict and wiring of a set that is taken, into a buffer of zeros.
pub fn wired(system: &System, set: &Set, answer: &mut [u8]) -> Reply {
    let reply = Reply {
        order: set.len() as u64,
        ..Reply::default()
    };
    // The whole list comes first, so that the room is asked of quadratic sets
    // alone and nothing is written of others.
    let list = match wiring(system, set) {
        Ok(list) => list,
        Err(left) => {
            return Reply {
                code: 9,
                place: left as u64,
                ..reply
            }
        }
    };
    if list.len() > answer.len() / WIRE_BYTES {
        return Reply { code: 6, ..reply };
    }
    for (place, wire) in answer.chunks_mut(WIRE_BYTES).zip(&list) {
        place.copy_from_slice(&write_wire(wire));
    }
    Reply {
        count: list.len() as u64,
        ..reply
    }
}

/// Thinning. Whatever the code, every byte of the answer is written.
pub fn thin(setting: Setting, terms: &[u8], set: &[u8], answer: &mut [u8]) -> Reply {
    answer.fill(0);
    // Into an empty buffer wiring gives the verdict alone: full is quadratic too.
    let verdict = |set: &[u8]| wire(setting, terms, set, &mut []);
    let quadratic = |reply: Reply| [0, 6].contains(&reply.code);
    let judged = verdict(set);
    if !quadratic(judged) {
        return judged;
    }
    let set = read_set(setting, set).expect("a set that was judged");
    let thinned = thinned(&set, |subset| quadratic(verdict(&write_set(subset))))
        .expect("the given set is a subset of itself");
    let reply = Reply {
        order: thinned.order as u64,
        steps: thinned.steps,
        ..Reply::default()
    };
    if thinned.subsets.len() > answer.len() / SET_BYTES {
        return Reply { code: 6, ..reply };
    }
    list_sets(&thinned.subsets, answer);
    Reply {
        count: thinned.subsets.len() as u64,
        ..reply
    }
}

/// Code 2 as far as it is about the text of a listing.
pub fn text_has_a_length(text: &[u8]) -> bool {
    text.len() <= MOST_TEXT
}

/// Reading a listing. The set comes back by value, and is all zeros with every code
/// but 0.
pub fn read_listing(setting: Setting, terms: &[u8], text: &[u8]) -> (Reply, [u8; SET_BYTES]) {
    match listed(setting, terms, text) {
        Ok(set) => {
            let reply = Reply {
                order: set.len() as u64,
                ..Reply::default()
            };
            (reply, write_set(&set))
        }
        Err(refusal) => (refusal, [0; SET_BYTES]),
    }
}

/// The set of a listing in which all is right, or the refusal. Whether the set is
/// quadratic is not asked: true lines say so.
fn listed(setting: Setting, terms: &[u8], text: &[u8]) -> Result<Set, Reply> {
    if !setting.is_in_range() {
        return Err(Reply::bare(1));
    }
    if !terms_have_a_length(terms) || !text_has_a_length(text) {
        return Err(Reply::bare(2));
    }
    let system = read_terms(setting, terms)?;
    let listing = read(setting, text).map_err(|Unreadable(place)| Reply::at(10, place))?;
    let names = named(&listing).ok_or(Reply::bare(8))?;
    let set = set_of_names(setting, &names).ok_or(Reply::bare(8))?;
    match first_false(&system, &names, &listing) {
        Some(line) => Err(Reply::at(11, line)),
        None => Ok(set),
    }
}

#[cfg(test)]
mod tests {
    use super::*;
    use crate::batch::UNTOUCHED;
    use crate::marks::Marks;
    use crate::panel::{CARDS, MOST_WIRES_BYTES, VARIABLES};
    use crate::random::Random;
    use crate::records::{read_wires, set_places, write_terms};
    use crate::system::Term;
    use crate::systems::{self, Kit, Outside};
    use std::collections::BTreeMap;

    const ROOM: usize = 1_800 * SET_BYTES;

    /// A system with signals fed from outside, or without.
    fn any_system(random: &mut Random) -> System {
        let system = systems::any(random);
        any_outside(random).feed(random, system)
    }

    fn any_outside(random: &mut Random) -> Outside {
        random.pick(&[Outside::Nothing, Outside::Signals])
    }

    /// Random systems that planning finishes, with the reply and the buffer.
    fn planned(seed: u64) -> Vec<(System, Reply, Vec<u8>)> {
        let mut random = Random::from_seed(seed);
        let mut planned = Vec::new();
        while planned.len() < 60 {
            let kit = random.pick(&[Kit::Full, Kit::Full, Kit::Junior]);
            let system = any_system(&mut random);
            let system = kit.limit(&mut random, system);
            let mut sets = vec![UNTOUCHED; ROOM];
            let terms = write_terms(&system.terms);
            let reply = plan(system.setting(), MOST_CAP, 2_000, &terms, &mut sets);
            if reply.code == 0 {
                planned.push((system, reply, sets));
            }
        }
        planned
    }

    #[test]
    fn found_sets_ascend_and_are_quadratic() {
        for (system, reply, sets) in planned(11) {
            let count = reply.count as usize;
            let found: Vec<&[u8]> = sets.chunks(SET_BYTES).take(count).collect();
            let places: Vec<[Monomial; CARDS]> = found.iter().map(|r| set_places(r)).collect();
            assert!(places.windows(2).all(|two| two[0] < two[1]));
            for record in found {
                let terms = write_terms(&system.terms);
                let judged = wire(system.setting(), &terms, record, &mut []);
                let code = if terms.is_empty() { 0 } else { 6 };
                assert_eq!(judged.numbers(), [code, reply.order, 0, 0, 0]);
            }
            assert!(sets[count * SET_BYTES..].iter().all(|&byte| byte == 0));
        }
    }

    /// A signal has no equation: what it does by itself is nowhere asked for.
    #[test]
    fn the_slope_of_a_signal_changes_nothing() {
        let mut marked = 0;
        for (system, reply, sets) in planned(19) {
            let mut moved = system.clone();
            for i in system.marks.variables() {
                moved.terms.push(Term {
                    equation: i,
                    monomial: Monomial([9; VARIABLES]),
                    coefficient: 1,
                });
                marked += 1;
            }
            let mut again = vec![0; ROOM];
            let walked = super::planned(Rules::NOW, &moved, MOST_CAP, 2_000, &mut again);
            assert_eq!(walked, reply);
            assert!(again == sets);
            let set = read_set(system.setting(), &sets[..SET_BYTES]).unwrap();
            let mut lists = [vec![0; MOST_WIRES_BYTES], vec![0; MOST_WIRES_BYTES]];
            let wire = |system, list: &mut Vec<u8>| wired(system, &set, list);
            assert_eq!(wire(&system, &mut lists[0]), wire(&moved, &mut lists[1]));
            assert_eq!(lists[0], lists[1]);
        }
        assert!(marked > 20);
    }

    /// A variable and one or two signals: every set of two powers at most is
    /// looked at. Level 2 of the walk has exponents up to 18.
    #[test]
    fn no_smaller_set_without_signals_and_none_as_small_is_left_out() {
        let mut random = Random::from_seed(20);
        let mut orders = BTreeMap::new();
        for _ in 0..150 {
            let n = random.between(2, 3);
            let marks = Marks::of(2..=n);
            let count = random.between(1, 2);
            let mut system = systems::run(&mut random, n, marks, count);
            // Signals in most terms would leave nothing but none.
            for term in &mut system.terms {
                let most = u16::from(random.chance(20));
                for exponent in &mut term.monomial.0[1..] {
                    *exponent = most.min(*exponent);
                }
            }
            let powers: Set = (2..=18).map(systems::power).collect();
            let mut sets = vec![Set::new()];
            for &first in &powers {
                let pairs = powers.iter().map(|&second| Set::from([first, second]));
                sets.extend(pairs);
            }
            sets.retain(|set| system.is_quadratic(set));
            let order = sets.iter().map(Set::len).min();
            sets.retain(|set| Some(set.len()) == order);
            let smallest: BTreeSet<Vec<u8>> =
                sets.iter().map(|set| write_set(set).to_vec()).collect();
            let mut answer = vec![0; ROOM];
            let reply = super::planned(Rules::NOW, &system, 2, MOST_LIMIT, &mut answer);
            let found: BTreeSet<Vec<u8>> = answer
                .chunks(SET_BYTES)
                .take(reply.count as usize)
                .map(<[u8]>::to_vec)
                .collect();
            assert_eq!(found, smallest);
            match order {
                Some(order) => assert_eq!((reply.code, reply.order), (0, order as u64)),
                None => assert_eq!((reply.code, reply.order), (5, 3)),
            }
            *orders.entry(order).or_insert(0) += 1;
        }
        assert_eq!(orders.len(), 4, "{orders:?}");
    }

    #[test]
    fn the_wiring_adds_up_to_the_derivatives() {
        for (system, reply, sets) in planned(12) {
            let set = read_set(system.setting(), &sets[..SET_BYTES]).unwrap();
            let mut list = vec![UNTOUCHED; MOST_WIRES_BYTES];
            let terms = write_terms(&system.terms);
            let wired = wire(system.setting(), &terms, &write_set(&set), &mut list);
            assert_eq!((wired.code, wired.order), (0, reply.order));
            let signals = system.signals(&set);
            let mut sums = vec![BTreeMap::new(); signals.len()];
            for w in read_wires(&list) {
                assert!(w.a <= w.b);
                let product = signals[w.a].times(signals[w.b]);
                assert_eq!(sums[w.left].insert(product, w.coefficient), None);
            }
            for (signal, sum) in signals.iter().zip(sums) {
                assert_eq!(system.derivative(*signal), sum);
            }
        }
    }

    /// A system with a set that is quadratic, just not, or only by cancelling.
    fn with_a_set(random: &mut Random) -> (System, Set) {
        match random.below(3) {
            0 => systems::decided_by_cancelling(random),
            1 => {
                let outside = any_outside(random);
                systems::closed(random, outside)
            }
            _ => {
                let system = any_system(random);
                let size = random.between(0, CARDS);
                let set = systems::set(random, system.n, system.marks, size);
                (system, set)
            }
        }
    }

    /// The first left variable whose derivative has a nonsquare, and the number of
    /// all monomials in the derivatives.
    fn judged(system: &System, set: &Set) -> (Option<usize>, usize) {
        let nonsquares = system.nonsquares(set);
        let derivatives: Vec<BTreeMap<Monomial, i64>> = system
            .signals(set)
            .iter()
            .map(|&signal| system.derivative(signal))
            .collect();
        let has_one = |d: &BTreeMap<Monomial, i64>| d.keys().any(|m| nonsquares.contains(m));
        let records = derivatives.iter().map(BTreeMap::len).sum();
        (derivatives.iter().position(has_one), records)
    }

    #[test]
    fn the_verdict_is_that_of_the_nonsquares_whatever_the_room() {
        let mut random = Random::from_seed(18);
        let mut codes = BTreeMap::new();
        for _ in 0..300 {
            let (system, set) = with_a_set(&mut random);
            let (first, records) = judged(&system, &set);
            for buffer in [0, 7, 8, 8 * records, 8 * records + 9, MOST_WIRES_BYTES] {
                let code = match first {
                    Some(_) => 9,
                    None if records > buffer / WIRE_BYTES => 6,
                    None => 0,
                };
                let count = if code == 0 { records as u64 } else { 0 };
                let numbers = [code, set.len() as u64, count, 0, first.unwrap_or(0) as u64];
                let mut answer = vec![UNTOUCHED; buffer];
                let terms = write_terms(&system.terms);
                let reply = wire(system.setting(), &terms, &write_set(&set), &mut answer);
                assert_eq!(reply.numbers(), numbers);
                let written = count as usize * WIRE_BYTES;
                assert!(answer[written..].iter().all(|&byte| byte == 0));
                *codes.entry(code).or_insert(0) += 1;
            }
            // Each equation's records are its own derivative's, so none vanishes.
            assert_eq!(records == 0, system.terms.is_empty());
        }
        assert!(codes.values().all(|&count| count > 200), "{codes:?}");
    }

    #[test]
    fn unused_variables_change_neither_sets_nor_steps() {
        for (system, reply, sets) in planned(13) {
            for n in system.n..=VARIABLES {
                let mut again = vec![0; ROOM];
                let terms = write_terms(&system.terms);
                let wider = plan(
                    Setting {
                        n: n as u64,
                        ..system.setting()
                    },
                    MOST_CAP,
                    2_000,
                    &terms,
                    &mut again,
                );
                assert_eq!(wider, reply);
                assert!(again == sets);
            }
        }
    }

    #[test]
    fn a_walk_needs_exactly_its_steps_and_its_room() {
        for (system, reply, sets) in planned(14) {
            let (setting, terms) = (system.setting(), write_terms(&system.terms));
            let needed = reply.count as usize * SET_BYTES;
            let mut answer = vec![UNTOUCHED; needed];
            assert_eq!(
                plan(setting, MOST_CAP, reply.steps, &terms, &mut answer),
                reply
            );
            assert!(answer == sets[..needed]);
            if reply.steps > 1 {
                let short = plan(setting, MOST_CAP, reply.steps - 1, &terms, &mut answer);
                assert_eq!(short.numbers(), [7, reply.order, 0, reply.steps - 1, 0]);
                assert!(answer.iter().all(|&byte| byte == 0));
            }
            let mut tight = vec![UNTOUCHED; needed - 1];
            let full = plan(setting, MOST_CAP, reply.steps, &terms, &mut tight);
            assert_eq!((full.code, full.order, full.count), (6, reply.order, 0));
            assert!(full.steps <= reply.steps);
            assert!(tight.iter().all(|&byte| byte == 0));
        }
    }

    /// As many of the found sets together as the cards hold.
    fn together(system: &System, reply: &Reply, sets: &[u8]) -> (Set, BTreeSet<Set>) {
        let records = sets.chunks(SET_BYTES).take(reply.count as usize);
        let found: BTreeSet<Set> = records
            .map(|record| read_set(system.setting(), record).unwrap())
            .collect();
        let mut given = Set::new();
        for set in &found {
            let both: Set = given.union(set).copied().collect();
            if both.len() <= CARDS {
                given = both;
            }
        }
        let inside = |set: &Set| set.is_subset(&given);
        let inside = found.into_iter().filter(inside).collect();
        (given, inside)
    }

    fn thin_in(system: &System, given: &Set, answer: &mut [u8]) -> Reply {
        let (terms, set) = (write_terms(&system.terms), write_set(given));
        thin(system.setting(), &terms, &set, answer)
    }

    /// Planning lists all smallest sets there are, so that the smallest subsets
    /// of some of them together are those that lie inside.
    #[test]
    fn thinning_found_sets_gives_back_those_inside() {
        let mut several = 0;
        for (system, reply, sets) in planned(16) {
            let (given, inside) = together(&system, &reply, &sets);
            let mut answer = vec![UNTOUCHED; 30 * SET_BYTES];
            let thinned = thin_in(&system, &given, &mut answer);
            let (count, steps) = (inside.len() as u64, 1 << given.len());
            assert_eq!(thinned.numbers(), [0, reply.order, count, steps, 0]);
            let mut expected: Vec<u8> = inside.iter().flat_map(write_set).collect();
            expected.resize(answer.len(), 0);
            assert!(answer == expected);
            several += usize::from(count > 1);
        }
        assert!(several > 5);
    }

    /// Every subset, reached by taking one signal away at a time, with the verdict
    /// that its nonsquares give.
    fn verdicts(system: &System, given: &Set) -> BTreeMap<Set, bool> {
        let mut verdicts = BTreeMap::new();
        let mut open = vec![given.clone()];
        while let Some(subset) = open.pop() {
            for signal in &subset {
                let mut rest = subset.clone();
                rest.remove(signal);
                open.push(rest);
            }
            let quadratic = system.is_quadratic(&subset);
            verdicts.insert(subset, quadratic);
        }
        verdicts
    }

    #[test]
    fn no_smaller_subset_is_quadratic_and_none_as_small_is_left_out() {
        let mut random = Random::from_seed(17);
        for _ in 0..40 {
            let outside = any_outside(&mut random);
            let (system, given) = systems::closed(&mut random, outside);
            let verdicts = verdicts(&system, &given);
            let quadratic = |subset: &&Set| verdicts[*subset];
            let sizes = verdicts.keys().filter(quadratic).map(Set::len);
            let order = sizes.min().unwrap();
            let smallest = verdicts
                .keys()
                .filter(|s| s.len() == order)
                .filter(quadratic);
            let expected: Vec<u8> = smallest.flat_map(write_set).collect();
            let mut answer = vec![UNTOUCHED; expected.len()];
            let thinned = thin_in(&system, &given, &mut answer);
            let count = expected.len() / SET_BYTES;
            let numbers = [0, order, count, verdicts.len(), 0].map(|number| number as u64);
            assert_eq!(thinned.numbers(), numbers);
            assert_eq!(answer, expected);
        }
    }

    #[test]
    fn a_level_below_the_order_finds_none() {
        for (system, reply, _) in planned(15) {
            for cap in 0..reply.order {
                let mut answer = [UNTOUCHED; SET_BYTES];
                let terms = write_terms(&system.terms);
                let none = plan(system.setting(), cap, 2_000, &terms, &mut answer);
                assert_eq!((none.code, none.order), (5, cap + 1));
                assert!(none.steps < reply.steps);
                assert_eq!(answer, [0; SET_BYTES]);
            }
        }
    }
}
