//! Random batches. Each group of cases is a small story: a system, what
//! planning makes of it, and then the cases at and next to its own limits.
//!
//! Kinds of damage and places run through in turns, not by chance, so that a
//! batch of some thousands of cases meets each of them.

use crate::batch::{Case, Operation, MOST_CASE_BUFFER};
use crate::cheap_maker::CHEAP;
use crate::cheap_rows;
use crate::closing_maker::CLOSING;
#[cfg(test)]
use crate::closing_rows;
use crate::damage::{break_set, break_term, Field, FIELDS, WAYS};
use crate::degree_maker::JUNIOR;
use crate::degree_rows;
use crate::listing_maker::LISTINGS;
use crate::listing_rows;
use crate::mark_maker::MARKED;
#[cfg(test)]
use crate::mark_rows;
use crate::marks::Marks;
use crate::monomial::Monomial;
use crate::no_room::NoRoom;
use crate::panel::{
    CARDS, COEFFICIENT_AT, MOST_CAP, MOST_COEFFICIENT, MOST_LIMIT, MOST_N, MOST_TERMS,
    MOST_TERMS_BYTES, MOST_WIRES_BYTES, SET_BYTES, TERM_BYTES, VARIABLES, WIRE_BYTES,
};
use crate::random::Random;
use crate::records::{read_set, write_places, write_set, write_terms};
use crate::reply::Reply;
use crate::rows::full_kit;
use crate::system::{Set, System};
use crate::systems::{self, Kit, Outside};
use crate::thin_maker::THINNING;
use crate::thin_rows::as_thinning;
use crate::walk::Rules;
use crate::wire_maker::WIRING;

/// The random cases that are stored with the fixed rows.
const STORED_SEED: u64 = 1;
const STORED_COUNT: usize = 4_400;
const STORED_MARKED: usize = 320;
const STORED_CLOSING: usize = 400;
const STORED_JUNIOR: usize = 300;
const STORED_LISTINGS: usize = 300;
const STORED_CHEAP: usize = 300;

/// The batch that is stored: fixed rows, then random cases, of the full kit, after
/// them those of the junior kit, those of reading, and those of the order of pairs at
/// the end.
pub fn stored() -> Vec<Case> {
    let mut cases = full_kit();
    cases.extend(first_unmarked(STORED_SEED, STORED_COUNT));
    cases.extend(first_marked(STORED_SEED, STORED_MARKED));
    cases.extend(first_closing(STORED_SEED, STORED_CLOSING));
    cases.extend(stored_junior());
    cases.extend(stored_listings());
    cases.extend(stored_cheap());
    cases
}

/// Of the stored cases those of the order of pairs.
pub fn stored_cheap() -> Vec<Case> {
    let mut cases = cheap_rows::rows();
    cases.extend(first_cheap(STORED_SEED, STORED_CHEAP));
    cases
}

/// Of the stored cases those of reading.
pub fn stored_listings() -> Vec<Case> {
    let mut cases = listing_rows::rows();
    cases.extend(first_listings(STORED_SEED, STORED_LISTINGS));
    cases
}

/// Of the stored cases those of the junior kit.
pub fn stored_junior() -> Vec<Case> {
    let mut cases = degree_rows::rows();
    cases.extend(first_junior(STORED_SEED, STORED_JUNIOR));
    cases
}

/// Of the stored cases of the full kit those with marks.
#[cfg(test)]
pub fn stored_marked() -> Vec<Case> {
    let mut cases = mark_rows::rows();
    cases.extend(first_marked(STORED_SEED, STORED_MARKED));
    cases
}

/// Of the stored cases those of the counting rule.
#[cfg(test)]
pub fn stored_closing() -> Vec<Case> {
    let mut cases = closing_rows::rows();
    cases.extend(first_closing(STORED_SEED, STORED_CLOSING));
    cases
}

/// Of each eight cases the last is one of the order of pairs.
const CHEAP_ROUND: usize = 8;

/// The first so many cases that a seed gives.
pub fn batch(seed: u64, count: usize) -> Vec<Case> {
    let cheap = count / CHEAP_ROUND;
    let others = first_with_listings(seed, count - cheap);
    with_last(CHEAP_ROUND, others, first_cheap(seed, cheap))
}

/// Of each five of the others the last is one of reading.
const LISTING_ROUND: usize = 5;

fn first_with_listings(seed: u64, count: usize) -> Vec<Case> {
    let listings = count / LISTING_ROUND;
    let others = first_sets(seed, count - listings);
    with_last(LISTING_ROUND, others, first_listings(seed, listings))
}

/// Of each six of the others the last is one of the junior kit.
const JUNIOR_ROUND: usize = 6;

/// The cases of planning, wiring and thinning.
fn first_sets(seed: u64, count: usize) -> Vec<Case> {
    let junior = count / JUNIOR_ROUND;
    let others = first_full_kit(seed, count - junior);
    with_last(JUNIOR_ROUND, others, first_junior(seed, junior))
}

/// Of each eight of the full kit the last is one of the counting rule.
const CLOSING_ROUND: usize = 8;

fn first_full_kit(seed: u64, count: usize) -> Vec<Case> {
    let closing = count / CLOSING_ROUND;
    let others = first_others(seed, count - closing);
    with_last(CLOSING_ROUND, others, first_closing(seed, closing))
}

/// Of each three of the rest the last has marks.
const MARKED_ROUND: usize = 3;

fn first_others(seed: u64, count: usize) -> Vec<Case> {
    let marked = count / MARKED_ROUND;
    let without = first_unmarked(seed, count - marked);
    with_last(MARKED_ROUND, without, first_marked(seed, marked))
}

/// Of each eight cases without marks the seventh is one of thinning, and the last
/// is one of verdict and wiring together.
const ROUND: usize = 8;

fn first_unmarked(seed: u64, count: usize) -> Vec<Case> {
    let (thinnings, wirings) = ((count + 1) / ROUND, count / ROUND);
    let other = first_cases(seed, &PLANNING, count - thinnings - wirings);
    let seven = with_last(ROUND - 1, other, first_thinnings(seed, thinnings));
    with_last(ROUND, seven, first_wirings(seed, wirings))
}

/// Both runs as one, each in its order: of each round of cases the last is one of
/// `last`.
fn with_last(round: usize, others: Vec<Case>, last: Vec<Case>) -> Vec<Case> {
    let count = others.len() + last.len();
    let (mut others, mut last) = (others.into_iter(), last.into_iter());
    let case = |number: usize| match number % round {
        0 => last.next().expect("one of each round"),
        _ => others.next().expect("the rest of each round"),
    };
    (1..=count).map(case).collect()
}

/// The cases of thinning among them. Their random numbers are their own, so that
/// the others are the same cases with them as they were without.
fn first_thinnings(seed: u64, count: usize) -> Vec<Case> {
    first_cases(!seed, &THINNING, count)
}

/// The cases of verdict and wiring together, with random numbers of their own.
fn first_wirings(seed: u64, count: usize) -> Vec<Case> {
    first_cases(seed.rotate_left(32), &WIRING, count)
}

/// The cases with marks, with random numbers of their own.
fn first_marked(seed: u64, count: usize) -> Vec<Case> {
    first_cases(!seed.rotate_left(32), &MARKED, count)
}

/// The cases of the counting rule, with random numbers of their own.
fn first_closing(seed: u64, count: usize) -> Vec<Case> {
    first_cases(!seed.rotate_left(16), &CLOSING, count)
}

/// The cases of the junior kit, with random numbers of their own.
fn first_junior(seed: u64, count: usize) -> Vec<Case> {
    first_cases(!seed.rotate_left(48), &JUNIOR, count)
}

/// The cases of the order of pairs, with random numbers of their own.
fn first_cheap(seed: u64, count: usize) -> Vec<Case> {
    first_cases(seed.rotate_left(48), &CHEAP, count)
}

/// The cases of reading, with random numbers of their own.
pub fn first_listings(seed: u64, count: usize) -> Vec<Case> {
    first_cases(seed.rotate_left(16), &LISTINGS, count)
}

fn first_cases(seed: u64, mix: &'static Mix, count: usize) -> Vec<Case> {
    let mut maker = Maker {
        random: Random::from_seed(seed),
        mix,
        cases: Vec::new(),
        deck: Vec::new(),
        fields: 0,
        repeats: 0,
        lengths: 0,
        settings: 0,
        sets: 0,
        marks_beyond: 0,
        marked_records: 0,
        marked_sets: 0,
        limits_refused: 0,
        sets_above: 0,
        no_room: NoRoom::default(),
        noted: 0,
    };
    maker.no_room.note(&full_kit());
    while maker.cases.len() < count {
        maker.group();
    }
    maker.cases.truncate(count);
    maker.cases
}

/// A kind of group: it adds one case or several.
type Group = fn(&mut Maker);

/// What a case asks for. The verdict alone is asked of wiring, without room.
#[derive(Clone, Copy, PartialEq, Eq, Debug)]
pub enum Ask {
    Plan,
    Verdict,
    Wire,
    Thin,
}

/// What a run of cases is made of.
pub struct Mix {
    pub asks: &'static [Ask],
    /// Those that are given a set.
    pub given: &'static [Ask],
    pub outside: Outside,
    pub kit: Kit,
    /// The walk that stories are laid around. Those from before document 02, [4] and
    /// [8] stay where they were, whatever becomes of their answers.
    pub rules: Rules,
    /// How often each kind of group comes in a hundred.
    pub shares: &'static [(usize, Group)],
}

/// Planning and wiring. With these shares some 3,500 cases go through every turn,
/// and half of them are stories of a system or a set.
const PLANNING: Mix = Mix {
    asks: &[Ask::Plan, Ask::Verdict, Ask::Wire],
    given: &[Ask::Verdict, Ask::Wire],
    outside: Outside::Nothing,
    kit: Kit::Full,
    rules: Rules::BEFORE_CLOSING,
    shares: &[
        (15, Maker::around_a_plan),
        (8, Maker::around_a_set),
        (5, Maker::random_set),
        (3, Maker::cancelling_set),
        (28, Maker::broken_field),
        (13, Maker::repeated_record),
        (4, Maker::wrong_and_repeated),
        (5, Maker::bad_length),
        (5, Maker::bad_setting),
        (9, Maker::broken_set),
        (5, Maker::several_faults),
    ],
};

/// Numbers of variables beyond the range; some fit it when cut to fewer bits.
const BAD_N: [u64; 12] = [
    0,
    MOST_N + 1,
    MOST_N + 2,
    255,
    256,
    257,
    65_537,
    1 << 32,
    (1 << 32) + 2,
    1 << 63,
    (1 << 63) + 1,
    u64::MAX,
];
const BAD_CAP: [u64; 8] = [
    MOST_CAP + 1,
    MOST_CAP + 2,
    255,
    256,
    1 << 32,
    (1 << 32) + MOST_CAP,
    1 << 63,
    u64::MAX,
];
const BAD_LIMIT: [u64; 7] = [
    0,
    MOST_LIMIT + 1,
    1 << 32,
    (1 << 32) + 1_000,
    1 << 63,
    (1 << 63) + 1_000,
    u64::MAX,
];
const BAD_TERM_LENGTHS: [usize; 15] = [
    1, 6, 11, 13, 23, 25, 41, 383, 385, 395, 396, 397, 408, 480, 600,
];
const BAD_SET_LENGTHS: [usize; 8] = [
    0,
    1,
    SET_BYTES - VARIABLES,
    SET_BYTES - 1,
    SET_BYTES + 1,
    SET_BYTES + VARIABLES,
    2 * SET_BYTES,
    255,
];

pub struct Maker {
    pub random: Random,
    mix: &'static Mix,
    pub cases: Vec<Case>,
    deck: Vec<Group>,
    fields: usize,
    repeats: usize,
    lengths: usize,
    settings: usize,
    sets: usize,
    pub marks_beyond: usize,
    pub marked_records: usize,
    pub marked_sets: usize,
    pub limits_refused: usize,
    pub sets_above: usize,
    no_room: NoRoom,
    /// How many cases it has taken note of.
    noted: usize,
}

/// A turn: the counter's value, which moves on.
pub fn turn(counter: &mut usize) -> usize {
    *counter += 1;
    *counter - 1
}

impl Maker {
    /// Takes the next kind of group from a deck that holds each by its share.
    fn group(&mut self) {
        if self.deck.is_empty() {
            for (share, group) in self.mix.shares {
                self.deck.extend(vec![*group; *share]);
            }
            self.random.shuffle(&mut self.deck);
        }
        let group = self.deck.pop().expect("a full deck");
        group(self);
    }

    /// A system for a story.
    pub fn any_system(&mut self) -> System {
        let system = systems::any(&mut self.random);
        let system = self.mix.outside.feed(&mut self.random, system);
        self.mix.kit.limit(&mut self.random, system)
    }

    pub fn kit(&self) -> Kit {
        self.mix.kit
    }

    /// What a plan says in the walk that its story is laid around.
    pub fn answer(&self, plan: &Case) -> (Reply, Vec<u8>) {
        plan.answer_by(self.mix.rules)
    }

    /// How many variables there are, and which are marked.
    pub fn variables(&mut self, least: usize, most: usize) -> (usize, Marks) {
        self.mix.outside.variables(&mut self.random, least, most)
    }

    /// A set of any size, and the system made around it.
    pub fn set_with_system(&mut self) -> (System, Set) {
        let (n, marks) = self.variables(1, VARIABLES);
        let size = self.random.between(0, CARDS);
        let (system, set) = systems::around_a_set(&mut self.random, n, marks, size);
        let system = self.mix.kit.limit_near(&mut self.random, system, &set);
        (system, set)
    }

    /// A set of any size that has nothing to do with its system.
    pub fn system_and_set(&mut self) -> (System, Set) {
        let system = self.any_system();
        let size = self.random.between(0, CARDS);
        let set = systems::set(&mut self.random, system.n, system.marks, size);
        (system, set)
    }

    /// Some signals, with whatever their derivatives call for.
    pub fn closed_set(&mut self) -> (System, Set) {
        let (system, set) = systems::closed(&mut self.random, self.mix.outside);
        let system = self.mix.kit.limit_near(&mut self.random, system, &set);
        (system, set)
    }

    /// A system, a first plan with a generous limit, then some of the cases
    /// that this plan's own numbers suggest.
    pub fn around_a_plan(&mut self) {
        let system = self.any_system();
        let cap = match self.random.below(10) {
            0..=5 => MOST_CAP,
            _ => self.any_cap(),
        };
        let generous = self.random.pick(&[300, 1_000, 1_000, 3_000, 3_000, 20_000]);
        let Some((count, sets)) = self.around_the_plan(&system, cap, generous) else {
            return;
        };
        let at = self.random.below(count) * SET_BYTES;
        let record = &sets[at..at + SET_BYTES];
        let found = read_set(system.setting(), record).expect("a found set");
        if self.random.chance(50) {
            self.with_set(&system, &found);
        } else {
            let other = self.another_set(&system, &found);
            self.with_set(&system, &other);
        }
    }

    /// The plans that a plan's own numbers suggest. Gives how many sets it finds,
    /// and the sets, where it is done.
    pub fn around_the_plan(
        &mut self,
        system: &System,
        cap: u64,
        generous: u64,
    ) -> Option<(usize, Vec<u8>)> {
        let first = Case::plan(
            system.n as u64,
            cap,
            generous,
            MOST_CASE_BUFFER,
            write_terms(&system.terms),
        )
        .kit_of(system);
        let (reply, sets) = self.answer(&first);
        let count = reply.count as usize;
        if reply.code == 7 {
            self.spent(&first);
            return None;
        }
        self.limits(&first, reply.steps, count);
        if self.random.chance(40) {
            self.caps(&first, reply.order, count);
        }
        if reply.code != 0 {
            return None;
        }
        if count > 1 || self.random.chance(30) {
            self.rooms(&first, count);
        }
        Some((count, sets))
    }

    /// Any K that is in range.
    fn any_cap(&mut self) -> u64 {
        self.random.below(CARDS + 1) as u64
    }

    /// A buffer for so many sets, sometimes with bytes that hold none.
    pub fn buffer(&mut self, sets: usize) -> usize {
        let odd = match self.random.below(3) {
            0 => self.random.between(1, SET_BYTES - 1),
            _ => 0,
        };
        sets * SET_BYTES + odd
    }

    /// The walk is longer than was allowed: this limit and a shorter one.
    fn spent(&mut self, first: &Case) {
        let shorter = self.random.between(1, first.limit as usize) as u64;
        for limit in [first.limit, shorter] {
            let room = self.random.below(3);
            let buffer = self.buffer(room);
            self.cases.push(Case {
                limit,
                buffer,
                ..first.clone()
            });
        }
    }

    /// Two of: the limit one below, at and one above the walk's own number of
    /// steps, one that falls within it, and the largest of all.
    fn limits(&mut self, first: &Case, steps: u64, count: usize) {
        let within = self.random.between(1, steps as usize) as u64;
        let mut limits = [
            steps - 1,
            steps - 1,
            steps,
            steps,
            steps + 1,
            within,
            self.random.pick(&[MOST_LIMIT - 1, MOST_LIMIT]),
        ];
        self.random.shuffle(&mut limits);
        for limit in &limits[..2] {
            let more = self.random.below(2);
            let buffer = self.buffer(count + more);
            self.cases.push(Case {
                limit: *limit,
                buffer,
                ..first.clone()
            });
        }
    }

    /// A cap below, at or above the order, and a limit that ends exactly where
    /// a level ends.
    fn caps(&mut self, first: &Case, order: u64, count: usize) {
        let buffer = self.buffer(count);
        let any = self.any_cap();
        let cap = self.random.pick(&[order.saturating_sub(1), order, any]);
        self.cases.push(Case {
            cap: cap.min(MOST_CAP),
            buffer,
            ..first.clone()
        });
        let below = self.random.below(order as usize + 1).min(CARDS) as u64;
        let level = Case {
            cap: below,
            ..first.clone()
        };
        let (reply, _) = self.answer(&level);
        self.cases.push(Case {
            limit: reply.steps,
            buffer,
            ..first.clone()
        });
    }

    /// Two of: no room, one place fewer than needed, exactly enough, one more;
    /// and a limit at or just before the step that finds no room.
    fn rooms(&mut self, first: &Case, count: usize) {
        let within = self.random.below(count);
        let mut rooms = [0, count - 1, count, count + 1, within];
        self.random.shuffle(&mut rooms);
        for room in &rooms[..2] {
            let buffer = self.buffer(*room);
            self.cases.push(Case {
                buffer,
                ..first.clone()
            });
        }
        let full = Case {
            buffer: within * SET_BYTES,
            ..first.clone()
        };
        let (reply, _) = self.answer(&full);
        self.cases.push(Case {
            limit: self.random.pick(&[reply.steps, reply.steps - 1]),
            ..full
        });
    }

    /// A set near a given one: without a member, with another, or changed.
    pub fn another_set(&mut self, system: &System, given: &Set) -> Set {
        let mut members: Vec<Monomial> = given.iter().copied().collect();
        match self.random.below(3) {
            0 if !members.is_empty() => {
                members.remove(self.random.below(members.len()));
            }
            1 if !members.is_empty() => {
                let at = self.random.below(members.len());
                members[at] = systems::member(&mut self.random, system.n, system.marks);
            }
            _ if members.len() < CARDS => {
                members.push(systems::member(&mut self.random, system.n, system.marks));
            }
            _ => {}
        }
        members.into_iter().collect()
    }

    /// Wires a good set record around the list's own length, and often asks for
    /// its verdict alone.
    pub fn with_set(&mut self, system: &System, set: &Set) {
        let wire = |buffer| {
            let set = write_set(set).to_vec();
            Case::wire(system.n as u64, write_terms(&system.terms), set, buffer).kit_of(system)
        };
        let (reply, _) = wire(MOST_WIRES_BYTES).answer();
        let judged = self.random.chance(40);
        let exact = reply.count as usize * WIRE_BYTES;
        let lengths = [
            exact,
            exact.saturating_sub(1),
            exact + 1,
            exact.saturating_sub(WIRE_BYTES),
            exact + self.random.between(2, 40),
            0,
            self.random.below(80),
            MOST_WIRES_BYTES,
        ];
        let times = self.random.between(1, 2);
        let buffers: Vec<usize> = (0..times).map(|_| self.random.pick(&lengths)).collect();
        self.cases.extend(buffers.into_iter().map(wire));
        if judged {
            let verdict = self.judge(wire(0));
            self.cases.push(verdict);
        }
    }

    /// A set, the system made around it, and the same after a change.
    pub fn around_a_set(&mut self) {
        let (mut system, set) = self.set_with_system();
        self.with_set(&system, &set);
        let other = self.another_set(&system, &set);
        self.with_set(&system, &other);
        if system.terms.len() < MOST_TERMS && self.random.chance(50) {
            let extra = systems::run(&mut self.random, system.n, system.marks, 1).terms[0];
            if !system.terms.iter().any(|t| t.repeats(&extra)) {
                system.terms.push(extra);
                self.with_set(&system, &set);
            }
        }
    }

    /// A set that has nothing to do with the system.
    pub fn random_set(&mut self) {
        let (system, set) = self.system_and_set();
        self.with_set(&system, &set);
    }

    fn cancelling_set(&mut self) {
        let (system, set) = systems::decided_by_cancelling(&mut self.random);
        self.with_set(&system, &set);
    }

    /// Any operation on these terms, with an ordinary rest.
    pub fn any_operation(&mut self, n: u64, marks: Marks, terms: Vec<u8>) -> Case {
        let ask = self.random.pick(self.mix.asks);
        self.operation(ask, n, marks, terms)
    }

    pub fn operation(&mut self, ask: Ask, n: u64, marks: Marks, terms: Vec<u8>) -> Case {
        let buffer = self.random.below(100);
        let size = self.random.below(3);
        let variables = n.clamp(1, MOST_N) as usize;
        let set = systems::set(&mut self.random, variables, marks, size);
        let set = write_set(&set).to_vec();
        match ask {
            Ask::Plan => {
                let cap = self.any_cap();
                Case::plan(n, cap, 100, buffer, terms).marked(marks)
            }
            _ => self.given(ask, Case::wire(n, terms, set, buffer).marked(marks)),
        }
    }

    /// The ask whose turn it is.
    pub fn ask_by(&self, turn: usize) -> Ask {
        self.mix.asks[turn % self.mix.asks.len()]
    }

    /// The ask on a given set whose turn it is.
    pub fn given_by(&self, turn: usize) -> Ask {
        self.mix.given[turn % self.mix.given.len()]
    }

    /// The verdict alone on what a wiring is given, asked as by no case before.
    pub fn judge(&mut self, wiring: Case) -> Case {
        self.no_room.note(&self.cases[self.noted..]);
        self.noted = self.cases.len();
        self.no_room.judge(wiring)
    }

    /// What is asked of a wiring's set.
    pub fn given(&mut self, ask: Ask, wiring: Case) -> Case {
        match ask {
            Ask::Thin => as_thinning(&wiring),
            Ask::Verdict => self.judge(wiring),
            _ => wiring,
        }
    }

    /// The records of a run of two terms at the most, where a fault lies elsewhere.
    pub fn few_terms(&mut self, n: usize, marks: Marks) -> Vec<u8> {
        let count = self.random.below(3);
        write_terms(&systems::run(&mut self.random, n, marks, count).terms)
    }

    /// Such records, now and then cut by a byte: what comes before lengths is to
    /// decide.
    pub fn few_or_cut_terms(&mut self, n: usize, marks: Marks) -> Vec<u8> {
        let mut terms = self.few_terms(n, marks);
        if self.random.chance(20) {
            terms.pop();
        }
        terms
    }

    /// A run that reaches the place, and now and then goes on after it.
    pub fn run_to(&mut self, place: usize, most_variables: usize) -> System {
        let longer = match self.random.below(8) {
            0 => self.random.between(place, MOST_TERMS),
            1..=3 => (place + 1).min(MOST_TERMS),
            _ => place,
        };
        let (n, marks) = self.variables(1, most_variables);
        systems::run(&mut self.random, n, marks, longer)
    }

    /// Code 3: every field at every place, and every place in every operation.
    pub fn broken_field(&mut self) {
        let turn = turn(&mut self.fields);
        let place = turn % MOST_TERMS + 1;
        let field = FIELDS[turn % FIELDS.len()];
        let most_variables = match field {
            Field::ExponentBeyond => VARIABLES - 1,
            _ => VARIABLES,
        };
        let run = self.run_to(place, most_variables);
        let mut terms = write_terms(&run.terms);
        break_term(&mut self.random, &mut terms, run.n, place, field);
        let case = self.operation(self.ask_by(turn), run.n as u64, run.marks, terms);
        self.cases.push(case);
    }

    /// A run, and its records where that at the place repeats an earlier one.
    fn run_with_repeat(&mut self, place: usize) -> (System, Vec<u8>) {
        let run = self.run_to(place, VARIABLES);
        let mut terms = write_terms(&run.terms);
        let earlier = match self.random.below(3) {
            0 => 1,
            1 => place - 1,
            _ => self.random.between(1, place - 1),
        };
        let from = (earlier - 1) * TERM_BYTES;
        terms.copy_within(from..from + TERM_BYTES, (place - 1) * TERM_BYTES);
        (run, terms)
    }

    /// Code 4: every place after the first in every operation, with the same
    /// coefficient and with another.
    pub fn repeated_record(&mut self) {
        let turn = turn(&mut self.repeats);
        let place = turn % (MOST_TERMS - 1) + 2;
        let (run, mut terms) = self.run_with_repeat(place);
        if turn % 2 == 1 {
            let at = (place - 1) * TERM_BYTES + COEFFICIENT_AT..place * TERM_BYTES;
            let coefficient = self.random.between(5, MOST_COEFFICIENT as usize - 10) as i32;
            terms[at].copy_from_slice(&coefficient.to_le_bytes());
        }
        let case = self.operation(self.ask_by(turn), run.n as u64, run.marks, terms);
        self.cases.push(case);
    }

    /// A wrong field in the repeating record itself, before it or after it, or
    /// a second repeat: the first record with a fault decides.
    pub fn wrong_and_repeated(&mut self) {
        let place = self.random.between(2, MOST_TERMS);
        let (run, mut terms) = self.run_with_repeat(place);
        let n = run.n;
        let field = self.random.pick(&FIELDS);
        let last = terms.len() / TERM_BYTES;
        match self.random.below(4) {
            0 => break_term(&mut self.random, &mut terms, n, place, field),
            1 => {
                let wrong = self.random.between(1, place);
                break_term(&mut self.random, &mut terms, n, wrong, field);
            }
            2 => {
                let wrong = self.random.between(place, last);
                break_term(&mut self.random, &mut terms, n, wrong, field);
            }
            _ => {
                let again = self.random.between(2, last);
                terms.copy_within(0..TERM_BYTES, (again - 1) * TERM_BYTES);
            }
        }
        let case = self.any_operation(n as u64, run.marks, terms);
        self.cases.push(case);
    }

    /// Code 2: bytes that are no run of records, too many, or no set record.
    pub fn bad_length(&mut self) {
        let turn = turn(&mut self.lengths);
        let (n, marks) = self.variables(2, VARIABLES);
        if turn.is_multiple_of(2) {
            let length = BAD_TERM_LENGTHS[turn / 2 % BAD_TERM_LENGTHS.len()];
            let whole = length.min(MOST_TERMS_BYTES) / TERM_BYTES;
            let system = systems::run(&mut self.random, n, marks, whole);
            let mut terms = write_terms(&system.terms);
            while terms.len() < length {
                terms.push(self.random.below(256) as u8);
            }
            let case = self.any_operation(n as u64, marks, terms);
            self.cases.push(case);
        } else {
            let length = BAD_SET_LENGTHS[turn / 2 % BAD_SET_LENGTHS.len()];
            let system = self.any_system();
            let terms = write_terms(&system.terms);
            let which = usize::from(!self.random.chance(50));
            let ask = self.given_by(which);
            let wiring = Case::wire(system.n as u64, terms, vec![0; length], 50);
            let case = self.given(ask, wiring.kit_of(&system));
            self.cases.push(case);
        }
    }

    /// Code 1: n, K or the limit out of range.
    pub fn bad_setting(&mut self) {
        let turn = turn(&mut self.settings);
        let (n, marks) = self.variables(1, VARIABLES);
        let terms = self.few_terms(n, marks);
        let values = match self.mix.asks.contains(&Ask::Plan) {
            true => BAD_N.len() + BAD_CAP.len() + BAD_LIMIT.len(),
            false => BAD_N.len(),
        };
        let mut at = turn % values;
        if at < BAD_N.len() {
            let case = self.any_operation(BAD_N[at], marks, terms);
            self.cases.push(case);
            return;
        }
        at -= BAD_N.len();
        let buffer = self.random.below(100);
        let mut case = Case::plan(n as u64, MOST_CAP, 100, buffer, terms).marked(marks);
        if at < BAD_CAP.len() {
            case.cap = BAD_CAP[at];
        } else {
            case.limit = BAD_LIMIT[at - BAD_CAP.len()];
        }
        self.cases.push(case);
    }

    /// Code 8, every way at every place of the record.
    pub fn broken_set(&mut self) {
        let turn = turn(&mut self.sets);
        let way = WAYS[turn % WAYS.len()];
        let place = turn / WAYS.len() % CARDS;
        let (n, marks) = self.variables(1, VARIABLES);
        let size = self.random.between(place + 1, CARDS);
        let (system, set) = systems::around_a_set(&mut self.random, n, marks, size);
        let mut members: Vec<Monomial> = set.into_iter().collect();
        break_set(&mut self.random, &mut members, n, place, way);
        let terms = write_terms(&system.terms[..system.terms.len().min(3)]);
        let set = write_places(&members).to_vec();
        let buffer = self.random.below(100);
        let rounds = turn / (WAYS.len() * CARDS);
        let wiring = Case::wire(n as u64, terms, set, buffer).marked(marks);
        let case = self.given(self.given_by(rounds), wiring);
        self.cases.push(case);
    }

    /// Several faults in one case: which of them decides is the checks' order.
    pub fn several_faults(&mut self) {
        let (n, marks) = self.variables(2, VARIABLES);
        let count = self.random.between(3, 6);
        let mut terms = write_terms(&systems::run(&mut self.random, n, marks, count).terms);
        if self.random.chance(40) {
            let place = self.random.between(1, count);
            let field = self.random.pick(&FIELDS);
            break_term(&mut self.random, &mut terms, n, place, field);
        }
        if self.random.chance(40) {
            let from = self.random.below(count - 1);
            let to = self.random.between(from + 1, count - 1);
            let record = from * TERM_BYTES..(from + 1) * TERM_BYTES;
            terms.copy_within(record, to * TERM_BYTES);
        }
        if self.random.chance(20) {
            terms.truncate(terms.len() - self.random.between(1, TERM_BYTES - 1));
        }
        let mut case = self.any_operation(n as u64, marks, terms);
        if self.random.chance(20) {
            case.n = self.random.pick(&BAD_N);
        }
        if case.operation == Operation::Plan {
            if self.random.chance(15) {
                case.cap = self.random.pick(&BAD_CAP);
            }
            if self.random.chance(15) {
                case.limit = self.random.pick(&BAD_LIMIT);
            }
        } else {
            let size = self.random.between(1, CARDS);
            let set = systems::set(&mut self.random, n, marks, size);
            let mut members: Vec<Monomial> = set.into_iter().collect();
            if self.random.chance(60) {
                let way = self.random.pick(&WAYS);
                let place = self.random.below(CARDS);
                break_set(&mut self.random, &mut members, n, place, way);
            }
            case.given = write_places(&members).to_vec();
            if self.random.chance(20) {
                case.given.truncate(self.random.below(SET_BYTES));
            }
        }
        self.cases.push(case);
    }
}

#[cfg(test)]
mod tests {
    use super::*;
    use crate::batch::write_batch;
    use crate::cover::report_of;
    use crate::panel::FULL_DEGREE;
    use crate::reply::NAMES;
    use std::sync::OnceLock;

    #[test]
    fn a_seed_gives_one_batch() {
        let first = write_batch(&batch(1, 400));
        assert_eq!(first, write_batch(&batch(1, 400)));
        assert_ne!(first, write_batch(&batch(2, 400)));
    }

    #[test]
    fn a_longer_batch_begins_with_the_shorter() {
        let long = batch(3, 300);
        assert_eq!(batch(3, 100), long[..100]);
    }

    #[test]
    fn each_run_of_cases_has_its_own_places_and_changes_no_other() {
        let (mut cheap, mut rest) = (Vec::new(), Vec::new());
        for (index, case) in batch(5, 704).into_iter().enumerate() {
            match index % CHEAP_ROUND {
                7 => cheap.push(case),
                _ => rest.push(case),
            }
        }
        assert!(cheap.iter().all(|case| case.operation == Operation::Plan));
        assert_eq!(cheap, first_cheap(5, 88));
        let (mut listings, mut sets) = (Vec::new(), Vec::new());
        for (index, case) in rest.into_iter().enumerate() {
            match index % LISTING_ROUND {
                4 => listings.push(case),
                _ => sets.push(case),
            }
        }
        let is_reading = |case: &Case| case.operation == Operation::Read;
        assert!(listings.iter().all(is_reading) && !sets.iter().any(is_reading));
        assert_eq!(listings, first_listings(5, 123));
        let (mut junior, mut full_kit) = (Vec::new(), Vec::new());
        for (index, case) in sets.into_iter().enumerate() {
            match index % JUNIOR_ROUND {
                5 => junior.push(case),
                _ => full_kit.push(case),
            }
        }
        assert!(junior.iter().all(|case| case.degree != FULL_DEGREE));
        assert!(full_kit.iter().all(|case| case.degree == FULL_DEGREE));
        assert_eq!(junior, first_junior(5, 82));
        let (mut closing, mut others) = (Vec::new(), Vec::new());
        for (index, case) in full_kit.into_iter().enumerate() {
            match index % CLOSING_ROUND {
                7 => closing.push(case),
                _ => others.push(case),
            }
        }
        assert!(closing.iter().all(|case| case.operation == Operation::Plan));
        assert_eq!(closing, first_closing(5, 51));
        let (mut unmarked, mut marked) = (Vec::new(), Vec::new());
        for (index, case) in others.into_iter().enumerate() {
            match index % MARKED_ROUND {
                2 => marked.push(case),
                _ => unmarked.push(case),
            }
        }
        assert!(unmarked.iter().all(|case| case.marks == 0));
        assert!(marked.iter().all(|case| case.marks != 0));
        assert_eq!(marked, first_marked(5, 120));
        let mut runs = [Vec::new(), Vec::new(), Vec::new()];
        for (index, case) in unmarked.into_iter().enumerate() {
            runs[(index % ROUND).saturating_sub(5)].push(case);
        }
        let [others, thin, wire] = runs;
        assert_eq!(others, first_cases(5, &PLANNING, 180));
        assert_eq!(thin, first_thinnings(5, 30));
        assert_eq!(wire, first_wirings(5, 30));
        assert!(thin.iter().all(|case| case.operation == Operation::Thin));
        assert!(wire.iter().all(|case| case.operation == Operation::Wire));
    }

    /// What the stored cases of an operation cover: the fixed rows and its own run
    /// of random ones, without the long walks of the rest.
    fn cover_of(operation: Operation, run: fn(u64, usize) -> Vec<Case>) -> String {
        let mut cases = full_kit();
        cases.retain(|case| case.operation == operation);
        cases.extend(run(STORED_SEED, STORED_COUNT / ROUND));
        report_of(&cases)
    }

    fn thin_cover() -> &'static str {
        static REPORT: OnceLock<String> = OnceLock::new();
        REPORT.get_or_init(|| cover_of(Operation::Thin, first_thinnings))
    }

    fn wire_cover() -> &'static str {
        static REPORT: OnceLock<String> = OnceLock::new();
        REPORT.get_or_init(|| cover_of(Operation::Wire, first_wirings))
    }

    /// Fails for each line that a report does not have.
    fn assert_lines(report: &str, mut lines: Vec<String>) {
        lines.retain(|line| !report.lines().any(|l| l == line));
        assert!(lines.is_empty(), "{lines:?} not in\n{report}");
    }

    /// Fails for a name that a report counts less often.
    fn assert_count(report: &str, name: &str, least: usize) {
        let counts = report
            .lines()
            .filter_map(|line| line.strip_prefix(name)?.strip_prefix(": "));
        let count: usize = counts.map(|count| count.parse::<usize>().unwrap()).sum();
        assert!(count >= least, "{name}: {count} in\n{report}");
    }

    /// Code 9 at every place, for every n and size.
    fn places_of_code_9() -> Vec<String> {
        let mut lines = Vec::new();
        for n in 1..=VARIABLES {
            for size in 0..=CARDS {
                let places = match n + size {
                    1 => "1 (1)".to_string(),
                    most => format!("1-{most} ({most})"),
                };
                lines.push(format!("code 9, n {n}, size {size}: places: {places}"));
            }
        }
        lines
    }

    #[test]
    fn what_is_stored_of_wiring_covers_its_codes_and_places() {
        let mut lines = places_of_code_9();
        lines.push("wire: sizes of quadratic sets: 0-6 (7)".to_string());
        lines.push("wire: n of answers: 1-6 (6)".to_string());
        for n in 1..=VARIABLES {
            lines.push(format!("wire, n {n}: sizes with an empty list: 0-6 (7)"));
        }
        for code in CODES_WITH_A_SET {
            lines.push(format!("wire: code {code}, bytes about a record: 0-9 (10)"));
        }
        assert_lines(wire_cover(), lines);
    }

    const CODES_WITH_A_SET: [usize; 8] = [0, 1, 2, 3, 4, 6, 8, 9];

    /// Where a given set is judged, each check before a later one that would fail too.
    const ORDER_OF_CHECKS: [&str; 5] = [
        "checks: 1 before 2",
        "checks: 2 before 3",
        "checks: 3 before 8",
        "checks: 4 before 8",
        "checks: 9 before 6",
    ];

    /// Counts that would show if a kind of wiring got lost.
    #[test]
    fn what_is_stored_of_wiring_covers_its_kinds() {
        let report = wire_cover();
        let kinds = [
            "wire: 9 after an earlier left variable's records with room",
            "wire: 9 after records of the same left variable with room",
            "wire: 9 after what is no product vanishes",
            "wire: 9 at the first monomial",
            "wire: 9 at the last monomial of all",
            "wire: 9 in the last left variable's derivative",
            "wire: 9 where a record of the same left variable has no room",
            "wire: 9 where an earlier left variable's record has no room",
            "wire: 9 where the room would end after it",
            "wire: 9 with a later one",
            "wire: 9 with room for all",
            "wire: a member's derivative cancels",
            "wire: a product vanishes",
            "wire: a product vanishes and would have no room",
            "wire: an empty list into no bytes",
            "wire: buffer one byte longer",
            "wire: buffer one byte short",
            "wire: buffer one record short",
            "wire: full with room for some",
            "wire: list exactly as long as the buffer",
            "wire: what is no product vanishes",
            "wire: what is no product vanishes and would have no room",
        ];
        for name in ORDER_OF_CHECKS.into_iter().chain(kinds) {
            assert_count(report, name, 3);
        }
        for code in CODES_WITH_A_SET {
            assert_count(report, &format!("wire: code {code} {}", NAMES[code]), 30);
            for room in ["no bytes", "bytes without room", "some room"] {
                assert_count(report, &format!("wire: code {code}, {room}"), 3);
            }
            // The longest list has room there.
            if code != 6 {
                assert_count(report, &format!("wire: code {code}, room for any list"), 3);
            }
        }
        assert!(!report.contains("code 6, room for any list"));
    }

    #[test]
    fn what_is_stored_of_thinning_covers_its_codes_and_places() {
        let report = thin_cover();
        let mut lines = places_of_code_9();
        lines.extend([
            "thin: places of code 3: 1-32 (32)".to_string(),
            "thin: places of code 4: 2-32 (31)".to_string(),
            "thin: n of answers: 1-6 (6)".to_string(),
        ]);
        for size in 0..=CARDS {
            let orders = match size {
                0 => "0 (1)".to_string(),
                _ => format!("0-{size} ({})", size + 1),
            };
            lines.push(format!("thin, size {size}: orders: {orders}"));
        }
        assert_lines(report, lines);
    }

    /// Counts that would show if a kind of thinning got lost.
    #[test]
    fn what_is_stored_of_thinning_covers_its_kinds() {
        let report = thin_cover();
        let kinds = [
            "code 8: 1 before a monomial",
            "code 8: equal neighbours",
            "code 8: exponent above 54",
            "code 8: exponent beyond xn",
            "code 8: not ascending",
            "code 8: single variable",
            "thin: a member's derivative cancels",
            "thin: a quadratic subset of a subset that is not",
            "thin: a size between has no quadratic subset",
            "thin: a smaller subset after a larger, dropping first",
            "thin: a smaller subset after a larger, dropping first, from the last signal",
            "thin: a smaller subset after a larger, keeping first",
            "thin: a smaller subset after a larger, keeping first, from the last signal",
            "thin: a subset that can lose nothing is not smallest",
            "thin: buffer one byte longer",
            "thin: buffer one byte short",
            "thin: buffer one byte short for the empty set",
            "thin: everything can go",
            "thin: full with room for some",
            "thin: full without a byte",
            "thin: list exactly as long as the buffer",
            "thin: nothing can go",
            "thin: several subsets are left",
            "thin: signals can go together and none alone",
            "thin: some signals can go",
        ];
        for name in ORDER_OF_CHECKS.into_iter().chain(kinds) {
            assert_count(report, name, 2);
        }
        for code in CODES_WITH_A_SET {
            assert_count(report, &format!("thin: code {code} {}", NAMES[code]), 30);
        }
        assert!(report.contains("\nthin: counts of subsets: 1-12 (12)\n"));
    }

    #[test]
    fn what_is_stored_with_marks_covers_its_codes_and_places() {
        let report = report_of(&stored_marked());
        let mut lines = vec![
            "code 3, equation of a signal: places: 1-32 (32)".to_string(),
            "plan: K with code 0: 0-6 (7)".to_string(),
            "plan: K with code 5: 0-6 (7)".to_string(),
            "wire: places of code 9: 1-12 (12)".to_string(),
        ];
        for operation in ["plan", "wire", "thin"] {
            lines.push(format!("{operation}: places of code 3: 1-32 (32)"));
            lines.push(format!("{operation}: n of answers: 1-6 (6)"));
        }
        assert_lines(&report, lines);
        let kinds = [
            "code 8: monomial with a signal",
            "plan: code 0 exactly at the limit",
            "plan: code 5 exactly at the limit",
            "plan: code 6 exactly at the limit",
            "plan: full, one set short",
            "plan: spent between two levels",
            "plan: spent one step before code 0",
            "plan: spent one step before code 5",
            "plan: spent one step before code 6",
            "thin: buffer one byte short",
            "thin: some signals can go",
            "wire: buffer one byte short",
            "wire: list exactly as long as the buffer",
        ];
        for name in ORDER_OF_CHECKS.into_iter().chain(kinds) {
            assert_count(&report, name, 2);
        }
        for code in CODES_WITH_A_SET {
            for operation in ["wire", "thin"] {
                assert_count(
                    &report,
                    &format!("{operation}: code {code} {}", NAMES[code]),
                    2,
                );
            }
        }
        for (code, name) in NAMES.iter().enumerate().take(8) {
            assert_count(&report, &format!("plan: code {code} {name}"), 2);
        }
    }

    #[test]
    fn what_is_stored_of_closing_covers_its_kinds() {
        let report = report_of(&stored_closing());
        assert_lines(
            &report,
            vec![
                "plan: K with code 5: 0-6 (7)".to_string(),
                "plan: room for what is closed: 1-6 (6)".to_string(),
                "plan: room for what is closed, with signals: 1-6 (6)".to_string(),
            ],
        );
        let kinds = [
            "plan: code 0 by trying, 0 by closing",
            "plan: code 0 exactly at the limit",
            "plan: code 5 by trying, 5 by closing",
            "plan: code 5 exactly at the limit",
            "plan: code 6 by trying, 6 by closing",
            "plan: code 6 exactly at the limit",
            "plan: code 7 by trying, 0 by closing",
            "plan: code 7 by trying, 5 by closing",
            "plan: code 7 by trying, 6 by closing",
            "plan: code 7 by trying, 7 by closing",
            "plan: full, one set short",
            "plan: room exactly taken",
            "plan: spent between two levels",
            "plan: spent one step before code 0",
            "plan: spent one step before code 5",
            "plan: spent one step before code 6",
        ];
        for name in kinds {
            assert_count(&report, name, 5);
        }
    }

    #[test]
    fn what_is_stored_of_the_junior_kit_covers_its_kinds() {
        let report = report_of(&stored_junior());
        let mut lines = vec![
            "code 8: places above the limit: 1-6 (6)".to_string(),
            "plan: room for what a junior kit alone closes: 1-6 (6)".to_string(),
        ];
        for (operation, codes) in [
            ("plan", &[0, 5, 6, 7][..]),
            ("wire", &[0, 6, 8]),
            ("thin", &[0, 8]),
        ] {
            for code in codes {
                lines.push(format!("{operation}: degrees with code {code}: 2-9 (8)"));
            }
        }
        assert_lines(&report, lines);
        let kinds = [
            "code 8: degree above the limit, and no exponent",
            "plan: code 0 exactly at the limit",
            "plan: code 0 full kit, 5 junior",
            "plan: code 5 exactly at the limit",
            "plan: code 6 exactly at the limit",
            "plan: code 6 full kit, 5 junior",
            "plan: code 7 full kit, 0 junior",
            "plan: code 7 full kit, 5 junior",
            "plan: fewer sets with a junior kit",
            "plan: fewer steps with a junior kit",
            "plan: full, one set short",
            "plan: larger sets with a junior kit",
            "plan: room exactly taken",
            "plan: spent between two levels",
            "plan: spent one step before code 0",
            "plan: spent one step before code 5",
            "plan: spent one step before code 6",
            "plan: the same numbers with a junior kit",
            "thin: code 0 full kit, 8 junior",
            "thin: code 9 full kit, 8 junior",
            "wire: code 0 full kit, 8 junior",
            "wire: code 6 full kit, 8 junior",
            "wire: code 9 full kit, 8 junior",
            "checks: 1 before 2",
            "checks: 1 before 3",
            "checks: 1 before 4",
            "checks: 1 before 8",
            "checks: 2 before 8",
            "checks: 3 before 8",
            "checks: 4 before 8",
            "checks: 8 before 9",
            "checks: 8 before 6",
        ];
        for name in kinds {
            assert_count(&report, name, 3);
        }
    }

    #[test]
    fn what_is_stored_of_the_order_of_pairs_covers_its_kinds() {
        let report = report_of(&stored_cheap());
        for name in [
            "plan: rooms where the order shows",
            "plan: rooms where the order shows, with signals",
            "plan: rooms where the order shows, with a junior kit",
        ] {
            let first = report.split(&format!("\n{name}: 0-")).nth(1);
            let last = first.and_then(|line| line.split(' ').next()?.parse::<u64>().ok());
            assert!(last.is_some_and(|last| last > 2), "{name} in\n{report}");
        }
        let kinds = [
            "plan: code 0 exactly at the limit",
            "plan: code 6 by ascending m1, 7 with cheap pairs first",
            "plan: code 6 exactly at the limit",
            "plan: code 7 by ascending m1, 6 with cheap pairs first",
            "plan: full later with cheap pairs first",
            "plan: full sooner with cheap pairs first",
            "plan: full without room",
            "plan: full, one set short",
            "plan: room exactly taken",
            "plan: spent one step before code 6",
        ];
        for name in kinds {
            assert_count(&report, name, 10);
        }
    }

    #[test]
    fn what_is_stored_of_reading_covers_its_codes_and_places() {
        let report = report_of(&stored_listings());
        let lines = vec![
            "read: degrees with code 0: 2-9 (8)".to_string(),
            "read: degrees with code 8: 2-9 (8)".to_string(),
            "read: n of answers: 1-6 (6)".to_string(),
            "read: places of code 11: 3-20 (18)".to_string(),
            "read: sizes of sets: 0-6 (7)".to_string(),
            "read, n 1: places of code 11: 3-15 (13)".to_string(),
            "read, n 6: places of code 11: 3-20 (18)".to_string(),
        ];
        assert_lines(&report, lines);
        // The example of document 000 at every byte, and the longest text.
        assert!(report.contains("\nread: places of code 10: 1-122 "));
        assert!(report.contains(" 4096-4097 ("));
        assert!(report.contains("read: lengths of texts refused: 4097 "));
        let kinds = [
            "checks: 1 before 10",
            "checks: 1 before 2",
            "checks: 1 before 3",
            "checks: 1 before 8",
            "checks: 2 before 10",
            "checks: 2 before 11",
            "checks: 2 before 3",
            "checks: 2 before 4",
            "checks: 2 before 8",
            "checks: 3 before 10",
            "checks: 3 before 8",
            "checks: 4 before 10",
            "checks: 4 before 8",
            "checks: 8 before 11",
            "read: false line: a monomial is missing",
            "read: false line: a monomial too many",
            "read: false line: another coefficient",
            "read: false line: another monomial",
            "read: false line: every sign is wrong",
            "read: no set: degree above the limit",
            "read: no set: equal neighbours",
            "read: no set: exponent above 54",
            "read: no set: monomial with a signal",
            "read: no set: single variable",
            "read: right: a constant",
            "read: right: a lone 0",
            "read: right: a square",
            "read: right: a sum beyond 32 bits",
            "read: right: as long as a text may be",
            "read: right: like products",
            "read: right: names out of order",
            "read: right: no derivative line",
            "read: right: products that cancel",
            "read: right: the largest coefficient",
            "read: unreadable in a derivative line: *",
            "read: unreadable in a derivative line: a digit",
            "read: unreadable in a derivative line: a letter",
            "read: unreadable in a derivative line: the end",
            "read: unreadable in a name line: a digit",
            "read: unreadable in a name line: the end",
            "read: unreadable in the heading: the end",
        ];
        for name in kinds {
            assert_count(&report, name, 2);
        }
        for code in [0, 1, 2, 3, 4, 8, 10, 11] {
            assert_count(&report, &format!("read: code {code} {}", NAMES[code]), 15);
        }
    }

    #[test]
    fn every_case_can_be_written_and_read() {
        let cases = batch(4, 500);
        let bytes = write_batch(&cases);
        let read: Result<Vec<Case>, _> = crate::batch::Cases::of(&bytes).collect();
        assert_eq!(read.unwrap(), cases);
    }
}
