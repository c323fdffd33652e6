//! The stories of thinning in a random batch: given sets that hold more than is
//! needed, made in ways that leave different subsets quadratic.

use crate::batch::{Case, MOST_CASE_BUFFER};
use crate::maker::{Ask, Maker, Mix};
use crate::monomial::Monomial;
use crate::panel::{CARDS, MOST_CAP, MOST_SET_EXPONENT, SET_BYTES};
use crate::random::Random;
use crate::records::{read_set, write_set, write_terms};
use crate::system::{Set, System};
use crate::systems::{self, Kit, Outside};
use crate::walk::Rules;

/// Thinning. With these shares some 500 cases go through every turn of places,
/// and more than half of them are stories of a given set.
pub const THINNING: Mix = Mix {
    asks: &[Ask::Thin],
    given: &[Ask::Thin],
    outside: Outside::Nothing,
    kit: Kit::Full,
    rules: Rules::BEFORE_CLOSING,
    shares: &[
        (18, Maker::thin_found_sets),
        (14, Maker::thin_closed_set),
        (8, Maker::thin_around_a_set),
        (3, Maker::thin_random_set),
        (2, Maker::thin_cancelling_set),
        (12, Maker::broken_field),
        (12, Maker::repeated_record),
        (3, Maker::wrong_and_repeated),
        (5, Maker::bad_length),
        (3, Maker::bad_setting),
        (17, Maker::broken_set),
        (3, Maker::several_faults),
    ],
};

/// How far a system is walked to find sets for it.
const SHORT_WALK: u64 = 1_000;

impl Maker {
    /// Smallest sets of a system put together, as far as the cards go. Sets that
    /// are quadratic are so together too, and the smallest subsets are those of
    /// the found sets that lie inside.
    pub fn thin_found_sets(&mut self) {
        let (system, mut found) = self.planned();
        self.random.shuffle(&mut found);
        let mut given = Set::new();
        for set in found.iter().take(self.random.between(1, CARDS)) {
            let both: Set = given.union(set).copied().collect();
            if both.len() <= CARDS {
                given = both;
            }
        }
        let given = self.padded(&system, given);
        self.thin_with(&system, &given);
        if self.random.chance(20) {
            let other = self.another_set(&system, &given);
            self.thin_with(&system, &other);
        }
    }

    /// A system that a short walk finishes, and all that it finds.
    pub fn planned(&mut self) -> (System, Vec<Set>) {
        loop {
            let system = self.any_system();
            if let Some(found) = self.found(&system) {
                return (system, found);
            }
        }
    }

    /// All that a short walk finds, where it finishes a system.
    pub fn found(&self, system: &System) -> Option<Vec<Set>> {
        let terms = write_terms(&system.terms);
        let n = system.n as u64;
        let plan = Case::plan(n, MOST_CAP, SHORT_WALK, MOST_CASE_BUFFER, terms);
        let (reply, sets) = self.answer(&plan.kit_of(system));
        let found = sets.chunks(SET_BYTES).take(reply.count as usize);
        let read = |record| read_set(system.setting(), record).expect("a found set");
        (reply.code == 0).then(|| found.map(read).collect())
    }

    /// The set with some more signals that leave it quadratic: what an old forum
    /// post would hold.
    fn padded(&mut self, system: &System, given: Set) -> Set {
        let mut padded = given;
        for _ in 0..self.random.below(2 * CARDS) {
            let mut more = padded.clone();
            more.extend(extra(&mut self.random, system, &padded));
            if more.len() <= CARDS && system.is_quadratic(&more) {
                padded = more;
            }
        }
        padded
    }

    /// Some signals, and then whatever their derivatives call for.
    pub fn thin_closed_set(&mut self) {
        let (system, set) = self.closed_set();
        let given = match self.random.chance(50) {
            true => self.padded(&system, set),
            false => set,
        };
        self.thin_with(&system, &given);
        if self.random.chance(20) {
            let other = self.another_set(&system, &given);
            self.thin_with(&system, &other);
        }
    }

    /// A set, and the system made around it.
    pub fn thin_around_a_set(&mut self) {
        let (system, set) = self.set_with_system();
        self.thin_with(&system, &set);
    }

    /// A set that has nothing to do with the system.
    pub fn thin_random_set(&mut self) {
        let (system, set) = self.system_and_set();
        self.thin_with(&system, &set);
    }

    fn thin_cancelling_set(&mut self) {
        let (system, set) = systems::decided_by_cancelling(&mut self.random);
        self.thin_with(&system, &set);
    }

    /// Thins a good set record once or twice, around the list's own length.
    pub fn thin_with(&mut self, system: &System, given: &Set) {
        let thin = |buffer| {
            let set = write_set(given).to_vec();
            Case::thin(system.n as u64, write_terms(&system.terms), set, buffer).kit_of(system)
        };
        let (reply, _) = thin(MOST_CASE_BUFFER).answer();
        let exact = reply.count as usize * SET_BYTES;
        let lengths = [
            exact,
            exact,
            exact.saturating_sub(1),
            exact + 1,
            exact.saturating_sub(SET_BYTES),
            exact + self.random.between(2, 2 * SET_BYTES),
            SET_BYTES - 1,
            self.random.below(80),
            MOST_CASE_BUFFER,
        ];
        for _ in 0..self.random.between(1, 2) {
            let buffer = self.random.pick(&lengths);
            self.cases.push(thin(buffer));
        }
    }
}

/// A signal that may go with a set: a product of two signals, or anything.
/// Nothing where the product is no new monomial.
fn extra(random: &mut Random, system: &System, set: &Set) -> Option<Monomial> {
    if random.chance(20) {
        return Some(systems::member(random, system.n, system.marks));
    }
    let signals = system.signals(set);
    let product = random.pick(&signals).times(random.pick(&signals));
    let new = product != Monomial::ONE
        && !product.is_variable()
        && system.takes(product)
        && product.0.iter().all(|&e| e <= MOST_SET_EXPONENT);
    new.then_some(product)
}
