//! The stories of verdict and wiring together in a random batch: sets that are
//! quadratic, just not, or only by cancelling, with buffers around what stands
//! before a nonsquare and around the list.

use crate::batch::Case;
use crate::maker::{Ask, Maker, Mix};
use crate::panel::{MOST_TERMS, MOST_WIRES_BYTES, WIRE_BYTES};
use crate::records::{write_set, write_terms};
use crate::system::{Set, System};
use crate::systems::{self, Kit, Outside};
use crate::walk::Rules;
use crate::wire_cover::Derivatives;

/// Wiring, a fair share of it for the verdict alone.
pub const WIRING: Mix = Mix {
    asks: &[Ask::Verdict, Ask::Wire],
    given: &[Ask::Verdict, Ask::Wire],
    outside: Outside::Nothing,
    kit: Kit::Full,
    rules: Rules::BEFORE_CLOSING,
    shares: &[
        (14, Maker::wire_found_set),
        (18, Maker::wire_closed_set),
        (18, Maker::wire_around_a_set),
        (10, Maker::wire_random_set),
        (16, Maker::wire_cancelling_set),
        (6, Maker::broken_field),
        (5, Maker::repeated_record),
        (2, Maker::wrong_and_repeated),
        (3, Maker::bad_length),
        (2, Maker::bad_setting),
        (4, Maker::broken_set),
        (2, Maker::several_faults),
    ],
};

impl Maker {
    /// A smallest set of a system, or one near it.
    pub fn wire_found_set(&mut self) {
        let (system, found) = self.planned();
        let set = found[self.random.below(found.len())].clone();
        self.wire_or_near(&system, &set);
    }

    /// Some signals, with whatever their derivatives call for.
    pub fn wire_closed_set(&mut self) {
        let (system, set) = self.closed_set();
        self.wire_or_near(&system, &set);
    }

    /// A set, and the system made around it, often with a term too many.
    pub fn wire_around_a_set(&mut self) {
        let (mut system, set) = self.set_with_system();
        let extra = systems::run(&mut self.random, system.n, system.marks, 1).terms[0];
        let is_new = !system.terms.iter().any(|t| t.repeats(&extra));
        if is_new && system.terms.len() < MOST_TERMS && self.random.chance(60) {
            system.terms.push(extra);
        }
        self.wire_with(&system, &set);
    }

    /// A set that has nothing to do with the system.
    pub fn wire_random_set(&mut self) {
        let (system, set) = self.system_and_set();
        self.wire_with(&system, &set);
    }

    fn wire_cancelling_set(&mut self) {
        let (system, set) = systems::decided_by_cancelling(&mut self.random);
        self.wire_or_near(&system, &set);
    }

    fn wire_or_near(&mut self, system: &System, set: &Set) {
        let set = match self.random.chance(50) {
            true => self.another_set(system, set),
            false => set.clone(),
        };
        self.wire_with(system, &set);
    }

    /// Wires a good set record once or twice, never twice alike: without room, or
    /// around a room at which one who writes before all is judged would go astray.
    fn wire_with(&mut self, system: &System, set: &Set) {
        let rooms: Vec<usize> = Derivatives::of(system, set).rooms().into_iter().collect();
        let wire = |buffer| {
            let set = write_set(set).to_vec();
            Case::wire(system.n as u64, write_terms(&system.terms), set, buffer).kit_of(system)
        };
        for _ in 0..self.random.between(1, 2) {
            let bytes = self.random.pick(&rooms) * WIRE_BYTES;
            let buffer = match self.random.below(8) {
                0 | 1 => 0,
                2 => bytes + 1,
                3 => bytes.saturating_sub(1),
                4 => MOST_WIRES_BYTES,
                _ => bytes,
            };
            let case = match buffer < WIRE_BYTES {
                true => self.judge(wire(buffer)),
                false => wire(buffer),
            };
            if !self.cases.contains(&case) {
                self.cases.push(case);
            }
        }
    }
}
