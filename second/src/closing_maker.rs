//! The stories of the counting rule in a random batch: plans around the ends of
//! the walk that closes hopeless sets (document 02, [4]). Most are of three
//! variables and six terms, and a good part of them with signals.

use crate::batch::{Case, MOST_CASE_BUFFER};
use crate::maker::{Ask, Maker, Mix};
use crate::panel::{CARDS, MOST_CAP, SET_BYTES};
use crate::random::Random;
use crate::records::write_terms;
use crate::system::System;
use crate::systems::{self, Kit, Outside};
use crate::walk::Rules;

/// Planning alone.
pub const CLOSING: Mix = Mix {
    asks: &[Ask::Plan],
    given: &[],
    outside: Outside::Nothing,
    kit: Kit::Full,
    rules: Rules::BEFORE_CHEAP_FIRST,
    shares: &[
        (24, Maker::around_six_terms),
        (24, Maker::around_six_terms_and_signals),
        (20, Maker::ended_by_closing),
        (16, Maker::around_any),
        (16, Maker::around_any_with_signals),
    ],
};

impl Maker {
    fn around_six_terms(&mut self) {
        self.around(systems::six_terms, Outside::Nothing);
    }

    fn around_six_terms_and_signals(&mut self) {
        self.around(systems::six_terms, Outside::Signals);
    }

    fn around_any(&mut self) {
        self.around(systems::any, Outside::Nothing);
    }

    fn around_any_with_signals(&mut self) {
        self.around(systems::any, Outside::Signals);
    }

    /// The cases around the own walk of a system that is made and fed so.
    pub fn around(&mut self, made: fn(&mut Random) -> System, outside: Outside) {
        let system = made(&mut self.random);
        let system = outside.feed(&mut self.random, system);
        let system = self.kit().limit(&mut self.random, system);
        let cap = match self.random.below(10) {
            0..=4 => MOST_CAP,
            _ => self.random.between(1, CARDS) as u64,
        };
        let generous = self.random.pick(&[300, 1_000, 1_000, 3_000]);
        self.around_the_plan(&system, cap, generous);
    }

    /// A walk that would be spent if hopeless sets were tried, and ends: the limit
    /// that was too low, the walk's own, and one step less.
    fn ended_by_closing(&mut self) {
        let limit = self.random.pick(&[300, 1_000, 1_000, 3_000, 3_000, 10_000]);
        let (first, steps, count) = loop {
            let system = match self.random.chance(60) {
                true => systems::six_terms_up_to(&mut self.random, 9),
                false => systems::six_terms(&mut self.random),
            };
            let outside = self.random.pick(&[Outside::Nothing, Outside::Signals]);
            let system = outside.feed(&mut self.random, system);
            let cap = self.random.pick(&[4, 5, MOST_CAP, MOST_CAP]);
            let terms = write_terms(&system.terms);
            let plan = Case::plan(system.n as u64, cap, limit, MOST_CASE_BUFFER, terms);
            let plan = plan.kit_of(&system);
            let closed = self.answer(&plan).0;
            if closed.code != 7 && plan.answer_by(Rules::BEFORE_CLOSING).0.code == 7 {
                break (plan, closed.steps, closed.count as usize);
            }
        };
        let with = |limit, room: usize| Case {
            limit,
            buffer: room * SET_BYTES,
            ..first.clone()
        };
        self.cases.extend([
            with(limit, count + 1),
            with(steps, count),
            with(steps - 1, count),
        ]);
        if count > 0 {
            self.cases.push(with(limit, count - 1));
        }
    }
}
