//! The stories of the order of pairs in a random batch: plans around the step at which
//! they are full (document 02, [8]), with signals and without, for each kit. In most of
//! them full comes at another step than by ascending m1.

use crate::batch::Case;
use crate::cheap_rows::{done, fulls, limits_around, too_small};
use crate::maker::{Ask, Maker, Mix};
use crate::panel::{MOST_CAP, SET_BYTES};
use crate::random::Random;
use crate::records::write_terms;
use crate::system::System;
use crate::systems::{self, Kit, Outside};
use crate::walk::Rules;

/// Planning alone.
pub const CHEAP: Mix = Mix {
    asks: &[Ask::Plan],
    given: &[],
    outside: Outside::Nothing,
    kit: Kit::Full,
    rules: Rules::NOW,
    shares: &[
        (30, Maker::full_kit_around_full),
        (20, Maker::signals_around_full),
        (30, Maker::junior_kit_around_full),
        (10, Maker::junior_kit_with_signals_around_full),
        (10, Maker::any_around_full),
    ],
};

/// How far a walk is looked at, so that a batch is made quickly.
const SHORT_WALK: u64 = 400;

/// So many rooms are looked at, from none on.
const ROOMS: usize = 4;

impl Maker {
    fn full_kit_around_full(&mut self) {
        self.around_another_full(Outside::Nothing, Kit::Full);
    }

    fn signals_around_full(&mut self) {
        self.around_another_full(Outside::Signals, Kit::Full);
    }

    fn junior_kit_around_full(&mut self) {
        self.around_another_full(Outside::Nothing, Kit::Junior);
    }

    fn junior_kit_with_signals_around_full(&mut self) {
        self.around_another_full(Outside::Signals, Kit::Junior);
    }

    /// A plan that is full, whether the order shows in it or not.
    fn any_around_full(&mut self) {
        let kit = self.random.pick(&[Kit::Full, Kit::Junior]);
        self.around_full(Outside::NowAndThen, kit, |_| true);
    }

    /// A plan that was full at another step by ascending m1.
    fn around_another_full(&mut self, outside: Outside, kit: Kit) {
        self.around_full(outside, kit, |plan| {
            let [before, now] = fulls(plan);
            before != now
        });
    }

    /// A plan that is full, of such a kind, with limits around that step; and now and
    /// then the same with room for all.
    fn around_full(&mut self, outside: Outside, kit: Kit, is_kind: fn(&Case) -> bool) {
        let (plan, done) = loop {
            let system = any_system(&mut self.random, outside, kit);
            let terms = write_terms(&system.terms);
            let plan = Case::plan(system.n as u64, MOST_CAP, SHORT_WALK, 0, terms);
            let plan = plan.kit_of(&system);
            let Some(done) = done(&plan) else {
                continue;
            };
            let with_room = |room: usize| Case {
                buffer: room * SET_BYTES,
                ..plan.clone()
            };
            let plans = too_small(done.count as usize, ROOMS).map(with_room);
            let plans: Vec<Case> = plans.filter(is_kind).collect();
            if !plans.is_empty() {
                let plan = plans[self.random.below(plans.len())].clone();
                break (plan, done);
            }
        };
        // Levels above the order are never begun.
        let cap = self.random.pick(&[MOST_CAP, MOST_CAP, done.order]);
        let plan = Case { cap, ..plan };
        let room = plan.buffer / SET_BYTES;
        for limit in limits_around(&plan) {
            let buffer = self.buffer(room);
            self.cases.push(Case {
                limit,
                buffer,
                ..plan.clone()
            });
        }
        if self.random.chance(20) {
            let limit = self.random.pick(&[done.steps, done.steps + 1, SHORT_WALK]);
            let buffer = self.buffer(done.count as usize);
            self.cases.push(Case {
                limit,
                buffer,
                ..plan
            });
        }
    }
}

fn any_system(random: &mut Random, outside: Outside, kit: Kit) -> System {
    let system = match random.chance(90) {
        true => systems::any(random),
        false => systems::six_terms_up_to(random, 3),
    };
    let system = outside.feed(random, system);
    kit.limit(random, system)
}
