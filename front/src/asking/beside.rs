//! A try for a patch, in a thread of its own, while the proved program searches. What it meets is handed to the proved
//! program, which alone says that a set will do.

use std::thread::{Builder, JoinHandle};

use crate::algebra::Exponents;
use crate::asking::planner::Planner;
use crate::trying::board::Board;
use crate::trying::sizes::try_for;
use crate::typed::settings::Settings;
use crate::typed::system::System;
use crate::works::Met;

pub struct Beside {
    /// Nothing where there is nothing to try, and where no thread was to be had.
    trying: Option<JoinHandle<Option<Vec<Exponents>>>>,
}

impl Beside {
    pub fn begin(system: &System, settings: &Settings) -> Beside {
        let board = Board::of(system, settings);
        Beside { trying: board.and_then(|mut board| Builder::new().spawn(move || try_for(&mut board)).ok()) }
    }

    /// Waits for the try, which is short. One that fails has met nothing.
    pub fn met(self, planner: &Planner, system: &System) -> Met {
        let Some(set) = self.trying.and_then(|trying| trying.join().ok()).flatten() else {
            return Met::Nothing;
        };
        match planner.wire(&set) {
            Ok(answer) => Met::wired(system, answer),
            Err(why) => Met::Unasked(why),
        }
    }
}

#[cfg(test)]
mod tests {
    use super::*;
    use crate::asking::answer::{DONE, NONE};
    use crate::asking::planner::RUNNER;
    use crate::trying::systems::systems;
    use crate::typed::system::tests::system;

    fn planner(runner: &str, system: &System, settings: &Settings) -> Planner {
        Planner::of(runner.into(), system, &system.records().unwrap(), settings)
    }

    #[test]
    fn what_the_planner_does_not_wire_is_not_shown() {
        let (system, settings) = (system("x' = x^3"), Settings::default());
        let met = |runner: &str| Beside::begin(&system, &settings).met(&planner(runner, &system, &settings), &system);
        assert!(matches!(met("/bin/false"), Met::Unasked(why) if why.contains("stopped before it answered")));
        assert!(matches!(met("/bin/echo"), Met::Unasked(why) if why.contains("cannot be read")));
        let none = Settings { cards: 0.into(), ..Settings::default() };
        let nothing = Beside::begin(&system, &none).met(&planner("/bin/false", &system, &none), &system);
        assert_eq!(nothing, Met::Nothing, "there is nothing to ask");
    }

    #[test]
    fn a_fault_in_a_try_costs_the_patch_alone() {
        let (system, settings) = (system("x' = x^3"), Settings::default());
        let fault = Builder::new().spawn(|| panic!("a fault, as this test wants it")).unwrap();
        let met = Beside { trying: Some(fault) }.met(&planner("/bin/false", &system, &settings), &system);
        assert_eq!(met, Met::Nothing);
    }

    /// How many patches have as many new signals as a whole search finds is told and not asserted: a try may miss.
    #[test]
    #[ignore = "asks the proved programs; tools/test-front runs it"]
    fn a_thousand_random_systems() {
        const COUNT: usize = 1_000;
        let runner = std::env::var(RUNNER).expect(RUNNER);
        let (mut shown, mut ended, mut met, mut even) = (0, 0, 0, 0);
        for (system, settings) in systems(COUNT) {
            let planner = planner(&runner, &system, &settings);
            let tried = Beside::begin(&system, &settings).trying.and_then(|trying| trying.join().unwrap());
            let size = tried.map(|set| {
                let wired = planner.wire(&set).unwrap();
                assert_eq!(wired.reply.code, DONE, "{:?} with {:?}", system.as_read(), system.set(&set));
                wired.reply.order
            });
            shown += usize::from(size.is_some());
            let plan = planner.ask(&settings, || ()).unwrap().reply;
            assert!(size.map_or(true, |size| plan.order <= size && plan.code != NONE), "{:?}", system.as_read());
            if plan.code == DONE {
                ended += 1;
                met += usize::from(size.is_some());
                even += usize::from(size == Some(plan.order));
            }
        }
        println!(
            "{COUNT} random systems: {shown} patches, all wired; sets are found for {ended}, {met} have a patch, {even} \
             of the same size"
        );
        assert!(COUNT / 2 < shown);
    }
}
