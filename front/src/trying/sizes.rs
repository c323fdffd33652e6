//! From size to size: of the sets of each size those are kept that leave least to do, and they grow to larger ones.

use std::collections::BTreeSet;

use crate::algebra::Exponents;
use crate::trying::board::Board;
use crate::trying::set::Tried;

/// Sets of a size that are kept.
const KEPT: usize = 64;

/// Pairs that add two signals, which the sets of a size share. Most sets have fewer; the limit is there so that an
/// answer comes at once whatever the powers are, and it is no clock, so that it is the same each time.
const PAIRS: usize = 16_384;

/// A set of up to as many new signals as there are cards that seems to do, ascending. Nothing where none was met, which
/// says nothing of whether there is one.
pub fn try_for(board: &mut Board) -> Option<Vec<Exponents>> {
    let mut sizes = vec![BTreeSet::new(); board.cards + 1];
    sizes[0].insert(Tried::empty(board));
    for size in 0..sizes.len() {
        let kept = std::mem::take(&mut sizes[size]);
        if let Some(met) = kept.first().filter(|set| set.will_do()) {
            return Some(met.new.iter().map(|m| m.exponents()).collect());
        }
        for set in &kept {
            set.grow(board, PAIRS / kept.len(), |grown| keep(&mut sizes[grown.new.len()], grown));
        }
    }
    None
}

/// A set that is met by two paths is kept once.
fn keep(sets: &mut BTreeSet<Tried>, set: Tried) {
    sets.insert(set);
    if KEPT < sets.len() {
        sets.pop_last();
    }
}

#[cfg(test)]
mod tests {
    use super::*;
    use crate::saying::unwired::product;
    use crate::trying::systems::systems;
    use crate::typed::settings::Settings;
    use crate::typed::system::tests::{system, with_signals};
    use crate::typed::system::System;

    fn tried(system: &System, settings: &Settings) -> Option<Vec<Exponents>> {
        try_for(&mut Board::of(system, settings)?)
    }

    /// What is met with so many cards and such a kit, as text.
    fn met(system: &System, cards: u64, degree: u64) -> Option<String> {
        let settings = Settings { cards: cards.into(), degree: degree.into(), ..Settings::default() };
        tried(system, &settings).map(|set| system.set(&set).join(", "))
    }

    #[test]
    fn systems_of_the_documents() {
        for (text, set) in [
            ("x' = 0", ""),
            ("x' = x^2", ""),
            ("x' = x^3", "x^2"),
            ("x' = x^5", "x^4"),
            ("x' = x^4 + x^3", "x^2, x^3"),
            ("x1' = x1^3 + x2^2, x2' = x1 + x2", "x2^2, x1^2"),
            ("x1' = x1^2 x2, x2' = -x1 x2^2", "x1*x2"),
            ("x1' = x1^2 x2", "x1*x2"),
            ("x' = y z - y + x^2 y + x, y' = 3 x z + x - x^3 + y, z' = -2 z - 2 x y z", "y^2, x*y, x^2"),
            ("x1' = x2^4, x2' = x1^2", "x2^3, x1*x2^2, x1^3"),
        ] {
            assert_eq!(met(&system(text), 6, 324).as_deref(), Some(set), "{text}");
        }
    }

    #[test]
    fn signals_the_kit_and_the_cards_are_kept() {
        let fed = |text: &str| met(&with_signals(text, "x2"), 6, 324);
        assert_eq!(fed("x1' = x1^3 + x2 x1").as_deref(), Some("x1^2"));
        assert_eq!(fed("x1' = x1^2 x2"), None, "without the mark it is x1*x2");
        let kit = |degree| met(&system("x' = x^4 + x^3"), 6, degree);
        assert_eq!([2, 3, 4].map(kit), [None, Some("x^2, x^3".into()), Some("x^2, x^3".into())]);
        let cards = |cards| met(&system("x' = x^4 + x^3"), cards, 324);
        assert_eq!([0, 1, 2].map(cards), [None, None, Some("x^2, x^3".into())]);
    }

    #[test]
    fn a_system_without_a_set_of_six() {
        let text = "x' = -x^6 y^4 z^6 + x^9 y^4 z, y' = -2 x^7 y^3 z + x^6 y^8 z^4 + 3 x^6 y^5 z^7, z' = -x^7 y";
        assert_eq!(met(&system(text), 6, 324), None);
    }

    #[test]
    fn what_is_met_is_quadratic_and_keeps_the_settings() {
        let mut number = 0;
        for (system, settings) in systems(1_000) {
            let Some(set) = tried(&system, &settings) else {
                continue;
            };
            number += 1;
            let (signals, records) = (system.signals(&set), system.records().unwrap());
            let shown = || format!("{:?} with {:?}", system.as_read(), system.set(&set));
            assert!((0..signals.len()).all(|s| product(&records, &signals, s).is_none()), "{}", shown());
            assert!(set.windows(2).all(|w| w[0] < w[1]) && set.len() as u64 <= settings.cards.value().unwrap());
            assert!(set.iter().all(|m| crate::algebra::degree(m) <= settings.degree.value().unwrap()), "{}", shown());
            assert!(set.iter().all(|m| (0..6).all(|i| m[i] == 0 || system.marks() >> i & 1 == 0)), "{}", shown());
        }
        assert!(500 < number, "{number}");
    }
}
