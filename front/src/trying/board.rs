//! What a set is tried for: the system, and what the kit takes for a new signal.

use std::collections::HashMap;

use crate::derivative::derivative;
use crate::panel::{POWER, TERMS};
use crate::trying::product::Product;
use crate::typed::settings::Settings;
use crate::typed::system::{Record, System};

pub struct Board {
    records: Vec<Record>,
    /// 1 and the variables, which are there before any new signal.
    pub given: Vec<Product>,
    /// The variables that are fed from outside, by number from 0: no new signal holds one.
    outside: Vec<usize>,
    /// The total degree of a new signal, at most.
    degree: u64,
    /// New signals of a set, at most.
    pub cards: usize,
    /// The derivatives that have been asked for.
    derivatives: HashMap<Product, Vec<Product>>,
}

impl Board {
    /// Nothing where there is nothing to try: the planner refuses such a system, or such settings.
    pub fn of(system: &System, settings: &Settings) -> Option<Board> {
        let records = system.records().ok()?;
        let within = |record: &Record| record.exponents.iter().all(|&e| u128::from(e) <= POWER);
        if TERMS < records.len() || !records.iter().all(within) || !settings.out_of_range().is_empty() {
            return None;
        }
        let marks = system.marks();
        Some(Board {
            records,
            given: system.signals(&[]).iter().map(Product::of).collect(),
            outside: (0..system.names.len()).filter(|i| marks >> i & 1 == 1).collect(),
            degree: settings.degree.value()?,
            cards: settings.cards.value()? as usize,
            derivatives: HashMap::new(),
        })
    }

    /// The products in a signal's derivative. Those that cancel are none.
    pub fn derivative(&mut self, signal: Product) -> &[Product] {
        let records = &self.records;
        self.derivatives.entry(signal).or_insert_with(|| {
            let totals = derivative(records, &signal.exponents()).unwrap_or_default();
            totals.iter().filter(|(_, &total)| total != 0).map(|(product, _)| Product::of(product)).collect()
        })
    }

    pub fn may_be_new(&self, signal: Product) -> bool {
        self.holds_none_from_outside(signal) && signal.degree() <= self.degree
    }

    /// Whether two new signals may multiply to it. Where this is denied, no pair has to be looked at.
    pub fn may_be_two(&self, product: Product) -> bool {
        self.holds_none_from_outside(product) && product.degree() <= 2 * self.degree
    }

    fn holds_none_from_outside(&self, product: Product) -> bool {
        let exponents = product.exponents();
        self.outside.iter().all(|&i| exponents[i] == 0)
    }
}

#[cfg(test)]
mod tests {
    use super::*;
    use crate::typed::system::tests::{system, with_signals};

    fn product(x: u8, y: u8) -> Product {
        Product::of(&[x, y, 0, 0, 0, 0])
    }

    fn board(text: &str) -> Option<Board> {
        Board::of(&system(text), &Settings::default())
    }

    #[test]
    fn what_cancels_is_in_no_derivative() {
        let mut board = board("x' = x^2 y + y, y' = -x y^2").unwrap();
        assert_eq!(board.derivative(product(1, 1)), [product(0, 2)]);
        assert_eq!(board.derivative(product(2, 0)), [product(1, 1), product(3, 1)]);
        assert_eq!(board.given, [product(0, 0), product(1, 0), product(0, 1)].map(|m| m));
        assert_eq!(board.derivative(product(0, 0)), []);
    }

    #[test]
    fn a_new_signal_keeps_the_rules_of_the_kit() {
        let settings = Settings { degree: 3.into(), ..Settings::default() };
        let board = Board::of(&with_signals("x' = x^3 u", "u"), &settings).unwrap();
        assert_eq!([(2, 0), (3, 0), (4, 0)].map(|(x, u)| board.may_be_new(product(x, u))), [true, true, false]);
        assert!(!board.may_be_new(product(1, 1)) && !board.may_be_new(product(0, 2)), "u is fed from outside");
        assert_eq!([(6, 0), (7, 0), (2, 1)].map(|(x, u)| board.may_be_two(product(x, u))), [true, false, false]);
    }

    #[test]
    fn what_the_planner_refuses_is_not_tried() {
        let sum = |terms: usize| (0..terms).map(|i| format!("x^{} y^{}", i % 9, i / 9)).collect::<Vec<_>>().join(" + ");
        for (text, tried) in [
            ("x' = x^9".to_string(), true),
            ("x' = x^10".into(), false),
            ("x' = x^256".into(), false),
            (format!("x' = {}", sum(32)), true),
            (format!("x' = {}", sum(33)), false),
        ] {
            assert_eq!(board(&text).is_some(), tried, "{text}");
        }
        let with = |settings| Board::of(&system("x' = x^3"), &settings).is_some();
        for (cards, tried) in [(0, true), (6, true), (7, false), (u64::MAX, false)] {
            assert_eq!(with(Settings { cards: cards.into(), ..Settings::default() }), tried, "{cards}");
        }
        for (degree, tried) in [(2, true), (10, false), (u64::MAX, false)] {
            assert_eq!(with(Settings { degree: degree.into(), ..Settings::default() }), tried, "{degree}");
        }
    }
}
