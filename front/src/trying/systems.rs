//! Random systems of two to six variables, for tests.

use crate::algebra::{self, Exponents};
use crate::panel::VARIABLES;
use crate::random::Random;
use crate::typed::names::Kind;
use crate::typed::settings::Settings;
use crate::typed::system::tests::{said, system_of, typed};
use crate::typed::system::System;

/// Systems with settings, the same each time. Low powers and higher ones come in turn; of each four one has a signal from
/// outside, one is for a junior kit and one has fewer cards.
pub fn systems(count: usize) -> Vec<(System, Settings)> {
    let mut random = Random::of(20);
    (0..count).map(|number| random.system(number)).collect()
}

impl Random {
    fn system(&mut self, number: usize) -> (System, Settings) {
        let n = 2 + self.below(VARIABLES - 1);
        let (outside, high) = (number % 4 == 1, number / 4 % 2 == 1);
        let fed = n - usize::from(outside);
        let mut terms: Vec<(usize, Exponents)> = Vec::new();
        for _ in 0..1 + self.below(if high { 4 } else { n + 2 }) {
            let term = (self.below(fed), self.exponents(n, high));
            if !terms.contains(&term) {
                terms.push(term);
            }
        }
        let mut settings = Settings::default();
        match number % 4 {
            2 => settings.degree = (3 + self.below(5) as u64).into(),
            3 => settings.cards = (2 + self.below(4) as u64).into(),
            _ => (),
        }
        let names: Vec<String> = (1..=n).map(|i| format!("x{i}")).collect();
        let mut sources = typed(&self.equations(&names, &terms)).to_vec();
        if outside && terms.iter().any(|(_, e)| e[n - 1] != 0) {
            sources.extend(said(&[(Kind::Signal, &names[n - 1])]));
        }
        (system_of(&sources), settings)
    }

    /// A few factors, or high powers of some variables.
    fn exponents(&mut self, n: usize, high: bool) -> Exponents {
        let mut exponents = Exponents::default();
        if high {
            exponents[..n].iter_mut().for_each(|e| *e = (self.below(2) * self.below(6)) as u8);
        } else {
            (0..1 + self.below(4)).for_each(|_| exponents[self.below(n)] += 1);
        }
        exponents
    }

    fn equations(&mut self, names: &[String], terms: &[(usize, Exponents)]) -> String {
        let mut lines = Vec::new();
        for (i, name) in names.iter().enumerate() {
            let own: Vec<(i64, String)> = terms
                .iter()
                .filter(|(left, _)| *left == i)
                .map(|(_, e)| ([1, 2, -1][self.below(3)], algebra::monomial(names, e)))
                .collect();
            if !own.is_empty() {
                lines.push(format!("{name}' = {}", algebra::sum(own.iter().map(|(c, p)| (*c, p.as_str())))));
            }
        }
        lines.join("\n")
    }
}
