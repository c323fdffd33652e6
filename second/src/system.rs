//! A system, its derivatives, and what a set of new monomials leaves over
//! (document 01, Monomials, derivatives, squares; document 02, [3] and [6]).

use crate::degree::Degree;
use crate::marks::Marks;
use crate::monomial::Monomial;
use crate::setting::Setting;
use std::collections::{BTreeMap, BTreeSet};

/// A set of new monomials, in their order.
pub type Set = BTreeSet<Monomial>;

/// One term of one equation, the equation counted from 1.
#[derive(Clone, Copy, PartialEq, Eq, Debug)]
pub struct Term {
    pub equation: usize,
    pub monomial: Monomial,
    pub coefficient: i64,
}

impl Term {
    /// Whether both stand in one equation with one monomial.
    pub fn repeats(&self, other: &Term) -> bool {
        self.equation == other.equation && self.monomial == other.monomial
    }
}

/// A system of n variables, some of them marked, and the limit of its kit. Marked
/// variables have no terms.
#[derive(Clone, PartialEq, Eq, Debug)]
pub struct System {
    pub n: usize,
    pub marks: Marks,
    pub degree: Degree,
    pub terms: Vec<Term>,
}

impl System {
    /// A system of document 01, in which nothing is marked, with the full kit.
    pub fn unmarked(n: usize, terms: Vec<Term>) -> System {
        System {
            n,
            marks: Marks::NONE,
            degree: Degree::FULL,
            terms,
        }
    }

    /// The same system with this limit.
    pub fn limited(self, degree: Degree) -> System {
        System { degree, ..self }
    }

    /// What an operation on it is told before all else.
    pub fn setting(&self) -> Setting {
        Setting {
            n: self.n as u64,
            marks: self.marks,
            degree: self.degree,
        }
    }

    /// Whether a new monomial may be this one: it has no marked variable, and its
    /// degree is not above the limit.
    pub fn takes(&self, monomial: Monomial) -> bool {
        !self.marks.touch(monomial) && self.degree.reaches(monomial)
    }

    /// The derivative of `z`: like monomials added with sign, zero sums gone.
    pub fn derivative(&self, z: Monomial) -> BTreeMap<Monomial, i64> {
        let mut sum = self.totals(z);
        sum.retain(|_, coefficient| *coefficient != 0);
        sum
    }

    /// Like monomials of the derivative added with sign, zero sums too.
    pub fn totals(&self, z: Monomial) -> BTreeMap<Monomial, i64> {
        let mut sum = BTreeMap::new();
        for term in &self.terms {
            let exponent = z.0[term.equation - 1];
            if exponent > 0 {
                let rest = z.over(Monomial::variable(term.equation));
                let monomial = rest.times(term.monomial);
                *sum.entry(monomial).or_insert(0) += i64::from(exponent) * term.coefficient;
            }
        }
        sum
    }

    /// V by signal number: 1, then x1..xn, then the new monomials in set order.
    pub fn signals(&self, set: &Set) -> Vec<Monomial> {
        let mut signals = vec![Monomial::ONE];
        signals.extend((1..=self.n).map(Monomial::variable));
        signals.extend(set);
        signals
    }

    /// The left variables with their signal numbers: the members of V that have
    /// an equation. A marked variable is in V and has none, so that nobody asks
    /// for its derivative.
    pub fn left_variables(&self, set: &Set) -> Vec<(usize, Monomial)> {
        let has_equation = |(left, _): &(usize, Monomial)| match left {
            0 => false,
            i if *i <= self.n => !self.marks.mark(*i),
            _ => true,
        };
        let signals = self.signals(set).into_iter().enumerate();
        signals.filter(has_equation).collect()
    }

    /// The nonsquares of a set: what the derivatives of the left variables hold
    /// and V2 lacks.
    pub fn nonsquares(&self, set: &Set) -> BTreeSet<Monomial> {
        let squares = squares(&self.signals(set));
        let mut over = BTreeSet::new();
        for (_, left) in self.left_variables(set) {
            for (monomial, _) in self.derivative(left) {
                if !squares.contains(&monomial) {
                    over.insert(monomial);
                }
            }
        }
        over
    }

    pub fn is_quadratic(&self, set: &Set) -> bool {
        self.nonsquares(set).is_empty()
    }
}

/// V2: all products of two members of V, equal ones included.
pub fn squares(signals: &[Monomial]) -> BTreeSet<Monomial> {
    let mut products = BTreeSet::new();
    for (a, &first) in signals.iter().enumerate() {
        for &second in &signals[a..] {
            products.insert(first.times(second));
        }
    }
    products
}

#[cfg(test)]
mod tests {
    use super::*;
    use crate::notation::{monomial, system};

    fn set(names: &[&str]) -> Set {
        names.iter().map(|name| monomial(name)).collect()
    }

    #[test]
    fn derivative_adds_with_sign_and_drops_zero() {
        let cancel = system(2, "x1' = x1^2 x2; x2' = - x1 x2^2");
        assert!(cancel.derivative(monomial("x1 x2")).is_empty());
        let z = cancel.derivative(monomial("x1^3 x2"));
        assert_eq!(z, BTreeMap::from([(monomial("x1^4 x2^2"), 2)]));
    }

    #[test]
    fn derivative_of_one_and_of_an_unfed_variable_is_zero() {
        let fed = system(2, "x1' = x1^2 x2");
        assert!(fed.derivative(Monomial::ONE).is_empty());
        assert!(fed.derivative(monomial("x2^5")).is_empty());
    }

    /// Document 001, Example 4: V2 and the one nonsquare of {x^3}.
    #[test]
    fn nonsquares_of_example_4() {
        let example = system(1, "x1' = x1^4 + x1^3");
        let cube = set(&["x1^3"]);
        assert_eq!(example.nonsquares(&cube), set(&["x1^5"]));
        let v2: BTreeSet<_> = ["1", "x1", "x1^2", "x1^3", "x1^4", "x1^6"]
            .iter()
            .map(|name| monomial(name))
            .collect();
        assert_eq!(squares(&example.signals(&cube)), v2);
        assert!(!example.is_quadratic(&cube));
    }
}
