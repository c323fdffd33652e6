//! What is said of a listing that is readable: whether its names form a set, and
//! whether its lines are true (document 02, [7]).

use crate::listing::{Exponents, Line, Listing, Name};
use crate::monomial::Monomial;
use crate::panel::MOST_SET_EXPONENT;
use crate::records::{read_set, write_places};
use crate::setting::Setting;
use crate::system::{Set, System};
use std::collections::BTreeMap;

/// What a name line names, where every exponent is one that a set may have.
fn monomial(exponents: &Exponents) -> Option<Monomial> {
    let most = u64::from(MOST_SET_EXPONENT);
    let within = exponents.iter().all(|&exponent| exponent <= most);
    within.then(|| Monomial(exponents.map(|exponent| exponent as u16)))
}

/// What the names stand for, in number order.
pub fn named(listing: &Listing) -> Option<Vec<Monomial>> {
    listing.names.iter().map(monomial).collect()
}

/// The set that the names form: sorted, they are a record that breaks no rule. Two
/// names for one monomial stand side by side there.
pub fn set_of_names(setting: Setting, names: &[Monomial]) -> Option<Set> {
    let mut members = names.to_vec();
    members.sort();
    read_set(setting, &write_places(&members)).ok()
}

/// What a name stands for.
fn meaning(names: &[Monomial], name: Name) -> Monomial {
    match name {
        Name::Variable(i) => Monomial::variable(i),
        Name::New(j) => names[j],
    }
}

/// A line multiplied out: like monomials added with sign, zero sums gone.
pub fn multiplied_out(names: &[Monomial], line: &Line) -> BTreeMap<Monomial, i128> {
    let mut sum = BTreeMap::new();
    for term in &line.terms {
        let factors = term.names.iter().map(|&name| meaning(names, name));
        let monomial = factors.fold(Monomial::ONE, Monomial::times);
        *sum.entry(monomial).or_insert(0) += term.coefficient;
    }
    sum.retain(|_, coefficient| *coefficient != 0);
    sum
}

/// Whether a line, multiplied out, is the derivative of its left side.
pub fn is_true(system: &System, names: &[Monomial], line: &Line) -> bool {
    let derivative = system.derivative(meaning(names, line.left)).into_iter();
    let derivative = derivative.map(|(m, coefficient)| (m, i128::from(coefficient)));
    multiplied_out(names, line) == derivative.collect()
}

/// The line in the text, from 1, of the first derivative line that is false.
pub fn first_false(system: &System, names: &[Monomial], listing: &Listing) -> Option<usize> {
    let lines = &listing.lines;
    let index = lines
        .iter()
        .position(|line| !is_true(system, names, line))?;
    Some(listing.line_in_text(index))
}
