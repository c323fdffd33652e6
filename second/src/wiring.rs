//! The verdict on a set and its wiring list, both from one pass over the left
//! variables (document 01, Monomials, derivatives, squares; document 02, [2]
//! and [3]).

use crate::monomial::Monomial;
use crate::system::{Set, System};

/// One record: `coefficient` times signal a times signal b feeds `left`.
#[derive(Clone, Copy, PartialEq, Eq, Debug)]
pub struct Wire {
    pub left: usize,
    pub a: usize,
    pub b: usize,
    pub coefficient: i64,
}

/// The pair of smallest a, then smallest b, whose product is the monomial.
fn first_pair(signals: &[Monomial], monomial: Monomial) -> Option<(usize, usize)> {
    for a in 0..signals.len() {
        for b in a..signals.len() {
            if signals[a].times(signals[b]) == monomial {
                return Some((a, b));
            }
        }
    }
    None
}

/// The list: left variables ascending, within each its monomials ascending. A
/// nonsquare has no pair; then there is no list, but the left variable's number.
pub fn wiring(system: &System, set: &Set) -> Result<Vec<Wire>, usize> {
    let signals = system.signals(set);
    let mut list = Vec::new();
    for (left, variable) in system.left_variables(set) {
        for (monomial, coefficient) in system.derivative(variable) {
            let (a, b) = first_pair(&signals, monomial).ok_or(left)?;
            list.push(Wire {
                left,
                a,
                b,
                coefficient,
            });
        }
    }
    Ok(list)
}
