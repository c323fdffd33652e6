//! Marks: which variables are signals fed from outside (document 02, [3]).
//!
//! Document 01 numbers all members of V as signals, and so does this program.
//! A signal fed from outside is called a marked variable here.

use crate::monomial::Monomial;
use crate::panel::VARIABLES;

/// Bit i - 1 marks xi.
#[derive(Clone, Copy, PartialEq, Eq, Debug)]
pub struct Marks(pub u64);

impl Marks {
    /// Document 01's systems mark nothing.
    pub const NONE: Marks = Marks(0);

    /// The marks of some variables.
    pub fn of(variables: impl IntoIterator<Item = usize>) -> Marks {
        let bits = variables.into_iter().map(|i| 1 << (i - 1));
        Marks(bits.fold(0, |marks, bit| marks | bit))
    }

    /// Every way of marking some of n variables.
    pub fn all_of(n: usize) -> impl Iterator<Item = Marks> {
        (1..1 << n).map(Marks)
    }

    /// The marked variables among the first six.
    pub fn variables(self) -> Vec<usize> {
        (1..=VARIABLES).filter(|&i| self.mark(i)).collect()
    }

    /// Whether `xi`, counted from 1, is marked.
    pub fn mark(self, i: usize) -> bool {
        self.0 >> (i - 1) & 1 == 1
    }

    /// Whether no variable beyond xn is marked.
    pub fn are_among(self, n: usize) -> bool {
        self.0 >> n == 0
    }

    /// Whether a monomial contains a marked variable.
    pub fn touch(self, monomial: Monomial) -> bool {
        (1..=VARIABLES).any(|i| monomial.0[i - 1] > 0 && self.mark(i))
    }
}

#[cfg(test)]
mod tests {
    use super::*;
    use crate::notation::monomial;

    #[test]
    fn bit_zero_marks_x1() {
        assert_eq!(Marks(1).variables(), [1]);
        assert_eq!(Marks(0b10_0110).variables(), [2, 3, 6]);
        assert_eq!(Marks::of([2, 3, 6]), Marks(0b10_0110));
        assert!(Marks::NONE.variables().is_empty());
        assert_eq!(Marks::all_of(3).count(), 7);
    }

    #[test]
    fn no_bit_at_n_or_above() {
        for n in 1..=VARIABLES {
            assert!(Marks((1 << n) - 1).are_among(n));
            for bit in n..64 {
                assert!(!Marks(1 << bit).are_among(n));
            }
        }
    }

    #[test]
    fn a_product_with_a_marked_variable_is_touched() {
        let marks = Marks(0b10);
        assert!(marks.touch(monomial("x2")));
        assert!(marks.touch(monomial("x1^9 x2")));
        assert!(!marks.touch(monomial("x1 x3^2")));
        assert!(!marks.touch(Monomial::ONE));
    }
}
