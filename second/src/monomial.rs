//! Monomials: exponents, their order, products and factor pairs
//! (document 01, Monomials, derivatives, squares).

use crate::panel::VARIABLES;

/// Exponents of x1, x2 and so on. The derived order is the document's: x1 is
/// compared first, and the smaller exponent comes first.
///
/// Sixteen bits leave room for a product of two set members.
#[derive(Clone, Copy, PartialEq, Eq, PartialOrd, Ord, Debug)]
pub struct Monomial(pub [u16; VARIABLES]);

impl Monomial {
    /// The constant 1.
    pub const ONE: Monomial = Monomial([0; VARIABLES]);

    /// The single variable `xi`, counted from 1.
    pub fn variable(i: usize) -> Monomial {
        let mut exponents = [0; VARIABLES];
        exponents[i - 1] = 1;
        Monomial(exponents)
    }

    /// The total degree: all exponents together.
    pub fn degree(self) -> u64 {
        self.0.iter().map(|&e| u64::from(e)).sum()
    }

    /// Whether this is a single variable.
    pub fn is_variable(self) -> bool {
        self.degree() == 1
    }

    /// The product of two monomials.
    pub fn times(self, other: Monomial) -> Monomial {
        Monomial(std::array::from_fn(|i| self.0[i] + other.0[i]))
    }

    /// Whether the quotient of the other by this one is a monomial.
    pub fn divides(self, other: Monomial) -> bool {
        (0..VARIABLES).all(|i| self.0[i] <= other.0[i])
    }

    /// The quotient, which must be a monomial again.
    pub fn over(self, other: Monomial) -> Monomial {
        Monomial(std::array::from_fn(|i| self.0[i] - other.0[i]))
    }

    /// The product of (exponent + 1) by which the walk chooses a nonsquare.
    pub fn score(self) -> u64 {
        self.0.iter().map(|&e| u64::from(e) + 1).product()
    }

    /// The factor pairs m1 <= m2, by ascending m1.
    pub fn pairs(self) -> Pairs {
        Pairs {
            whole: self,
            next: Some(Monomial::ONE),
        }
    }

    /// The divisor of `whole` that follows this one in the order.
    fn next_divisor(self, whole: Monomial) -> Option<Monomial> {
        let mut exponents = self.0;
        for i in (0..VARIABLES).rev() {
            if exponents[i] < whole.0[i] {
                exponents[i] += 1;
                return Some(Monomial(exponents));
            }
            exponents[i] = 0;
        }
        None
    }
}

/// The factor pairs of one monomial, made one at a time: a large nonsquare has
/// more pairs than a short walk ever reaches.
pub struct Pairs {
    whole: Monomial,
    next: Option<Monomial>,
}

impl Iterator for Pairs {
    type Item = (Monomial, Monomial);

    fn next(&mut self) -> Option<(Monomial, Monomial)> {
        let m1 = self.next?;
        let m2 = self.whole.over(m1);
        // While m1 rises m2 falls, so the first m1 above its m2 ends the run.
        if m1 > m2 {
            self.next = None;
            return None;
        }
        self.next = m1.next_divisor(self.whole);
        Some((m1, m2))
    }
}

#[cfg(test)]
mod tests {
    use super::*;

    fn m(exponents: [u16; VARIABLES]) -> Monomial {
        Monomial(exponents)
    }

    #[test]
    fn order_looks_at_x1_first() {
        assert!(m([0, 9, 9, 9, 9, 9]) < m([1, 0, 0, 0, 0, 0]));
        assert!(m([1, 0, 2, 0, 0, 0]) < m([1, 1, 0, 0, 0, 0]));
        assert!(Monomial::variable(6) < Monomial::variable(5));
        assert!(Monomial::ONE < Monomial::variable(6));
    }

    #[test]
    fn a_perfect_square_has_a_middle_pair() {
        let x = |e| m([e, 0, 0, 0, 0, 0]);
        let pairs: Vec<_> = x(4).pairs().collect();
        assert_eq!(pairs, [(x(0), x(4)), (x(1), x(3)), (x(2), x(2))]);
        let pairs: Vec<_> = x(3).pairs().collect();
        assert_eq!(pairs, [(x(0), x(3)), (x(1), x(2))]);
    }

    #[test]
    fn pairs_are_all_products_once_and_ascending() {
        let whole = m([2, 0, 3, 1, 0, 0]);
        let pairs: Vec<_> = whole.pairs().collect();
        // 3 * 4 * 2 divisors, no square among the pairs.
        assert_eq!(whole.score(), 24);
        assert_eq!(pairs.len(), 12);
        for (m1, m2) in &pairs {
            assert!(m1 <= m2);
            assert_eq!(m1.times(*m2), whole);
        }
        for two in pairs.windows(2) {
            assert!(two[0].0 < two[1].0);
        }
    }

    #[test]
    fn only_single_variables_are_variables() {
        for i in 1..=VARIABLES {
            assert!(Monomial::variable(i).is_variable());
        }
        assert!(!Monomial::ONE.is_variable());
        assert!(!m([1, 1, 0, 0, 0, 0]).is_variable());
        assert!(!m([0, 0, 2, 0, 0, 0]).is_variable());
    }
}
