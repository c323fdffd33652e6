//! The limit on the total degree of each new monomial: one of those that junior
//! kits are printed with, or the full kit's (document 02, [6]).

use crate::monomial::Monomial;
use crate::panel::{FULL_DEGREE, LEAST_DEGREE, MOST_DEGREE};

/// The most that a total degree may be.
#[derive(Clone, Copy, PartialEq, Eq, PartialOrd, Ord, Debug)]
pub struct Degree(pub u64);

impl Degree {
    /// The full kit: no monomial that a set may hold is above it.
    pub const FULL: Degree = Degree(FULL_DEGREE);

    /// Every limit of a junior kit.
    pub fn junior() -> impl Iterator<Item = Degree> {
        (LEAST_DEGREE..=MOST_DEGREE).map(Degree)
    }

    /// The limit of a junior kit that is nearest to a degree.
    pub fn nearest(degree: u64) -> Degree {
        Degree(degree.clamp(LEAST_DEGREE, MOST_DEGREE))
    }

    /// Code 1 as far as it is about the limit.
    pub fn is_in_range(self) -> bool {
        (LEAST_DEGREE..=MOST_DEGREE).contains(&self.0) || self == Degree::FULL
    }

    /// Whether a monomial is not above the limit.
    pub fn reaches(self, monomial: Monomial) -> bool {
        monomial.degree() <= self.0
    }
}

#[cfg(test)]
mod tests {
    use super::*;
    use crate::notation::monomial;
    use crate::panel::{MOST_SET_EXPONENT, VARIABLES};

    #[test]
    fn two_to_nine_and_324_are_in_range() {
        let in_range = |degree: &u64| Degree(*degree).is_in_range();
        let taken: Vec<u64> = (0..1_000).filter(in_range).collect();
        assert_eq!(taken, [2, 3, 4, 5, 6, 7, 8, 9, 324]);
        for degree in [2, 4, 9, 324] {
            for high in [8, 16, 31, 32, 33, 63] {
                assert!(!Degree(degree + (1 << high)).is_in_range());
            }
        }
        assert!(!Degree(u64::MAX).is_in_range());
        assert!(Degree::junior().all(Degree::is_in_range));
    }

    #[test]
    fn all_exponents_count_together() {
        assert!(Degree(3).reaches(monomial("x1 x2 x3")));
        assert!(!Degree(2).reaches(monomial("x1 x2 x3")));
        assert!(Degree(9).reaches(monomial("x6^9")));
        assert!(!Degree(9).reaches(monomial("x1^5 x6^5")));
    }

    #[test]
    fn the_full_kit_reaches_all_that_a_set_may_hold() {
        let tallest = Monomial([MOST_SET_EXPONENT; VARIABLES]);
        assert_eq!(tallest.degree(), 324);
        assert!(Degree::FULL.reaches(tallest));
        assert!(!Degree::FULL.reaches(tallest.times(Monomial::variable(3))));
    }

    #[test]
    fn the_nearest_is_in_range() {
        assert_eq!(
            [0, 1, 2, 9, 10, 324].map(Degree::nearest).map(|d| d.0),
            [2, 2, 2, 9, 9, 9]
        );
    }
}
