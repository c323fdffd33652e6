//! What every operation is told before all else: how many variables there are,
//! which of them are marked, and how high the degree of a new monomial may be
//! (document 01, The system on the panel; document 02, [3] and [6]).

use crate::degree::Degree;
use crate::marks::Marks;
use crate::panel::MOST_N;

/// Code 1 as far as it is about n.
pub fn n_is_in_range(n: u64) -> bool {
    (1..=MOST_N).contains(&n)
}

/// The numbers as they are given, in range or not.
#[derive(Clone, Copy, PartialEq, Eq, Debug)]
pub struct Setting {
    pub n: u64,
    pub marks: Marks,
    pub degree: Degree,
}

impl Setting {
    /// With the full kit.
    pub fn full(n: usize, marks: Marks) -> Setting {
        Setting {
            n: n as u64,
            marks,
            degree: Degree::FULL,
        }
    }

    /// Whether there are so many variables, and none beyond them is marked.
    pub fn variables_are_in_range(self) -> bool {
        n_is_in_range(self.n) && self.marks.are_among(self.n as usize)
    }

    /// Code 1 as far as it is about these numbers.
    pub fn is_in_range(self) -> bool {
        self.variables_are_in_range() && self.degree.is_in_range()
    }
}

#[cfg(test)]
mod tests {
    use super::*;

    #[test]
    fn each_number_is_asked() {
        let good = Setting::full(2, Marks(0b10));
        assert!(good.is_in_range());
        assert!(!Setting { n: 0, ..good }.is_in_range());
        assert!(!Setting { n: 1, ..good }.is_in_range());
        let junior = |degree| Setting {
            degree: Degree(degree),
            ..good
        };
        assert!(junior(2).is_in_range());
        assert!(!junior(1).is_in_range());
        assert!(junior(1).variables_are_in_range());
    }
}
