//! Derivatives, multiplied out. The planner works with its own; these give its answers a reason, and help to try for a
//! patch beside it.

use std::collections::BTreeMap;

use crate::algebra::Exponents;
use crate::panel::VARIABLES;
use crate::typed::system::Record;

/// Products with their total coefficients. Like products are added with sign, so a total may be 0.
pub type Totals = BTreeMap<Exponents, i64>;

/// Nothing where a power does not fit a byte.
pub fn derivative(records: &[Record], of: &Exponents) -> Option<Totals> {
    let mut totals = Totals::new();
    for record in records {
        let i = usize::from(record.equation) - 1;
        if of[i] != 0 {
            let mut rest = *of;
            rest[i] -= 1;
            *totals.entry(times(&rest, &record.exponents)?).or_insert(0) +=
                i64::from(of[i]) * i64::from(record.coefficient);
        }
    }
    Some(totals)
}

pub fn times(a: &Exponents, b: &Exponents) -> Option<Exponents> {
    let mut out = [0; VARIABLES];
    for ((out, a), b) in out.iter_mut().zip(a).zip(b) {
        *out = a.checked_add(*b)?;
    }
    Some(out)
}

#[cfg(test)]
mod tests {
    use super::*;
    use crate::typed::system::tests::system;

    /// The products of a derivative with their totals, by the powers of x and y.
    fn derived(text: &str, x: u8, y: u8) -> Option<Vec<((u8, u8), i64)>> {
        let totals = derivative(&system(text).records().unwrap(), &[x, y, 0, 0, 0, 0])?;
        Some(totals.into_iter().map(|(e, total)| ((e[0], e[1]), total)).collect())
    }

    #[test]
    fn a_derivative_is_multiplied_out() {
        assert_eq!(derived("x' = x^4 - 3 y", 2, 0).unwrap(), [((1, 1), -6), ((5, 0), 2)]);
        assert_eq!(derived("x' = 2, y' = 3 x", 1, 1).unwrap(), [((0, 1), 2), ((2, 0), 3)]);
        assert_eq!(derived("x' = x, y' = 1", 0, 0).unwrap(), [], "1 never changes");
        assert_eq!(derived("x' = x", 0, 2).unwrap(), [], "y has no equation");
    }

    #[test]
    fn like_products_are_added_with_sign() {
        assert_eq!(derived("x' = x^2 y, y' = -x y^2", 1, 1).unwrap(), [((2, 2), 0)]);
        assert_eq!(derived("x' = x^2 y, y' = -3 x y^2", 1, 1).unwrap(), [((2, 2), -2)]);
    }

    #[test]
    fn a_power_that_fits_no_byte() {
        assert_eq!(derived("x' = x^9", 247, 0).unwrap(), [((255, 0), 247)]);
        assert_eq!(derived("x' = x^9", 248, 0), None);
        assert_eq!(times(&[255; VARIABLES], &[0; VARIABLES]), Some([255; VARIABLES]));
        assert_eq!(times(&[255; VARIABLES], &[0, 0, 0, 0, 0, 1]), None);
    }
}
