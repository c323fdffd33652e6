//! Why a signal cannot be wired: a product in its derivative that no two signals multiply to. The planner says which
//! signal it is; this only gives its refusal a reason.

use crate::algebra::Exponents;
use crate::derivative::{derivative, times};
use crate::typed::system::Record;

/// The first such product, ascending, with its total coefficient. `signals` are those of the patch by number, 1 and the
/// variables among them. Nothing where all can be wired, or where there is no such signal.
pub fn product(records: &[Record], signals: &[Exponents], signal: usize) -> Option<(i64, Exponents)> {
    let made = |m| signals.iter().any(|a| signals.iter().any(|b| times(a, b) == Some(m)));
    let derivative = derivative(records, signals.get(signal)?)?;
    derivative.into_iter().find(|&(m, total)| total != 0 && !made(m)).map(|(m, total)| (total, m))
}

#[cfg(test)]
mod tests {
    use super::*;
    use crate::typed::system::tests::with_set;

    /// The first product that cannot be wired, for each signal from 1 on.
    fn products(text: &str, set: &str) -> Vec<Option<(i64, Exponents)>> {
        let system = with_set(text, set);
        let signals = system.signals(&system.given.as_ref().unwrap().set().unwrap());
        (1..signals.len()).map(|s| product(&system.records().unwrap(), &signals, s)).collect()
    }

    fn power(e: u8) -> Exponents {
        [e, 0, 0, 0, 0, 0]
    }

    #[test]
    fn the_first_product_that_no_two_signals_make() {
        assert_eq!(products("x' = x^4", "x^2"), [None, Some((2, power(5)))]);
        assert_eq!(products("x' = x^3 - x^4", ""), [Some((1, power(3)))], "ascending, not as typed");
        assert_eq!(products("x' = -x^4 + x^2", ""), [Some((-1, power(4)))]);
    }

    #[test]
    fn a_quadratic_set_has_none() {
        assert_eq!(products("x' = x^4 + x^3", "x^2, x^3"), [None; 3]);
        assert_eq!(products("x' = x^2 + 1", ""), [None]);
    }

    #[test]
    fn parts_that_cancel_are_no_product() {
        assert_eq!(products("x' = x^2 y, y' = -x y^2", "x*y"), [None; 3]);
        let [_, _, third] = products("x' = x^2 y, y' = -2 x y^2", "x*y")[..] else { panic!() };
        assert_eq!(third, None, "x^2*y^2 is the square of x*y");
        let [_, _, third] = products("x' = x^3, y' = -2 x^2 y", "x*y")[..] else { panic!() };
        assert_eq!(third, Some((-1, [3, 1, 0, 0, 0, 0])));
    }

    #[test]
    fn what_is_out_of_range_has_no_reason() {
        let system = with_set("x' = x^9", "x^2");
        let records = system.records().unwrap();
        assert_eq!(product(&records, &[power(0), power(1)], 2), None);
        assert_eq!(product(&records, &[power(0), power(250)], 1), None, "the power does not fit");
    }
}
