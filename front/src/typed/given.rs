//! The set that is given, as the box takes it: a set record; and what it is given for.

use crate::algebra::Exponents;
use crate::panel::{CARDS, SET_BYTES, VARIABLES};
use crate::typed::system::{exponents, Powers};
use crate::typed::text::Span;

/// A new signal as typed, with its variables numbered. It need not fit a record.
#[derive(Debug, Clone, PartialEq)]
pub struct Signal {
    pub powers: Powers,
    pub span: Span,
}

/// What is asked of a given set.
#[derive(Debug, Clone, Copy, PartialEq)]
pub enum Aim {
    /// Which of its signals can go.
    Thinning,
    /// Whether it will do as it is, and then its wiring.
    Wiring,
}

#[derive(Debug, Clone, PartialEq)]
pub struct Given {
    pub aim: Aim,
    /// In the order of the text.
    pub signals: Vec<Signal>,
}

impl Given {
    /// The signals in ascending order, whatever rule they break; nothing where they fit no record. The signal 1 fits
    /// none: there it is an unused place, and the set would be taken for a smaller one.
    pub fn set(&self) -> Option<Vec<Exponents>> {
        let mut set: Vec<Exponents> = self.signals.iter().map(|s| exponents(&s.powers)).collect::<Option<_>>()?;
        set.sort_unstable();
        let fits = set.len() <= CARDS as usize && !set.contains(&[0; VARIABLES]);
        fits.then_some(set)
    }
}

/// The record of a set: its signals, then zeros.
pub fn record(set: &[Exponents]) -> [u8; SET_BYTES] {
    let mut out = [0; SET_BYTES];
    for (place, exponents) in out.chunks_exact_mut(VARIABLES).zip(set) {
        place.copy_from_slice(exponents);
    }
    out
}

#[cfg(test)]
mod tests {
    use super::*;
    use crate::typed::system::tests::with_set;

    fn set(text: &str) -> Option<Vec<Exponents>> {
        with_set("x' = y", text).given.unwrap().set()
    }

    #[test]
    fn signals_are_put_in_order() {
        let x3 = [3, 0, 0, 0, 0, 0];
        assert_eq!(set("x^3, y^2, x*y").unwrap(), [[0, 2, 0, 0, 0, 0], [1, 1, 0, 0, 0, 0], x3]);
        assert_eq!(set("x^3"), set("x x**2"));
        assert_eq!(set(" "), Some(vec![]));
    }

    #[test]
    fn what_fits_no_record() {
        assert_eq!(set("x^2, x^256"), None);
        assert_eq!(set("x^200*x^56"), None);
        assert_eq!(set("x^2, y^0"), None, "1 would be an unused place");
        assert_eq!(set("x^2, x^3, x^4, x^5, x^6, x^7, x^8"), None);
        for text in ["x^255", "x", "x^2, x*x", "x^2, x^3, x^4, x^5, x^6, x^7"] {
            assert!(set(text).is_some(), "{text} is for the planner to refuse or to take");
        }
    }

    #[test]
    fn a_record_is_thirty_six_bytes() {
        let bytes = record(&set("y^54, x*y").unwrap());
        assert_eq!(bytes.len(), 36);
        assert_eq!(bytes[..12], [0, 54, 0, 0, 0, 0, 1, 1, 0, 0, 0, 0]);
        assert!(bytes[12..].iter().all(|&b| b == 0));
        assert_eq!(record(&[]), [0; SET_BYTES]);
    }
}
