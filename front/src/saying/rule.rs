//! Why a term or a new signal fits no record: the rule of the box that it breaks.

use crate::panel::{COEFFICIENT, POWER, SET_POWER};
use crate::saying::numbers::grouped;
use crate::saying::words::listed;
use crate::typed::names::Kind;
use crate::typed::system::{Powers, System, Term};

/// Which rule of a record the term breaks. `names` are the variables of its system.
pub fn broken(term: &Term, names: &[String]) -> Option<String> {
    if let Some(power) = power(&term.powers, names, POWER) {
        return Some(power);
    }
    if term.size == 0 {
        return Some("its coefficient is 0; leave the term out".into());
    }
    if COEFFICIENT < term.size {
        let sign = if term.negative { "-" } else { "" };
        let (size, most) = (shown(term.size), grouped(COEFFICIENT));
        return Some(format!("its coefficient is {sign}{size}, and the box takes -{most} to {most}"));
    }
    None
}

/// What may be done with a signal that no set takes, as the words for the rule end.
pub const LEAVE_OUT: &str = "; leave it out";

/// Which rule of a set record a signal breaks by itself. `junior` is the limit of a junior kit.
pub fn broken_signal(powers: &Powers, system: &System, junior: Option<u64>) -> Option<String> {
    power(powers, &system.names, SET_POWER).or_else(|| match powers.iter().sum() {
        0u128 => Some(format!("it is 1, and no new signal{LEAVE_OUT}")),
        1 => Some(format!("it is a variable, and no new signal{LEAVE_OUT}")),
        degree => from_outside(powers, system).or_else(|| above(degree, junior)),
    })
}

fn above(degree: u128, junior: Option<u64>) -> Option<String> {
    let most = junior.filter(|&most| u128::from(most) < degree)?;
    Some(format!("its total degree is {degree}, and the junior kit takes up to {most}"))
}

fn from_outside(powers: &Powers, system: &System) -> Option<String> {
    let held = system.those(|i| powers[i] != 0 && system.kind(i) == Kind::Signal);
    let words = || format!("it holds {}, fed from outside, which no new signal may hold{LEAVE_OUT}", listed(&held));
    (!held.is_empty()).then(words)
}

fn power(powers: &Powers, names: &[String], most: u128) -> Option<String> {
    let (name, &power) = names.iter().zip(powers).find(|(_, &power)| most < power)?;
    Some(format!("the power of {name} is {}, and the box takes 0 to {most}", shown(power)))
}

/// A number that was too large to hold stands at the largest that fits.
fn shown(number: u128) -> String {
    match number {
        u128::MAX => "too long to show".into(),
        number => grouped(number),
    }
}

#[cfg(test)]
mod tests {
    use super::*;
    use crate::typed::given::Aim;
    use crate::typed::system::tests::{said, system, system_of, typed_with_set, with_set};

    #[test]
    fn the_broken_rule() {
        let rule = |text: &str| {
            let system = system(text);
            broken(&system.terms[0], &system.names)
        };
        assert_eq!(rule("x' = x^9"), None);
        assert_eq!(rule("x' = 1000000*x"), None);
        assert_eq!(rule("x' = x*y^10").unwrap(), "the power of y is 10, and the box takes 0 to 9");
        assert_eq!(rule("x' = x^300").unwrap(), "the power of x is 300, and the box takes 0 to 9");
        assert_eq!(rule("x' = 0*x").unwrap(), "its coefficient is 0; leave the term out");
        assert_eq!(
            rule("x' = -1000001*x").unwrap(),
            "its coefficient is -1,000,001, and the box takes -1,000,000 to 1,000,000"
        );
    }

    #[test]
    fn a_signal_that_holds_another_from_outside() {
        let rule = |set: &str| {
            let sources = [&typed_with_set(Aim::Wiring, "x' = u v a", set)[..], &said(&[(Kind::Signal, "u, v")])];
            let system = system_of(&[&sources.concat()[..], &said(&[(Kind::Knob, "a")])].concat());
            broken_signal(&system.given.as_ref().unwrap().signals[0].powers, &system, Some(2))
        };
        let held =
            |names: &str| format!("it holds {names}, fed from outside, which no new signal may hold; leave it out");
        assert_eq!(rule("x*u"), Some(held("u")));
        assert_eq!(rule("v^2"), Some(held("v")));
        assert_eq!(rule("u*a*v"), Some(held("u and v")), "above the limit too, which a higher one does not mend");
        assert_eq!(rule("x*a"), None);
        assert_eq!(rule("u").unwrap(), "it is a variable, and no new signal; leave it out");
    }

    /// The rule that the first signal of a set breaks.
    fn rule_of(text: &str, junior: Option<u64>) -> Option<String> {
        let system = with_set("x' = y", text);
        broken_signal(&system.given.as_ref().unwrap().signals[0].powers, &system, junior)
    }

    #[test]
    fn a_signal_above_the_limit_of_a_junior_kit() {
        let rule = |text: &str| rule_of(text, Some(3));
        let above = |degree: u64| Some(format!("its total degree is {degree}, and the junior kit takes up to 3"));
        for within in ["x^2", "x^3", "x*y^2", "x*y*z"] {
            assert_eq!(rule(within), None, "{within}");
        }
        assert_eq!(rule("x^4"), above(4));
        assert_eq!(rule("x^2*y^2"), above(4), "neither power is above it");
        assert_eq!(rule("x^54 y^54 z^54"), above(162));
        assert_eq!(rule("x^55").unwrap(), "the power of x is 55, and the box takes 0 to 54");
        assert_eq!(rule("x").unwrap(), "it is a variable, and no new signal; leave it out");
    }

    #[test]
    fn the_broken_rule_of_a_signal() {
        let rule = |text: &str| rule_of(text, None);
        assert_eq!(rule("x^54*y^54"), None);
        assert_eq!(rule("x*y"), None);
        assert_eq!(rule("x^2"), None);
        assert_eq!(rule("x*y^55").unwrap(), "the power of y is 55, and the box takes 0 to 54");
        let long = "9".repeat(60);
        assert_eq!(
            rule(&format!("x^{long}*y^{long}")).unwrap(),
            "the power of x is too long to show, and the box takes 0 to 54"
        );
        assert_eq!(rule("x^0*y^0").unwrap(), "it is 1, and no new signal; leave it out");
        assert_eq!(rule("x^0*y").unwrap(), "it is a variable, and no new signal; leave it out");
    }
}
