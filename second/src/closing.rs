//! The counting rule that closes hopeless sets (document 02, [4] and [6]; document
//! 001, section 5.1).
//!
//! Whoever adds r monomials to a set makes nonsquares into products of two: of an
//! added one and a member of V, or of two added ones. Of the first kind each added
//! monomial makes at most as many as it is a quotient of, and of the second kind
//! there are r (r + 1) / 2 at most. Where all nonsquares are more than that, r do
//! not suffice.

use crate::monomial::Monomial;
use crate::system::{Set, System};
use std::collections::{BTreeMap, BTreeSet};

/// How often each quotient of a nonsquare and a member of V occurs. No marked
/// variable can be in an added monomial, and none can be above the limit on the
/// degree, so that such quotients are left out.
pub fn quotients(
    system: &System,
    set: &Set,
    nonsquares: &BTreeSet<Monomial>,
) -> BTreeMap<Monomial, usize> {
    let signals = system.signals(set);
    let mut counts = BTreeMap::new();
    for &nonsquare in nonsquares {
        for &member in signals.iter().filter(|member| member.divides(nonsquare)) {
            let quotient = nonsquare.over(member);
            if system.takes(quotient) {
                *counts.entry(quotient).or_insert(0) += 1;
            }
        }
    }
    counts
}

/// The least r for which so many nonsquares are at most the sum of the r largest
/// counts, 0 past their end, plus r (r + 1) / 2.
pub fn least(nonsquares: usize, mut counts: Vec<usize>) -> usize {
    counts.sort();
    counts.reverse();
    let bound = |r: usize| counts.iter().take(r).sum::<usize>() + r * (r + 1) / 2;
    (0..)
        .find(|&r| nonsquares <= bound(r))
        .expect("the bound rises without end")
}

/// How many monomials a set lacks at least.
pub fn lacks(system: &System, set: &Set, nonsquares: &BTreeSet<Monomial>) -> usize {
    let counts = quotients(system, set, nonsquares);
    least(nonsquares.len(), counts.into_values().collect())
}

#[cfg(test)]
mod tests {
    use super::*;
    use crate::marks::Marks;
    use crate::notation::{monomial, system};

    fn set(names: &[&str]) -> Set {
        names.iter().map(|name| monomial(name)).collect()
    }

    fn marked(n: usize, marked: &[usize], text: &str) -> System {
        System {
            marks: Marks::of(marked.iter().copied()),
            ..system(n, text)
        }
    }

    /// The quotients with their counts, ascending.
    fn counted(system: &System, names: &[&str]) -> Vec<(Monomial, usize)> {
        let set = set(names);
        let counts = quotients(system, &set, &system.nonsquares(&set));
        counts.into_iter().collect()
    }

    fn expected(counts: &[(&str, usize)]) -> Vec<(Monomial, usize)> {
        let counts = counts.iter().map(|&(name, count)| (monomial(name), count));
        counts.collect()
    }

    fn r(system: &System, names: &[&str]) -> usize {
        let set = set(names);
        lacks(system, &set, &system.nonsquares(&set))
    }

    #[test]
    fn r_is_the_least_for_which_the_bound_suffices() {
        assert_eq!(least(0, vec![]), 0);
        assert_eq!(least(0, vec![4]), 0);
        assert_eq!(least(1, vec![1]), 1);
        // 3 + 1, then 3 + 2 + 3, then 3 + 2 + 1 + 6: whatever the sequence.
        for counts in [[3, 2, 1], [1, 2, 3], [2, 3, 1]] {
            let of = |nonsquares| least(nonsquares, counts.to_vec());
            assert_eq!([1, 4, 5, 8, 9, 12, 13].map(of), [1, 1, 2, 2, 3, 3, 4]);
        }
        // Past the end of the counts: 1, 3, 6, 10 and so on.
        let of = |nonsquares| least(nonsquares, vec![]);
        assert_eq!([1, 2, 3, 4, 6, 7, 10].map(of), [1, 2, 2, 3, 3, 4, 4]);
        // One for each of many nonsquares: 2, 5, 9, 14, 20, 27.
        let of = |nonsquares| least(nonsquares, vec![1; 64]);
        assert_eq!([2, 3, 5, 6, 9, 10].map(of), [1, 2, 2, 3, 3, 4]);
        assert_eq!([14, 15, 20, 21, 27, 28].map(of), [4, 5, 5, 6, 6, 7]);
    }

    /// x^3 over 1 and x^4 over x are one quotient, and it occurs twice.
    #[test]
    fn quotients_of_powers() {
        let both = system(1, "x1' = x1^4 + x1^3");
        let counts = expected(&[("x1^2", 1), ("x1^3", 2), ("x1^4", 1)]);
        assert_eq!(counted(&both, &[]), counts);
        assert_eq!(r(&both, &[]), 1);
        // {x^3} leaves x^5: over 1, x and x^3.
        let counts = expected(&[("x1^2", 1), ("x1^4", 1), ("x1^5", 1)]);
        assert_eq!(counted(&both, &["x1^3"]), counts);
        assert_eq!(r(&both, &["x1^3"]), 1);
        // {x^2, x^3} leaves nothing.
        assert_eq!(counted(&both, &["x1^2", "x1^3"]), []);
        assert_eq!(r(&both, &["x1^2", "x1^3"]), 0);
    }

    /// A nonsquare of two derivatives is one nonsquare.
    #[test]
    fn a_nonsquare_counts_once() {
        let alike = system(2, "x1' = x1^3; x2' = x1^3");
        let counts = expected(&[("x1^2", 1), ("x1^3", 1)]);
        assert_eq!(counted(&alike, &[]), counts);
        assert_eq!(alike.nonsquares(&Set::new()).len(), 1);
    }

    /// Members of the set divide too.
    #[test]
    fn new_monomials_are_members_of_v() {
        let products = system(3, "x1' = x2^2 x3 + x2^2 x3^2");
        // {x2 x3} makes both; {x2^3} leaves both, and divides neither.
        assert_eq!(r(&products, &["x2 x3"]), 0);
        let counts = expected(&[
            ("x2 x3", 1),
            ("x2 x3^2", 1),
            ("x2^2", 1),
            ("x2^2 x3", 2),
            ("x2^2 x3^2", 1),
        ]);
        assert_eq!(counted(&products, &[]), counts);
        assert_eq!(counted(&products, &["x2^3"]), counts);
        // {x2^3} makes x2^6 and divides what it leaves, x2^4 x3.
        let powers = system(3, "x1' = x2^6 + x2^4 x3");
        let counts = expected(&[("x2 x3", 1), ("x2^3 x3", 1), ("x2^4", 1), ("x2^4 x3", 1)]);
        assert_eq!(counted(&powers, &["x2^3"]), counts);
    }

    /// u with each of three products of two: u x2 would occur three times.
    #[test]
    fn quotients_with_a_signal_are_left_out() {
        let text = "x1' = x2 x3 x6 + x2 x4 x6 + x2 x5 x6";
        let knob = system(6, text);
        assert!(counted(&knob, &[]).contains(&(monomial("x2 x6"), 3)));
        assert_eq!(r(&knob, &[]), 1);
        let signal = marked(6, &[6], text);
        let counts = expected(&[("x2 x5", 1), ("x2 x4", 1), ("x2 x3", 1)]);
        assert_eq!(counted(&signal, &[]), counts);
        assert_eq!(r(&signal, &[]), 2);
        // What a signal does not touch stays: x2 x6 with x5 marked.
        let other = marked(6, &[5], text);
        assert!(counted(&other, &[]).contains(&(monomial("x2 x6"), 3)));
    }

    /// A nonsquare of signals alone has no quotient, not even itself.
    #[test]
    fn a_nonsquare_over_one_is_left_out_too() {
        let text = "x1' = x2^3 + x2^2 x3";
        let signals = marked(3, &[2, 3], text);
        assert_eq!(counted(&signals, &[]), []);
        assert_eq!(r(&signals, &[]), 2);
        assert_eq!(r(&system(3, text), &[]), 1);
    }
}
