//! Thinning: the smallest quadratic subsets of a given set, all of them
//! (document 02, [1]).

use crate::monomial::Monomial;
use crate::system::Set;
use std::collections::BTreeSet;

/// The smallest quadratic subsets, their size, and how many subsets were judged.
pub struct Thinned {
    pub order: usize,
    pub steps: u64,
    pub subsets: BTreeSet<Vec<Monomial>>,
}

/// Every subset of a set, the empty one and the set itself among them: each bit
/// of a number keeps or drops one signal.
pub fn subsets(set: &Set) -> Vec<Set> {
    let kept = |number: usize| {
        let signals = set.iter().enumerate();
        signals
            .filter(|(j, _)| number >> j & 1 == 1)
            .map(|(_, &signal)| signal)
            .collect()
    };
    (0..1 << set.len()).map(kept).collect()
}

/// The smallest of the subsets that are judged quadratic. A set that is not
/// quadratic may have none.
pub fn thinned(set: &Set, is_quadratic: impl Fn(&Set) -> bool) -> Option<Thinned> {
    let mut steps = 0;
    let mut quadratic = Vec::new();
    for subset in subsets(set) {
        steps += 1;
        if is_quadratic(&subset) {
            quadratic.push(subset);
        }
    }
    let order = quadratic.iter().map(Set::len).min()?;
    // The sizes are compared after the last subset is judged: in the sequence
    // of the bits a smaller one may come after a larger.
    let smallest = quadratic.into_iter().filter(|subset| subset.len() == order);
    Some(Thinned {
        order,
        steps,
        subsets: smallest.map(|s| s.into_iter().collect()).collect(),
    })
}

#[cfg(test)]
mod tests {
    use super::*;
    use crate::marks::Marks;
    use crate::notation::{monomial, system};
    use crate::panel::CARDS;
    use crate::random::Random;
    use crate::systems;

    fn set(names: &[&str]) -> Set {
        names.iter().map(|name| monomial(name)).collect()
    }

    #[test]
    fn every_subset_is_made_once() {
        let mut random = Random::from_seed(21);
        for size in 0..=CARDS {
            let whole = systems::set(&mut random, 4, Marks::NONE, size);
            let all = subsets(&whole);
            assert_eq!(all.len(), 1 << size);
            assert!(all.iter().all(|subset| subset.is_subset(&whole)));
            let different: BTreeSet<Set> = all.into_iter().collect();
            assert_eq!(different.len(), 1 << size);
        }
    }

    #[test]
    fn a_set_that_is_not_quadratic_may_have_no_subset_that_is() {
        let thinned = |text, names| {
            let system = system(1, text);
            thinned(&set(names), |subset| system.is_quadratic(subset))
        };
        assert!(thinned("x1' = x1^4", &["x1^2"]).is_none());
        // x1' = 1 needs nothing, though x1^4 would need x1^3.
        let clock = thinned("x1' = 1", &["x1^4"]).unwrap();
        assert_eq!((clock.order, clock.steps, clock.subsets.len()), (0, 2, 1));
    }
}
