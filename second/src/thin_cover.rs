//! What makes one thinning different from another: which of the given set's
//! subsets are quadratic, and where a hasty way of thinning would go astray.

use crate::system::{Set, System};
use crate::thinning::subsets;
use std::collections::BTreeSet;

/// The quadratic subsets of a given set that is quadratic itself.
pub struct Thinning {
    given: Set,
    quadratic: BTreeSet<Set>,
}

/// A sequence in which each signal in turn is kept or dropped.
#[derive(Clone, Copy)]
struct Sequence {
    name: &'static str,
    keep_first: bool,
    from_the_last: bool,
}

const SEQUENCES: [Sequence; 4] = [
    Sequence {
        name: "keeping first",
        keep_first: true,
        from_the_last: false,
    },
    Sequence {
        name: "dropping first",
        keep_first: false,
        from_the_last: false,
    },
    Sequence {
        name: "keeping first, from the last signal",
        keep_first: true,
        from_the_last: true,
    },
    Sequence {
        name: "dropping first, from the last signal",
        keep_first: false,
        from_the_last: true,
    },
];

impl Thinning {
    pub fn of(system: &System, given: &Set) -> Thinning {
        let quadratic = |subset: &Set| system.is_quadratic(subset);
        Thinning {
            given: given.clone(),
            quadratic: subsets(given).into_iter().filter(quadratic).collect(),
        }
    }

    fn sizes(&self) -> BTreeSet<usize> {
        self.quadratic.iter().map(Set::len).collect()
    }

    fn order(&self) -> usize {
        let sizes = self.sizes();
        *sizes.first().expect("the given set is quadratic")
    }

    fn smallest(&self) -> impl Iterator<Item = &Set> {
        let order = self.order();
        self.quadratic.iter().filter(move |s| s.len() == order)
    }

    /// How many subsets are smallest.
    pub fn count(&self) -> usize {
        self.smallest().count()
    }

    /// The signals that some smallest subset keeps.
    pub fn kept(&self) -> Set {
        self.smallest().flatten().copied().collect()
    }

    pub fn only_empty_is_left(&self) -> bool {
        self.order() == 0
    }

    /// What this thinning is an example of.
    pub fn names(&self) -> Vec<String> {
        let order = self.order();
        let size = self.given.len();
        let facts = [
            (order == size, "nothing can go"),
            (order == 0 && size > 0, "everything can go"),
            (0 < order && order < size, "some signals can go"),
            (self.count() > 1, "several subsets are left"),
            (
                self.a_size_has_none(),
                "a size between has no quadratic subset",
            ),
            (
                self.between_is_not_quadratic(),
                "a quadratic subset of a subset that is not",
            ),
            (
                order < size && !self.one_can_go(&self.given),
                "signals can go together and none alone",
            ),
            (
                self.quadratic
                    .iter()
                    .any(|s| s.len() > order && self.loses_nothing(s)),
                "a subset that can lose nothing is not smallest",
            ),
        ];
        let mut names: Vec<String> = facts
            .iter()
            .filter(|(holds, _)| *holds)
            .map(|(_, name)| name.to_string())
            .collect();
        for sequence in SEQUENCES {
            if self.smaller_after_larger(sequence) {
                names.push(format!(
                    "a smaller subset after a larger, {}",
                    sequence.name
                ));
            }
        }
        names
    }

    /// Whether a size lies between two that have quadratic subsets and has none.
    fn a_size_has_none(&self) -> bool {
        let sizes = self.sizes();
        (self.order()..self.given.len()).any(|size| !sizes.contains(&size))
    }

    fn between_is_not_quadratic(&self) -> bool {
        let not = |subset: &Set| !self.quadratic.contains(subset);
        let holds_one = |subset: &Set| self.quadratic.iter().any(|q| q.is_subset(subset));
        subsets(&self.given).iter().any(|s| not(s) && holds_one(s))
    }

    /// Whether a quadratic set stays quadratic when some one signal goes.
    fn one_can_go(&self, subset: &Set) -> bool {
        subset.iter().any(|signal| {
            let mut rest = subset.clone();
            rest.remove(signal);
            self.quadratic.contains(&rest)
        })
    }

    /// Whether no smaller quadratic subset is inside this one.
    fn loses_nothing(&self, subset: &Set) -> bool {
        let inside = |q: &&Set| q.is_subset(subset);
        self.quadratic.iter().filter(inside).count() == 1
    }

    /// Whether, in this sequence, a quadratic subset is met after a larger one.
    /// Keeping first begins with the given set, so that the larger one must be
    /// another for this to say something.
    fn smaller_after_larger(&self, sequence: Sequence) -> bool {
        let kept = |subset: &Set| {
            let mut kept: Vec<bool> = self.given.iter().map(|m| subset.contains(m)).collect();
            if sequence.from_the_last {
                kept.reverse();
            }
            kept
        };
        let mut met: Vec<(Vec<bool>, usize)> = self
            .quadratic
            .iter()
            .filter(|subset| **subset != self.given)
            .map(|subset| (kept(subset), subset.len()))
            .collect();
        met.sort();
        if sequence.keep_first {
            met.reverse();
        }
        met.windows(2).any(|two| two[1].1 < two[0].1)
    }
}

#[cfg(test)]
mod tests {
    use super::*;
    use crate::notation::{monomial, system};
    use crate::thin_rows::{CHAIN, CHAIN_SET, PAIR_NEEDED, PAIR_SET, TWO_NEEDS, TWO_NEEDS_SET};

    fn thinning(n: usize, text: &str, names: &[&str]) -> Thinning {
        let given = names.iter().map(|name| monomial(name)).collect();
        Thinning::of(&system(n, text), &given)
    }

    #[test]
    fn a_chain_goes_as_a_whole() {
        let chain = thinning(2, CHAIN, &CHAIN_SET);
        let names = [
            "everything can go",
            "a size between has no quadratic subset",
            "a quadratic subset of a subset that is not",
            "signals can go together and none alone",
        ];
        assert_eq!(chain.names(), names);
        assert!(chain.only_empty_is_left());
        assert_eq!((chain.count(), chain.kept().len()), (1, 0));
    }

    /// Of pairs 1, 2 and 3 the first is needed; quadratic are 1, 12, 13, 123.
    /// From the first signal on, x2 x5^2 of pair 3, then x2 x4^2 of pair 2 are
    /// kept or dropped: keeping first meets 13, 12, 1, and dropping first the
    /// reverse.
    #[test]
    fn pairs_are_met_in_each_sequence() {
        let pairs = thinning(6, PAIR_NEEDED, &PAIR_SET);
        let names = [
            "some signals can go",
            "a size between has no quadratic subset",
            "a quadratic subset of a subset that is not",
            "signals can go together and none alone",
            "a smaller subset after a larger, keeping first",
            "a smaller subset after a larger, keeping first, from the last signal",
        ];
        assert_eq!(pairs.names(), names);
        let kept = ["x2 x3^2", "x1 x3^2"].map(monomial);
        assert_eq!(pairs.kept(), kept.into_iter().collect());
    }

    #[test]
    fn two_squares_can_lose_nothing() {
        let needs = thinning(4, TWO_NEEDS, &TWO_NEEDS_SET);
        assert_eq!(needs.count(), 2);
        let names = needs.names();
        for name in [
            "some signals can go",
            "several subsets are left",
            "a subset that can lose nothing is not smallest",
        ] {
            assert!(names.iter().any(|n| n == name), "{name}");
        }
        assert!(!names.iter().any(|n| n.starts_with("a size between")));
    }

    #[test]
    fn nothing_can_go_from_a_set_that_is_needed() {
        let needed = thinning(1, "x1' = x1^3", &["x1^2"]);
        assert_eq!(needed.names(), ["nothing can go"]);
        let empty = thinning(1, "x1' = x1", &[]);
        assert_eq!(empty.names(), ["nothing can go"]);
    }
}
