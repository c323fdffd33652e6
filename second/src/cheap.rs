//! The pairs of a nonsquare in the order in which the walk tries them: first those that
//! add a single monomial, then the rest (document 02, [8]).

use crate::monomial::Monomial;
use crate::system::Set;

/// A factor pair m1, m2 with m1 <= m2.
pub type Pair = [Monomial; 2];

/// What a pair would add to a set: those of the two that are not in V. Two that are the
/// same add one.
pub fn new_of(pair: Pair, v: &[Monomial]) -> Set {
    pair.into_iter().filter(|m| !v.contains(m)).collect()
}

/// Whether a pair adds a single monomial: exactly one of the two is not in V, or both
/// are the same and it is not. Whether that one may be added is another question, so
/// that a pair which a signal or the limit on the degree forbids has its turn here too.
pub fn is_cheap(pair: Pair, v: &[Monomial]) -> bool {
    let [m1, m2] = pair.map(|m| !v.contains(&m));
    match pair[0] == pair[1] {
        true => m1,
        false => m1 != m2,
    }
}

/// Which pairs come first.
#[derive(Clone, Copy, PartialEq, Eq, Debug)]
pub enum Order {
    /// Those that are cheap, by ascending m1, then the rest likewise.
    CheapFirst,
    /// None: all by ascending m1, as before document 02, [8].
    Ascending,
}

impl Order {
    /// All pairs of a nonsquare in this order, each once. They are run through twice
    /// where the cheap ones come first, so that none has to be kept.
    pub fn pairs<'a>(
        self,
        nonsquare: Monomial,
        v: &'a [Monomial],
    ) -> Box<dyn Iterator<Item = Pair> + 'a> {
        let all = move || nonsquare.pairs().map(|(m1, m2)| [m1, m2]);
        match self {
            Order::CheapFirst => {
                let cheap = all().filter(|pair| is_cheap(*pair, v));
                let rest = all().filter(|pair| !is_cheap(*pair, v));
                Box::new(cheap.chain(rest))
            }
            Order::Ascending => Box::new(all()),
        }
    }
}

#[cfg(test)]
mod tests {
    use super::*;
    use crate::notation::{monomial, system, write_monomial};
    use crate::random::Random;
    use crate::system::System;
    use crate::systems::{self, Outside};

    /// The smaller ones of the pairs of a nonsquare, each order's own.
    fn smaller(order: Order, nonsquare: &str, n: usize, names: &[&str]) -> Vec<String> {
        let set: Set = names.iter().map(|name| monomial(name)).collect();
        let v = system(n, "").signals(&set);
        let pairs = order.pairs(monomial(nonsquare), &v);
        pairs.map(|[m1, _]| write_monomial(m1)).collect()
    }

    /// x2^2 x3^2 has nine divisors. x3^2 x2^2 adds two; the middle pair adds one.
    #[test]
    fn cheap_pairs_come_first_and_the_middle_one_is_cheap() {
        let of = |order| smaller(order, "x2^2 x3^2", 3, &[]);
        assert_eq!(of(Order::Ascending), ["1", "x3", "x3^2", "x2", "x2 x3"]);
        assert_eq!(of(Order::CheapFirst), ["1", "x3", "x2", "x2 x3", "x3^2"]);
    }

    /// Of x2^7 the pair x2^3 x2^4 is cheap where one of the two is in the set.
    #[test]
    fn members_of_the_set_are_in_v() {
        let of = |names: &[&str]| smaller(Order::CheapFirst, "x2^7", 2, names);
        assert_eq!(of(&[]), ["1", "x2", "x2^2", "x2^3"]);
        assert_eq!(of(&["x2^3"]), ["1", "x2", "x2^3", "x2^2"]);
        assert_eq!(of(&["x2^4"]), ["1", "x2", "x2^3", "x2^2"]);
        assert_eq!(of(&["x2^2"]), ["1", "x2", "x2^2", "x2^3"]);
        // What the set holds besides makes no pair cheap.
        assert_eq!(of(&["x2^8", "x1 x2^3"]), ["1", "x2", "x2^2", "x2^3"]);
    }

    #[test]
    fn a_pair_is_cheap_where_it_adds_one() {
        let v = system(3, "").signals(&Set::from([monomial("x2^3")]));
        for (m1, m2, new) in [
            ("1", "x2^2 x3^2", 1),
            ("x3", "x2^2 x3", 1),
            ("x3^2", "x2^2", 2),
            ("x2 x3", "x2 x3", 1),
            ("x2^3", "x2^4", 1),
            ("x2^2", "x2^3", 1),
            ("x2^2", "x2^5", 2),
            // In V2, and so of no nonsquare: they add none.
            ("x3", "x2", 0),
            ("x2^3", "x2^3", 0),
            ("x1", "x1", 0),
        ] {
            let pair = [monomial(m1), monomial(m2)];
            assert_eq!(new_of(pair, &v).len(), new, "{m1} {m2}");
            assert_eq!(is_cheap(pair, &v), new == 1, "{m1} {m2}");
        }
    }

    /// Sets of a few random monomials, and a nonsquare of each.
    fn nonsquares(seed: u64, count: usize) -> Vec<(System, Set, Monomial)> {
        let mut random = Random::from_seed(seed);
        let mut found = Vec::new();
        while found.len() < count {
            let system = systems::any(&mut random);
            let system = Outside::NowAndThen.feed(&mut random, system);
            let mut set = Set::new();
            for _ in 0..random.between(0, 3) {
                let over: Vec<Monomial> = system.nonsquares(&set).into_iter().collect();
                if let Some(nonsquare) = over.first() {
                    let pairs: Vec<_> = nonsquare.pairs().take(50).collect();
                    let (m1, m2) = random.pick(&pairs);
                    set.extend(new_of([m1, m2], &system.signals(&set)));
                }
            }
            let nonsquare = system.nonsquares(&set).into_iter().next();
            if let Some(nonsquare) = nonsquare.filter(|m| m.score() < 2_000) {
                found.push((system, set, nonsquare));
            }
        }
        found
    }

    /// Each pair once, in two ascending runs; told apart by what there is to add.
    #[test]
    fn both_parts_ascend_and_together_are_all_pairs() {
        let mut both = 0;
        for (system, set, nonsquare) in nonsquares(51, 400) {
            let v = system.signals(&set);
            let pairs: Vec<Pair> = Order::CheapFirst.pairs(nonsquare, &v).collect();
            let adds = |pair: &Pair| new_of(*pair, &v).len();
            let cheap = pairs.iter().take_while(|pair| adds(pair) == 1).count();
            for part in [&pairs[..cheap], &pairs[cheap..]] {
                assert!(part.windows(2).all(|two| two[0][0] < two[1][0]));
            }
            // A nonsquare is no product of two members of V: none adds nothing.
            assert!(pairs[cheap..].iter().all(|pair| adds(pair) == 2));
            let mut sorted = pairs.clone();
            sorted.sort();
            let ascending: Vec<Pair> = Order::Ascending.pairs(nonsquare, &v).collect();
            assert_eq!(sorted, ascending);
            both += usize::from(sorted != pairs);
        }
        assert!(both > 60, "{both}");
    }

    /// The cheap pairs found from the other side: a member of V with what it leaves of
    /// the nonsquare, and the root of a perfect square.
    #[test]
    fn cheap_pairs_are_as_many_as_divisors_in_v_and_a_root() {
        let mut roots = 0;
        for (system, set, nonsquare) in nonsquares(52, 400) {
            let v = system.signals(&set);
            let mut expected: Vec<Pair> = Vec::new();
            for &member in v.iter().filter(|member| member.divides(nonsquare)) {
                let rest = nonsquare.over(member);
                expected.push([member.min(rest), member.max(rest)]);
            }
            if nonsquare.0.iter().all(|e| e % 2 == 0) {
                let root = Monomial(nonsquare.0.map(|e| e / 2));
                expected.push([root, root]);
                roots += 1;
            }
            expected.sort();
            let pairs = Order::CheapFirst.pairs(nonsquare, &v);
            let cheap: Vec<Pair> = pairs.take(expected.len()).collect();
            assert_eq!(cheap, expected);
            let rest = Order::CheapFirst.pairs(nonsquare, &v).skip(expected.len());
            assert!(rest.into_iter().all(|pair| !is_cheap(pair, &v)));
        }
        assert!(roots > 20, "{roots}");
    }

    /// Nothing is made before it is asked for: the first pair comes at once.
    #[test]
    fn the_first_pairs_of_a_large_nonsquare_come_at_once() {
        let tallest = Monomial([63; 6]);
        let v = system(6, "").signals(&Set::new());
        let first: Vec<Pair> = Order::CheapFirst.pairs(tallest, &v).take(2).collect();
        let x6 = Monomial::variable(6);
        let with = |m: Monomial| [m, tallest.over(m)];
        assert_eq!(first, [with(Monomial::ONE), with(x6)]);
    }
}
