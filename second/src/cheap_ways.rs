//! Hasty ways of taking cheap pairs first. Each of them gives another answer to some of
//! the stored cases of the order of pairs (document 02, [8]).

use crate::batch::Case;
use crate::cheap::{is_cheap, new_of, Order, Pair};
use crate::closing::lacks;
use crate::maker::stored_cheap;
use crate::monomial::Monomial;
use crate::system::Set;
use crate::ways::{named, Answer, Chosen, Opened, Steps, Stored, Tried, Walks};
use std::cmp::Reverse;
use std::sync::OnceLock;

/// The stored cases of the order of pairs.
fn stored() -> &'static Stored {
    static STORED: OnceLock<Stored> = OnceLock::new();
    STORED.get_or_init(|| Stored::of(stored_cheap()))
}

fn right(case: &Case) -> Answer {
    stored().right(case)
}

/// Ways of ordering the pairs of a nonsquare.
#[derive(Clone, Copy, PartialEq, Eq, Debug)]
enum Way {
    Right,
    /// All by ascending m1, as in document 01; all by descending m1.
    Ascending,
    Descending,
    /// The rest comes first.
    RestFirst,
    /// The cheap ones by descending m1, or the rest, or both: that is by ascending m2.
    CheapDescending,
    RestDescending,
    BothDescending,
    /// The cheap ones by what they add: in its order, by its degree, by its score.
    ByAdded,
    ByDegree,
    ByScore,
    /// The cheap ones that add m2 before those that add m1; the other way round.
    LargerFirst,
    SmallerFirst,
    /// The cheap ones are listed in the second run too; or the rest in the first; or the
    /// middle pair in both.
    CheapTwice,
    RestTwice,
    MiddleTwice,
    /// The middle pair counts with the rest; comes first of all; is left out.
    MiddleWithRest,
    MiddleFirst,
    MiddleLost,
    /// A pair is cheap only if what it adds may be added; has no signal; is within the
    /// limit.
    OnlyAllowed,
    OnlyWithoutSignals,
    OnlyWithinLimit,
    /// What may not be added does not count: cheap is what adds one that may be.
    ByAllowed,
    /// Forbidden pairs come last of all, or first; those of the cheap ones come last of
    /// these.
    ForbiddenLast,
    ForbiddenFirst,
    ForbiddenLastOfCheap,
    /// V is taken as the set alone; without the set; without 1; without its signals;
    /// without the last of the set.
    BySet,
    WithoutSet,
    WithoutOne,
    WithoutSignals,
    WithoutLast,
    /// Cheap is where m1 is in V; where m2 is.
    BySmaller,
    ByLarger,
    /// The rest is never tried; or only where no cheap pair may be added.
    CheapAlone,
    RestWithoutAllowed,
    /// Cheap ones come first with the empty set alone; with others alone; where there is
    /// room for one alone; where there is room for more alone.
    OnlyEmpty,
    NeverEmpty,
    OnlyBeforeOne,
    NotBeforeOne,
    /// Where there is room for one, the rest is not tried, and costs no steps; or costs
    /// those of half the score, less the cheap ones.
    RestUncounted,
    HalvedScore,
}

/// All ways but the right one.
const WAYS: [Way; 39] = [
    Way::Ascending,
    Way::Descending,
    Way::RestFirst,
    Way::CheapDescending,
    Way::RestDescending,
    Way::BothDescending,
    Way::ByAdded,
    Way::ByDegree,
    Way::ByScore,
    Way::LargerFirst,
    Way::SmallerFirst,
    Way::CheapTwice,
    Way::RestTwice,
    Way::MiddleTwice,
    Way::MiddleWithRest,
    Way::MiddleFirst,
    Way::MiddleLost,
    Way::OnlyAllowed,
    Way::OnlyWithoutSignals,
    Way::OnlyWithinLimit,
    Way::ByAllowed,
    Way::ForbiddenLast,
    Way::ForbiddenFirst,
    Way::ForbiddenLastOfCheap,
    Way::BySet,
    Way::WithoutSet,
    Way::WithoutOne,
    Way::WithoutSignals,
    Way::WithoutLast,
    Way::BySmaller,
    Way::ByLarger,
    Way::CheapAlone,
    Way::RestWithoutAllowed,
    Way::OnlyEmpty,
    Way::NeverEmpty,
    Way::OnlyBeforeOne,
    Way::NotBeforeOne,
    Way::RestUncounted,
    Way::HalvedScore,
];

impl Chosen<'_> {
    /// All pairs by ascending m1.
    fn all(self) -> Vec<Pair> {
        Order::Ascending.pairs(self.nonsquare, self.v).collect()
    }

    fn new_of(self, pair: &Pair) -> Set {
        new_of(*pair, self.v)
    }

    /// The one that a cheap pair adds.
    fn added(self, pair: &Pair) -> Monomial {
        *self.new_of(pair).first().expect("one")
    }

    /// Whether a pair adds nothing that a signal or the limit forbids.
    fn is_allowed(self, pair: &Pair) -> bool {
        self.new_of(pair).iter().all(|m| self.system.takes(*m))
    }

    /// V without some.
    fn v_without(self, left_out: impl Fn(&Monomial) -> bool) -> Vec<Monomial> {
        let mut v = self.v.to_vec();
        v.retain(|m| !left_out(m));
        v
    }
}

fn is_middle(pair: &Pair) -> bool {
    pair[0] == pair[1]
}

impl Way {
    /// Whether a pair comes with the cheap ones, in this way.
    fn is_cheap(self, of: Chosen, pair: &Pair) -> bool {
        let cheap = is_cheap(*pair, of.v);
        let added = || of.new_of(pair);
        let (marks, degree) = (of.system.marks, of.system.degree);
        let by = |v: Vec<Monomial>| is_cheap(*pair, &v);
        match self {
            Way::Ascending => true,
            Way::MiddleWithRest => cheap && !is_middle(pair),
            Way::OnlyAllowed => cheap && of.is_allowed(pair),
            Way::OnlyWithoutSignals => cheap && !added().iter().any(|m| marks.touch(*m)),
            Way::OnlyWithinLimit => cheap && added().iter().all(|m| degree.reaches(*m)),
            Way::ByAllowed => added().iter().filter(|m| of.system.takes(**m)).count() == 1,
            Way::BySet => by(of.v_without(|m| !of.set.contains(m))),
            Way::WithoutSet => by(of.v_without(|m| of.set.contains(m))),
            Way::WithoutOne => by(of.v_without(|m| *m == Monomial::ONE)),
            Way::WithoutSignals => by(of.v_without(|m| marks.touch(*m))),
            Way::WithoutLast => by(of.v_without(|m| of.set.last() == Some(m))),
            Way::BySmaller => of.v.contains(&pair[0]),
            Way::ByLarger => of.v.contains(&pair[1]),
            Way::OnlyEmpty => cheap || !of.set.is_empty(),
            Way::NeverEmpty => cheap || of.set.is_empty(),
            Way::OnlyBeforeOne => cheap || of.room > 1,
            Way::NotBeforeOne => cheap || of.room == 1,
            _ => cheap,
        }
    }

    /// The pairs as this way tries them.
    fn ordered(self, of: Chosen) -> Vec<Pair> {
        let parts = of.all().into_iter();
        let (mut cheap, mut rest): (Vec<Pair>, Vec<Pair>) =
            parts.partition(|pair| self.is_cheap(of, pair));
        let forbidden = |pair: &Pair| !of.is_allowed(pair);
        let adds_smaller = |pair: &Pair| of.added(pair) == pair[0];
        let most = of.nonsquare.score() as usize / 2;
        match self {
            Way::CheapDescending => cheap.reverse(),
            Way::RestDescending => rest.reverse(),
            Way::BothDescending => {
                cheap.reverse();
                rest.reverse();
            }
            Way::ByAdded => cheap.sort_by_key(|pair| of.added(pair)),
            Way::ByDegree => cheap.sort_by_key(|pair| of.added(pair).degree()),
            Way::ByScore => cheap.sort_by_key(|pair| of.added(pair).score()),
            Way::LargerFirst => cheap.sort_by_key(adds_smaller),
            Way::SmallerFirst => cheap.sort_by_key(|pair| !adds_smaller(pair)),
            Way::CheapTwice => rest = of.all(),
            Way::RestTwice => cheap = of.all(),
            Way::MiddleTwice => {
                rest.extend(of.all().into_iter().filter(is_middle));
                rest.sort();
            }
            Way::MiddleLost => cheap.retain(|pair| !is_middle(pair)),
            Way::ForbiddenLastOfCheap => cheap.sort_by_key(forbidden),
            Way::CheapAlone => rest.clear(),
            Way::RestWithoutAllowed if !cheap.iter().all(forbidden) => rest.clear(),
            Way::RestUncounted if of.room == 1 => rest.clear(),
            Way::HalvedScore if of.room == 1 => {
                rest.truncate(most.saturating_sub(cheap.len()));
            }
            _ => {}
        }
        let mut pairs = match self {
            Way::RestFirst => [rest, cheap].concat(),
            _ => [cheap, rest].concat(),
        };
        match self {
            Way::Descending => pairs.sort_by_key(|pair| Reverse(*pair)),
            Way::MiddleFirst => pairs.sort_by_key(|pair| !is_middle(pair)),
            Way::ForbiddenLast => pairs.sort_by_key(forbidden),
            Way::ForbiddenFirst => pairs.sort_by_key(|pair| !forbidden(pair)),
            _ => {}
        }
        pairs
    }
}

impl Walks for Way {
    fn opened(walk: &Steps<Way>, set: &Set) -> Opened {
        let over = walk.system.nonsquares(set);
        let closed = set.len() + lacks(walk.system, set, &over) > walk.level;
        let chosen = over.iter().min_by_key(|m| (m.score(), **m)).copied();
        Opened {
            found: over.is_empty(),
            chosen: chosen.filter(|_| !closed),
        }
    }

    fn tried(walk: &Steps<Way>, set: &Set, pair: Pair) -> Tried {
        let new = new_of(pair, &walk.system.signals(set));
        let forbidden = new.iter().any(|m| !walk.system.takes(*m));
        Tried {
            costs: 1,
            added: (!forbidden).then_some(new),
            ends_pairs: false,
        }
    }

    fn pairs(self, chosen: Chosen) -> Box<dyn Iterator<Item = Pair> + '_> {
        Box::new(self.ordered(chosen).into_iter())
    }
}

/// A plan in this way.
fn walked(case: &Case, way: Way) -> Answer {
    stored().walked(case, way)
}

/// So the ways differ from the walk in nothing but what they name.
#[test]
fn the_right_way_gives_the_right_answers() {
    for case in &stored().cases {
        assert!(walked(case, Way::Right) == right(case));
    }
}

#[test]
fn orders_that_go_astray() {
    stored().assert_told(&named(WAYS), |way, case| walked(case, *way));
}

/// How many answers tell each way; for looking at, with `--ignored --nocapture`.
#[test]
#[ignore = "it walks all cases in all ways"]
fn how_many_answers_tell_each_way() {
    stored().count_told(&named(WAYS), |way, case| walked(case, *way));
}
