//! Hasty ways of taking the junior kit's limit. Each of them gives another answer to
//! some of the stored cases of the junior kit (document 02, [6]).

use crate::batch::{Case, Operation};
use crate::cheap::{new_of, Pair};
use crate::closing::least;
use crate::degree::Degree;
use crate::maker::stored_junior;
use crate::monomial::Monomial;
use crate::panel::{CARDS, FULL_DEGREE, LEAST_DEGREE, MOST_DEGREE, SET_BYTES, TERM_BYTES};
use crate::records::{set_places, write_places};
use crate::reply::Reply;
use crate::system::Set;
use crate::ways::{
    fault_of_lengths, fault_of_records, fault_of_set, named, refused, Answer, Named, Opened, Steps,
    Stored, Tried, Walks,
};
use std::collections::{BTreeMap, BTreeSet};
use std::sync::OnceLock;

/// The stored cases of the junior kit.
fn stored() -> &'static Stored {
    static STORED: OnceLock<Stored> = OnceLock::new();
    STORED.get_or_init(|| Stored::of(stored_junior()))
}

fn right(case: &Case) -> Answer {
    stored().right(case)
}

fn with(case: &Case, degree: u64) -> Case {
    case.clone().limited(Degree(degree))
}

/// The full kit's limit in the stead of some.
fn full_for(case: &Case, taken: impl Fn(u64) -> bool) -> Case {
    match taken(case.degree) {
        true => with(case, FULL_DEGREE),
        false => case.clone(),
    }
}

/// The limit of a case that is taken, made another.
fn moved(case: &Case, to: fn(u64) -> u64) -> Case {
    match Degree(case.degree).is_in_range() {
        true => with(case, to(case.degree)),
        false => case.clone(),
    }
}

/// No limit for one operation. What is out of range is refused all the same.
fn except(case: &Case, operation: Operation) -> Case {
    match case.operation == operation {
        true => moved(case, |_| FULL_DEGREE),
        false => case.clone(),
    }
}

/// A case in which a limit is refused that should not be.
fn refusing(case: &Case, limit: u64) -> Case {
    match case.degree == limit {
        true => with(case, 0),
        false => case.clone(),
    }
}

/// Another limit is read, and answered rightly.
const MISREAD: [Named<Case>; 26] = [
    ("the limit is not asked", |c| moved(c, |_| FULL_DEGREE)),
    ("planning takes no limit", |c| except(c, Operation::Plan)),
    ("wiring takes no limit", |c| except(c, Operation::Wire)),
    ("thinning takes no limit", |c| except(c, Operation::Thin)),
    ("one too large", |c| {
        moved(c, |d| if d < MOST_DEGREE { d + 1 } else { d })
    }),
    ("one too small", |c| {
        moved(c, |d| if d > LEAST_DEGREE { d - 1 } else { d })
    }),
    ("8 bits are read", |c| with(c, c.degree & 0xff)),
    ("16 bits are read", |c| with(c, c.degree & 0xffff)),
    ("31 bits are read", |c| with(c, c.degree & 0x7fff_ffff)),
    ("32 bits are read", |c| with(c, c.degree & 0xffff_ffff)),
    ("63 bits are read", |c| with(c, c.degree & !(1 << 63))),
    ("0 is the full kit", |c| full_for(c, |d| d == 0)),
    ("1 is taken as 2", |c| match c.degree {
        1 => with(c, LEAST_DEGREE),
        _ => c.clone(),
    }),
    ("10 is taken as the full kit", |c| {
        full_for(c, |d| d == MOST_DEGREE + 1)
    }),
    ("10 is taken as 9", |c| match c.degree {
        10 => with(c, MOST_DEGREE),
        _ => c.clone(),
    }),
    ("323 is taken", |c| full_for(c, |d| d == FULL_DEGREE - 1)),
    ("325 is taken", |c| full_for(c, |d| d == FULL_DEGREE + 1)),
    ("the next kit's 432 is taken", |c| full_for(c, |d| d == 432)),
    ("all above 9 is the full kit", |c| {
        full_for(c, |d| d > MOST_DEGREE)
    }),
    ("all up to 324 is taken", |c| {
        full_for(c, |d| (MOST_DEGREE..FULL_DEGREE).contains(&d))
    }),
    ("all from 324 is taken", |c| {
        full_for(c, |d| d > FULL_DEGREE)
    }),
    ("the largest number is the full kit", |c| {
        full_for(c, |d| d == u64::MAX)
    }),
    ("2 is refused", |c| refusing(c, LEAST_DEGREE)),
    ("9 is refused", |c| refusing(c, MOST_DEGREE)),
    ("324 is refused", |c| refusing(c, FULL_DEGREE)),
    ("limit and marks change places", |c| Case {
        marks: c.degree,
        degree: c.marks,
        ..c.clone()
    }),
];

#[test]
fn limits_that_are_misread() {
    stored().assert_told(&MISREAD, |way, case| right(&way(case)));
}

/// The members of the given set.
fn members(case: &Case) -> Vec<Monomial> {
    let mut members = set_places(&case.given).to_vec();
    members.retain(|m| *m != Monomial::ONE);
    members
}

/// The answer of one who judges by another rule whether a given set is above the
/// limit, after all other rules.
fn judged_by(case: &Case, above: impl Fn(&Case, &[Monomial]) -> bool) -> Answer {
    let is_limited = Degree(case.degree).is_in_range() && case.operation != Operation::Plan;
    if !is_limited {
        return right(case);
    }
    let (reply, answer) = right(&with(case, FULL_DEGREE));
    match [0, 6, 9].contains(&reply.code) && above(case, &members(case)) {
        true => refused(case, Reply::bare(8)),
        false => (reply, answer),
    }
}

/// The highest single exponent.
fn tallest(m: Monomial) -> u64 {
    m.0.into_iter().max().expect("exponents").into()
}

/// The degree without the variables that nothing feeds.
fn degree_of_fed(m: Monomial, is_fed: impl Fn(usize) -> bool) -> u64 {
    let exponents = m.0.iter().enumerate();
    let fed = exponents.filter(|(i, _)| is_fed(i + 1));
    fed.map(|(_, &e)| u64::from(e)).sum()
}

/// Whether some of the members are above the limit of a case.
fn any_above(case: &Case, members: &[Monomial]) -> bool {
    members.iter().any(|m| m.degree() > case.degree)
}

/// Another reply where a set is refused for its degree.
fn said(case: &Case, reply: fn(&Case) -> Reply) -> Answer {
    let right = right(case);
    let within = moved(case, |_| FULL_DEGREE).answer().0.code != 8;
    match right.0.code == 8 && within {
        true => refused(case, reply(case)),
        false => right,
    }
}

/// What the full kit says comes before a set above the limit.
fn full_kit_first(case: &Case, code: u64) -> Answer {
    let full = right(&moved(case, |_| FULL_DEGREE));
    match full.0.code == code && case.operation != Operation::Plan {
        true => full,
        false => right(case),
    }
}

/// The case with a set of some of its members.
fn with_members(case: &Case, kept: impl Fn(&Monomial) -> bool) -> Case {
    if case.operation == Operation::Plan || case.given.len() != SET_BYTES {
        return case.clone();
    }
    let mut members = set_places(&case.given).to_vec();
    members.retain(kept);
    let set = write_places(&members).to_vec();
    Case {
        given: set,
        ..case.clone()
    }
}

/// Subsets within the limit are handed back, whatever the given set is.
fn subsets_within(case: &Case) -> Answer {
    let right = right(case);
    if case.operation != Operation::Thin || right.0.code != 8 {
        return right;
    }
    let full = moved(case, |_| FULL_DEGREE).answer();
    let records = full.1.chunks(SET_BYTES).take(full.0.count as usize);
    let within = |record: &&[u8]| !any_above(case, &set_places(record));
    let kept: Vec<&[u8]> = records.filter(within).collect();
    match kept.is_empty() {
        true => right,
        false => {
            let count = kept.len() as u64;
            let mut answer = kept.concat();
            answer.resize(case.buffer, 0);
            (Reply { count, ..full.0 }, answer)
        }
    }
}

/// Sets above the limit that are judged in another way, and what comes before them.
const JUDGED: [Named<Answer>; 21] = [
    ("by one exponent", |c| {
        judged_by(c, |c, set| set.iter().any(|m| tallest(*m) > c.degree))
    }),
    ("by the degrees of all together", |c| {
        judged_by(c, |c, set| {
            set.iter().map(|m| m.degree()).sum::<u64>() > c.degree
        })
    }),
    ("at the limit is above it", |c| {
        judged_by(c, |c, set| set.iter().any(|m| m.degree() >= c.degree))
    }),
    ("one above is taken", |c| {
        judged_by(c, |c, set| set.iter().any(|m| m.degree() > c.degree + 1))
    }),
    ("by the first member", |c| {
        judged_by(c, |c, set| any_above(c, &set[..set.len().min(1)]))
    }),
    ("by the last member", |c| {
        judged_by(c, |c, set| {
            any_above(c, &set[set.len().saturating_sub(1)..])
        })
    }),
    ("by all but the last place", |c| {
        judged_by(c, |c, set| any_above(c, &set[..set.len().min(CARDS - 1)]))
    }),
    ("by all but the first", |c| {
        judged_by(c, |c, set| any_above(c, &set[set.len().min(1)..]))
    }),
    ("where all are above", |c| {
        judged_by(c, |c, set| {
            !set.is_empty() && set.iter().all(|m| m.degree() > c.degree)
        })
    }),
    ("without knobs", |c| {
        judged_by(c, |c, set| {
            let is_fed = |i: usize| c.terms.chunks(TERM_BYTES).any(|r| usize::from(r[0]) == i);
            set.iter().any(|m| degree_of_fed(*m, is_fed) > c.degree)
        })
    }),
    ("without the last variable", |c| {
        judged_by(c, |c, set| {
            set.iter()
                .any(|m| degree_of_fed(*m, |i| i < c.n as usize) > c.degree)
        })
    }),
    ("above is not quadratic", |c| {
        said(c, |c| Reply {
            code: 9,
            order: members(c).len() as u64,
            ..Reply::default()
        })
    }),
    ("above is a setting", |c| said(c, |_| Reply::bare(1))),
    ("above is none", |c| said(c, |_| Reply::bare(5))),
    ("9 before above", |c| full_kit_first(c, 9)),
    ("6 before above", |c| full_kit_first(c, 6)),
    ("members above are passed over", |c| {
        right(&with_members(c, |m| m.degree() <= c.degree))
    }),
    ("subsets within are handed back", subsets_within),
    ("lengths before the limit", |c| {
        stored().before(&[1], c, fault_of_lengths)
    }),
    ("records before the limit", |c| {
        stored().before(&[1], c, fault_of_records)
    }),
    ("sets before records", |c| {
        stored().before(&[3, 4], c, fault_of_set)
    }),
];

#[test]
fn sets_that_are_misjudged() {
    stored().assert_told(&JUDGED, |way, case| way(case));
}

/// So these ways differ in nothing but what they name.
#[test]
fn the_right_judgement_gives_the_right_answers() {
    for case in &stored().cases {
        assert!(judged_by(case, any_above) == right(case));
    }
}

/// Ways of walking.
#[derive(Clone, Copy, PartialEq, Eq, Debug)]
enum Way {
    Right,
    /// The limit is asked of both of a pair, in V or not.
    ByMembers,
    /// It is asked of no pair; of each exponent; of less than the limit; of one more.
    NoPair,
    OneExponent,
    Exclusive,
    OneMore,
    /// Knobs do not count in a degree.
    WithoutKnobs,
    /// A pair is judged by its smaller one, its larger one, their product, or by all
    /// that the set would hold, added up.
    BySmaller,
    ByLarger,
    ByNonsquare,
    BySum,
    /// A pair above the limit costs no step, or two, or none where its set would be
    /// too large besides.
    NoStep,
    TwoSteps,
    NoStepTooLarge,
    /// It ends the pairs of its nonsquare.
    EndsPairs,
    /// What may be added of it is added.
    AddsTheRest,
    /// Its set is opened, and goes no further; or is walked, and not found.
    Opened,
    NotFound,
    /// Of the quotients none is dropped; those at the limit are too; those one above
    /// it are not; each exponent is asked; knobs do not count; those over 1 stay.
    AllQuotients,
    FewerQuotients,
    MoreQuotients,
    QuotientsByExponent,
    QuotientsWithoutKnobs,
    OverOneStay,
    /// Quotients are dropped for the limit alone, signals or not.
    QuotientsWithSignals,
    /// Nonsquares above the limit do not count in the rule.
    LowNonsquares,
    /// A nonsquare above twice the limit closes its set; one above the limit does.
    TwiceCloses,
    AboveCloses,
    /// It is overlooked.
    Overlooked,
    /// The nonsquare of lowest degree is chosen; one within the limit comes first, or
    /// last.
    LowestDegree,
    WithinFirst,
    WithinLast,
}

/// All ways that the answers tell from the right one.
const WAYS: [Way; 30] = [
    Way::NoPair,
    Way::OneExponent,
    Way::Exclusive,
    Way::OneMore,
    Way::WithoutKnobs,
    Way::BySmaller,
    Way::ByLarger,
    Way::ByNonsquare,
    Way::BySum,
    Way::NoStep,
    Way::TwoSteps,
    Way::NoStepTooLarge,
    Way::EndsPairs,
    Way::AddsTheRest,
    Way::Opened,
    Way::NotFound,
    Way::AllQuotients,
    Way::FewerQuotients,
    Way::MoreQuotients,
    Way::QuotientsByExponent,
    Way::QuotientsWithoutKnobs,
    Way::OverOneStay,
    Way::QuotientsWithSignals,
    Way::LowNonsquares,
    Way::TwiceCloses,
    Way::AboveCloses,
    Way::Overlooked,
    Way::LowestDegree,
    Way::WithinFirst,
    Way::WithinLast,
];

impl Steps<'_, Way> {
    fn limit(&self) -> u64 {
        self.system.degree.0
    }

    fn without_knobs(&self, m: Monomial) -> u64 {
        degree_of_fed(m, |i| self.system.terms.iter().any(|t| t.equation == i))
    }

    /// Whether a new monomial is above the limit.
    fn is_above(&self, m: Monomial) -> bool {
        match self.way {
            Way::NoPair => false,
            Way::OneExponent => tallest(m) > self.limit(),
            Way::Exclusive => m.degree() >= self.limit(),
            Way::OneMore => m.degree() > self.limit() + 1,
            Way::WithoutKnobs => self.without_knobs(m) > self.limit(),
            _ => m.degree() > self.limit(),
        }
    }

    /// Whether a pair of a nonsquare that would add these is forbidden for its degree.
    fn pair_is_above(&self, set: &Set, pair: Pair, new: &Set) -> bool {
        let [m1, m2] = pair;
        let limit = self.limit();
        let child = set.union(new);
        match self.way {
            Way::ByMembers => pair.iter().any(|m| self.is_above(*m)),
            Way::BySmaller => new.contains(&m1) && self.is_above(m1),
            Way::ByLarger => new.contains(&m2) && self.is_above(m2),
            Way::ByNonsquare => m1.times(m2).degree() > limit,
            Way::BySum => child.map(|m| m.degree()).sum::<u64>() > limit,
            _ => new.iter().any(|m| self.is_above(*m)),
        }
    }

    /// Whether a quotient counts.
    fn counts(&self, quotient: Monomial, over: Monomial) -> bool {
        let (limit, degree) = (self.limit(), quotient.degree());
        let within = match self.way {
            Way::AllQuotients => true,
            Way::FewerQuotients => degree < limit,
            Way::MoreQuotients => degree <= limit + 1,
            Way::QuotientsByExponent => tallest(quotient) <= limit,
            Way::QuotientsWithoutKnobs => self.without_knobs(quotient) <= limit,
            Way::OverOneStay => degree <= limit || over == Monomial::ONE,
            _ => degree <= limit,
        };
        let marked = self.system.marks.touch(quotient) && self.way != Way::QuotientsWithSignals;
        within && !marked
    }

    /// Whether the rule closes a set that is not quadratic.
    fn closes(&self, set: &Set, over: &BTreeSet<Monomial>) -> bool {
        let above = |m: &&Monomial| m.degree() > self.limit();
        let hopeless = match self.way {
            Way::TwiceCloses => over.iter().any(|m| m.degree() > 2 * self.limit()),
            Way::AboveCloses => over.iter().any(|m| above(&m)),
            _ => false,
        };
        let left_out = match self.way {
            Way::LowNonsquares => over.iter().filter(above).count(),
            _ => 0,
        };
        let mut counts: BTreeMap<Monomial, usize> = BTreeMap::new();
        for m in over {
            for v in self.system.signals(set) {
                if v.divides(*m) && self.counts(m.over(v), v) {
                    *counts.entry(m.over(v)).or_default() += 1;
                }
            }
        }
        let lacks = least(over.len() - left_out, counts.into_values().collect());
        hopeless || set.len() + lacks > self.level
    }

    fn choose(&self, over: &BTreeSet<Monomial>) -> Monomial {
        let above = |m: &Monomial| m.degree() > self.limit();
        let first = |m: &Monomial| match self.way {
            Way::LowestDegree => m.degree(),
            Way::WithinFirst => above(m).into(),
            Way::WithinLast => (!above(m)).into(),
            _ => 0,
        };
        let key = |m: &&Monomial| (first(m), m.score(), **m);
        *over.iter().min_by_key(key).expect("a nonsquare")
    }
}

impl Walks for Way {
    fn opened(walk: &Steps<Way>, set: &Set) -> Opened {
        let mut over = walk.system.nonsquares(set);
        if walk.way == Way::Overlooked {
            over.retain(|m| m.degree() <= walk.limit());
        }
        let above = set.iter().any(|m| m.degree() > walk.limit());
        let hidden = above && matches!(walk.way, Way::NotFound | Way::Opened);
        let stays = over.is_empty() || set.len() == walk.level || walk.closes(set, &over);
        let ends = stays || above && walk.way == Way::Opened;
        Opened {
            found: over.is_empty() && !hidden,
            chosen: (!ends).then(|| walk.choose(&over)),
        }
    }

    fn tried(walk: &Steps<Way>, set: &Set, pair: Pair) -> Tried {
        let mut new = new_of(pair, &walk.system.signals(set));
        let marked = new.iter().any(|m| walk.system.marks.touch(*m));
        let above = !marked && walk.pair_is_above(set, pair, &new);
        let too_large = set.union(&new).count() > walk.level;
        let costs = match walk.way {
            Way::NoStep if above => 0,
            Way::TwoSteps if above => 2,
            Way::NoStepTooLarge if above && too_large => 0,
            _ => 1,
        };
        let forbidden = match walk.way {
            Way::AddsTheRest | Way::Opened | Way::NotFound => marked,
            _ => marked || above,
        };
        if walk.way == Way::AddsTheRest {
            new.retain(|m| !walk.is_above(*m));
        }
        Tried {
            costs,
            added: (!forbidden).then_some(new),
            ends_pairs: above && walk.way == Way::EndsPairs,
        }
    }
}

/// A plan in this way.
fn walked(case: &Case, way: Way) -> Answer {
    stored().walked(case, way)
}

/// So the ways differ from the walk in nothing but what they name.
#[test]
fn the_right_way_gives_the_right_answers() {
    for case in &stored().cases {
        assert!(walked(case, Way::Right) == right(case));
    }
}

/// What is in V is never above the limit, so that a pair may as well be judged by
/// both of its members.
#[test]
fn nothing_in_v_is_above_the_limit() {
    for case in &stored().cases {
        assert!(walked(case, Way::ByMembers) == right(case));
    }
}

#[test]
fn walks_that_go_astray() {
    stored().assert_told(&named(WAYS), |way, case| walked(case, *way));
}

/// The full kit is planned for, and of its list what is within the limit stays.
fn filtered(case: &Case) -> Answer {
    let (reply, answer) = right(case);
    if case.operation != Operation::Plan || ![0, 5, 6, 7].contains(&reply.code) {
        return (reply, answer);
    }
    let (reply, answer) = with(case, FULL_DEGREE).answer();
    let sets = answer.chunks(SET_BYTES).take(reply.count as usize);
    let within = |record: &&[u8]| !any_above(case, &set_places(record));
    let kept: Vec<&[u8]> = sets.filter(within).collect();
    let mut bytes = kept.concat();
    bytes.resize(case.buffer, 0);
    let count = kept.len() as u64;
    match (reply.code, count) {
        (0, 0) => refused(
            case,
            Reply {
                code: 5,
                order: case.cap + 1,
                count,
                ..reply
            },
        ),
        (0, _) => (Reply { count, ..reply }, bytes),
        _ => (reply, answer),
    }
}

/// The same with the steps that the limit gives.
fn filtered_with_steps(case: &Case) -> Answer {
    let (reply, answer) = filtered(case);
    let steps = right(case).0.steps;
    (Reply { steps, ..reply }, answer)
}

const FILTERED: [Named<Answer>; 2] = [
    ("the full kit's list is filtered", filtered),
    ("it is, with the right steps", filtered_with_steps),
];

#[test]
fn lists_that_are_filtered() {
    stored().assert_told(&FILTERED, |way, case| way(case));
}

/// How many answers tell each way; for looking at, with `--ignored --nocapture`.
#[test]
#[ignore = "it answers all cases in all ways"]
fn how_many_answers_tell_each_way() {
    stored().count_told(&MISREAD, |way, case| right(&way(case)));
    stored().count_told(&JUDGED, |way, case| way(case));
    stored().count_told(&FILTERED, |way, case| way(case));
    stored().count_told(&named(WAYS), |way, case| walked(case, *way));
}
