//! Hasty ways of taking marks. Each of them gives another answer to some of the
//! stored cases with marks (document 02, [3]).

use crate::batch::{Case, Operation};
use crate::cheap::{new_of, Pair};
use crate::closing::lacks;
use crate::maker::stored_marked;
use crate::marks::Marks;
use crate::monomial::Monomial;
use crate::operations::{planned, wired};
use crate::panel::{SET_BYTES, TERM_BYTES, VARIABLES};
use crate::records::{read_set, read_terms, read_wires, set_places, write_places, write_wire};
use crate::reply::Reply;
use crate::setting::Setting;
use crate::system::{squares, Set, System};
use crate::walk::Rules;
use crate::ways::{
    below, fault_of_lengths, fault_of_records, fault_of_set, named, refused, Answer, Named, Opened,
    Steps, Stored, Tried, Walks,
};
use crate::wiring::Wire;
use std::collections::BTreeSet;
use std::sync::OnceLock;

/// The stored cases with marks.
fn stored() -> &'static Stored {
    static STORED: OnceLock<Stored> = OnceLock::new();
    STORED.get_or_init(|| Stored::of(stored_marked()))
}

fn right(case: &Case) -> Answer {
    stored().right(case)
}

fn with_marks(case: &Case, marks: u64) -> Case {
    case.clone().marked(Marks(marks))
}

/// The bits in the other sequence among so many.
fn turned(marks: u64, among: u64) -> u64 {
    let among = among.clamp(1, 64);
    let kept = marks & !below(among);
    let low = marks & below(among);
    low.reverse_bits() >> (64 - among) | kept
}

/// The records whose variable is not marked.
fn unmarked_records(case: &Case) -> Vec<u8> {
    let records = case.terms.chunks(TERM_BYTES);
    let unmarked = records.filter(|r| case.marks >> (r[0].clamp(1, 64) - 1) & 1 == 0);
    unmarked.flatten().copied().collect()
}

/// The members of the given set that have no marked variable.
fn unmarked_members(case: &Case) -> Vec<u8> {
    if case.given.len() != SET_BYTES {
        return case.given.clone();
    }
    let mut members = set_places(&case.given).to_vec();
    members.retain(|m| *m != Monomial::ONE && !Marks(case.marks).touch(*m));
    write_places(&members).to_vec()
}

fn except(case: &Case, operation: Operation) -> Case {
    match case.operation == operation {
        true => with_marks(case, 0),
        false => case.clone(),
    }
}

/// Another case is read, and answered rightly.
#[test]
fn marks_that_are_misread() {
    let ways: [Named<Case>; 18] = [
        ("a signal is a knob", |c| with_marks(c, 0)),
        ("planning takes no marks", |c| except(c, Operation::Plan)),
        ("wiring takes no marks", |c| except(c, Operation::Wire)),
        ("thinning takes no marks", |c| except(c, Operation::Thin)),
        ("marks beyond n are ignored", |c| {
            with_marks(c, c.marks & below(c.n))
        }),
        ("six bits are read", |c| with_marks(c, c.marks & 0x3f)),
        ("eight bits are read", |c| with_marks(c, c.marks & 0xff)),
        ("32 bits are read", |c| with_marks(c, c.marks & 0xffff_ffff)),
        ("bit i marks xi", |c| with_marks(c, c.marks >> 1)),
        ("bit i - 2 marks xi", |c| with_marks(c, c.marks << 1)),
        ("turned among n", |c| with_marks(c, turned(c.marks, c.n))),
        ("turned among six", |c| with_marks(c, turned(c.marks, 6))),
        ("a mark is of a knob", |c| {
            with_marks(c, c.marks ^ below(c.n))
        }),
        ("the first mark alone", |c| {
            with_marks(c, c.marks & c.marks.wrapping_neg())
        }),
        ("the last mark alone", |c| with_marks(c, last(c.marks))),
        ("records of signals are passed over", |c| Case {
            terms: unmarked_records(c),
            ..c.clone()
        }),
        ("a record takes the mark away", |c| {
            let fed = c.terms.chunks(TERM_BYTES).map(|r| r[0].into());
            let fed = fed.filter(|i| (1..=VARIABLES).contains(i));
            with_marks(c, c.marks & !Marks::of(fed).0)
        }),
        ("members with a signal are passed over", |c| Case {
            given: unmarked_members(c),
            ..c.clone()
        }),
    ];
    stored().assert_told(&ways, |way, case| right(&way(case)));
}

/// The highest bit that is set.
fn last(marks: u64) -> u64 {
    1 << (63 - marks.leading_zeros())
}

/// The answer to a case whose records and set are read with other marks than the
/// walk and the wiring have. Thinning is not asked.
fn read_with(case: &Case, records: Marks, set: Marks) -> Answer {
    let right = right(case);
    if [1, 2].contains(&right.0.code) || case.operation == Operation::Thin {
        return right;
    }
    let with = |marks| Setting {
        marks,
        ..case.setting()
    };
    let mut answer = vec![0; case.buffer];
    let reply = match read_terms(with(records), &case.terms) {
        Err(refusal) => refusal,
        Ok(system) => {
            let system = System {
                marks: Marks(case.marks),
                ..system
            };
            match case.operation {
                Operation::Plan => planned(Rules::NOW, &system, case.cap, case.limit, &mut answer),
                _ => match read_set(with(set), &case.given) {
                    Err(refusal) => refusal,
                    Ok(set) => wired(&system, &set, &mut answer),
                },
            }
        }
    };
    (reply, answer)
}

/// The set is refused only where its first members up to one of these sizes have
/// a marked variable.
fn refused_by_first(case: &Case, size: usize) -> Answer {
    let right = right(case);
    if right.0.code != 8 {
        return right;
    }
    let members = &set_places(&case.given)[..size];
    match members.iter().any(|m| Marks(case.marks).touch(*m)) {
        true => right,
        false => read_with(case, Marks(case.marks), Marks::NONE),
    }
}

/// Records without regard to marks are read first; then those of signals.
fn marked_records_last(case: &Case) -> Answer {
    let right = right(case);
    match right.0.code {
        3 => match read_terms(with_marks(case, 0).setting(), &case.terms) {
            Err(refusal) => refused(case, refusal),
            Ok(_) => right,
        },
        _ => right,
    }
}

/// What is refused, and what comes before it.
#[test]
fn refusals_that_are_missed() {
    let ways: [Named<Answer>; 8] = [
        ("a record of a signal is taken", |c| {
            read_with(c, Marks::NONE, Marks(c.marks))
        }),
        ("a set with a signal is taken", |c| {
            read_with(c, Marks(c.marks), Marks::NONE)
        }),
        ("a set is refused by its first member", |c| {
            refused_by_first(c, 1)
        }),
        ("a set is refused by all but the last", |c| {
            refused_by_first(c, VARIABLES - 1)
        }),
        ("records of signals are refused last", marked_records_last),
        ("lengths before marks", |c| {
            stored().before(&[1], c, fault_of_lengths)
        }),
        ("records before marks", |c| {
            stored().before(&[1], c, fault_of_records)
        }),
        ("sets before records", |c| {
            stored().before(&[3, 4], c, fault_of_set)
        }),
    ];
    stored().assert_told(&ways, |way, case| way(case));
}

/// How many marked variables stand before a signal number or at it.
fn marked_before(case: &Case, signal: usize) -> usize {
    let marked = Marks(case.marks).variables();
    marked.into_iter().filter(|&i| i <= signal).count()
}

/// The answer of wiring with its list made anew: a list, or a left variable for
/// which there is none.
fn listed_by(case: &Case, list: fn(&Case, Vec<Wire>) -> Result<Vec<Wire>, usize>) -> Answer {
    let (reply, answer) = right(case);
    if case.operation != Operation::Wire || reply.code != 0 {
        return (reply, answer);
    }
    match list(case, read_wires(&answer)) {
        Err(left) => {
            let reply = Reply {
                code: 9,
                count: 0,
                place: left as u64,
                ..reply
            };
            refused(case, reply)
        }
        Ok(list) => {
            let count = list.len() as u64;
            let mut bytes: Vec<u8> = list.iter().flat_map(write_wire).collect();
            bytes.resize(case.buffer.max(bytes.len()), 0);
            (Reply { count, ..reply }, bytes)
        }
    }
}

/// A record with so many marked factors has no pair.
fn no_pair(case: &Case, list: Vec<Wire>, most: usize) -> Result<Vec<Wire>, usize> {
    let marked = |i: usize| (1..=VARIABLES).contains(&i) && Marks(case.marks).mark(i);
    let too_many = |w: &&Wire| [w.a, w.b].into_iter().filter(|&i| marked(i)).count() > most;
    match list.iter().find(too_many) {
        Some(wire) => Err(wire.left),
        None => Ok(list),
    }
}

/// The list with a record for each signal.
fn with_slopes(case: &Case, mut list: Vec<Wire>) -> Result<Vec<Wire>, usize> {
    list.extend(Marks(case.marks).variables().into_iter().map(|i| Wire {
        left: i,
        a: 0,
        b: i,
        coefficient: 1,
    }));
    list.sort_by_key(|w| w.left);
    Ok(list)
}

/// The list with the marked variables numbered after all others.
fn numbered_last(case: &Case, list: Vec<Wire>) -> Result<Vec<Wire>, usize> {
    let marked = |i: &usize| Marks(case.marks).mark(*i);
    let mut order: Vec<usize> = (1..=case.n as usize).collect();
    order.sort_by_key(marked);
    let number = |i: usize| order.iter().position(|&o| o == i).map_or(i, |at| at + 1);
    let moved = |w: Wire| Wire {
        left: number(w.left),
        a: number(w.a),
        b: number(w.b),
        ..w
    };
    Ok(list.into_iter().map(moved).collect())
}

/// Verdict and list of a set that is taken.
#[test]
fn wiring_that_goes_astray() {
    let ways: [Named<Answer>; 6] = [
        ("place counts no signals", |c| match right(c) {
            (reply, answer) if reply.code == 9 => {
                let place = reply.place - marked_before(c, reply.place as usize) as u64;
                (Reply { place, ..reply }, answer)
            }
            right => right,
        }),
        ("a signal has no number", |c| {
            listed_by(c, |case, list| {
                let number = |i| i - marked_before(case, i);
                let moved = |w: Wire| Wire {
                    left: number(w.left),
                    ..w
                };
                Ok(list.into_iter().map(moved).collect())
            })
        }),
        ("signals are numbered last", |c| listed_by(c, numbered_last)),
        ("a signal is listed", |c| listed_by(c, with_slopes)),
        ("a signal is not in V", |c| {
            listed_by(c, |case, list| no_pair(case, list, 0))
        }),
        ("two signals make no product", |c| {
            listed_by(c, |case, list| no_pair(case, list, 1))
        }),
    ];
    stored().assert_told(&ways, |way, case| way(case));
}

/// Ways of walking.
#[derive(Clone, Copy, PartialEq, Eq, Debug)]
enum Way {
    Right,
    /// What a pair adds may have a signal.
    Knob,
    /// A pair that may not be added costs no step, or two.
    NoStep,
    TwoSteps,
    /// It costs none where the set would be too large besides.
    NoStepTooLarge,
    /// Every pair whose set would be too large costs none.
    NoStepWithoutRoom,
    /// It ends the pairs of the nonsquare.
    EndsPairs,
    /// What may be added of it is added, and the set opened.
    AddsTheRest,
    /// A pair is judged by its members, in V or not; by one of them.
    ByMembers,
    BySmaller,
    ByLarger,
    /// A nonsquare with a signal is overlooked; ends its set; comes last; comes
    /// first.
    Overlooked,
    Hopeless,
    MarkedLast,
    MarkedFirst,
    /// The score of a nonsquare passes over its signals.
    ScoreWithout,
    /// A signal is not in V; two of them make no product.
    NotInV,
    NoProduct,
    /// The derivative of a signal is asked for, and nobody knows it.
    Slope,
}

impl Steps<'_, Way> {
    fn marked(&self, monomial: Monomial) -> bool {
        self.system.marks.touch(monomial)
    }

    /// The nonsquares in this way.
    fn over(&self, set: &Set) -> BTreeSet<Monomial> {
        let mut squares = squares(&Way::v(self, set));
        if self.way == Way::NoProduct {
            let marked = |i: usize| self.system.marks.mark(i);
            let others = |m: &Monomial| (1..=VARIABLES).any(|i| m.0[i - 1] > 0 && !marked(i));
            squares.retain(others);
            squares.extend(Way::v(self, set));
        }
        let lefts = self.system.left_variables(set).into_iter();
        let derivatives = lefts.flat_map(|(_, left)| self.system.derivative(left));
        let mut over: BTreeSet<Monomial> = derivatives.map(|(m, _)| m).collect();
        over.retain(|m| !squares.contains(m));
        if self.way == Way::Overlooked {
            over.retain(|m| !self.marked(*m));
        }
        over
    }

    fn choose(&self, over: &BTreeSet<Monomial>) -> Monomial {
        let without = |m: Monomial| {
            let unmarked = (1..=VARIABLES).filter(|&i| !self.system.marks.mark(i));
            unmarked.map(|i| u64::from(m.0[i - 1]) + 1).product()
        };
        let key = |m: &Monomial| match self.way {
            Way::MarkedLast => (self.marked(*m), m.score(), *m),
            Way::MarkedFirst => (!self.marked(*m), m.score(), *m),
            Way::ScoreWithout => (false, without(*m), *m),
            _ => (false, m.score(), *m),
        };
        *over.iter().min_by_key(|m| key(m)).expect("a nonsquare")
    }
}

impl Walks for Way {
    fn v(walk: &Steps<Way>, set: &Set) -> Vec<Monomial> {
        let mut v = walk.system.signals(set);
        v.retain(|m| walk.way != Way::NotInV || !walk.marked(*m));
        v
    }

    fn opened(walk: &Steps<Way>, set: &Set) -> Opened {
        let over = walk.over(set);
        let slope = walk.way == Way::Slope && walk.system.marks != Marks::NONE;
        let hopeless = walk.way == Way::Hopeless && over.iter().any(|m| walk.marked(*m));
        // What is found lacks nothing.
        let closed = set.len() + lacks(walk.system, set, &over) > walk.level;
        let ends = over.is_empty() || closed || hopeless;
        Opened {
            found: over.is_empty() && !slope,
            chosen: (!ends).then(|| walk.choose(&over)),
        }
    }

    fn tried(walk: &Steps<Way>, set: &Set, pair: Pair) -> Tried {
        let [m1, m2] = pair;
        let mut new = new_of(pair, &Way::v(walk, set));
        let judged: Vec<Monomial> = match walk.way {
            Way::Knob => Vec::new(),
            Way::ByMembers => vec![m1, m2],
            Way::BySmaller => new.iter().copied().filter(|m| *m == m1).collect(),
            Way::ByLarger => new.iter().copied().filter(|m| *m == m2).collect(),
            _ => new.iter().copied().collect(),
        };
        let forbidden = judged.iter().any(|m| walk.marked(*m));
        let size = set.union(&new).count();
        let costs = match walk.way {
            Way::NoStep => usize::from(!forbidden),
            Way::TwoSteps => 1 + usize::from(forbidden),
            Way::NoStepTooLarge => usize::from(!forbidden || size <= walk.level),
            Way::NoStepWithoutRoom => usize::from(size <= walk.level),
            _ => 1,
        };
        let adds_the_rest = walk.way == Way::AddsTheRest;
        if adds_the_rest {
            new.retain(|m| !walk.marked(*m));
        }
        Tried {
            costs,
            added: (!forbidden || adds_the_rest).then_some(new),
            ends_pairs: forbidden && walk.way == Way::EndsPairs,
        }
    }
}

/// A plan in this way.
fn walked(case: &Case, way: Way) -> Answer {
    stored().walked(case, way)
}

/// So the ways differ from the walk in nothing but what they name.
#[test]
fn the_right_way_gives_the_right_answers() {
    for case in &stored().cases {
        let (reply, buffer) = walked(case, Way::Right);
        assert_eq!(reply, right(case).0);
        assert!(buffer == right(case).1);
    }
}

#[test]
fn walks_that_go_astray() {
    let ways = [
        Way::Knob,
        Way::NoStep,
        Way::TwoSteps,
        Way::NoStepTooLarge,
        Way::NoStepWithoutRoom,
        Way::EndsPairs,
        Way::AddsTheRest,
        Way::ByMembers,
        Way::BySmaller,
        Way::ByLarger,
        Way::Overlooked,
        Way::Hopeless,
        Way::MarkedLast,
        Way::MarkedFirst,
        Way::ScoreWithout,
        Way::NotInV,
        Way::NoProduct,
        Way::Slope,
    ];
    stored().assert_told(&named(ways), |way, case| walked(case, *way));
}
