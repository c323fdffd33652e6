//! What hasty ways have in common: the stored cases with their right answers, and
//! what tells a way from the right one.

use crate::batch::{Case, Operation};
use crate::cheap::{Order, Pair};
use crate::marks::Marks;
use crate::monomial::Monomial;
use crate::panel::SET_BYTES;
use crate::records::{read_set, read_terms, terms_have_a_length, write_places};
use crate::reply::Reply;
use crate::setting::n_is_in_range;
use crate::system::{Set, System};
use std::collections::{BTreeSet, HashMap};
use std::fmt::Debug;

/// The reply, and the buffer after the call.
pub type Answer = (Reply, Vec<u8>);

/// A way with its name: what it makes of a case.
pub type Named<T> = (&'static str, fn(&Case) -> T);

/// Ways that have no words for a name, each under itself.
pub fn named<W: Copy, const N: usize>(ways: [W; N]) -> [(W, W); N] {
    ways.map(|way| (way, way))
}

/// So many cases at least show that a way is hasty.
pub const ENOUGH: usize = 3;

/// Some stored cases, and the right answers to them.
pub struct Stored {
    pub cases: Vec<Case>,
    answers: HashMap<Case, Answer>,
}

impl Stored {
    pub fn of(cases: Vec<Case>) -> Stored {
        let answered = |case: &Case| (case.clone(), case.answer());
        let answers = cases.iter().map(answered).collect();
        Stored { cases, answers }
    }

    /// The right answer to any case.
    pub fn right(&self, case: &Case) -> Answer {
        let known = self.answers.get(case).cloned();
        known.unwrap_or_else(|| case.answer())
    }

    /// The answer of one to whom what another check says comes before these codes.
    pub fn before(&self, codes: &[u64], case: &Case, check: fn(&Case) -> Option<Reply>) -> Answer {
        let right = self.right(case);
        match check(case) {
            Some(reply) if codes.contains(&right.0.code) => refused(case, reply),
            _ => right,
        }
    }

    /// The cases to which a way gives another answer.
    pub fn told<'a>(
        &'a self,
        answer: impl Fn(&Case) -> Answer + 'a,
    ) -> impl Iterator<Item = &'a Case> + 'a {
        let differs = move |case: &&Case| answer(case) != self.right(case);
        self.cases.iter().filter(differs)
    }

    /// Fails for each way that the cases hardly tell from the right one.
    pub fn assert_told<N: Debug, W>(&self, ways: &[(N, W)], answer: impl Fn(&W, &Case) -> Answer) {
        let mut missed = Vec::new();
        for (name, way) in ways {
            let told = self.told(|case| answer(way, case)).take(ENOUGH).count();
            if told < ENOUGH {
                missed.push((name, told));
            }
        }
        assert!(missed.is_empty(), "{missed:?}");
    }

    /// How many answers tell each way; for looking at.
    pub fn count_told<N: Debug, W>(&self, ways: &[(N, W)], answer: impl Fn(&W, &Case) -> Answer) {
        for (name, way) in ways {
            let told = self.told(|case| answer(way, case)).count();
            println!("{name:?}: {told}");
        }
    }

    /// A plan in this way: the steps first, and then where limit and room end them.
    /// After one step more than the right one takes it is another, whatever comes.
    /// What is not walked for is answered rightly.
    pub fn walked<W: Walks>(&self, case: &Case, way: W) -> Answer {
        let right = self.right(case);
        if case.operation != Operation::Plan || [1, 2, 3, 4].contains(&right.0.code) {
            return right;
        }
        let system = read_terms(case.setting(), &case.terms).expect("it is taken");
        let limit = case.limit.min(right.0.steps + 1) as usize;
        let mut walk = Steps {
            system: &system,
            way,
            most: limit,
            level: 0,
            steps: Vec::new(),
        };
        walk.levels(case.cap as usize);
        stopped(case, &walk.steps, limit)
    }
}

/// A refusal, and the buffer's zeros.
pub fn refused(case: &Case, reply: Reply) -> Answer {
    (reply, vec![0; case.buffer])
}

/// Marks below n, whatever n is.
pub fn below(n: u64) -> u64 {
    (1_u64 << n.min(63)) - 1
}

/// The records, as far as they are whole, with n in range.
pub fn fault_of_records(case: &Case) -> Option<Reply> {
    let good = n_is_in_range(case.n) && terms_have_a_length(&case.terms);
    let known = case.clone().marked(Marks(case.marks & below(case.n)));
    let read = good.then(|| read_terms(known.setting(), &case.terms))?;
    read.err()
}

pub fn fault_of_lengths(case: &Case) -> Option<Reply> {
    let set = case.operation == Operation::Plan || case.given.len() == SET_BYTES;
    let good = terms_have_a_length(&case.terms) && set || !n_is_in_range(case.n);
    (!good).then(|| Reply::bare(2))
}

pub fn fault_of_set(case: &Case) -> Option<Reply> {
    let given = case.operation != Operation::Plan && case.given.len() == SET_BYTES;
    let good = case.setting().variables_are_in_range() && given;
    let read = good.then(|| read_set(case.setting(), &case.given))?;
    read.err()
}

/// One step of a walk: its level, and what it finds.
type Step = (usize, Option<Vec<Monomial>>);

/// A way of walking: what it makes of a set, and of a pair, and in which order it tries
/// the pairs.
pub trait Walks: Copy {
    fn opened(walk: &Steps<Self>, set: &Set) -> Opened;

    fn tried(walk: &Steps<Self>, set: &Set, pair: Pair) -> Tried;

    /// V, which says whether a pair is cheap.
    fn v(walk: &Steps<Self>, set: &Set) -> Vec<Monomial> {
        walk.system.signals(set)
    }

    /// The pairs as they are tried.
    fn pairs(self, chosen: Chosen) -> Box<dyn Iterator<Item = Pair> + '_> {
        Order::CheapFirst.pairs(chosen.nonsquare, chosen.v)
    }
}

/// A nonsquare whose pairs are tried: that of a set with so much room below the level.
#[derive(Clone, Copy)]
pub struct Chosen<'a> {
    pub system: &'a System,
    pub set: &'a Set,
    pub v: &'a [Monomial],
    pub room: usize,
    pub nonsquare: Monomial,
}

/// What becomes of an opened set: whether it is found, and the nonsquare whose pairs
/// are tried, if any is.
pub struct Opened {
    pub found: bool,
    pub chosen: Option<Monomial>,
}

/// What becomes of a pair: the steps that it costs, what it adds unless it is
/// forbidden, and whether it is the last one that is tried.
pub struct Tried {
    pub costs: usize,
    pub added: Option<Set>,
    pub ends_pairs: bool,
}

/// The steps of a walk with what each finds, without regard to room.
pub struct Steps<'a, W> {
    pub system: &'a System,
    pub way: W,
    most: usize,
    pub level: usize,
    steps: Vec<Step>,
}

impl<W: Walks> Steps<'_, W> {
    fn levels(&mut self, cap: usize) {
        for level in 0..=cap {
            self.level = level;
            self.open(&Set::new());
            if self.steps.iter().any(|(_, found)| found.is_some()) {
                return;
            }
        }
    }

    fn is_over(&self) -> bool {
        self.steps.len() > self.most
    }

    fn open(&mut self, set: &Set) {
        if self.is_over() {
            return;
        }
        let Opened { found, chosen } = W::opened(self, set);
        let members = set.iter().copied().collect();
        self.steps.push((self.level, found.then_some(members)));
        let Some(nonsquare) = chosen else {
            return;
        };
        let chosen = Chosen {
            system: self.system,
            set,
            v: &W::v(self, set),
            room: self.level - set.len(),
            nonsquare,
        };
        for pair in self.way.pairs(chosen) {
            if self.is_over() || !self.pair(set, pair) {
                return;
            }
        }
    }

    /// Tries a pair. Whether the next one is tried after it.
    fn pair(&mut self, set: &Set, pair: Pair) -> bool {
        let tried = W::tried(self, set, pair);
        self.steps.extend(vec![(self.level, None); tried.costs]);
        if let Some(added) = tried.added {
            let child: Set = set.union(&added).copied().collect();
            if child.len() <= self.level && child != *set {
                self.open(&child);
            }
        }
        !tried.ends_pairs
    }
}

/// What a planner says who takes these steps.
fn stopped(case: &Case, steps: &[Step], limit: usize) -> Answer {
    let said = |code, order: usize, count: usize, steps: usize| Reply {
        code,
        order: order as u64,
        count: count as u64,
        steps: steps as u64,
        place: 0,
    };
    let mut finds = BTreeSet::new();
    for (index, (level, found)) in steps.iter().enumerate() {
        if index == limit {
            return refused(case, said(7, *level, 0, limit));
        }
        let new = found.as_ref().filter(|set| !finds.contains(*set));
        if new.is_some() && finds.len() == case.buffer / SET_BYTES {
            return refused(case, said(6, *level, 0, index + 1));
        }
        finds.extend(new.cloned());
    }
    let Some(first) = finds.first() else {
        return refused(case, said(5, case.cap as usize + 1, 0, steps.len()));
    };
    let reply = said(0, first.len(), finds.len(), steps.len());
    let mut answer: Vec<u8> = finds.iter().flat_map(|set| write_places(set)).collect();
    answer.resize(case.buffer, 0);
    (reply, answer)
}
