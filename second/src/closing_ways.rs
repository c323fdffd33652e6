//! Hasty ways of closing hopeless sets. Each of them gives another answer to some of
//! the stored cases of the counting rule (document 02, [4]).

use crate::batch::Case;
use crate::cheap::{new_of, Order};
use crate::maker::stored_closing;
use crate::monomial::Monomial;
use crate::panel::SET_BYTES;
use crate::records::{read_terms, write_places};
use crate::reply::Reply;
use crate::system::{squares, Set, System};
use crate::ways::{Answer, ENOUGH};
use std::collections::{BTreeMap, BTreeSet};
use std::sync::OnceLock;

/// Ways of closing.
#[derive(Clone, Copy, PartialEq, Eq, Debug)]
enum Way {
    Right,
    /// r is one too large, or one too small.
    OneMore,
    OneLess,
    /// A set is closed where its size and r are the level; where r is all that is
    /// asked for; where the cap, not the level, is passed.
    AtTheLevel,
    WithoutSize,
    ByCap,
    /// No set is closed; none that is empty; none but the empty one; none with room
    /// for one more; none with room for two.
    Never,
    NeverEmpty,
    OnlyEmpty,
    NotBeforeOne,
    OnlyBeforeOne,
    /// The largest count is taken for two quotients, or twice as large.
    ListedTwice,
    CountedTwice,
    /// Each quotient counts once, however often it occurs.
    CountedOnce,
    /// Counts in the quotients' order, or the smallest first.
    Unsorted,
    Ascending,
    /// Past the end the last count goes on.
    LastGoesOn,
    /// Quotients with a signal are counted; or those of 1 alone.
    WithSignals,
    OverOneWithSignals,
    /// V without 1, without its variables, without its signals, without the set.
    NotOverOne,
    NotOverVariables,
    NotOverSignals,
    NotOverSet,
    /// The products of added monomials: those of two different ones; one each; all
    /// pairs; none.
    Different,
    SquaresAlone,
    BothWays,
    NoProducts,
    /// Fewer nonsquares than the bound are asked for.
    Fewer,
    /// A nonsquare counts in each derivative that has it.
    Repeats,
    /// A nonsquare with a signal does not count.
    WithoutMarked,
    /// Document 001's (8): all products of all members of V, the added ones too.
    AllProducts,
    /// A closed set costs no step, or two; it ends the pairs of its parent; its
    /// first pair is tried.
    NoStep,
    TwoSteps,
    EndsPairs,
    OnePair,
    /// What is found lacks one too.
    FoundToo,
    /// What was closed once stays closed at later levels.
    Remembered,
}

/// All ways but the right one.
const WAYS: [Way; 36] = [
    Way::OneMore,
    Way::OneLess,
    Way::AtTheLevel,
    Way::WithoutSize,
    Way::ByCap,
    Way::Never,
    Way::NeverEmpty,
    Way::OnlyEmpty,
    Way::NotBeforeOne,
    Way::OnlyBeforeOne,
    Way::ListedTwice,
    Way::CountedTwice,
    Way::CountedOnce,
    Way::Unsorted,
    Way::Ascending,
    Way::LastGoesOn,
    Way::WithSignals,
    Way::OverOneWithSignals,
    Way::NotOverOne,
    Way::NotOverVariables,
    Way::NotOverSignals,
    Way::NotOverSet,
    Way::Different,
    Way::SquaresAlone,
    Way::BothWays,
    Way::NoProducts,
    Way::Fewer,
    Way::Repeats,
    Way::WithoutMarked,
    Way::AllProducts,
    Way::NoStep,
    Way::TwoSteps,
    Way::EndsPairs,
    Way::OnePair,
    Way::FoundToo,
    Way::Remembered,
];

/// A walk in one of these ways. It ends early with code 6 or 7.
struct Walk<'a> {
    system: &'a System,
    way: Way,
    cap: usize,
    limit: u64,
    room: usize,
    level: usize,
    steps: u64,
    finds: BTreeSet<Vec<Monomial>>,
    remembered: BTreeSet<Set>,
}

/// What becomes of an opened set.
#[derive(Clone, Copy, PartialEq, Eq)]
enum Opened {
    Walked,
    Closed,
}

impl Walk<'_> {
    fn levels(&mut self) -> u64 {
        for level in 0..=self.cap {
            self.level = level;
            match self.open(&Set::new()) {
                Err(code) => return code,
                Ok(_) if !self.finds.is_empty() => return 0,
                Ok(_) => {}
            }
        }
        5
    }

    fn step(&mut self) -> Result<(), u64> {
        if self.steps == self.limit {
            return Err(7);
        }
        self.steps += 1;
        Ok(())
    }

    /// The nonsquares, each as often as a derivative has it.
    fn over(&self, set: &Set) -> Vec<Monomial> {
        let squares = squares(&self.system.signals(set));
        let lefts = self.system.left_variables(set).into_iter();
        let derivatives = lefts.flat_map(|(_, left)| self.system.derivative(left));
        let monomials = derivatives.map(|(monomial, _)| monomial);
        monomials.filter(|m| !squares.contains(m)).collect()
    }

    fn open(&mut self, set: &Set) -> Result<Opened, u64> {
        let over = self.over(set);
        let closes = self.closes(set, &over);
        let costs = match self.way {
            Way::NoStep if closes => 0,
            Way::TwoSteps if closes => 2,
            _ => 1,
        };
        for _ in 0..costs {
            self.step()?;
        }
        if closes && self.way == Way::Remembered {
            self.remembered.insert(set.clone());
        }
        if closes && self.way != Way::OnePair {
            return Ok(Opened::Closed);
        }
        let Some(&chosen) = over.iter().min_by_key(|m| (m.score(), **m)) else {
            self.find(set)?;
            return Ok(Opened::Walked);
        };
        if set.len() < self.level {
            let most = if closes { 1 } else { usize::MAX };
            self.pairs(set, chosen, most)?;
        }
        Ok(Opened::Walked)
    }

    fn pairs(&mut self, set: &Set, chosen: Monomial, most: usize) -> Result<(), u64> {
        let v = self.system.signals(set);
        for pair in Order::CheapFirst.pairs(chosen, &v).take(most) {
            self.step()?;
            let child: Set = set.union(&new_of(pair, &v)).copied().collect();
            let marked = child.iter().any(|m| self.system.marks.touch(*m));
            if marked || child.len() > self.level {
                continue;
            }
            if self.open(&child)? == Opened::Closed && self.way == Way::EndsPairs {
                return Ok(());
            }
        }
        Ok(())
    }

    fn find(&mut self, set: &Set) -> Result<(), u64> {
        let members: Vec<Monomial> = set.iter().copied().collect();
        if !self.finds.contains(&members) && self.finds.len() == self.room {
            return Err(6);
        }
        self.finds.insert(members);
        Ok(())
    }

    /// Whether the rule closes a set, in this way. At the level nothing does.
    fn closes(&self, set: &Set, over: &[Monomial]) -> bool {
        if over.is_empty() {
            return self.way == Way::FoundToo && set.len() + 1 > self.level;
        }
        if set.len() == self.level {
            return false;
        }
        let room = self.level - set.len();
        let judged = match self.way {
            Way::Never => false,
            Way::NeverEmpty => !set.is_empty(),
            Way::OnlyEmpty => set.is_empty(),
            Way::NotBeforeOne => room > 1,
            Way::OnlyBeforeOne => room == 1,
            _ => true,
        };
        let r = self.least(set, over);
        let hopeless = match self.way {
            Way::AtTheLevel => set.len() + r >= self.level,
            Way::WithoutSize => r > self.level,
            Way::ByCap => set.len() + r > self.cap,
            _ => set.len() + r > self.level,
        };
        judged && hopeless || self.remembered.contains(set)
    }

    /// V as far as this way divides by it.
    fn divisors(&self, set: &Set) -> Vec<Monomial> {
        let mut v = self.system.signals(set);
        v.retain(|m| match self.way {
            Way::NotOverOne => *m != Monomial::ONE,
            Way::NotOverVariables => !m.is_variable(),
            Way::NotOverSignals => !self.system.marks.touch(*m),
            Way::NotOverSet => !set.contains(m),
            _ => true,
        });
        v
    }

    /// The counts in this way, as they are added up.
    fn counts(&self, set: &Set, nonsquares: &[Monomial]) -> Vec<usize> {
        let mut counts: BTreeMap<Monomial, usize> = BTreeMap::new();
        for m in nonsquares {
            for v in self.divisors(set).into_iter().filter(|v| v.divides(*m)) {
                let quotient = m.over(v);
                let kept = match self.way {
                    Way::WithSignals => true,
                    Way::OverOneWithSignals if v == Monomial::ONE => true,
                    _ => !self.system.marks.touch(quotient),
                };
                if kept {
                    *counts.entry(quotient).or_default() += 1;
                }
            }
        }
        let mut counts: Vec<usize> = counts.into_values().collect();
        match self.way {
            Way::Unsorted => {}
            Way::Ascending => counts.sort(),
            _ => counts.sort_by_key(|count| std::cmp::Reverse(*count)),
        }
        match self.way {
            Way::ListedTwice if !counts.is_empty() => counts.insert(0, counts[0]),
            Way::CountedTwice if !counts.is_empty() => counts[0] *= 2,
            Way::CountedOnce => counts.fill(1),
            Way::LastGoesOn => counts.extend(vec![counts.last().copied().unwrap_or(0); 12]),
            _ => {}
        }
        counts
    }

    /// r in this way.
    fn least(&self, set: &Set, over: &[Monomial]) -> usize {
        let mut nonsquares = over.to_vec();
        nonsquares.sort();
        if self.way != Way::Repeats {
            nonsquares.dedup();
        }
        if self.way == Way::WithoutMarked {
            nonsquares.retain(|m| !self.system.marks.touch(*m));
        }
        let v = self.system.signals(set).len();
        let counts = self.counts(set, &nonsquares);
        let bound = |r: usize| {
            let sum: usize = counts.iter().take(r).sum();
            match self.way {
                Way::Different => sum + r * r.saturating_sub(1) / 2,
                Way::SquaresAlone => sum + r,
                Way::BothWays => sum + r * r,
                Way::NoProducts => sum,
                Way::AllProducts => (v + r) * (v + r + 1) / 2,
                _ => sum + r * (r + 1) / 2,
            }
        };
        let suffices = |r: &usize| match self.way {
            Way::Fewer => nonsquares.len() < bound(*r),
            _ => nonsquares.len() <= bound(*r),
        };
        // Where the bound does not rise without end, the level is passed.
        let r = (0..100).find(suffices).unwrap_or(100);
        match self.way {
            Way::OneMore => r + 1,
            Way::OneLess => r - 1,
            _ => r,
        }
    }
}

/// A plan in this way, with no more steps than a limit of its own.
fn walked(case: &Case, way: Way, limit: u64) -> Answer {
    let system = read_terms(case.setting(), &case.terms).expect("it is taken");
    let mut walk = Walk {
        system: &system,
        way,
        cap: case.cap as usize,
        limit,
        room: case.buffer / SET_BYTES,
        level: 0,
        steps: 0,
        finds: BTreeSet::new(),
        remembered: BTreeSet::new(),
    };
    let code = walk.levels();
    let order = match code {
        5 => case.cap + 1,
        _ => walk.level as u64,
    };
    if code != 0 {
        walk.finds.clear();
    }
    let mut answer: Vec<u8> = walk
        .finds
        .iter()
        .flat_map(|set| write_places(set))
        .collect();
    answer.resize(case.buffer, 0);
    let reply = Reply {
        code,
        order,
        count: walk.finds.len() as u64,
        steps: walk.steps,
        place: 0,
    };
    (reply, answer)
}

/// The stored cases of the counting rule, with the right answers to them.
fn stored() -> &'static [(Case, Answer)] {
    static STORED: OnceLock<Vec<(Case, Answer)>> = OnceLock::new();
    STORED.get_or_init(|| {
        let answered = |case: Case| (case.clone(), case.answer());
        // A story that ends at its first step has a limit of 0 beside it.
        let taken = |(_, right): &(Case, Answer)| right.0.code != 1;
        let stored = stored_closing().into_iter().map(answered);
        stored.filter(taken).collect()
    })
}

/// Whether a way gives another answer. After one step more than the right way takes
/// it does, whatever comes.
fn differs(way: Way, case: &Case, right: &Answer) -> bool {
    let limit = case.limit.min(right.0.steps + 1);
    walked(case, way, limit) != *right
}

/// So the ways differ from the walk in nothing but what they name.
#[test]
fn the_right_way_gives_the_right_answers() {
    for (case, right) in stored() {
        let (reply, buffer) = walked(case, Way::Right, case.limit);
        assert_eq!(reply, right.0);
        assert!(buffer == right.1);
    }
}

#[test]
fn ways_that_go_astray() {
    let mut missed = Vec::new();
    for way in WAYS {
        let told = stored()
            .iter()
            .filter(|(case, right)| differs(way, case, right));
        if told.take(ENOUGH).count() < ENOUGH {
            missed.push(way);
        }
    }
    assert!(missed.is_empty(), "{missed:?}");
}

/// How many answers tell each way; for looking at, with `--ignored --nocapture`.
#[test]
#[ignore = "it walks all cases in all ways"]
fn how_many_answers_tell_each_way() {
    for way in WAYS {
        let told = stored()
            .iter()
            .filter(|(case, right)| differs(way, case, right));
        println!("{way:?}: {}", told.count());
    }
}
