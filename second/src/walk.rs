//! The walk, level by level (document 01, The walk; document 02, [3], [4], [6] and [8]).

use crate::cheap::{new_of, Order};
use crate::closing::lacks;
use crate::monomial::Monomial;
use crate::system::{Set, System};
use std::collections::BTreeSet;

/// What becomes of a set that lacks more monomials than its level has room for.
#[derive(Clone, Copy, PartialEq, Eq, Debug)]
pub enum Hopeless {
    /// It is closed after its opening step.
    Closed,
    /// Its pairs are tried, as before document 02, [4].
    Tried,
}

/// What document 02 has changed in the walk.
#[derive(Clone, Copy, PartialEq, Eq, Debug)]
pub struct Rules {
    pub hopeless: Hopeless,
    pub order: Order,
}

impl Rules {
    /// The walk of every operation.
    pub const NOW: Rules = Rules {
        hopeless: Hopeless::Closed,
        order: Order::CheapFirst,
    };

    /// The walk before document 02, [8]. No operation walks so: the cases from that
    /// time are laid around such walks, and tests compare them with those of now.
    pub const BEFORE_CHEAP_FIRST: Rules = Rules {
        order: Order::Ascending,
        ..Rules::NOW
    };

    /// The walk before document 02, [4], for the same.
    pub const BEFORE_CLOSING: Rules = Rules {
        hopeless: Hopeless::Tried,
        ..Rules::BEFORE_CHEAP_FIRST
    };

    /// The walk of now, but for what becomes of hopeless sets.
    pub const TRYING: Rules = Rules {
        hopeless: Hopeless::Tried,
        ..Rules::NOW
    };
}

/// How a walk ended.
#[derive(Clone, Copy, PartialEq, Eq, Debug)]
pub enum End {
    Done,
    None,
    Full,
    Spent,
}

/// The end of a walk, the level it ended in, its steps and its finds; and the sets
/// that were closed, each with the level.
pub struct Walked {
    pub end: End,
    pub level: usize,
    pub steps: u64,
    pub finds: BTreeSet<Vec<Monomial>>,
    pub closed: BTreeSet<(usize, Set)>,
}

/// Walks up to the cap, within the limit, with room for so many sets.
pub fn walk(system: &System, rules: Rules, cap: usize, limit: u64, room: usize) -> Walked {
    let mut walk = Walk {
        system,
        rules,
        level: 0,
        limit,
        room,
        steps: 0,
        finds: BTreeSet::new(),
        closed: BTreeSet::new(),
    };
    let end = walk.levels(cap);
    Walked {
        end,
        level: walk.level,
        steps: walk.steps,
        finds: walk.finds,
        closed: walk.closed,
    }
}

/// Why the walk stops at once, in the midst of a level.
enum Stop {
    Full,
    Spent,
}

struct Walk<'a> {
    system: &'a System,
    rules: Rules,
    level: usize,
    limit: u64,
    room: usize,
    steps: u64,
    finds: BTreeSet<Vec<Monomial>>,
    closed: BTreeSet<(usize, Set)>,
}

impl Walk<'_> {
    fn levels(&mut self, cap: usize) -> End {
        for level in 0..=cap {
            self.level = level;
            match self.open(&Set::new()) {
                Err(Stop::Full) => return End::Full,
                Err(Stop::Spent) => return End::Spent,
                Ok(()) if !self.finds.is_empty() => return End::Done,
                Ok(()) => {}
            }
        }
        End::None
    }

    /// Takes one step, unless it would pass the limit.
    fn step(&mut self) -> Result<(), Stop> {
        if self.steps == self.limit {
            return Err(Stop::Spent);
        }
        self.steps += 1;
        Ok(())
    }

    /// Opens a set: a find, or the end of this path, or pairs to try.
    fn open(&mut self, set: &Set) -> Result<(), Stop> {
        self.step()?;
        let nonsquares = self.system.nonsquares(set);
        match nonsquares.iter().min_by_key(|m| (m.score(), **m)) {
            None => self.find(set),
            Some(_) if set.len() == self.level => Ok(()),
            Some(_) if self.closes(set, &nonsquares) => {
                self.closed.insert((self.level, set.clone()));
                Ok(())
            }
            Some(nonsquare) => self.try_pairs(set, *nonsquare),
        }
    }

    /// Whether a set lacks more monomials than the level has room for.
    fn closes(&self, set: &Set, nonsquares: &BTreeSet<Monomial>) -> bool {
        match self.rules.hopeless {
            Hopeless::Closed => set.len() + lacks(self.system, set, nonsquares) > self.level,
            Hopeless::Tried => false,
        }
    }

    /// Tries the pairs of a nonsquare, each child walked to its end at once. A
    /// pair is judged by what it would add, so that a marked variable itself,
    /// which is in V, forbids nothing. Nothing in V is above the limit.
    fn try_pairs(&mut self, set: &Set, nonsquare: Monomial) -> Result<(), Stop> {
        let signals = self.system.signals(set);
        for pair in self.rules.order.pairs(nonsquare, &signals) {
            self.step()?;
            let new = new_of(pair, &signals);
            if new.iter().any(|m| !self.system.takes(*m)) {
                continue;
            }
            let child: Set = set.union(&new).copied().collect();
            if child.len() <= self.level {
                self.open(&child)?;
            }
        }
        Ok(())
    }

    /// Lists a find once. Its step is taken already, so full comes first where
    /// full and spent would meet.
    fn find(&mut self, set: &Set) -> Result<(), Stop> {
        let members: Vec<Monomial> = set.iter().copied().collect();
        if self.finds.contains(&members) {
            return Ok(());
        }
        if self.finds.len() == self.room {
            return Err(Stop::Full);
        }
        self.finds.insert(members);
        Ok(())
    }
}
