//! A patch that works. It is tried for beside the search, and may have more new signals than needed.

use crate::asking::answer::{Answer, DONE};
use crate::patch::Patch;
use crate::typed::system::System;

#[derive(Debug, PartialEq)]
pub struct Works {
    /// What the proved program says of its set, and the wiring.
    pub answer: Answer,
    pub patch: Patch,
}

impl Works {
    /// There is one where the proved program has wired the set, and nothing else makes one.
    pub fn of(system: &System, answer: Answer) -> Option<Works> {
        let patch = Patch::of(system, &answer, 1).filter(|_| answer.reply.code == DONE)?;
        Some(Works { answer, patch })
    }

    /// How many new signals it has.
    pub fn size(&self) -> u64 {
        self.answer.reply.order
    }
}

/// What a try has met.
#[derive(Debug, PartialEq)]
pub enum Met {
    /// Nobody asks: the search has ended, or there was none.
    NotAsked,
    /// No set that the proved program wires, which says nothing of whether there is one.
    Nothing,
    Patch(Works),
    /// The proved program could not be asked, and why.
    Unasked(String),
}

impl Met {
    /// What a wiring says of a set that was met.
    pub fn wired(system: &System, answer: Answer) -> Met {
        Works::of(system, answer).map_or(Met::Nothing, Met::Patch)
    }

    pub fn patch(&self) -> Option<&Works> {
        match self {
            Met::Patch(works) => Some(works),
            _ => None,
        }
    }
}

#[cfg(test)]
mod tests {
    use super::*;
    use crate::asking::answer::{tests::WIRED, wired};
    use crate::typed::system::tests::system;

    #[test]
    fn a_patch_works_where_its_set_was_wired_and_nowhere_else() {
        let system = system("x' = x^4 + x^3");
        let set = [3, 4].map(|e| [e, 0, 0, 0, 0, 0]);
        let works = Works::of(&system, wired(1, &set, WIRED).unwrap()).unwrap();
        assert_eq!((works.size(), works.patch.new.as_slice()), (2, ["x^3", "x^4"].map(String::from).as_slice()));
        for other in ["9 2 0 0 1\n", "8 0 0 0 0\n", "6 2 0 0 0\n", "1 0 0 0 0\n"] {
            assert_eq!(Works::of(&system, wired(1, &set, other).unwrap()), None, "{other}");
        }
    }
}
