//! Wirings into a buffer that holds no record: what a caller asks who wants the
//! verdict alone (document 02, [2]).

use crate::batch::{Case, Operation};
use crate::panel::WIRE_BYTES;
use std::collections::HashSet;

/// The lengths of these buffers by turns: most are 0, one of four is 1 to 7.
#[derive(Default)]
pub struct NoRoom {
    turns: usize,
    asked: HashSet<Case>,
}

/// So many turns bring every length.
const ALL_TURNS: usize = 4 * (WIRE_BYTES - 1);

impl NoRoom {
    fn next(&mut self) -> usize {
        let turn = self.turns;
        self.turns += 1;
        match turn % 4 {
            3 => 1 + turn / 4 % (WIRE_BYTES - 1),
            _ => 0,
        }
    }

    /// Takes note of cases, so that none of them is asked again.
    pub fn note(&mut self, cases: &[Case]) {
        let is_one = |case: &&Case| case.operation == Operation::Wire && case.buffer < WIRE_BYTES;
        self.asked.extend(cases.iter().filter(is_one).cloned());
    }

    /// The same wiring without room, by the next length that it was not asked
    /// with. Where each was, as of a small system in a long batch, one comes again.
    pub fn judge(&mut self, wiring: Case) -> Case {
        let mut case = wiring;
        for _ in 0..ALL_TURNS {
            case.buffer = self.next();
            if self.asked.insert(case.clone()) {
                break;
            }
        }
        case
    }
}

#[cfg(test)]
mod tests {
    use super::*;

    #[test]
    fn every_length_below_a_record_comes_and_most_are_empty() {
        let mut no_room = NoRoom::default();
        let lengths: Vec<usize> = (0..ALL_TURNS).map(|_| no_room.next()).collect();
        assert_eq!(lengths.iter().filter(|&&length| length == 0).count(), 21);
        for length in 1..WIRE_BYTES {
            assert!(lengths.contains(&length));
        }
    }

    #[test]
    fn a_case_is_asked_once_with_each_length() {
        let mut no_room = NoRoom::default();
        let wiring = |buffer| Case::wire(1, Vec::new(), Vec::new(), buffer);
        no_room.note(&[wiring(50), wiring(1)]);
        let mut judge = || no_room.judge(wiring(50)).buffer;
        let lengths: Vec<usize> = (0..7).map(|_| judge()).collect();
        assert_eq!(lengths, [0, 2, 3, 4, 5, 6, 7]);
        assert!(judge() < WIRE_BYTES);
    }
}
