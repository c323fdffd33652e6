//! What makes one wiring different from another: where the first nonsquare
//! stands, what cancels, and where the room ends (document 02, [2]).

use crate::panel::WIRE_BYTES;
use crate::system::{squares, Set, System};
use std::collections::BTreeSet;

/// One monomial of a left variable's derivative, whatever its total.
struct Entry {
    left: usize,
    total: i64,
    is_product: bool,
}

impl Entry {
    fn is_record(&self) -> bool {
        self.total != 0 && self.is_product
    }

    fn is_nonsquare(&self) -> bool {
        self.total != 0 && !self.is_product
    }
}

/// The monomials of all derivatives in the list's sequence, those that vanish
/// among them.
pub struct Derivatives {
    entries: Vec<Entry>,
    last_left: usize,
}

/// The first nonsquare, with the records that stand before it.
struct First {
    at: usize,
    left: usize,
    /// Of earlier left variables.
    earlier: usize,
    /// Of the same left variable.
    same: usize,
}

impl Derivatives {
    pub fn of(system: &System, set: &Set) -> Derivatives {
        let signals = system.signals(set);
        let squares = squares(&signals);
        let mut entries = Vec::new();
        for (left, variable) in system.left_variables(set) {
            for (monomial, total) in system.totals(variable) {
                entries.push(Entry {
                    left,
                    total,
                    is_product: squares.contains(&monomial),
                });
            }
        }
        Derivatives {
            entries,
            last_left: signals.len() - 1,
        }
    }

    fn first(&self) -> Option<First> {
        let at = self.entries.iter().position(Entry::is_nonsquare)?;
        let left = self.entries[at].left;
        let records = || self.entries[..at].iter().filter(|e| e.is_record());
        Some(First {
            at,
            left,
            earlier: records().filter(|e| e.left < left).count(),
            same: records().filter(|e| e.left == left).count(),
        })
    }

    /// How many monomials do not vanish: the list's length, where there is one.
    pub fn count(&self) -> usize {
        self.entries.iter().filter(|e| e.total != 0).count()
    }

    /// Rooms at which something changes for one who writes the list while the
    /// set is judged: none, before and after the records of earlier left
    /// variables, those up to the first nonsquare, and all.
    pub fn rooms(&self) -> BTreeSet<usize> {
        let all = self.entries.len();
        let mut ends = vec![0, self.count(), all];
        if let Some(first) = self.first() {
            ends.extend([first.earlier, first.earlier + first.same]);
        }
        let around = |end: usize| [end.saturating_sub(1), end, end + 1];
        ends.into_iter().flat_map(around).collect()
    }

    /// What a wiring into so many bytes is an example of.
    pub fn names(&self, buffer: usize) -> Vec<&'static str> {
        let facts = match self.first() {
            None => self.listed(buffer),
            Some(first) => self.judged(&first, buffer / WIRE_BYTES),
        };
        let held = facts.into_iter().filter(|(holds, _)| *holds);
        held.map(|(_, name)| name).collect()
    }

    /// The facts of a quadratic set.
    fn listed(&self, buffer: usize) -> Vec<(bool, &'static str)> {
        let needed = self.count() * WIRE_BYTES;
        let is_exact = buffer / WIRE_BYTES == self.count();
        let vanishes = |is_product| {
            let gone = |e: &Entry| e.total == 0 && e.is_product == is_product;
            self.entries.iter().any(gone)
        };
        vec![
            (needed == 0 && buffer == 0, "an empty list into no bytes"),
            (needed == buffer, "list exactly as long as the buffer"),
            (needed + 1 == buffer, "buffer one byte longer"),
            (needed == buffer + 1, "buffer one byte short"),
            (needed == buffer + WIRE_BYTES, "buffer one record short"),
            (
                needed > buffer && buffer >= WIRE_BYTES,
                "full with room for some",
            ),
            (vanishes(true), "a product vanishes"),
            (
                vanishes(true) && is_exact,
                "a product vanishes and would have no room",
            ),
            (vanishes(false), "what is no product vanishes"),
            (
                vanishes(false) && is_exact,
                "what is no product vanishes and would have no room",
            ),
        ]
    }

    /// The facts of a set that is not quadratic.
    fn judged(&self, first: &First, room: usize) -> Vec<(bool, &'static str)> {
        let before = first.earlier + first.same;
        let after = &self.entries[first.at + 1..];
        let is_later = |e: &Entry| e.is_nonsquare() && e.left > first.left;
        let gone = |e: &Entry| e.total == 0 && !e.is_product && e.left < first.left;
        vec![
            (before == 0, "9 at the first monomial"),
            (
                after.iter().all(|e| e.total == 0),
                "9 at the last monomial of all",
            ),
            (
                first.left == self.last_left,
                "9 in the last left variable's derivative",
            ),
            (
                room < first.earlier,
                "9 where an earlier left variable's record has no room",
            ),
            (
                first.earlier <= room && room < before,
                "9 where a record of the same left variable has no room",
            ),
            (
                room > 0 && first.earlier > 0,
                "9 after an earlier left variable's records with room",
            ),
            (
                room > first.earlier && first.same > 0,
                "9 after records of the same left variable with room",
            ),
            (
                before <= room && room < self.count(),
                "9 where the room would end after it",
            ),
            (self.count() <= room, "9 with room for all"),
            (after.iter().any(is_later), "9 with a later one"),
            (
                self.entries[..first.at].iter().any(gone),
                "9 after what is no product vanishes",
            ),
        ]
    }
}

#[cfg(test)]
mod tests {
    use super::*;
    use crate::notation::{monomial, system};
    use crate::rows::{CANCELLING, CANCELLING_SET};

    fn derivatives(n: usize, text: &str, names: &[&str]) -> Derivatives {
        let set = names.iter().map(|name| monomial(name)).collect();
        Derivatives::of(&system(n, text), &set)
    }

    /// Two records of x1, two of x2 before x1 x2^2, and one after it.
    #[test]
    fn a_nonsquare_in_the_midst_is_placed() {
        let text = "x1' = x1 + x2; x2' = 1 + x2 + x1 x2^2 + x1^2";
        let midst = derivatives(2, text, &[]);
        assert_eq!(midst.count(), 6);
        let last = "9 in the last left variable's derivative";
        let earlier = "9 where an earlier left variable's record has no room";
        assert_eq!(midst.names(15), [last, earlier, EARLIER_WRITTEN]);
        assert_eq!(midst.names(0), [last, earlier]);
        let same = "9 where a record of the same left variable has no room";
        assert_eq!(midst.names(16), [last, same, EARLIER_WRITTEN]);
        let after = "9 where the room would end after it";
        assert_eq!(
            midst.names(32),
            [last, EARLIER_WRITTEN, SAME_WRITTEN, after]
        );
        let all = "9 with room for all";
        assert_eq!(midst.names(48), [last, EARLIER_WRITTEN, SAME_WRITTEN, all]);
        assert_eq!(midst.rooms(), BTreeSet::from([0, 1, 2, 3, 4, 5, 6, 7]));
    }

    const EARLIER_WRITTEN: &str = "9 after an earlier left variable's records with room";
    const SAME_WRITTEN: &str = "9 after records of the same left variable with room";

    #[test]
    fn what_vanishes_is_told_apart() {
        let product = derivatives(2, "x1' = x1^2 x2; x2' = - x1 x2^2", &["x1 x2"]);
        assert_eq!(product.count(), 2);
        let exact = [
            "list exactly as long as the buffer",
            "a product vanishes",
            "a product vanishes and would have no room",
        ];
        assert_eq!(product.names(16), exact);
        assert_eq!(product.names(24), ["a product vanishes"]);
        assert_eq!(
            product.names(8),
            [
                "buffer one record short",
                "full with room for some",
                "a product vanishes"
            ]
        );
        // x1 x2 x3 x4 is no product of two of these.
        let other = derivatives(4, CANCELLING, &CANCELLING_SET);
        assert_eq!(other.count(), 4);
        let exact = [
            "buffer one byte longer",
            "what is no product vanishes",
            "what is no product vanishes and would have no room",
        ];
        assert_eq!(other.names(33), exact);
    }

    #[test]
    fn an_empty_list_needs_no_bytes() {
        let empty = derivatives(3, "", &["x1^2"]);
        let names = [
            "an empty list into no bytes",
            "list exactly as long as the buffer",
        ];
        assert_eq!(empty.names(0), names);
        assert_eq!(empty.names(1), ["buffer one byte longer"]);
        assert_eq!(empty.names(7), [""; 0]);
    }
}
