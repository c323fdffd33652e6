//! The patch of one set: its signals, and what is summed into each.

use crate::algebra;
use crate::asking::answer::{Answer, Wire};
use crate::typed::names::Kind;
use crate::typed::system::System;

#[derive(Debug, PartialEq)]
pub struct Patch {
    /// Names by signal number: `1`, the variables, the new signals.
    pub signals: Vec<String>,
    /// What each new signal is, as text over the variables.
    pub new: Vec<String>,
    /// The signals that are fed from outside, by number.
    pub outside: Vec<usize>,
    /// One row for each signal of the patch. A variable that stands neither in an equation nor in the set has none.
    pub rows: Vec<Row>,
}

/// What a signal of the patch comes from.
#[derive(Debug, Clone, Copy, PartialEq)]
pub enum Feed {
    Integrator,
    /// It never changes, and needs no integrator.
    Knob,
    /// It is fed from outside.
    Socket,
}

/// What is summed into a signal's integrator. Without wires the signal never changes, or is fed from outside.
#[derive(Debug, PartialEq)]
pub struct Row {
    pub signal: usize,
    pub wires: Vec<Wire>,
}

impl Patch {
    /// The patch of set `which`, from 1; nothing where there is no such set.
    pub fn of(system: &System, answer: &Answer, which: u64) -> Option<Patch> {
        let set = answer.sets.get(usize::try_from(which).ok()?.checked_sub(1)?)?;
        let n = system.names.len();
        let mut signals = vec!["1".to_string()];
        signals.extend(system.names.iter().cloned());
        signals.extend((1..=set.len()).map(|i| system.new_name(i)));
        let new = system.set(set);
        let outside = (1..=n).filter(|&s| system.kind(s - 1) == Kind::Signal).collect();
        let rows = (1..signals.len())
            .filter(|&s| n < s || system.used[s - 1] || set.iter().any(|new| new[s - 1] != 0))
            .map(|s| Row { signal: s, wires: answer.wires.iter().filter(|w| w.left == s).copied().collect() })
            .collect();
        Some(Patch { signals, new, outside, rows })
    }

    /// What a new signal is; nothing for a variable.
    pub fn new_of(&self, signal: usize) -> Option<&str> {
        let first = self.signals.len() - self.new.len();
        self.new.get(signal.checked_sub(first)?).map(String::as_str)
    }

    pub fn feed(&self, row: &Row) -> Feed {
        match row.wires[..] {
            [] if self.outside.contains(&row.signal) => Feed::Socket,
            [] if self.new_of(row.signal).is_none() => Feed::Knob,
            _ => Feed::Integrator,
        }
    }

    /// The rows of signals that come from the same.
    pub fn fed_by(&self, feed: Feed) -> impl Iterator<Item = &Row> {
        self.rows.iter().filter(move |row| self.feed(row) == feed)
    }

    pub fn product(&self, wire: &Wire) -> String {
        algebra::product(&self.signals, wire.a, wire.b)
    }

    /// Each pair of signals that is multiplied, once, ascending.
    pub fn multipliers(&self) -> Vec<(usize, usize)> {
        let wires = self.rows.iter().flat_map(|row| &row.wires);
        let mut pairs: Vec<(usize, usize)> = wires.filter(|w| w.a != 0).map(|w| (w.a, w.b)).collect();
        pairs.sort_unstable();
        pairs.dedup();
        pairs
    }

    /// `w1 = x^3`, .. and then `x' = x*w1 + w1`, .. A signal from outside has no equation.
    pub fn equations(&self) -> Vec<String> {
        let first = self.signals.len() - self.new.len();
        let mut out: Vec<String> =
            self.new.iter().enumerate().map(|(i, m)| format!("{} = {m}", self.signals[first + i])).collect();
        for row in self.rows.iter().filter(|row| self.feed(row) != Feed::Socket) {
            let terms: Vec<(i64, String)> = row.wires.iter().map(|w| (w.coefficient.into(), self.product(w))).collect();
            let sum = algebra::sum(terms.iter().map(|(c, p)| (*c, p.as_str())));
            out.push(format!("{}' = {sum}", self.signals[row.signal]));
        }
        out
    }
}

#[cfg(test)]
pub mod tests {
    use super::*;
    use crate::asking::answer::{planned, tests::EXAMPLE, wired};
    use crate::typed::given::Aim;
    use crate::typed::system::tests::{given, system, with_signals};

    pub fn patch(text: &str, written: &str) -> Patch {
        let system = system(text);
        Patch::of(&system, &planned(system.names.len(), written).unwrap(), 1).unwrap()
    }

    pub fn example() -> Patch {
        patch("x' = x^4 + x^3", EXAMPLE)
    }

    /// x1 x2 never changes here: its two parts cancel.
    pub const CANCEL: (&str, &str) = ("x1' = x1^2 x2, x2' = -x1 x2^2", "0 1 1 8 0\n1.1.0.0.0.0\n1 1 3 1\n2 2 3 -1\n");

    #[test]
    fn the_wiring_as_equations() {
        assert_eq!(
            example().equations(),
            ["w1 = x^2", "w2 = x^3", "x' = w2 + x*w2", "w1' = 2*x*w2 + 2*w1*w2", "w2' = 3*w1*w2 + 3*w2^2"]
        );
    }

    #[test]
    fn a_signal_that_never_changes() {
        let patch = patch(CANCEL.0, CANCEL.1);
        assert_eq!(patch.equations(), ["w1 = x1*x2", "x1' = x1*w1", "x2' = -x2*w1", "w1' = 0"]);
        let unfed = super::tests::patch("x1' = x1^2 x2", "0 1 1 8 0\n1.1.0.0.0.0\n1 1 3 1\n3 3 3 1\n");
        assert_eq!(unfed.equations(), ["w1 = x1*x2", "x1' = x1*w1", "x2' = 0", "w1' = w1^2"]);
    }

    #[test]
    fn a_signal_from_outside_has_no_equation() {
        let system = with_signals("x1' = x1^3 + u x1", "u");
        let written = "0 1 1 6 0\n2.0.0.0.0.0\n1 1 2 1\n1 1 3 1\n3 2 3 2\n3 3 3 2\n";
        let patch = Patch::of(&system, &planned(2, written).unwrap(), 1).unwrap();
        assert_eq!(patch.equations(), ["w1 = x1^2", "x1' = x1*u + x1*w1", "w1' = 2*u*w1 + 2*w1^2"]);
        let feeds: Vec<Feed> = patch.rows.iter().map(|row| patch.feed(row)).collect();
        assert_eq!(feeds, [Feed::Integrator, Feed::Socket, Feed::Integrator]);
    }

    #[test]
    fn a_variable_that_stands_nowhere_is_left_out() {
        let patch = patch("x' = z", "0 0 1 1 0\n\n1 0 3 1\n");
        assert_eq!(patch.equations(), ["x' = z", "z' = 0"]);
    }

    #[test]
    fn a_variable_of_the_set_alone_is_wired_where_the_set_is() {
        let system = given(Aim::Wiring, "x1' = 1", "x1*x3");
        let set = system.given.as_ref().unwrap().set().unwrap();
        let answer = wired(3, &set, "0 1 2 0 0\n1 0 0 1\n4 0 3 1\n").unwrap();
        let patch = Patch::of(&system, &answer, 1).unwrap();
        assert_eq!(patch.equations(), ["w1 = x1*x3", "x1' = 1", "x3' = 0", "w1' = x3"]);
    }

    #[test]
    fn multipliers_are_shared() {
        assert_eq!(example().multipliers(), [(1, 3), (2, 3), (3, 3)]);
    }

    #[test]
    fn new_signals_are_named_on_from_pasted_ones() {
        let patch = patch("x' = w1^3, w1' = 1", "0 1 1 6 0\n0.2.0.0.0.0\n1 2 3 1\n2 0 0 1\n3 0 2 2\n");
        assert_eq!(patch.equations()[0], "w2 = w1^2");
    }

    #[test]
    fn the_wiring_is_read_back() {
        for patch in [example(), patch(CANCEL.0, CANCEL.1)] {
            let system = system(&patch.equations().join("\n"));
            let records = system.records().unwrap();
            assert_eq!(system.names[..], patch.signals[1..]);
            assert_eq!(records.len(), patch.rows.iter().map(|r| r.wires.len()).sum::<usize>());
            for (record, wire) in records.iter().zip(patch.rows.iter().flat_map(|r| &r.wires)) {
                assert_eq!(usize::from(record.equation), wire.left);
                assert_eq!(record.coefficient, wire.coefficient);
                assert!(record.exponents.iter().sum::<u8>() <= 2);
            }
        }
    }

    #[test]
    fn no_such_set() {
        let system = system("x' = x^4 + x^3");
        let answer = planned(1, EXAMPLE).unwrap();
        assert_eq!(Patch::of(&system, &answer, 3), None);
        assert_eq!(Patch::of(&system, &answer, 0), None);
    }
}
