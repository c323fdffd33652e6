//! A set on trial: how much stands between it and a patch, and the sets that it grows to.

use crate::trying::board::Board;
use crate::trying::product::Product;

/// Sets compare by how much they leave to do: the number of their nonsquares, then the total degree of these. Of equal
/// ones the first is that which the box lists first.
#[derive(Debug, Clone, PartialEq, Eq, PartialOrd, Ord)]
pub struct Tried {
    number: usize,
    degree: u64,
    /// Ascending.
    pub new: Vec<Product>,
    /// Products in derivatives of signals that no two signals multiply to, ascending (document 01, Monomials,
    /// derivatives, squares).
    nonsquares: Vec<Product>,
}

impl Tried {
    /// The set without new signals.
    pub fn empty(board: &mut Board) -> Tried {
        let given = board.given.clone();
        let open = given.iter().flat_map(|&signal| board.derivative(signal).to_vec()).collect();
        Tried::of(board, Vec::new(), open)
    }

    /// The set of these new signals. No other products than `open` can be its nonsquares.
    fn of(board: &Board, mut new: Vec<Product>, mut open: Vec<Product>) -> Tried {
        let squares = squares(&[&board.given[..], &new].concat());
        new.sort_unstable();
        open.sort_unstable();
        open.dedup();
        open.retain(|product| squares.binary_search(product).is_err());
        Tried { number: open.len(), degree: open.iter().map(|m| m.degree()).sum(), new, nonsquares: open }
    }

    pub fn will_do(&self) -> bool {
        self.nonsquares.is_empty()
    }

    /// The nonsquare that the walk splits (document 01, The walk).
    fn split(&self) -> Option<Product> {
        self.nonsquares.iter().copied().min_by_key(|m| (m.divisors(), *m))
    }

    /// Calls with each set that comes of a pair of factors of that nonsquare and fits the board. Pairs that add one
    /// signal are few, and all tried; of those that add two no more than `most` are.
    pub fn grow(&self, board: &mut Board, most: usize, mut grown: impl FnMut(Tried)) {
        let Some(split) = self.split() else {
            return;
        };
        let signals = [&board.given[..], &self.new].concat();
        let room = board.cards - self.new.len();
        let pairs = [ones(board, &signals, split), twos(board, &signals, split, most)].concat();
        for added in pairs.iter().filter(|added| added.len() <= room) {
            grown(self.with(board, added));
        }
    }

    /// What is a square stays one, so a nonsquare was one before or comes with a new derivative.
    fn with(&self, board: &mut Board, added: &[Product]) -> Tried {
        let mut open = self.nonsquares.clone();
        for &signal in added {
            open.extend(board.derivative(signal));
        }
        Tried::of(board, [&self.new, added].concat(), open)
    }
}

/// The factors that add one signal: beside another that is a signal already, or beside themselves.
fn ones(board: &Board, signals: &[Product], split: Product) -> Vec<Vec<Product>> {
    let beside = signals.iter().filter_map(|&signal| split.over(signal));
    beside.chain(split.root()).filter(|&m| board.may_be_new(m)).map(|m| vec![m]).collect()
}

/// The first pairs that add two, by ascending first factor.
fn twos(board: &Board, signals: &[Product], split: Product, most: usize) -> Vec<Vec<Product>> {
    let is_new = |m: Product| !signals.contains(&m) && board.may_be_new(m);
    let pairs = if board.may_be_two(split) { split.pairs() } else { 0 };
    let pairs = (0..pairs).map(|number| split.pair(number)).filter(|&(a, b)| a != b && is_new(a) && is_new(b));
    pairs.map(|(a, b)| vec![a, b]).take(most).collect()
}

/// What two signals multiply to, ascending.
fn squares(signals: &[Product]) -> Vec<Product> {
    let pairs = signals.iter().enumerate().flat_map(|(i, a)| signals[i..].iter().map(|&b| a.times(b)));
    let mut squares: Vec<Product> = pairs.collect();
    squares.sort_unstable();
    squares
}

#[cfg(test)]
mod tests {
    use super::*;
    use crate::typed::settings::Settings;
    use crate::typed::system::tests::{system, with_signals};
    use crate::typed::system::System;

    fn power(e: u8) -> Product {
        Product::of(&[e, 0, 0, 0, 0, 0])
    }

    fn board(system: &System, cards: u64, degree: u64) -> Board {
        Board::of(system, &Settings { cards: cards.into(), degree: degree.into(), ..Settings::default() }).unwrap()
    }

    /// The new signals of all sets that the empty one grows to, in the order of their trial.
    fn grown(board: &mut Board, most: usize) -> Vec<Vec<Product>> {
        let mut sets = Vec::new();
        Tried::empty(board).grow(board, most, |set| sets.push(set.new));
        sets
    }

    #[test]
    fn nonsquares_are_what_no_two_signals_make() {
        let board = &mut board(&system("x' = x^4 + x^3"), 6, 324);
        let empty = Tried::empty(board);
        assert_eq!(empty.nonsquares, [power(3), power(4)]);
        assert_eq!((empty.number, empty.degree, empty.split()), (2, 7, Some(power(3))));
        let one = empty.with(board, &[power(2)]);
        assert_eq!(one.nonsquares, [power(5)], "x^4 is the square of x^2, and 2 x^5 is in its derivative");
        let two = one.with(board, &[power(3)]);
        assert!(two.will_do() && !one.will_do() && two.split().is_none());
        assert_eq!(two.new, [power(2), power(3)]);
        assert!(two < one && one < empty, "what leaves less to do comes first");
    }

    #[test]
    fn the_nonsquare_that_the_walk_splits() {
        let xy = |x: u8, y: u8| Product::of(&[x, y, 0, 0, 0, 0]);
        for (text, split) in [
            ("x' = x^5 + x^2 y", xy(2, 1)),
            ("x' = x^2 y + x y^2 + y^3", xy(0, 3)),
            ("x' = x^2 y^2 + x^7 + y^9", xy(7, 0)),
            ("x' = x^2 y^2 + x^8", xy(2, 2)),
        ] {
            assert_eq!(Tried::empty(&mut board(&system(text), 6, 324)).split(), Some(split), "{text}");
        }
    }

    #[test]
    fn a_set_grows_by_each_pair() {
        let board = &mut board(&system("x' = x^6"), 6, 324);
        let twos = [[2, 4]].map(|two| two.map(power).to_vec());
        assert_eq!(grown(board, 9), [&[6, 5, 3].map(|e| vec![power(e)])[..], &twos].concat());
        assert_eq!(grown(board, 0), [6, 5, 3].map(|e| vec![power(e)]), "pairs that add one are all tried");
    }

    #[test]
    fn a_set_grows_as_far_as_the_kit_allows() {
        let one_card = &mut board(&system("x' = x^6"), 1, 324);
        assert_eq!(grown(one_card, 9), [6, 5, 3].map(|e| vec![power(e)]));
        assert_eq!(grown(&mut board(&system("x' = x^6"), 0, 324), 9), [[]; 0]);
        let junior = &mut board(&system("x' = x^6"), 6, 4);
        assert_eq!(grown(junior, 9), [vec![power(3)], vec![power(2), power(4)]]);
        let fed = &mut board(&with_signals("x' = x^3 u", "u"), 6, 324);
        assert_eq!(grown(fed, 9), [vec![power(3)]], "no new signal holds u");
    }
}
