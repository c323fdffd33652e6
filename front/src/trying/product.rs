//! Products of powers, packed for speed: a try goes through a hundred thousand sets before the coffee is poured.

use crate::algebra::Exponents;

/// A byte for each variable, the first one highest: so products compare as the box orders them, and multiply by a sum.
/// No power in a try is above 63 (document 01, The walk), so that no sum of two runs over.
#[derive(Debug, Clone, Copy, PartialEq, Eq, PartialOrd, Ord, Hash)]
pub struct Product(u64);

impl Product {
    pub fn of(exponents: &Exponents) -> Product {
        Product(exponents.iter().fold(0, |packed, &e| packed << 8 | u64::from(e)))
    }

    pub fn exponents(self) -> Exponents {
        let [_, _, exponents @ ..] = self.0.to_be_bytes();
        exponents
    }

    pub fn times(self, other: Product) -> Product {
        Product(self.0 + other.0)
    }

    /// Nothing where it does not divide.
    pub fn over(self, divisor: Product) -> Option<Product> {
        let powers = self.exponents().into_iter().zip(divisor.exponents());
        powers.into_iter().all(|(e, d)| d <= e).then(|| Product(self.0 - divisor.0))
    }

    pub fn degree(self) -> u64 {
        crate::algebra::degree(&self.exponents())
    }

    /// How many products divide it. The nonsquare of the smallest number is split, as by the walk.
    pub fn divisors(self) -> u64 {
        self.exponents().into_iter().map(|e| u64::from(e) + 1).product()
    }

    /// Divisor `number` of them, ascending, from 0.
    fn divisor(self, number: u64) -> Product {
        let mut left = number;
        let mut powers = self.exponents();
        for power in powers.iter_mut().rev() {
            let choices = u64::from(*power) + 1;
            *power = (left % choices) as u8;
            left /= choices;
        }
        Product::of(&powers)
    }

    /// How many pairs of factors it has: half as many as divisors, with a middle one where it is a square.
    pub fn pairs(self) -> u64 {
        (self.divisors() + 1) / 2
    }

    /// Pair `number` of them, by ascending first factor, which is the smaller.
    pub fn pair(self, number: u64) -> (Product, Product) {
        let first = self.divisor(number);
        (first, Product(self.0 - first.0))
    }

    /// The factor of its middle pair; nothing where it is no square.
    pub fn root(self) -> Option<Product> {
        let (first, second) = self.pair(self.pairs() - 1);
        (first == second).then_some(first)
    }
}

#[cfg(test)]
mod tests {
    use super::*;

    fn product(x: u8, y: u8, last: u8) -> Product {
        Product::of(&[x, y, 0, 0, 0, last])
    }

    #[test]
    fn products_are_ordered_as_exponents_are() {
        let all = [product(0, 0, 0), product(0, 0, 9), product(0, 1, 0), product(1, 0, 2), product(1, 3, 0)];
        assert!(all.windows(2).all(|w| w[0] < w[1] && w[0].exponents() < w[1].exponents()));
        assert!(all.iter().all(|p| Product::of(&p.exponents()) == *p));
    }

    #[test]
    fn products_multiply_and_divide() {
        let (a, b) = (product(2, 0, 63), product(1, 3, 63));
        assert_eq!(a.times(b), product(3, 3, 126));
        assert_eq!(a.times(b).over(a), Some(b));
        assert_eq!(a.over(product(0, 1, 0)), None, "a smaller number that does not divide");
        assert_eq!((a.over(product(0, 0, 64)), a.over(a)), (None, Some(product(0, 0, 0))));
        assert_eq!((a.degree(), b.divisors(), product(0, 0, 0).divisors()), (65, 2 * 4 * 64, 1));
    }

    #[test]
    fn every_pair_comes_once_and_the_first_factors_ascend() {
        for whole in [product(0, 0, 0), product(3, 0, 0), product(4, 2, 0), product(1, 3, 2), product(2, 2, 2)] {
            let pairs: Vec<(Product, Product)> = (0..whole.pairs()).map(|number| whole.pair(number)).collect();
            assert!(pairs.iter().all(|&(a, b)| a <= b && a.times(b) == whole), "{whole:?}");
            assert!(pairs.windows(2).all(|w| w[0].0 < w[1].0), "{whole:?}");
            let equal: Vec<Product> = pairs.iter().filter(|(a, b)| a == b).map(|&(a, _)| a).collect();
            assert_eq!(whole.root(), equal.first().copied(), "{whole:?}");
            assert_eq!(2 * pairs.len() - equal.len(), whole.divisors() as usize, "{whole:?}");
        }
    }
}
