//! Monomials and sums as text that `plan` itself and any algebra program can read.

use crate::panel::VARIABLES;

/// An exponent for each variable, as the box holds a monomial.
pub type Exponents = [u8; VARIABLES];

/// The total degree of a monomial.
pub fn degree(exponents: &Exponents) -> u64 {
    exponents.iter().map(|&e| u64::from(e)).sum()
}

/// `x^2*y`; `1` where all exponents are 0.
pub fn monomial(names: &[String], exponents: &Exponents) -> String {
    let factors: Vec<String> = names
        .iter()
        .zip(exponents)
        .filter(|(_, &e)| e != 0)
        .map(|(name, &e)| if e == 1 { name.clone() } else { format!("{name}^{e}") })
        .collect();
    if factors.is_empty() {
        "1".into()
    } else {
        factors.join("*")
    }
}

/// The product of two signals by their numbers; number 0 is the constant 1 and is left out.
pub fn product(signals: &[String], a: usize, b: usize) -> String {
    match (a, b) {
        (0, b) => signals[b].clone(),
        (a, b) if a == b => format!("{}^2", signals[a]),
        (a, b) => format!("{}*{}", signals[a], signals[b]),
    }
}

/// `2*x*w1 - w2`; `0` where there are no terms. A product is text as above.
pub fn sum<'a>(terms: impl IntoIterator<Item = (i64, &'a str)>) -> String {
    let mut out = String::new();
    for (coefficient, product) in terms {
        out += match (out.is_empty(), coefficient < 0) {
            (true, true) => "-",
            (true, false) => "",
            (false, true) => " - ",
            (false, false) => " + ",
        };
        out += &match (coefficient.unsigned_abs(), product) {
            (size, "1") => size.to_string(),
            (1, product) => product.to_string(),
            (size, product) => format!("{size}*{product}"),
        };
    }
    if out.is_empty() {
        out.push('0');
    }
    out
}

#[cfg(test)]
mod tests {
    use super::*;

    fn names(text: &str) -> Vec<String> {
        text.split(' ').map(String::from).collect()
    }

    #[test]
    fn monomials() {
        let names = names("x y z");
        assert_eq!(monomial(&names, &[0; VARIABLES]), "1");
        assert_eq!(monomial(&names, &[1, 0, 0, 0, 0, 0]), "x");
        assert_eq!(monomial(&names, &[2, 1, 10, 0, 0, 0]), "x^2*y*z^10");
    }

    #[test]
    fn degrees() {
        assert_eq!([[0; VARIABLES], [2, 1, 0, 0, 0, 1], [255; VARIABLES]].map(|e| degree(&e)), [0, 4, 1530]);
    }

    #[test]
    fn products() {
        let signals = names("1 x w1");
        assert_eq!(product(&signals, 0, 0), "1");
        assert_eq!(product(&signals, 0, 2), "w1");
        assert_eq!(product(&signals, 1, 2), "x*w1");
        assert_eq!(product(&signals, 2, 2), "w1^2");
    }

    #[test]
    fn sums() {
        assert_eq!(sum([]), "0");
        assert_eq!(sum([(1, "w1"), (-1, "x*w1"), (2, "x")]), "w1 - x*w1 + 2*x");
        assert_eq!(sum([(-1, "x"), (-3, "1")]), "-x - 3");
        assert_eq!(sum([(1, "1"), (-1, "1")]), "1 - 1");
    }
}
