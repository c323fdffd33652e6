//! Listings on the way to their text: the right sides of the name lines, and the
//! terms of each derivative line, so that a case can change one of them. A term
//! stands here as `2*x1*w0` or `-2*x1*w0`.

use crate::monomial::Monomial;
use crate::system::System;

/// A derivative line: its left side, and its terms; without any it is a lone 0.
#[derive(Clone, PartialEq, Eq, Debug)]
pub struct Row {
    pub left: String,
    pub terms: Vec<String>,
}

impl Row {
    fn write(&self) -> String {
        let mut right = String::new();
        for (index, term) in self.terms.iter().enumerate() {
            match (index, term.strip_prefix('-')) {
                (0, _) => right += term,
                (_, Some(size)) => right += &format!(" - {size}"),
                (_, None) => right += &format!(" + {term}"),
            }
        }
        if right.is_empty() {
            right = "0".to_string();
        }
        format!("{}' = {right}", self.left)
    }
}

/// A whole listing.
#[derive(Clone, PartialEq, Eq, Debug)]
pub struct Page {
    pub names: Vec<String>,
    pub rows: Vec<Row>,
}

/// A monomial of a derivative: its coefficient, and the products of two signals or
/// fewer that it is.
pub struct Choice {
    pub coefficient: i64,
    pub products: Vec<Vec<String>>,
}

impl Page {
    /// The listing of a system with these new monomials, numbered in this sequence.
    /// Each line's terms are made by a hand; a monomial that is no product of two
    /// has no choice, and its line cannot be true.
    pub fn by(
        system: &System,
        new: &[Monomial],
        mut hand: impl FnMut(Vec<Choice>) -> Vec<String>,
    ) -> Page {
        let mut signals = vec![(String::new(), Monomial::ONE)];
        let variables = (1..=system.n).map(|i| (format!("x{i}"), Monomial::variable(i)));
        signals.extend(variables);
        let new_names = new.iter().enumerate().map(|(j, &m)| (format!("w{j}"), m));
        signals.extend(new_names);
        let products = |whole: Monomial| {
            let mut products = Vec::new();
            for (index, (a, first)) in signals.iter().enumerate() {
                for (b, second) in &signals[index..] {
                    if first.times(*second) == whole {
                        let names = [a, b].into_iter().filter(|name| !name.is_empty());
                        products.push(names.cloned().collect());
                    }
                }
            }
            products
        };
        let has_line = |number: usize| match number {
            0 => false,
            i if i <= system.n => !system.marks.mark(i),
            _ => true,
        };
        let mut rows = Vec::new();
        for (number, (left, monomial)) in signals.iter().enumerate() {
            if !has_line(number) {
                continue;
            }
            let derivative = system.derivative(*monomial).into_iter();
            let choices = derivative.map(|(whole, coefficient)| Choice {
                coefficient,
                products: products(whole),
            });
            rows.push(Row {
                left: left.clone(),
                terms: hand(choices.collect()),
            });
        }
        Page {
            names: new.iter().map(|&m| powers(m)).collect(),
            rows,
        }
    }

    /// The plainest listing: the first product of each monomial.
    pub fn of(system: &System, new: &[Monomial]) -> Page {
        Page::by(system, new, plain)
    }

    /// The text.
    pub fn write(&self) -> Vec<u8> {
        let mut lines = vec!["Introduced variables:".to_string()];
        let names = self.names.iter().enumerate();
        lines.extend(names.map(|(j, right)| format!("w{j} = {right}")));
        lines.push(String::new());
        lines.extend(self.rows.iter().map(Row::write));
        let text: String = lines.iter().map(|line| line.clone() + "\n").collect();
        text.into_bytes()
    }
}

/// A monomial as a name line has it: `x1**2*x3`.
pub fn powers(monomial: Monomial) -> String {
    let used = (1..).zip(monomial.0).filter(|(_, exponent)| *exponent > 0);
    let power = |(i, exponent): (usize, u16)| match exponent {
        1 => format!("x{i}"),
        _ => format!("x{i}**{exponent}"),
    };
    used.map(power).collect::<Vec<_>>().join("*")
}

/// A term as a derivative line has it. A square may be written in two ways.
pub fn term(coefficient: i64, names: &[String]) -> String {
    let sign = if coefficient < 0 { "-" } else { "" };
    let product = match names {
        [first, second] if first == second => format!("{first}**2"),
        _ => names.join("*"),
    };
    match (coefficient.abs(), &product[..]) {
        (size, "") => format!("{sign}{size}"),
        (1, _) => format!("{sign}{product}"),
        (size, _) => format!("{sign}{size}*{product}"),
    }
}

/// The first product of each monomial.
pub fn plain(choices: Vec<Choice>) -> Vec<String> {
    let first = |choice: &Choice| Some(term(choice.coefficient, choice.products.first()?));
    choices.iter().filter_map(first).collect()
}

/// The last product of each monomial with its names turned, the last monomial first.
pub fn turned(choices: Vec<Choice>) -> Vec<String> {
    let last = |choice: &Choice| {
        let mut names = choice.products.last()?.clone();
        names.reverse();
        Some(term(choice.coefficient, &names))
    };
    choices.iter().rev().filter_map(last).collect()
}

/// Each coefficient in two parts, and both beside a product that comes and goes.
pub fn apart(choices: Vec<Choice>) -> Vec<String> {
    let (mut front, mut back) = (vec!["x1*x1".to_string()], vec!["-1*x1**2".to_string()]);
    for choice in &choices {
        let (Some(first), Some(last)) = (choice.products.first(), choice.products.last()) else {
            continue;
        };
        front.push(term(choice.coefficient + 1_000, first));
        back.push(term(-1_000, last));
    }
    front.extend(back);
    front
}

#[cfg(test)]
mod tests {
    use super::*;
    use crate::notation::{monomial, system};

    #[test]
    fn hands_write_differently() {
        let cube = system(2, "x1' = x1^3 - 2; x2' = - x1");
        let new = [monomial("x1^2")];
        let text = |hand: fn(Vec<Choice>) -> Vec<String>| {
            String::from_utf8(Page::by(&cube, &new, hand).write()).unwrap()
        };
        let plain = text(plain);
        let lines = [
            "Introduced variables:",
            "w0 = x1**2",
            "",
            "x1' = -2 + x1*w0",
            "x2' = -x1",
            "w0' = -4*x1 + 2*w0**2",
        ];
        assert_eq!(plain.lines().collect::<Vec<_>>(), lines);
        assert!(text(turned).contains("x1' = w0*x1 - 2\n"));
        let apart = text(apart);
        assert!(apart.contains("x2' = x1*x1 + 999*x1 - 1*x1**2 - 1000*x1\n"));
    }

    #[test]
    fn what_is_no_product_is_left_out() {
        let fourth = system(1, "x1' = x1^4");
        let page = Page::of(&fourth, &[monomial("x1^2")]);
        let text = "Introduced variables:\nw0 = x1**2\n\nx1' = w0**2\nw0' = 0\n";
        assert_eq!(page.write(), text.as_bytes());
        assert_eq!(Page::of(&fourth, &[]).rows[0].terms, [""; 0]);
    }
}
