//! Systems as text, one way for reading and showing: `x1' = x1^3 + 2 x2; x2' = 1`.
//!
//! Only this program's own rows and tests are read, so bad text is a panic.

use crate::monomial::Monomial;
use crate::system::{System, Term};

/// Reads a monomial: `1`, `x2^3`, `x1 x2^2`.
pub fn monomial(text: &str) -> Monomial {
    let factors = text.split_whitespace().filter(|word| *word != "1");
    factors.fold(Monomial::ONE, |product, word| product.times(power(word)))
}

/// Reads `xi` or `xi^e`.
fn power(word: &str) -> Monomial {
    let (name, exponent) = word.split_once('^').unwrap_or((word, "1"));
    let index: usize = name[1..].parse().expect("a variable's number");
    let mut monomial = Monomial::ONE;
    monomial.0[index - 1] = exponent.parse().expect("an exponent");
    monomial
}

/// Reads equations as term records, in the text's sequence, repeats kept.
pub fn terms(text: &str) -> Vec<Term> {
    let mut terms = Vec::new();
    for equation in text.split(';').filter(|part| !part.trim().is_empty()) {
        let (left, right) = equation.split_once('=').expect("an equation");
        let name = left.trim().trim_end_matches('\'');
        let number: usize = name[1..].parse().expect("an equation's number");
        for (sign, words) in signed_parts(right) {
            let (coefficient, words) = match words[0].parse::<i64>() {
                Ok(value) => (value, &words[1..]),
                Err(_) => (1, &words[..]),
            };
            let monomial = words
                .iter()
                .fold(Monomial::ONE, |product, word| product.times(power(word)));
            terms.push(Term {
                equation: number,
                monomial,
                coefficient: sign * coefficient,
            });
        }
    }
    terms
}

/// Cuts a right side at its signs, which stand apart as words of their own.
fn signed_parts(right: &str) -> Vec<(i64, Vec<&str>)> {
    let mut parts = vec![(1, Vec::new())];
    for word in right.split_whitespace() {
        let sign = match word {
            "+" => 1,
            "-" => -1,
            _ => {
                parts.last_mut().expect("a part").1.push(word);
                continue;
            }
        };
        parts.push((sign, Vec::new()));
    }
    parts.retain(|(_, words)| !words.is_empty());
    parts
}

/// Reads a whole system.
#[cfg(test)]
pub fn system(n: usize, text: &str) -> System {
    System::unmarked(n, terms(text))
}

/// Writes a monomial.
pub fn write_monomial(monomial: Monomial) -> String {
    let mut words = Vec::new();
    for (i, &exponent) in monomial.0.iter().enumerate() {
        match exponent {
            0 => {}
            1 => words.push(format!("x{}", i + 1)),
            _ => words.push(format!("x{}^{exponent}", i + 1)),
        }
    }
    if words.is_empty() {
        return "1".to_string();
    }
    words.join(" ")
}

/// Writes a run of monomials as a set: `{x2^2, x1^2}`.
pub fn write_members(members: &[Monomial]) -> String {
    let members: Vec<String> = members.iter().map(|&m| write_monomial(m)).collect();
    format!("{{{}}}", members.join(", "))
}

/// Writes one line per variable of the system: its equation, zero ones too, or
/// that it is fed from outside.
pub fn write_system(system: &System) -> Vec<String> {
    let line = |i: usize| match system.marks.mark(i) {
        true => format!("x{i} from outside"),
        false => write_equation(system, i),
    };
    (1..=system.n).map(line).collect()
}

fn write_equation(system: &System, equation: usize) -> String {
    let mut line = format!("x{equation}' =");
    let mut first = true;
    for term in system.terms.iter().filter(|t| t.equation == equation) {
        match (first, term.coefficient < 0) {
            (_, true) => line += " -",
            (false, false) => line += " +",
            (true, false) => {}
        }
        first = false;
        let size = term.coefficient.abs();
        if term.monomial == Monomial::ONE {
            line += &format!(" {size}");
        } else {
            if size != 1 {
                line += &format!(" {size}");
            }
            line += &format!(" {}", write_monomial(term.monomial));
        }
    }
    if first {
        line += " 0";
    }
    line
}

#[cfg(test)]
mod tests {
    use super::*;

    #[test]
    fn text_is_read_into_terms() {
        let read = terms("x1' = x1^2 x2 - 3; x3' = - 4 x6^9 + x1");
        let expected = [
            (1, [2, 1, 0, 0, 0, 0], 1),
            (1, [0, 0, 0, 0, 0, 0], -3),
            (3, [0, 0, 0, 0, 0, 9], -4),
            (3, [1, 0, 0, 0, 0, 0], 1),
        ]
        .map(|(equation, exponents, coefficient)| Term {
            equation,
            monomial: Monomial(exponents),
            coefficient,
        });
        assert_eq!(read, expected);
        assert!(terms("").is_empty());
    }

    #[test]
    fn what_is_written_is_read_again() {
        let text = "x1' = x1^3 + 2 x2; x2' = - 7 - x1 x2; x3' = 1000000 x3^9";
        let first = system(3, text);
        let lines = write_system(&first);
        assert_eq!(lines[1], "x2' = - 7 - x1 x2");
        assert_eq!(terms(&lines.join(";")), first.terms);
    }

    #[test]
    fn an_equation_without_terms_is_zero() {
        assert_eq!(write_system(&system(1, "")), ["x1' = 0"]);
    }
}
