//! Equations and sets from text. Terms and signals are kept as typed, unmerged, each with its place: what is wrong with
//! a system or a set is for the planner to say, and what is none at all is said here.

use crate::panel::VARIABLES;
use crate::typed::given::Aim;
use crate::typed::lexer::{tokens, Token, Word};
use crate::typed::names::{wired, Names, Variable};
use crate::typed::text::{short, Fault, Holds, Source, Span};

/// One term as typed. Numbers too large to hold stand at the largest that fits; no rule of the box lets them pass.
#[derive(Debug, Clone, PartialEq)]
pub struct Term {
    pub negative: bool,
    /// The product of the written numbers, 1 where there is none.
    pub size: u128,
    /// The factors in their order; a name may stand more than once.
    pub powers: Vec<(Variable, u128)>,
    pub span: Span,
}

#[derive(Debug, Clone, PartialEq)]
pub struct Equation {
    pub left: Variable,
    pub span: Span,
    /// Empty for a lone 0.
    pub terms: Vec<Term>,
}

/// All that was typed.
#[derive(Debug, Default, PartialEq)]
pub struct Typed {
    pub equations: Vec<Equation>,
    /// Lines like `w1 = x^2`: they say what a pasted signal is, and are no equations.
    pub namings: Vec<(Variable, Span)>,
    /// Every name that stands in an equation, in the order of the text.
    pub names: Vec<(Variable, Span)>,
    /// The set that is given.
    pub given: Option<Given>,
    pub known: Names,
}

/// A set of new signals.
#[derive(Debug, PartialEq)]
pub struct Given {
    pub aim: Aim,
    /// In the order of the text, each a term without sign and coefficient.
    pub signals: Vec<Term>,
    pub names: Vec<(Variable, Span)>,
}

impl Typed {
    /// Every name of the equations, then those of the set.
    pub fn all_names(&self) -> impl Iterator<Item = (Variable, Span)> + '_ {
        self.names.iter().chain(self.given.iter().flat_map(|given| &given.names)).copied()
    }
}

pub fn parse(sources: &[Source]) -> Result<Typed, Fault> {
    let known = Names::of(sources)?;
    let mut typed = Typed::default();
    for (number, source) in sources.iter().enumerate().filter(|(_, source)| source.holds == Holds::Equations) {
        Parser { tokens: tokens(number, source), at: 0, known: &known, typed: &mut typed }.text()?;
    }
    if typed.equations.is_empty() {
        return Err(Fault::nowhere("there is no equation here; one reads x' = x^4 + x^3"));
    }
    for (number, source) in sources.iter().enumerate() {
        if let Holds::Set(aim) = source.holds {
            // The names of a set are kept apart from those that stand in equations.
            let mut own = Typed::default();
            let mut parser = Parser { tokens: tokens(number, source), at: 0, known: &known, typed: &mut own };
            let signals = parser.set()?;
            typed.given = Some(Given { aim, signals, names: own.names });
        }
    }
    one_style(&typed)?;
    known.fit(&typed)?;
    Ok(Typed { known, ..typed })
}

fn one_style(typed: &Typed) -> Result<(), Fault> {
    let letters = typed.all_names().find(|n| matches!(n.0, Variable::Letter(_)));
    let numbered = typed.all_names().find(|n| matches!(n.0, Variable::Numbered(_)));
    match (letters, numbered) {
        (Some((_, a)), Some((_, b))) => {
            let later = if (a.source, a.from) < (b.source, b.from) { b } else { a };
            Err(Fault::at(
                later,
                format!(
                    "two ways of naming in one system: use x, y, z or x1 to x{VARIABLES}, not both \
                     (the square of x is x^2)"
                ),
            ))
        }
        _ => Ok(()),
    }
}

struct Parser<'a> {
    tokens: Vec<Token>,
    at: usize,
    known: &'a Names,
    typed: &'a mut Typed,
}

impl Parser<'_> {
    fn word(&self) -> &Word {
        &self.tokens[self.at].word
    }

    fn span(&self) -> Span {
        self.tokens[self.at].span
    }

    /// The word that comes so many after this one.
    fn ahead(&self, by: usize) -> &Word {
        let there = (self.at + by).min(self.tokens.len() - 1);
        &self.tokens[there].word
    }

    /// Takes a word. The end is never taken.
    fn take(&mut self) -> Token {
        let token = self.tokens[self.at].clone();
        if token.word != Word::End {
            self.at += 1;
        }
        token
    }

    fn takes(&mut self, word: Word) -> bool {
        let there = *self.word() == word;
        if there {
            self.take();
        }
        there
    }

    fn fault<T>(&self, words: impl Into<String>) -> Result<T, Fault> {
        Err(Fault::at(self.span(), words))
    }

    fn text(&mut self) -> Result<(), Fault> {
        loop {
            match self.word() {
                Word::Break => {
                    self.take();
                }
                Word::End => return Ok(()),
                _ => self.line()?,
            }
        }
    }

    fn line(&mut self) -> Result<(), Fault> {
        let (name, span) = match self.word() {
            Word::Name(name) => (short(name), self.span()),
            Word::Other(_) => return self.stranger(),
            _ => return self.fault("an equation begins with the name of its variable, as in x' = x^2"),
        };
        match self.ahead(1) {
            Word::Equals => self.naming(&name)?,
            Word::Prime | Word::Other(_) => {}
            _ => {
                self.take();
                return self.fault(format!("an equation begins with {name}' and ="));
            }
        }
        let left = self.variable()?;
        let naming = *self.word() == Word::Equals;
        if !naming && !self.takes(Word::Prime) {
            return self.stranger();
        }
        if *self.word() == Word::Prime {
            return self.fault("a second derivative: give the first a variable of its own, as in x' = y, y' = -x");
        }
        if !self.takes(Word::Equals) {
            if let Word::Other(_) = self.word() {
                return self.stranger();
            }
            return self.fault(format!("= is missing after {name}'"));
        }
        // The names of a naming stand in no equation.
        let names = self.typed.names.len();
        let terms = self.sum()?;
        match self.word() {
            Word::Break | Word::End => {}
            Word::Prime => {
                return self.fault(
                    "another equation begins before this: put a comma, a semicolon or a new line between the two",
                )
            }
            Word::Equals => return self.fault("a second = in one equation"),
            Word::Power => return self.fault("a power of a number or of a power: multiply it out"),
            _ => return self.stranger(),
        }
        if naming {
            self.typed.names.truncate(names);
            self.typed.namings.push((left, span));
            return Ok(());
        }
        if self.typed.equations.iter().any(|e| e.left == left) {
            return Err(Fault::at(span, format!("the equation of {name} is given twice")));
        }
        self.typed.names.insert(names, (left, span));
        self.typed.equations.push(Equation { left, span, terms });
        Ok(())
    }

    /// A line that begins with a name and = says what a pasted signal is, and is taken only beside its equation.
    fn naming(&self, name: &str) -> Result<(), Fault> {
        if wired(name).is_none() {
            return self.fault(format!("the left side is a derivative, written {name}'"));
        }
        if self.known.look(name).is_none() {
            return self.fault(format!("{name} is named here, and its equation, {name}' = .., is missing"));
        }
        Ok(())
    }

    fn sum(&mut self) -> Result<Vec<Term>, Fault> {
        let mut terms = Vec::new();
        let mut negative = self.takes(Word::Minus);
        if !negative {
            self.takes(Word::Plus);
        }
        let first = self.at;
        loop {
            terms.push(self.term(negative)?);
            negative = match self.word() {
                Word::Plus => false,
                Word::Minus => true,
                _ => break,
            };
            self.take();
        }
        // A lone 0 is an equation without terms. In a sum it is a term as typed.
        let lone = self.at == first + 1 && terms[0].powers.is_empty() && terms[0].size == 0;
        if lone {
            terms.clear();
        }
        Ok(terms)
    }

    fn term(&mut self, negative: bool) -> Result<Term, Fault> {
        self.product(negative, Self::factor)
    }

    /// A product, each factor of it read by `factor`.
    fn product(
        &mut self,
        negative: bool,
        factor: fn(&mut Self, &mut Term) -> Result<(), Fault>,
    ) -> Result<Term, Fault> {
        let mut term = Term { negative, size: 1, powers: Vec::new(), span: self.span() };
        loop {
            factor(self, &mut term)?;
            term.span = term.span.to_end_of(self.tokens[self.at - 1].span);
            match self.word() {
                Word::Times => {
                    self.take();
                }
                Word::Name(_) | Word::Number(_) => {}
                _ => return Ok(term),
            }
        }
    }

    fn factor(&mut self, term: &mut Term) -> Result<(), Fault> {
        match self.word().clone() {
            Word::Number(digits) => {
                self.take();
                term.size = term.size.saturating_mul(whole(&digits));
                Ok(())
            }
            Word::Name(_) => {
                let variable = self.variable()?;
                self.typed.names.push((variable, self.tokens[self.at - 1].span));
                let power = if self.takes(Word::Power) { self.power()? } else { 1 };
                term.powers.push((variable, power));
                Ok(())
            }
            Word::Plus | Word::Minus => self.fault("two signs in a row: a term has one sign, in front of it"),
            Word::Break | Word::End => self.fault("a term is missing here (a right side that is nothing is written 0)"),
            Word::Other(_) => self.stranger(),
            _ => self.fault("a term is missing before this"),
        }
    }

    /// Signals with a break between each two. A text with nothing in it is the empty set.
    fn set(&mut self) -> Result<Vec<Term>, Fault> {
        let mut signals = Vec::new();
        if *self.word() == Word::End {
            return Ok(signals);
        }
        loop {
            signals.push(self.product(false, Self::power_of_a_name)?);
            match self.word() {
                Word::End => return Ok(signals),
                Word::Break => {
                    self.take();
                }
                Word::Power => return self.fault("a power of a power: multiply it out"),
                _ => return self.no_signal(),
            }
        }
    }

    /// A factor of a new signal, which is no number.
    fn power_of_a_name(&mut self, signal: &mut Term) -> Result<(), Fault> {
        match (self.word(), self.ahead(1)) {
            (Word::Name(_), Word::Prime | Word::Equals) => {
                self.take();
                self.no_signal()
            }
            (Word::Name(_), _) => self.factor(signal),
            _ => self.no_signal(),
        }
    }

    /// Says what is wrong with a word that a set does not have where this one stands.
    fn no_signal<T>(&self) -> Result<T, Fault> {
        match self.word() {
            Word::Number(_) => self.fault("a number: a new signal is a product of powers alone, as in x^2*y"),
            Word::Plus | Word::Minus => {
                self.fault("a sign: new signals are products of powers, with commas between them")
            }
            Word::Prime | Word::Equals => self.fault("an equation: a set lists products alone, as in x^2, x*y"),
            Word::Other('(' | ')' | '[' | ']' | '{' | '}') => {
                self.fault("brackets: a set is written without them, as in x^2, x*y")
            }
            Word::Other(_) => self.stranger(),
            Word::Break | Word::End => self.fault("a signal is missing here"),
            _ => self.fault("a signal is missing before this"),
        }
    }

    fn power(&mut self) -> Result<u128, Fault> {
        match self.word().clone() {
            Word::Number(digits) => {
                self.take();
                Ok(whole(&digits))
            }
            Word::Minus => self.fault("a negative power: the box multiplies and cannot divide"),
            Word::Other(_) => self.stranger(),
            _ => self.fault("a power is a whole number, as in x^3"),
        }
    }

    fn variable(&mut self) -> Result<Variable, Fault> {
        let Word::Name(name) = self.word().clone() else {
            return self.fault("a name is missing here");
        };
        if let Some(variable) = self.known.look(&name) {
            self.take();
            return Ok(variable);
        }
        let shown = short(&name);
        match (self.ahead(1), self.derivative(&shown), self.known.factors(&name)) {
            (Word::Other('('), ..) => {
                self.fault(format!("{shown}(..) is a function: the box takes sums of products of powers alone"))
            }
            (_, Some(of), _) => self.fault(format!("write the derivative of {of} as {of}'")),
            (_, _, Some(factors)) => self.fault(format!(
                "the name {shown} is not known: a product is written {} or {}",
                short(&factors.join("*")),
                short(&factors.join(" "))
            )),
            _ => self.fault(format!(
                "the name {shown} is not known: known are {}, and what --knob or --signal names",
                self.known.listed()
            )),
        }
    }

    /// What stands behind the d of a derivative that is written dx/dt.
    fn derivative<'a>(&self, name: &'a str) -> Option<&'a str> {
        let divided = matches!((self.ahead(1), self.ahead(2)),
            (Word::Other('/'), Word::Name(below)) if below.starts_with('d'));
        name.strip_prefix('d').filter(|of| divided && !of.is_empty())
    }

    /// Says what is wrong with a character that no equation has.
    fn stranger<T>(&self) -> Result<T, Fault> {
        let Word::Other(c) = *self.word() else {
            return self.fault("this is not read here");
        };
        match c {
            '/' => self.fault("a fraction: coefficients are whole numbers, and nothing is divided"),
            '.' => self.fault("a decimal point: coefficients and powers are whole numbers"),
            '(' | ')' | '[' | ']' | '{' | '}' => self.fault("brackets: write the sum multiplied out, term by term"),
            '²' | '³' | '¹' | '⁰' | '⁴'..='⁹' => self.fault("write a power with ^, as in x^2"),
            '₀'..='₉' => self.fault("write the number of a variable on the line, as in x1"),
            _ => self.fault(format!("{c:?} is not read here")),
        }
    }
}

fn whole(digits: &str) -> u128 {
    digits.parse().unwrap_or(u128::MAX)
}

#[cfg(test)]
mod tests {
    use super::*;
    use crate::typed::text::{point, text_of};

    fn sources(texts: &[&str]) -> Vec<Source> {
        texts.iter().map(|&text| Source::argument(Holds::Equations, text)).collect()
    }

    /// Equations with a set that is given.
    fn with_set(set: &str) -> Vec<Source> {
        vec![Source::argument(Holds::Equations, "x' = y"), Source::argument(Holds::Set(Aim::Thinning), set)]
    }

    fn good(text: &str) -> Typed {
        parse(&sources(&[text])).unwrap_or_else(|fault| panic!("{text}: {fault:?}"))
    }

    /// The words of a refusal, and what they point at.
    fn bad(text: &str) -> (String, String) {
        let sources = sources(&[text]);
        let fault = parse(&sources).expect_err(text);
        let at = fault.span.map_or(String::new(), |s| text_of(&sources, s).to_string());
        (fault.words, at)
    }

    type Seen = (bool, u128, Vec<(Variable, u128)>, String);

    /// Sign and size, powers, and text of each term.
    fn terms(text: &str) -> Vec<Seen> {
        let sources = sources(&[text]);
        let typed = parse(&sources).unwrap();
        let terms = typed.equations.into_iter().flat_map(|e| e.terms);
        terms.map(|t| (t.negative, t.size, t.powers, text_of(&sources, t.span).to_string())).collect()
    }

    const X: Variable = Variable::Letter(1);
    const Y: Variable = Variable::Letter(2);

    #[test]
    fn a_sum_of_powers() {
        assert_eq!(
            terms("x' = x^4 + x**3"),
            vec![(false, 1, vec![(X, 4)], "x^4".into()), (false, 1, vec![(X, 3)], "x**3".into())]
        );
    }

    #[test]
    fn signs_and_coefficients() {
        assert_eq!(
            terms("x' = -x - 2*x^2 + 3 x y"),
            vec![
                (true, 1, vec![(X, 1)], "x".into()),
                (true, 2, vec![(X, 2)], "2*x^2".into()),
                (false, 3, vec![(X, 1), (Y, 1)], "3 x y".into())
            ]
        );
        assert_eq!(terms("x' = +7")[0], (false, 7, vec![], "7".into()), "a number is a term with no variable");
    }

    #[test]
    fn factors_of_one_term_are_kept() {
        assert_eq!(terms("x' = 2*3*x*x^2"), vec![(false, 6, vec![(X, 1), (X, 2)], "2*3*x*x^2".into())]);
        assert_eq!(terms("x' = 2x*3"), vec![(false, 6, vec![(X, 1)], "2x*3".into())]);
    }

    #[test]
    fn repeats_are_left_to_the_planner() {
        assert_eq!(terms("x' = x + x").len(), 2);
        assert_eq!(terms("x' = x + 0").len(), 2, "0 in a sum is a term");
        assert_eq!(terms("x' = 0*x").len(), 1);
    }

    #[test]
    fn a_lone_zero_is_an_equation_without_terms() {
        assert_eq!(terms("x' = 0"), vec![]);
        assert_eq!(terms("x' = -0"), vec![]);
        assert_eq!(good("x' = 0").equations.len(), 1);
    }

    #[test]
    fn numbers_of_any_length() {
        let long = "9".repeat(60);
        assert_eq!(terms(&format!("x' = {long}*x"))[0].1, u128::MAX);
        assert_eq!(terms(&format!("x' = {long}*0*x"))[0].1, 0);
        assert_eq!(terms(&format!("x' = x^{long}"))[0].2[0].1, u128::MAX);
    }

    #[test]
    fn many_equations_in_one_text_or_in_several() {
        for text in ["x' = y, y' = x", "x' = y; y' = x;", "# two\nx' = y\n\ny' = x # the other\n"] {
            assert_eq!(good(text).equations.len(), 2, "{text}");
        }
        let typed = parse(&sources(&["x' = y", "y' = x"])).unwrap();
        assert_eq!(typed.equations[1].terms[0].span.source, 1);
    }

    #[test]
    fn a_wiring_can_be_pasted_back() {
        let typed = good("w1 = x^2\nx' = x*w1\nw1' = 2*w1^2");
        assert_eq!(typed.equations.len(), 2);
        assert_eq!(typed.namings.len(), 1);
        let (words, at) = bad("w1 = x^2\nx' = x*w1");
        assert!(words.contains("w1' = .., is missing"), "{words}");
        assert_eq!(at, "w1");
        assert_eq!(good("w7 = x^2\nx' = x*w7\nw7' = 2*w7^2").namings.len(), 1);
    }

    #[test]
    fn empty_texts() {
        for text in ["", "  \n\n", "# nothing", ";"] {
            assert!(bad(text).0.contains("no equation"), "{text:?}");
        }
        assert!(parse(&[]).is_err());
        assert!(bad("x' =").0.contains("term is missing"));
        assert!(bad("x' = , y' = x").0.contains("term is missing"));
        assert!(bad("x' = x +").0.contains("term is missing"));
    }

    #[test]
    fn unknown_names() {
        for (text, name) in [
            ("x' = u", "u"),
            ("x' = x7", "x7"),
            ("x' = x0", "x0"),
            ("x' = X", "X"),
            ("x1' = x12", "x12"),
            ("x' = w1", "w1"),
            ("S' = -2 S I, I' = 2 S l", "l"),
        ] {
            let (words, at) = bad(text);
            assert!(words.contains(&format!("the name {name} is not known: known are ")), "{text}: {words}");
            assert_eq!(at, name);
        }
        let (words, _) = bad("S' = -2 S I, I' = 2 S J");
        assert_eq!(
            words,
            "the name J is not known: known are S, I, x, y, z, x1 to x6, and what --knob or --signal names"
        );
    }

    #[test]
    fn a_product_has_something_between_its_names() {
        for (text, product) in [
            ("x' = xy", "x*y or x y"),
            ("x1' = x1x2", "x1*x2 or x1 x2"),
            ("S' = -2SI, I' = 2SI", "S*I or S I"),
            ("theta' = theta + thetax", "theta*x or theta x"),
        ] {
            let (words, _) = bad(text);
            assert!(words.ends_with(&format!("is not known: a product is written {product}")), "{text}: {words}");
        }
        assert_eq!(terms("SI' = 2SI")[0].2, vec![(Variable::Other(0), 1)], "a name that has an equation is one");
    }

    #[test]
    fn names_that_have_equations() {
        let (s, i) = (Variable::Other(0), Variable::Other(1));
        assert_eq!(terms("S' = -2 S I, I' = 2*S*I")[0], (true, 2, vec![(s, 1), (i, 1)], "2 S I".into()));
        assert_eq!(terms("theta' = theta^3 x_1, x_1' = 0")[0].2, vec![(s, 3), (i, 1)]);
        assert_eq!(terms("x' = S, S' = x")[0].2, vec![(s, 1)], "known before its equation comes");
    }

    #[test]
    fn what_is_no_polynomial() {
        for (text, words, at) in [
            ("x' = sin(x)", "function", "sin"),
            ("x' = x/2", "fraction", "/"),
            ("x' = 1/2 x", "fraction", "/"),
            ("x' = 0.5*x", "decimal", "."),
            ("x' = x^0.5", "decimal", "."),
            ("x' = x^-1", "negative power", "-"),
            ("x' = x^y", "whole number", "y"),
            ("x' = x*(y + 1)", "multiplied out", "("),
            ("S' = S(1 + S)", "multiplied out", "("),
            ("x' = x²", "with ^", "²"),
            ("x' = 2^3", "multiply it out", "^"),
            ("x' = x^2^3", "multiply it out", "^"),
            ("x' = x $ y", "not read", "$"),
        ] {
            let (said, pointed) = bad(text);
            assert!(said.contains(words), "{text}: {said}");
            assert_eq!(pointed, at, "{text}");
        }
    }

    #[test]
    fn what_is_no_equation() {
        for (text, words) in [
            ("x^3", "begins with x'"),
            ("hello", "begins with hello'"),
            ("hello world = 1", "begins with hello'"),
            ("x = x^3", "written x'"),
            ("x' x^3", "= is missing after x'"),
            ("x'' = x", "second derivative"),
            ("dx/dt = x", "as x'"),
            ("dtheta/dt = 1", "as theta'"),
            ("S = x^3", "written S'"),
            ("= x", "begins with the name"),
            ("x' = x y' = y", "another equation begins"),
            ("x' = x = y", "second ="),
            ("x' = x + - y", "two signs"),
            ("x' = 2*-x", "two signs"),
            ("x' = * x", "term is missing"),
            ("x' = x ** ", "whole number"),
            ("x' = 1,000*x", "begins with the name"),
        ] {
            let (said, _) = bad(text);
            assert!(said.contains(words), "{text}: {said}");
        }
    }

    #[test]
    fn an_equation_twice() {
        let sources = sources(&["x' = x", "y' = x, x' = y"]);
        let fault = parse(&sources).unwrap_err();
        assert_eq!(fault.words, "the equation of x is given twice");
        assert_eq!(point(&sources, fault.span.unwrap()), "  y' = x, x' = y\n          ^\n");
    }

    #[test]
    fn two_ways_of_naming() {
        let (words, at) = bad("x' = x2 + x");
        assert!(words.contains("not both"), "{words}");
        assert_eq!(at, "x2");
        assert_eq!(bad("x1' = x").1, "x");
    }

    /// The powers and the text of each signal of a set.
    fn signals(set: &str) -> Vec<(Vec<(Variable, u128)>, String)> {
        let sources = with_set(set);
        let typed = parse(&sources).unwrap_or_else(|fault| panic!("{set}: {fault:?}"));
        let signals = typed.given.unwrap().signals.into_iter();
        signals.map(|s| (s.powers, text_of(&sources, s.span).to_string())).collect()
    }

    /// The words of a refusal of a set, and what they point at, which is in the set.
    fn bad_set(set: &str) -> (String, String) {
        let sources = with_set(set);
        let fault = parse(&sources).expect_err(set);
        let span = fault.span.unwrap();
        assert_eq!(span.source, 1, "{set}");
        (fault.words, text_of(&sources, span).to_string())
    }

    #[test]
    fn a_set_is_read_as_products_are() {
        assert_eq!(
            signals("x^2, x y^2*x;y**3 # the last"),
            vec![
                (vec![(X, 2)], "x^2".into()),
                (vec![(X, 1), (Y, 2), (X, 1)], "x y^2*x".into()),
                (vec![(Y, 3)], "y**3".into())
            ]
        );
        assert_eq!(signals("x, x, x^0, x^99").len(), 4, "what breaks a rule is left to the planner");
        for empty in ["", "  ", "# nothing"] {
            assert_eq!(signals(empty), vec![], "{empty:?}");
        }
        assert_eq!(good("x' = y").given, None, "no set is not the empty set");
    }

    #[test]
    fn what_is_no_set() {
        for (set, words, at) in [
            ("1", "a number", "1"),
            ("2*x^2", "a number", "2"),
            ("x^2 3", "a number", "3"),
            ("-x^2", "a sign", "-"),
            ("x^2 + x^3", "a sign", "+"),
            ("x^2, u", "u is not known", "u"),
            ("x^2, xy", "x*y or x y", "xy"),
            ("sin(x)", "function", "sin"),
            ("w1 = x^2", "an equation", "="),
            ("x' = x", "an equation", "'"),
            ("S' = x", "an equation", "'"),
            ("{x^2}", "written without them", "{"),
            ("x^2)", "written without them", ")"),
            ("x^2/y", "fraction", "/"),
            ("x^-1", "negative power", "-"),
            ("x^y", "whole number", "y"),
            ("x^2^3", "a power of a power", "^"),
            ("x²", "with ^", "²"),
            ("x^2 $ y", "not read", "$"),
            ("^2", "missing before", "^"),
            ("x^2, *y", "missing before", "*"),
            (",", "missing here", ","),
            (", x^2", "missing here", ","),
            ("x^2,, x^3", "missing here", ","),
            ("x^2,", "missing here", ""),
            ("x^2*", "missing here", ""),
        ] {
            let (said, pointed) = bad_set(set);
            assert!(said.contains(words), "{set}: {said}");
            assert_eq!(pointed, at, "{set}");
        }
    }

    #[test]
    fn a_set_is_named_as_its_equations_are() {
        let (words, at) = bad_set("y^2, x2^2, x1");
        assert!(words.contains("not both"), "{words}");
        assert_eq!(at, "x2");
        let faulty = [with_set("1"), sources(&["y' = x +"])].concat();
        assert_eq!(parse(&faulty).unwrap_err().span.unwrap().source, 2, "the equations come first");
    }
}
