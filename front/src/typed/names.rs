//! The names of a system. Which names are known is settled before terms are read, so that a slip of the pen is told from
//! a name: a known one has an equation, is said to be a knob or a signal, or is one of those that need neither.

use crate::panel::VARIABLES;
use crate::typed::lexer::{tokens, Token, Word};
use crate::typed::parser::Typed;
use crate::typed::text::{Fault, Holds, Source, Span};

/// What a name stands for.
#[derive(Debug, Clone, Copy, PartialEq)]
pub enum Kind {
    /// It has an equation.
    Variable,
    /// It is set by hand and never moves during a run.
    Knob,
    /// It is fed from outside, and nothing is known of its slope.
    Signal,
}

impl Kind {
    pub fn word(self) -> &'static str {
        match self {
            Kind::Variable => "variable",
            Kind::Knob => "knob",
            Kind::Signal => "signal",
        }
    }
}

/// A name of the text.
#[derive(Debug, Clone, Copy, PartialEq)]
pub enum Variable {
    /// x, y, z, which are numbers 1 to 3.
    Letter(usize),
    /// x1, x2, .., as many as the box takes, each with its own number.
    Numbered(usize),
    /// Any other, by its place among them, from 0. Its number is one that is left.
    Other(usize),
}

/// The names without digits that need no equation.
pub const LETTERS: [&str; 3] = ["x", "y", "z"];

impl Variable {
    /// One that needs no equation.
    fn of(name: &str) -> Option<Variable> {
        let letter = LETTERS.iter().position(|&letter| letter == name).map(|i| Variable::Letter(i + 1));
        letter.or_else(|| (1..=VARIABLES).find(|&i| numbered(i) == name).map(Variable::Numbered))
    }

    /// The number that it has, whatever else is typed.
    pub fn own_number(self) -> Option<usize> {
        match self {
            Variable::Letter(i) | Variable::Numbered(i) => Some(i),
            Variable::Other(_) => None,
        }
    }
}

fn numbered(i: usize) -> String {
    format!("x{i}")
}

/// The number of a name like w1, which a plan gives its new signals.
pub fn wired(name: &str) -> Option<u32> {
    let number = name.strip_prefix('w')?.parse().ok()?;
    (0 < number && format!("w{number}") == name).then_some(number)
}

/// A name that an option says to be a knob or a signal.
#[derive(Debug, Clone, PartialEq)]
pub struct Said {
    pub name: Variable,
    pub kind: Kind,
    pub span: Span,
}

/// The names that are known.
#[derive(Debug, Clone, PartialEq, Default)]
pub struct Names {
    /// Those beside x, y, z and x1, x2, ..: first in the order of their equations, then as they are said.
    pub others: Vec<String>,
    pub said: Vec<Said>,
}

impl Names {
    pub fn of(sources: &[Source]) -> Result<Names, Fault> {
        let mut names = Names::default();
        let all = || sources.iter().enumerate();
        for (number, source) in all().filter(|(_, source)| source.holds == Holds::Equations) {
            names.begin_equations(&tokens(number, source))?;
        }
        for (number, source) in all() {
            if let Holds::Names(kind) = source.holds {
                names.are_said(kind, &tokens(number, source))?;
            }
        }
        Ok(names)
    }

    /// A prime stands nowhere but after the name that begins an equation.
    fn begin_equations(&mut self, tokens: &[Token]) -> Result<(), Fault> {
        for pair in tokens.windows(2) {
            if let (Word::Name(name), Word::Prime) = (&pair[0].word, &pair[1].word) {
                self.enter(name, pair[0].span)?;
            }
        }
        Ok(())
    }

    /// Reads names with a comma between each two.
    fn are_said(&mut self, kind: Kind, tokens: &[Token]) -> Result<(), Fault> {
        if tokens.len() == 1 {
            return Err(Fault::nowhere(format!("no name is said to be a {0}, as in --{0} u", kind.word())));
        }
        for pair in tokens.chunks(2) {
            let name = match &pair[0].word {
                Word::Name(name) => self.enter(name, pair[0].span)?,
                Word::Break | Word::End => return Err(Fault::at(pair[0].span, "a name is missing here")),
                _ => return Err(Fault::at(pair[0].span, NO_NAME)),
            };
            self.is_said(name, kind, pair[0].span)?;
            match pair.get(1) {
                Some(Token { word: Word::Name(_), span }) => {
                    return Err(Fault::at(*span, "a comma is missing before this name"))
                }
                Some(Token { word: Word::Break | Word::End, .. }) | None => {}
                Some(other) => return Err(Fault::at(other.span, NO_NAME)),
            }
        }
        Ok(())
    }

    fn is_said(&mut self, name: Variable, kind: Kind, span: Span) -> Result<(), Fault> {
        match self.said.iter().find(|said| said.name == name) {
            None => self.said.push(Said { name, kind, span }),
            Some(earlier) if earlier.kind == kind => {}
            Some(_) => {
                let words = format!(
                    "{} is said to be a knob and a signal: a knob never moves during a run, and a signal does",
                    self.text(name)
                );
                return Err(Fault::at(span, words));
            }
        }
        Ok(())
    }

    fn enter(&mut self, name: &str, span: Span) -> Result<Variable, Fault> {
        if let Some(known) = self.look(name) {
            return Ok(known);
        }
        if self.others.len() == VARIABLES {
            return Err(too_many(span));
        }
        self.others.push(name.into());
        Ok(Variable::Other(self.others.len() - 1))
    }

    /// The variable of a name that is known.
    pub fn look(&self, name: &str) -> Option<Variable> {
        let other = || self.others.iter().position(|other| other == name).map(Variable::Other);
        Variable::of(name).or_else(other)
    }

    pub fn text(&self, name: Variable) -> String {
        match name {
            Variable::Letter(i) => LETTERS[i - 1].into(),
            Variable::Numbered(i) => numbered(i),
            Variable::Other(i) => self.others[i].clone(),
        }
    }

    /// What an option says of a name.
    pub fn said_of(&self, name: Variable) -> Option<Kind> {
        self.said.iter().find(|said| said.name == name).map(|said| said.kind)
    }

    /// The names that are known, in words.
    pub fn listed(&self) -> String {
        let free = format!("{}, {} to {}", LETTERS.join(", "), numbered(1), numbered(VARIABLES));
        self.others.iter().cloned().chain([free]).collect::<Vec<_>>().join(", ")
    }

    /// The known names that a name which is not known is a run of, the longest first where several begin it.
    pub fn factors(&self, name: &str) -> Option<Vec<String>> {
        let mut known: Vec<String> = self.others.clone();
        known.extend(LETTERS.map(String::from));
        known.extend((1..=VARIABLES).map(numbered));
        let (mut factors, mut rest) = (Vec::new(), name);
        while !rest.is_empty() {
            let factor = known.iter().filter(|factor| rest.starts_with(factor.as_str())).max_by_key(|f| f.len())?;
            factors.push(factor.clone());
            rest = &rest[factor.len()..];
        }
        Some(factors)
    }

    /// Refuses what is said of a name where the text says otherwise, or nothing.
    pub fn fit(&self, typed: &Typed) -> Result<(), Fault> {
        for said in &self.said {
            let (name, kind) = (self.text(said.name), said.kind);
            let equation = typed.equations.iter().find(|equation| equation.left == said.name);
            // An equation without terms says of a knob what a knob is; so a printed wiring can be typed again.
            if let Some(equation) = equation.filter(|e| kind == Kind::Signal || !e.terms.is_empty()) {
                let why = match kind {
                    Kind::Signal => "a signal fed from outside, which has no equation",
                    _ => "a knob, which never moves",
                };
                let words = format!("{name} is said to be {why}, and here is its equation; leave one of the two out");
                return Err(Fault::at(equation.span, words));
            }
            if !typed.all_names().any(|(other, _)| other == said.name) {
                let words = format!("{name} is said to be a {}, and no term uses it; leave it out", kind.word());
                return Err(Fault::at(said.span, words));
            }
        }
        Ok(())
    }
}

/// Points at a name that has no number left.
pub fn too_many(span: Span) -> Fault {
    Fault::at(
        span,
        format!("one name too many: the box takes up to {VARIABLES}, variables, knobs and signals together"),
    )
}

const NO_NAME: &str =
    "this is in no name: a name is a letter and then letters, digits and underscores, and names have \
                       commas between them";

#[cfg(test)]
mod tests {
    use super::*;
    use crate::typed::parser::parse;
    use crate::typed::text::text_of;

    fn sources(text: &str, said: &[(Kind, &str)]) -> Vec<Source> {
        let said = said.iter().map(|&(kind, names)| Source::argument(Holds::Names(kind), names));
        [Source::argument(Holds::Equations, text)].into_iter().chain(said).collect()
    }

    fn names(text: &str, said: &[(Kind, &str)]) -> Names {
        Names::of(&sources(text, said)).unwrap()
    }

    /// The words of a refusal, and what they point at.
    fn bad(text: &str, said: &[(Kind, &str)]) -> (String, String) {
        let sources = sources(text, said);
        let fault = parse(&sources).expect_err(text);
        let pointed = fault.span.map_or(String::new(), |span| text_of(&sources, span).to_string());
        (fault.words, pointed)
    }

    use Kind::{Knob, Signal};

    #[test]
    fn names_come_as_their_equations_and_then_as_they_are_said() {
        let names = names("I' = 2 S I, S' = -2 S I, x' = 1 # J'", &[(Signal, "u"), (Knob, "a, x2,b"), (Signal, "u")]);
        assert_eq!(names.others, ["I", "S", "u", "a", "b"]);
        assert_eq!(names.look("S"), Some(Variable::Other(1)));
        assert_eq!(names.look("x2"), Some(Variable::Numbered(2)));
        assert_eq!(names.look("z"), Some(Variable::Letter(3)));
        assert_eq!(["J", "s", "x7", "x0", "x01", "w1", ""].map(|name| names.look(name)), [None; 7]);
        let said: Vec<_> = names.said.iter().map(|said| (names.text(said.name), said.kind)).collect();
        let expected = [("u", Signal), ("a", Knob), ("x2", Knob), ("b", Knob)];
        assert_eq!(said, expected.map(|(name, kind)| (name.to_string(), kind)));
        assert_eq!(names.listed(), "I, S, u, a, b, x, y, z, x1 to x6");
    }

    #[test]
    fn no_more_names_than_the_box_takes() {
        let six = "a' = 1, b' = 1, c' = 1, d' = 1, e' = f";
        assert_eq!(names(six, &[(Knob, "f")]).others.len(), 6);
        let (words, at) = bad(six, &[(Knob, "f, g")]);
        assert_eq!(words, "one name too many: the box takes up to 6, variables, knobs and signals together");
        assert_eq!(at, "g");
        assert_eq!(bad(&format!("{six}, f' = 1, g' = 1"), &[]).1, "g");
    }

    #[test]
    fn any_letters_digits_and_underscores() {
        for name in ["theta", "x_1", "x7", "X", "θ", "a2b_", "w1", "d"] {
            assert_eq!(names(&format!("{name}' = 1"), &[]).others, [name]);
            assert_eq!(names("", &[(Knob, name)]).others, [name]);
        }
    }

    #[test]
    fn what_is_no_list_of_names() {
        for (said, words, at) in [
            ("", "no name is said to be a signal, as in --signal u", ""),
            (" # u", "no name is said", ""),
            ("u,", "missing here", ""),
            (",u", "missing here", ","),
            ("u v", "comma is missing", "v"),
            ("2", "in no name", "2"),
            ("2u", "in no name", "2"),
            ("_u", "in no name", "_"),
            ("u^2", "in no name", "^"),
            ("u'", "in no name", "'"),
            ("-u", "in no name", "-"),
        ] {
            let (fault, pointed) = bad("x' = x*u", &[(Signal, said)]);
            assert!(fault.contains(words), "{said}: {fault}");
            assert_eq!(pointed, at, "{said}");
        }
    }

    #[test]
    fn what_is_said_fits_the_equations() {
        let (words, at) = bad("x' = x*u", &[(Signal, "u"), (Knob, "u")]);
        assert!(words.starts_with("u is said to be a knob and a signal"), "{words}");
        assert_eq!(at, "u");
        let (words, at) = bad("x' = x*u, u' = 0", &[(Signal, "u")]);
        assert!(words.starts_with("u is said to be a signal fed from outside, which has no equation"), "{words}");
        assert_eq!(at, "u");
        let (words, at) = bad("x' = x*y, y' = x", &[(Knob, "y")]);
        assert!(words.starts_with("y is said to be a knob, which never moves, and here is its equation"), "{words}");
        assert_eq!(at, "y");
        let (words, at) = bad("x' = x*y", &[(Knob, "y, a")]);
        assert_eq!(words, "a is said to be a knob, and no term uses it; leave it out");
        assert_eq!(at, "a");
        assert!(parse(&sources("x' = x*a, a' = 0", &[(Knob, "a")])).is_ok(), "it says the same");
        assert!(parse(&sources("x' = x*a*u", &[(Knob, "a"), (Signal, "u, u")])).is_ok());
    }

    #[test]
    fn names_that_stand_together() {
        let names = names("S' = 1, I' = 1, theta' = 1", &[]);
        let factors = |name| names.factors(name).map(|factors| factors.join(" "));
        assert_eq!(factors("SI").unwrap(), "S I");
        assert_eq!(factors("xx12").as_deref(), None);
        assert_eq!(factors("x1x2").unwrap(), "x1 x2");
        assert_eq!(factors("thetaS").unwrap(), "theta S");
        assert_eq!(factors("SJ"), None);
    }

    #[test]
    fn numbers_of_new_signals() {
        assert_eq!(["w1", "w12"].map(wired), [Some(1), Some(12)]);
        assert_eq!(["w", "w0", "w01", "W1", "w1a", "w+1", "w99999999999"].map(wired), [None; 7]);
    }
}
