//! The grammar of docs/LISTING.md as a shape that texts can have, and the place of
//! code 10 by its definition: what can follow a text is a shape again, and a byte is
//! the first where no readable listing goes on when nothing can follow it.
//!
//! The ways of reading that are hasty with the grammar change the shape.

use crate::listing_ways::Way;
use crate::marks::Marks;
use crate::panel::{CARDS, VARIABLES};
use std::rc::Rc;

/// A set of texts.
#[derive(PartialEq, Debug)]
pub enum Shape {
    /// No text at all.
    Nothing,
    /// The empty text alone.
    Empty,
    /// One byte from the first to the last.
    Byte(u8, u8),
    Then(Rc<Shape>, Rc<Shape>),
    Either(Rc<Shape>, Rc<Shape>),
    Many(Rc<Shape>),
}

fn byte(first: u8, last: u8) -> Rc<Shape> {
    Rc::new(Shape::Byte(first, last))
}

pub fn then(first: Rc<Shape>, second: Rc<Shape>) -> Rc<Shape> {
    match (&*first, &*second) {
        (Shape::Nothing, _) | (_, Shape::Nothing) => Rc::new(Shape::Nothing),
        (Shape::Empty, _) => second,
        (_, Shape::Empty) => first,
        _ => Rc::new(Shape::Then(first, second)),
    }
}

pub fn either(first: Rc<Shape>, second: Rc<Shape>) -> Rc<Shape> {
    match (&*first, &*second) {
        (Shape::Nothing, _) => second,
        (_, Shape::Nothing) => first,
        _ => Rc::new(Shape::Either(first, second)),
    }
}

fn many(shape: Rc<Shape>) -> Rc<Shape> {
    Rc::new(Shape::Many(shape))
}

fn nothing() -> Rc<Shape> {
    Rc::new(Shape::Nothing)
}

fn empty() -> Rc<Shape> {
    Rc::new(Shape::Empty)
}

fn maybe(shape: Rc<Shape>) -> Rc<Shape> {
    either(shape, empty())
}

fn text(text: &str) -> Rc<Shape> {
    let bytes = text.bytes().map(|b| byte(b, b)).rev();
    bytes.fold(empty(), |behind, first| then(first, behind))
}

fn all(shapes: impl IntoIterator<Item = Rc<Shape>>) -> Rc<Shape> {
    let shapes: Vec<Rc<Shape>> = shapes.into_iter().collect();
    let behind = |behind, first: &Rc<Shape>| then(first.clone(), behind);
    shapes.iter().rev().fold(empty(), behind)
}

fn any(shapes: impl IntoIterator<Item = Rc<Shape>>) -> Rc<Shape> {
    shapes.into_iter().fold(nothing(), either)
}

impl Shape {
    /// Whether the empty text has it.
    fn can_end(&self) -> bool {
        match self {
            Shape::Nothing | Shape::Byte(..) => false,
            Shape::Empty | Shape::Many(_) => true,
            Shape::Then(first, second) => first.can_end() && second.can_end(),
            Shape::Either(first, second) => first.can_end() || second.can_end(),
        }
    }

    /// What can follow this byte. Where nothing can it is Nothing itself, for no part
    /// of a shape is without a text unless a hasty way has made a dead end.
    fn after(self: &Rc<Shape>, next: u8) -> Rc<Shape> {
        match &**self {
            Shape::Nothing | Shape::Empty => nothing(),
            Shape::Byte(first, last) => match (first..=last).contains(&&next) {
                true => empty(),
                false => nothing(),
            },
            Shape::Then(first, second) => {
                let within = then(first.after(next), second.clone());
                match first.can_end() {
                    true => either(within, second.after(next)),
                    false => within,
                }
            }
            Shape::Either(first, second) => either(first.after(next), second.after(next)),
            Shape::Many(shape) => then(shape.after(next), self.clone()),
        }
    }

    /// The first place, from 1, where no text of this shape goes on; one past the end
    /// where the text stops short.
    pub fn place(self: &Rc<Shape>, bytes: &[u8]) -> Option<usize> {
        let mut rest = self.clone();
        for (index, &next) in bytes.iter().enumerate() {
            rest = rest.after(next);
            if *rest == Shape::Nothing {
                return Some(index + 1);
            }
        }
        (!rest.can_end()).then_some(bytes.len() + 1)
    }
}

/// A panel, and the way in which its listings are read.
#[derive(Clone, Copy, PartialEq, Eq, Hash, Debug)]
pub struct Grammar {
    pub n: usize,
    pub marks: u64,
    pub way: Way,
}

impl Grammar {
    fn is(&self, way: Way) -> bool {
        self.way == way
    }

    /// The first shape, or in this way the second.
    fn unless(&self, way: Way, right: Rc<Shape>, hasty: Rc<Shape>) -> Rc<Shape> {
        match self.is(way) {
            true => hasty,
            false => right,
        }
    }

    /// The shape, and in this way something else too.
    fn also(&self, way: Way, right: Rc<Shape>, more: Rc<Shape>) -> Rc<Shape> {
        match self.is(way) {
            true => either(right, more),
            false => right,
        }
    }

    fn newline(&self) -> Rc<Shape> {
        self.also(Way::CarriageReturns, text("\n"), text("\r\n"))
    }

    /// listing = heading { name-line } NL { derivative-line }
    pub fn listing(&self) -> Rc<Shape> {
        let heading = text("Introduced variables:");
        let heading = self.also(Way::AnyHeading, heading, text("introduced variables:"));
        let heading = then(heading, self.newline());
        let whole = then(heading, self.names_from(0));
        self.also(
            Way::EndsWithBlankLines,
            whole.clone(),
            then(whole, text("\n")),
        )
    }

    /// Name lines from this number on, the blank line, and what is behind it.
    fn names_from(&self, number: usize) -> Rc<Shape> {
        let blank = self.newline();
        let blank = self.unless(Way::BlankLineIsNotNeeded, blank.clone(), maybe(blank));
        let end = then(blank, self.lines(number));
        let most = match self.way {
            Way::SevenNames => CARDS + 1,
            Way::FiveNames => CARDS - 1,
            _ => CARDS,
        };
        if number < most {
            let behind = self.names_from(number + 1);
            return either(end, then(self.name_line(number), behind));
        }
        // Hasty ones see the w of a line too many, and then its digit.
        let dead_end = all([text("w"), byte(1, 0)]);
        self.also(Way::SeventhIsRefusedAtItsDigit, end, dead_end)
    }

    /// name-line = "w" digit " = " power { "*" power } NL
    fn name_line(&self, number: usize) -> Rc<Shape> {
        let digit = text(&number.to_string());
        let digit = self.unless(Way::NamesInAnyOrder, digit, byte(b'0', b'5'));
        let powers = all([self.power(), many(then(text("*"), self.power()))]);
        let powers = self.also(Way::OneIsNamed, powers, text("1"));
        all([text("w"), digit, text(" = "), powers, self.newline()])
    }

    /// power = variable [ "**" exponent ]
    fn power(&self) -> Rc<Shape> {
        let digits = byte(b'0', b'9');
        let first = self.unless(Way::ExponentFromZero, byte(b'1', b'9'), digits.clone());
        let first = self.unless(Way::ExponentOneIsNotRead, first, byte(b'2', b'9'));
        let more = match self.way {
            Way::ExponentOfTwoDigits => maybe(digits),
            _ => many(digits),
        };
        let exponent = match self.way {
            Way::ExponentsUpTo54 => any([
                byte(b'1', b'9'),
                then(byte(b'1', b'4'), byte(b'0', b'9')),
                then(text("5"), byte(b'0', b'4')),
            ]),
            _ => then(first, more),
        };
        let mark = self.also(Way::CaretIsRead, text("**"), text("^"));
        let named = self.variable(Way::SignalsAreUnknownInNames);
        then(named, maybe(then(mark, exponent)))
    }

    /// The x and digit of a variable; in that way a signal is none.
    fn variable(&self, without_signals: Way) -> Rc<Shape> {
        let most = match self.way {
            Way::SixVariables => VARIABLES,
            _ => self.n,
        };
        let is_known = |i: &usize| !(self.is(without_signals) && Marks(self.marks).mark(*i));
        let digits = (1..=most).filter(is_known).map(|i| text(&i.to_string()));
        let zero = self.unless(Way::FromZero, nothing(), text("0"));
        then(text("x"), either(any(digits), zero))
    }

    /// The derivative lines beside so many new names.
    fn lines(&self, new: usize) -> Rc<Shape> {
        let is_line = |i: &usize| self.is(Way::SignalsHaveLines) || !Marks(self.marks).mark(*i);
        let variables = (1..=self.n).filter(is_line).map(|i| format!("x{i}"));
        let names = (0..new).map(|j| format!("w{j}"));
        let lefts: Vec<String> = match self.way {
            Way::NamesComeFirst => names.chain(variables).collect(),
            _ => variables.chain(names).collect(),
        };
        let count = lefts.len();
        all(lefts.iter().enumerate().map(|(index, left)| {
            let end = match (self.way, index + 1 == count) {
                (Way::LastNewlineIsNotNeeded, true) => maybe(text("\n")),
                _ => self.newline(),
            };
            let line = all([text(left), text("' = "), self.right(new), end]);
            self.unless(Way::LinesMayBeMissing, line.clone(), maybe(line))
        }))
    }

    /// right = "0" | [ "-" ] term { " " sign " " term }
    fn right(&self, new: usize) -> Rc<Shape> {
        let term = self.term(new);
        let sign = either(text("+"), text("-"));
        let in_front = self.also(Way::PlusInFront, text("-"), text("+"));
        let in_front = self.also(Way::SpaceBehindMinus, in_front, text("- "));
        let next = self.also(
            Way::MinusBehindSign,
            term.clone(),
            then(text("-"), term.clone()),
        );
        let next = self.also(Way::ZeroInASum, next, text("0"));
        let more = many(all([text(" "), sign, text(" "), next]));
        let sum = all([maybe(in_front), term, more]);
        let zero = self.also(Way::NegativeZero, text("0"), text("-0"));
        let right = either(zero, sum);
        self.also(Way::EmptyRightSide, right, empty())
    }

    /// term = coefficient | names | coefficient "*" names
    fn term(&self, new: usize) -> Rc<Shape> {
        let (number, names) = (self.coefficient(), self.names(new));
        let both = all([number.clone(), text("*"), names.clone()]);
        let term = any([number.clone(), names.clone(), both]);
        let behind = all([names.clone(), text("*"), number.clone()]);
        let term = self.also(Way::NumberBehind, term, behind);
        let numbers = all([number.clone(), text("*"), number.clone(), text("*"), names]);
        self.also(Way::TwoNumbers, term, numbers)
    }

    /// coefficient = "1".."9" { "0".."9" }, of at most 1,000,000,000
    fn coefficient(&self) -> Rc<Shape> {
        let digit = || byte(b'0', b'9');
        let first = self.unless(Way::LeadingZero, byte(b'1', b'9'), digit());
        let up_to = |count: usize| {
            let more = (1..count).fold(empty(), |more, _| maybe(then(digit(), more)));
            then(first.clone(), more)
        };
        match self.way {
            Way::AnyCoefficient => then(first.clone(), many(digit())),
            Way::CoefficientOfTenDigits => up_to(10),
            Way::CoefficientBelowTheMost => up_to(9),
            Way::AMillionAtMost => either(up_to(6), text("1000000")),
            Way::CoefficientOneIsNotRead => {
                let larger = either(byte(b'2', b'9'), then(byte(b'1', b'9'), digit()));
                let up_to_nine =
                    (0..7).fold(larger, |less, _| either(less.clone(), then(less, digit())));
                either(up_to_nine, text("1000000000"))
            }
            _ => either(up_to(9), text("1000000000")),
        }
    }

    /// names = name | name "**2" | name "*" name
    fn names(&self, new: usize) -> Rc<Shape> {
        let name = self.name(new);
        let exponent = self.also(Way::ExponentOneInATerm, text("2"), text("1"));
        let digits = then(byte(b'1', b'9'), many(byte(b'0', b'9')));
        let exponent = self.unless(Way::AnyExponentInATerm, exponent, digits);
        let square = all([name.clone(), text("**"), exponent]);
        let two = all([name.clone(), text("*"), name.clone()]);
        let names = any([name.clone(), square, two.clone()]);
        let names = self.unless(
            Way::SquaresAreNotRead,
            names,
            either(name.clone(), two.clone()),
        );
        let three = all([two, text("*"), name]);
        self.also(Way::ThreeNames, names, three)
    }

    /// name = variable | new
    fn name(&self, new: usize) -> Rc<Shape> {
        let variable = self.variable(Way::SignalsAreUnknownInTerms);
        let known = match self.way {
            Way::AllNewAreKnown => CARDS,
            _ => new,
        };
        let digits = any((0..known).map(|j| text(&j.to_string())));
        let named = then(text("w"), digits);
        // Hasty ones see the w even where nothing is named, and then its digit.
        let dead_end = all([text("w"), byte(1, 0)]);
        let named = self.also(Way::NoNewIsRefusedAtItsDigit, named, dead_end);
        either(variable, named)
    }
}
