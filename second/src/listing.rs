//! The desktop tool's listing: which texts are readable, and what stands in them
//! (document 02, [7]; the grammar is written out in docs/LISTING.md).
//!
//! The reader goes through the text once and looks at one byte at a time. Whatever
//! it has begun can be ended somehow, so the first byte that it does not take is
//! the first where no readable listing goes on.

use crate::panel::{CARDS, MOST_LISTED_COEFFICIENT, VARIABLES};
use crate::setting::Setting;

const HEADING: &str = "Introduced variables:\n";

/// A name in a derivative line: a variable, counted from 1, or one of the new
/// ones, counted from 0.
#[derive(Clone, Copy, PartialEq, Eq, Debug)]
pub enum Name {
    Variable(usize),
    New(usize),
}

/// What a name line names: the exponents of x1, x2 and so on. They have any number
/// of digits; one that is too large for 64 bits is the largest that is not.
pub type Exponents = [u64; VARIABLES];

/// A term of a derivative line, with no name, one or two.
#[derive(Clone, PartialEq, Eq, Debug)]
pub struct Product {
    pub coefficient: i128,
    pub names: Vec<Name>,
}

/// A derivative line; a lone 0 is a line without terms.
#[derive(Clone, PartialEq, Eq, Debug)]
pub struct Line {
    pub left: Name,
    pub terms: Vec<Product>,
}

/// What stands in a readable text.
#[derive(Clone, PartialEq, Eq, Debug)]
pub struct Listing {
    pub names: Vec<Exponents>,
    pub lines: Vec<Line>,
}

impl Listing {
    /// The line of the text, from 1, that a derivative line is, counted from 0: the
    /// heading, the name lines and the blank line come before.
    pub fn line_in_text(&self, index: usize) -> usize {
        1 + self.names.len() + 1 + index + 1
    }
}

/// The place, from 1, of the first byte where no readable listing goes on; one past
/// the end where the text stops short.
#[derive(Clone, Copy, PartialEq, Eq, Debug)]
pub struct Unreadable(pub usize);

/// Reads a whole text. The setting has been checked before.
pub fn read(setting: Setting, text: &[u8]) -> Result<Listing, Unreadable> {
    let mut reader = Reader {
        n: setting.n as usize,
        new: 0,
        text,
        at: 0,
    };
    reader.bytes(HEADING)?;
    let mut names = Vec::new();
    while names.len() < CARDS && reader.next() == Some(b'w') {
        names.push(reader.name_line(names.len())?);
    }
    reader.bytes("\n")?;
    reader.new = names.len();
    let variables = (1..=reader.n).filter(|&i| !setting.marks.mark(i));
    let left = variables.map(Name::Variable);
    let mut lines = Vec::new();
    for left in left.chain((0..names.len()).map(Name::New)) {
        lines.push(reader.derivative_line(left)?);
    }
    match reader.next() {
        None => Ok(Listing { names, lines }),
        Some(_) => Err(reader.here()),
    }
}

struct Reader<'a> {
    n: usize,
    /// How many new names a term may have.
    new: usize,
    text: &'a [u8],
    /// How many bytes have been taken.
    at: usize,
}

impl Reader<'_> {
    fn next(&self) -> Option<u8> {
        self.text.get(self.at).copied()
    }

    /// That the next byte, or the end, is where no readable listing goes on.
    fn here(&self) -> Unreadable {
        Unreadable(self.at + 1)
    }

    /// Takes the next byte if it is this one.
    fn has(&mut self, byte: u8) -> bool {
        let has = self.next() == Some(byte);
        self.at += usize::from(has);
        has
    }

    /// Takes these bytes, all of them.
    fn bytes(&mut self, wanted: &str) -> Result<(), Unreadable> {
        for byte in wanted.bytes() {
            if !self.has(byte) {
                return Err(self.here());
            }
        }
        Ok(())
    }

    /// Takes a digit in a range.
    fn digit(&mut self, least: usize, most: usize) -> Result<usize, Unreadable> {
        let digit = match self.next() {
            Some(byte @ b'0'..=b'9') => usize::from(byte - b'0'),
            _ => return Err(self.here()),
        };
        if !(least..=most).contains(&digit) {
            return Err(self.here());
        }
        self.at += 1;
        Ok(digit)
    }

    fn variable(&mut self) -> Result<usize, Unreadable> {
        self.bytes("x")?;
        self.digit(1, self.n)
    }

    fn name_line(&mut self, number: usize) -> Result<Exponents, Unreadable> {
        self.bytes(&format!("w{number} = "))?;
        let mut named = [0_u64; VARIABLES];
        loop {
            let mut variable = self.variable()?;
            let mut exponent = 1;
            let mut goes_on = self.has(b'*');
            if goes_on && self.has(b'*') {
                exponent = self.exponent()?;
                goes_on = self.has(b'*');
            }
            variable -= 1;
            named[variable] = named[variable].saturating_add(exponent);
            if !goes_on {
                self.bytes("\n")?;
                return Ok(named);
            }
        }
    }

    fn exponent(&mut self) -> Result<u64, Unreadable> {
        let mut number = self.digit(1, 9)? as u64;
        while let Ok(digit) = self.digit(0, 9) {
            number = number.saturating_mul(10).saturating_add(digit as u64);
        }
        Ok(number)
    }

    fn derivative_line(&mut self, left: Name) -> Result<Line, Unreadable> {
        match left {
            Name::Variable(i) => self.bytes(&format!("x{i}' = "))?,
            Name::New(j) => self.bytes(&format!("w{j}' = "))?,
        }
        let mut terms = Vec::new();
        if !self.has(b'0') {
            let mut negative = self.has(b'-');
            terms.push(self.term(negative)?);
            while self.has(b' ') {
                negative = self.has(b'-');
                if !negative {
                    self.bytes("+")?;
                }
                self.bytes(" ")?;
                terms.push(self.term(negative)?);
            }
        }
        self.bytes("\n")?;
        Ok(Line { left, terms })
    }

    fn term(&mut self, negative: bool) -> Result<Product, Unreadable> {
        let mut size = 1;
        let mut names = Vec::new();
        let has_number = matches!(self.next(), Some(b'1'..=b'9'));
        if has_number {
            size = self.coefficient()?;
        }
        if !has_number || self.has(b'*') {
            names = self.names()?;
        }
        let coefficient = if negative { -size } else { size };
        Ok(Product { coefficient, names })
    }

    /// A digit that would make the number larger than a coefficient may be is not
    /// taken: any number before it ends well without it.
    fn coefficient(&mut self) -> Result<i128, Unreadable> {
        let mut number = self.digit(1, 9)? as i128;
        while matches!(self.next(), Some(b'0'..=b'9')) {
            let before = self.here();
            number = 10 * number + self.digit(0, 9)? as i128;
            if number > MOST_LISTED_COEFFICIENT {
                return Err(before);
            }
        }
        Ok(number)
    }

    fn names(&mut self) -> Result<Vec<Name>, Unreadable> {
        let first = self.name()?;
        if !self.has(b'*') {
            return Ok(vec![first]);
        }
        if self.has(b'*') {
            self.bytes("2")?;
            return Ok(vec![first, first]);
        }
        Ok(vec![first, self.name()?])
    }

    /// Without new names not even the w of one is readable.
    fn name(&mut self) -> Result<Name, Unreadable> {
        if self.new > 0 && self.has(b'w') {
            return Ok(Name::New(self.digit(0, self.new - 1)?));
        }
        Ok(Name::Variable(self.variable()?))
    }
}

#[cfg(test)]
mod tests {
    use super::*;
    use crate::marks::Marks;

    fn place(n: usize, text: &str) -> usize {
        match read(Setting::full(n, Marks::NONE), text.as_bytes()) {
            Ok(_) => 0,
            Err(Unreadable(place)) => place,
        }
    }

    /// The heading has 22 bytes, the blank line is the next, and `x1' = ` has six.
    #[test]
    fn places_count_from_1() {
        assert_eq!(place(1, ""), 1);
        assert_eq!(place(1, "introduced"), 1);
        assert_eq!(place(1, "Introduced variables:\n"), 23);
        assert_eq!(place(1, "Introduced variables:\n\n"), 24);
        assert_eq!(place(1, "Introduced variables:\n\nx1' = "), 30);
        assert_eq!(place(1, "Introduced variables:\n\nx1' = 0"), 31);
        assert_eq!(place(1, "Introduced variables:\n\nx1' = 0\n"), 0);
        assert_eq!(place(1, "Introduced variables:\n\nx1' = 0\n\n"), 32);
    }

    #[test]
    fn what_stands_there_is_read() {
        let text =
            "Introduced variables:\nw0 = x2**3*x1*x2\n\nx1' = -7 + 2*w0**2\nw0' = -x1*w0 - x3\n";
        let setting = Setting::full(3, Marks::of([2, 3]));
        let listing = read(setting, text.as_bytes()).unwrap();
        let (x1, x3, w0) = (Name::Variable(1), Name::Variable(3), Name::New(0));
        let product = |coefficient, names: &[Name]| Product {
            coefficient,
            names: names.to_vec(),
        };
        assert_eq!(listing.names, [[1, 4, 0, 0, 0, 0]]);
        let lines = [
            Line {
                left: x1,
                terms: vec![product(-7, &[]), product(2, &[w0, w0])],
            },
            Line {
                left: w0,
                terms: vec![product(-1, &[x1, w0]), product(-1, &[x3])],
            },
        ];
        assert_eq!(listing.lines, lines);
        assert_eq!([0, 1].map(|i| listing.line_in_text(i)), [4, 5]);
    }

    #[test]
    fn exponents_have_any_number_of_digits() {
        let named = |exponent: &str| {
            let text = format!("Introduced variables:\nw0 = x1**{exponent}\n\nw0' = 0\n");
            let setting = Setting::full(1, Marks::of([1]));
            read(setting, text.as_bytes()).unwrap().names[0][0]
        };
        assert_eq!(named("1"), 1);
        assert_eq!(named("18446744073709551615"), u64::MAX);
        assert_eq!(named("18446744073709551618"), u64::MAX);
        assert_eq!(named(&"9".repeat(3_000)), u64::MAX);
        assert_eq!(named("18446744073709551615*x1**3"), u64::MAX);
    }
}
