//! The desktop tool's listing, byte by byte (docs/LISTING.md). What is said of one is the planner's; it is read here too,
//! so that the words can name the line and the term that they are about, and so that a listing which the planner prints
//! is held to its wiring.

use crate::panel::{CARDS, LISTED_COEFFICIENT, VARIABLES};
use crate::typed::system::Powers;

/// A readable listing. Signals have the numbers of a patch: 1, the variables, then the new names.
#[derive(Debug, PartialEq)]
pub struct Listing {
    /// What each new name is, in number order.
    pub names: Vec<Powers>,
    /// The derivative lines, in the order of the text.
    pub lines: Vec<Line>,
}

#[derive(Debug, PartialEq)]
pub struct Line {
    pub left: usize,
    /// As written, unmerged; none for a lone 0.
    pub terms: Vec<Product>,
}

/// A term: coefficient times signal a times signal b. Signal 0 is the constant 1.
#[derive(Debug, Clone, Copy, PartialEq)]
pub struct Product {
    pub coefficient: i64,
    pub a: usize,
    pub b: usize,
}

impl Listing {
    /// The line of the text that names new name i, from 0. Lines count from 1.
    pub fn name_line(i: usize) -> usize {
        i + 2
    }

    /// The derivative line that is a line of the text, from 1.
    pub fn derivative_line(&self, line: usize) -> Option<&Line> {
        let blank = Listing::name_line(self.names.len());
        self.lines.get(line.checked_sub(blank + 1)?)
    }
}

/// The name of a signal in a listing for n variables. Of the constant 1 there is none.
pub fn name(n: usize, signal: usize) -> String {
    match signal.checked_sub(n + 1) {
        Some(new) => format!("w{new}"),
        None => format!("x{signal}"),
    }
}

/// Reads a listing for n variables, of which bit i - 1 of `marks` marks variable i as fed from outside. The fault is the
/// place, from 1, of the first byte where no readable listing goes on; it is one past the end where the text stops
/// short.
pub fn read(bytes: &[u8], n: usize, marks: u64) -> Result<Listing, usize> {
    let mut reader = Reader { bytes, at: 0, n, new: 0 };
    reader.text("Introduced variables:\n")?;
    let mut names = Vec::new();
    while names.len() < CARDS as usize && reader.next() == Some(b'w') {
        names.push(reader.name_line(names.len())?);
    }
    reader.text("\n")?;
    reader.new = names.len();
    let variables = (1..=n).filter(|i| marks >> (i - 1) & 1 == 0);
    let lefts = variables.chain(n + 1..=n + names.len());
    let lines = lefts.map(|left| reader.derivative_line(left)).collect::<Result<_, _>>()?;
    match reader.next() {
        Some(_) => reader.fault(),
        None => Ok(Listing { names, lines }),
    }
}

/// Where each rule begins, the byte that stands there decides which one it is; so the first byte that none takes is the
/// place of the fault.
struct Reader<'a> {
    bytes: &'a [u8],
    at: usize,
    n: usize,
    /// New names that a term may have.
    new: usize,
}

impl Reader<'_> {
    fn next(&self) -> Option<u8> {
        self.bytes.get(self.at).copied()
    }

    fn fault<T>(&self) -> Result<T, usize> {
        Err(self.at + 1)
    }

    /// Takes the byte where it stands there.
    fn takes(&mut self, byte: u8) -> bool {
        let stands = self.next() == Some(byte);
        self.at += usize::from(stands);
        stands
    }

    fn text(&mut self, text: &str) -> Result<(), usize> {
        match text.bytes().all(|byte| self.takes(byte)) {
            true => Ok(()),
            false => self.fault(),
        }
    }

    /// A digit from one to another.
    fn digit(&mut self, least: usize, most: usize) -> Result<usize, usize> {
        let digit = self.next().filter(u8::is_ascii_digit).map(|byte| usize::from(byte - b'0'));
        match digit.filter(|digit| (least..=most).contains(digit)) {
            Some(digit) => {
                self.at += 1;
                Ok(digit)
            }
            None => self.fault(),
        }
    }

    /// A number without a zero in front of it. A digit that takes it past the most, where there is one, is not taken; a
    /// number too large to hold stands at the largest that fits.
    fn number(&mut self, most: Option<u128>) -> Result<u128, usize> {
        let mut number = self.digit(1, 9)? as u128;
        while let Some(digit) = self.next().filter(u8::is_ascii_digit) {
            let longer = number.saturating_mul(10).saturating_add(u128::from(digit - b'0'));
            if most.is_some_and(|most| most < longer) {
                return self.fault();
            }
            number = longer;
            self.at += 1;
        }
        Ok(number)
    }

    /// `w0 = x1**2*x2`. A variable that stands twice has both its exponents.
    fn name_line(&mut self, number: usize) -> Result<Powers, usize> {
        self.text(&format!("w{number} = "))?;
        let mut powers = [0; VARIABLES];
        let mut more = true;
        while more {
            self.text("x")?;
            let variable = self.digit(1, self.n)?;
            let mut exponent = 1;
            more = self.takes(b'*');
            if more && self.takes(b'*') {
                exponent = self.number(None)?;
                more = self.takes(b'*');
            }
            let power: &mut u128 = &mut powers[variable - 1];
            *power = power.saturating_add(exponent);
        }
        self.text("\n")?;
        Ok(powers)
    }

    /// `x1' = x1*w0 + w1`.
    fn derivative_line(&mut self, left: usize) -> Result<Line, usize> {
        self.text(&format!("{}' = ", name(self.n, left)))?;
        let mut terms = Vec::new();
        if !self.takes(b'0') {
            let negative = self.takes(b'-');
            terms.push(self.term(negative)?);
            while self.takes(b' ') {
                let negative = self.takes(b'-');
                if !negative {
                    self.text("+")?;
                }
                self.text(" ")?;
                terms.push(self.term(negative)?);
            }
        }
        self.text("\n")?;
        Ok(Line { left, terms })
    }

    fn term(&mut self, negative: bool) -> Result<Product, usize> {
        let (mut coefficient, mut names) = (1, true);
        if self.next().is_some_and(|byte| byte.is_ascii_digit()) {
            coefficient = self.number(Some(LISTED_COEFFICIENT))? as i64;
            names = self.takes(b'*');
        }
        let (a, b) = if names { self.names()? } else { (0, 0) };
        Ok(Product { coefficient: if negative { -coefficient } else { coefficient }, a, b })
    }

    /// One name, a square or two names.
    fn names(&mut self) -> Result<(usize, usize), usize> {
        let a = self.name()?;
        if !self.takes(b'*') {
            return Ok((0, a));
        }
        if !self.takes(b'*') {
            return Ok((a, self.name()?));
        }
        self.text("2")?;
        Ok((a, a))
    }

    fn name(&mut self) -> Result<usize, usize> {
        if 0 < self.new && self.takes(b'w') {
            return Ok(self.n + 1 + self.digit(0, self.new - 1)?);
        }
        self.text("x")?;
        self.digit(1, self.n)
    }
}

#[cfg(test)]
pub mod tests {
    use super::*;

    /// Document 000's example, for x1' = x1^3 + x2^2, x2' = x1 + x2.
    pub const EXAMPLE: &str = "Introduced variables:\nw0 = x1**2\nw1 = x2**2\n\nx1' = x1*w0 + w1\nx2' = x1 + x2\n\
                               w0' = 2*x1*w1 + 2*w0**2\nw1' = 2*x1*x2 + 2*w1\n";

    fn product(coefficient: i64, a: usize, b: usize) -> Product {
        Product { coefficient, a, b }
    }

    #[test]
    fn the_example_of_document_000() {
        let listing = read(EXAMPLE.as_bytes(), 2, 0).unwrap();
        assert_eq!(listing.names, [[2, 0, 0, 0, 0, 0], [0, 2, 0, 0, 0, 0]]);
        let lines: Vec<_> = listing.lines.iter().map(|line| (line.left, &line.terms[..])).collect();
        assert_eq!(
            lines,
            [
                (1, &[product(1, 1, 3), product(1, 0, 4)][..]),
                (2, &[product(1, 0, 1), product(1, 0, 2)]),
                (3, &[product(2, 1, 4), product(2, 3, 3)]),
                (4, &[product(2, 1, 2), product(2, 0, 4)]),
            ]
        );
        assert_eq!(listing.derivative_line(7).unwrap().left, 3);
        assert_eq!([1, 3, 4, 9].map(|line| listing.derivative_line(line)), [None; 4]);
        assert_eq!([1, 2, 3, 4].map(|signal| name(2, signal)), ["x1", "x2", "w0", "w1"]);
    }

    /// The example with a text put in the place of another, and the place of the fault.
    fn fault(right: &str, wrong: &str) -> Option<usize> {
        let text = EXAMPLE.replacen(right, wrong, 1);
        assert_ne!(text, EXAMPLE);
        read(text.as_bytes(), 2, 0).err()
    }

    /// The place, from 1, so many bytes after the beginning of a text of the example.
    fn place(text: &str, after: usize) -> Option<usize> {
        Some(EXAMPLE.find(text).unwrap() + 1 + after)
    }

    #[test]
    fn every_prefix_stops_short() {
        for end in 0..EXAMPLE.len() {
            assert_eq!(read(&EXAMPLE.as_bytes()[..end], 2, 0), Err(end + 1));
        }
        assert!(read(EXAMPLE.as_bytes(), 2, 0).is_ok());
    }

    #[test]
    fn every_other_byte_is_a_fault_at_its_place_or_later() {
        for at in 0..EXAMPLE.len() {
            for byte in 0..=255 {
                let mut text = EXAMPLE.as_bytes().to_vec();
                text[at] = byte;
                if let Err(place) = read(&text, 2, 0) {
                    assert!(at < place && place <= text.len() + 1, "{at} {byte}");
                }
            }
        }
    }

    #[test]
    fn the_first_byte_where_none_goes_on() {
        for (right, wrong, expected) in [
            ("Intro", "intro", Some(1)),
            ("w0 = ", "w1 = ", place("w0", 1)),
            ("x1**2\n", "x3**2\n", place("x1**2", 1)),
            ("x1**2\n", "x0**2\n", place("x1**2", 1)),
            ("x1**2\n", "1\n", place("x1**2", 0)),
            ("x1**2\n", "x1**0\n", place("x1**2", 4)),
            ("x1**2\n", "x1**02\n", place("x1**2", 4)),
            ("x1**2\n", "x1**2**2\n", place("x1**2", 6)),
            ("x1**2\n", "w0*x1\n", place("x1**2", 0)),
            ("x1**2\n", "x1**2 \n", place("x1**2", 5)),
            ("x1**2\n", "x1**2\r\n", place("x1**2", 5)),
            ("\n\nx1'", "\nx1'", place("\nx1'", 0)),
            ("x1' = ", "x2' = ", place("x1' =", 1)),
            ("x1*w0 + w1", "0 + w1", place("x1*w0", 1)),
            ("x1*w0 + w1", "-0", place("x1*w0", 1)),
            ("x1*w0 + w1", "x1*w0 + 0", place("x1*w0", 8)),
            ("x1*w0 + w1", "x1*w0+ w1", place("x1*w0", 5)),
            ("x1*w0 + w1", "x1*w0 * w1", place("x1*w0", 6)),
            ("x1*w0 + w1", "x1*w0 +w1", place("x1*w0", 7)),
            ("x1*w0 + w1", "x1*w0 + w2", place("x1*w0", 9)),
            ("x1*w0 + w1", "x1*w0*w1", place("x1*w0", 5)),
            ("x1*w0 + w1", "x1**3", place("x1*w0", 4)),
            ("x1*w0 + w1", "x1**2*w1", place("x1*w0", 5)),
            ("x1*w0 + w1", "x1*2", place("x1*w0", 3)),
            ("x1*w0 + w1", "1000000001*x1", place("x1*w0", 9)),
            ("x1*w0 + w1", "10000000000", place("x1*w0", 10)),
            ("x1*w0 + w1", "", place("x1*w0", 0)),
            ("w1' = ", "x3' = ", place("w1' =", 0)),
        ] {
            assert_eq!(fault(right, wrong), expected, "{wrong}");
        }
        let longer = format!("{EXAMPLE}\n");
        assert_eq!(read(longer.as_bytes(), 2, 0), Err(EXAMPLE.len() + 1));
    }

    #[test]
    fn what_is_readable_and_may_still_be_wrong() {
        for (right, wrong) in [
            ("x1**2\n", "x1\n"),
            ("x1**2\n", "x1**1\n"),
            ("x1**2\n", "x1*x1*x2**3\n"),
            ("x1**2\n", "x1**99999999999999999999999999999999999999999999\n"),
            ("x1*w0 + w1", "0"),
            ("x1*w0 + w1", "-x1 - x1 + 1 - 1*w1"),
            ("x1*w0 + w1", "1000000000*w0*x1"),
            ("x1*w0 + w1", "w1**2"),
        ] {
            assert_eq!(fault(right, wrong), None, "{wrong}");
        }
        let names = |text: &str| read(EXAMPLE.replacen("x1**2\n", text, 1).as_bytes(), 2, 0).unwrap().names[0];
        assert_eq!(names("x1*x2*x1**3\n")[..2], [4, 1]);
        assert_eq!(names(&format!("x2*x1**{}*x1\n", "9".repeat(60)))[..2], [u128::MAX, 1]);
    }

    #[test]
    fn signals_have_no_line_and_only_named_names_are_known() {
        let fed = "Introduced variables:\n\nx1' = x1*x2\n";
        assert_eq!(read(fed.as_bytes(), 2, 2).unwrap().lines.len(), 1);
        assert_eq!(read(fed.as_bytes(), 2, 0), Err(fed.len() + 1), "the line of x2 is missing");
        assert_eq!(read(b"Introduced variables:\n\n", 1, 1), Ok(Listing { names: vec![], lines: vec![] }));
        assert_eq!(read(b"Introduced variables:\n\nx1' = w0\n", 1, 0), Err(30), "there is no new name");
        let names: String = (0..7).map(|i| format!("w{i} = x1**{}\n", i + 2)).collect();
        let seven = format!("Introduced variables:\n{names}\n");
        assert_eq!(read(seven.as_bytes(), 1, 0), Err(seven.find("w6").unwrap() + 1));
    }
}
