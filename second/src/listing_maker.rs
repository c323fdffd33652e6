//! The stories of reading in a random batch: listings of random systems in a random
//! hand, right ones, and such as are changed in a line, in a name or in some bytes
//! (document 02, [7]).

use crate::batch::{Case, Operation, MOST_CASE_GIVEN};
use crate::degree_rows::refused;
use crate::maker::{Ask, Maker, Mix};
use crate::mark_maker::beyond;
use crate::marks::Marks;
use crate::monomial::Monomial;
use crate::page::{powers, term, Choice, Page};
use crate::panel::{MOST_LISTED_COEFFICIENT, MOST_SET_EXPONENT, MOST_TEXT};
use crate::random::Random;
use crate::records::write_terms;
use crate::system::{Set, System};
use crate::systems::{self, Kit, Outside};
use crate::walk::Rules;

/// Reading alone. A quarter of the texts are right, and as many are unreadable
/// because of a byte or two.
pub const LISTINGS: Mix = Mix {
    asks: &[Ask::Wire],
    given: &[Ask::Wire],
    outside: Outside::NowAndThen,
    kit: Kit::Full,
    rules: Rules::BEFORE_CHEAP_FIRST,
    shares: &[
        (24, Maker::right_listing),
        (16, Maker::false_listing),
        (24, Maker::damaged_listing),
        (5, Maker::moved_lines),
        (9, Maker::names_changed),
        (5, Maker::unknown_name),
        (5, Maker::number_changed),
        (2, Maker::long_listing),
        (10, Maker::refused_before_the_text),
    ],
};

/// Numbers next to the limits of coefficients and exponents, and such as are small
/// when cut to fewer bits.
const NUMBERS: [&str; 18] = [
    "0",
    "1",
    "2",
    "3",
    "02",
    "54",
    "55",
    "256",
    "65538",
    "999999999",
    "1000000000",
    "1000000001",
    "2000000000",
    "4294967296",
    "4294967298",
    "10000000000",
    "18446744073709551618",
    "340282366920938463463374607431768211458",
];

/// Bytes that stand in listings, and a few that do not.
const BYTES: &[u8] = b"0123456789xw*+-' =\n\n  ::^/.,\r\t\0\xffXWIa";

/// A listing that is being made, and what it is a listing of.
struct Draft {
    system: System,
    page: Page,
}

impl Draft {
    fn case(&self) -> Case {
        self.with(self.page.write())
    }

    /// The same with another text, which has no more bytes than a batch takes.
    fn with(&self, mut text: Vec<u8>) -> Case {
        text.truncate(MOST_CASE_GIVEN);
        let terms = write_terms(&self.system.terms);
        Case::read(self.system.n as u64, terms, text).kit_of(&self.system)
    }
}

/// One term's monomial in a random hand: as one product, or in parts that are
/// products of their own.
fn parts(random: &mut Random, choice: &Choice) -> Vec<String> {
    let most = MOST_LISTED_COEFFICIENT as i64;
    let mut sizes = vec![choice.coefficient];
    if random.chance(25) {
        let part = random.pick(&[1, -1, 2, most, -most, choice.coefficient / 2]);
        let rest = choice.coefficient - part;
        if part != 0 && rest != 0 && rest.abs() <= most {
            sizes = vec![part, rest];
        }
    }
    let mut terms = Vec::new();
    for size in sizes {
        let Some(names) = choice
            .products
            .get(random.below(choice.products.len().max(1)))
        else {
            continue;
        };
        let mut names = names.clone();
        if random.chance(40) {
            names.reverse();
        }
        let mut written = term(size, &names);
        if let ([first, second], true) = (&names[..], random.chance(20)) {
            // A square as a product.
            written = written.replace(&format!("{first}**2"), &format!("{first}*{second}"));
        }
        if size == 1 && !names.is_empty() && random.chance(10) {
            written = format!("1*{written}");
        }
        terms.push(written);
    }
    terms
}

/// A line in a random hand. Now and then something comes and goes.
fn hand(random: &mut Random, n: usize, choices: Vec<Choice>) -> Vec<String> {
    let mut terms: Vec<String> = Vec::new();
    for choice in &choices {
        terms.extend(parts(random, choice));
    }
    if random.chance(15) {
        let i = random.between(1, n);
        let product = random.pick(&["1", "7", "1000000000"]).to_string() + &format!("*x{i}");
        terms.push(product.clone());
        terms.push(format!("-{product}"));
    }
    if random.chance(60) {
        random.shuffle(&mut terms);
    }
    terms
}

/// A name line's right side in a random hand.
fn named(random: &mut Random, monomial: Monomial) -> String {
    if random.chance(70) {
        return powers(monomial);
    }
    let mut factors = Vec::new();
    for (i, exponent) in (1..).zip(monomial.0).filter(|(_, exponent)| *exponent > 0) {
        let first = random.between(1, exponent.into()) as u16;
        for part in [first, exponent - first] {
            match part {
                0 => {}
                1 if random.chance(50) => factors.push(format!("x{i}")),
                _ => factors.push(format!("x{i}**{part}")),
            }
        }
    }
    random.shuffle(&mut factors);
    factors.join("*")
}

/// One or two edits of a byte each.
fn damage(random: &mut Random, text: &mut Vec<u8>) {
    for _ in 0..random.pick(&[1, 1, 1, 2]) {
        let at = random.below(text.len() + 1);
        let byte = random.pick(BYTES);
        match random.below(6) {
            0 => text.truncate(at),
            1 if at < text.len() => {
                text.remove(at);
            }
            2 if at + 1 < text.len() => text.swap(at, at + 1),
            3 | 4 if at < text.len() => text[at] = byte,
            _ => text.insert(at, byte),
        }
    }
}

impl Maker {
    /// A random system with a set that is mostly quadratic.
    fn listed_set(&mut self) -> (System, Set) {
        match self.random.below(10) {
            0..=2 => self.closed_set(),
            3..=5 => self.set_with_system(),
            6 | 7 => {
                let (system, found) = self.planned();
                let at = self.random.below(found.len());
                (system, found[at].clone())
            }
            8 => systems::decided_by_cancelling(&mut self.random),
            _ => self.system_and_set(),
        }
    }

    /// Its listing, the names in any order; now and then of a junior kit.
    fn draft(&mut self) -> Draft {
        let (mut system, set) = self.listed_set();
        if self.random.chance(20) {
            system = Kit::Junior.limit_near(&mut self.random, system, &set);
        }
        let mut new: Vec<Monomial> = set.into_iter().collect();
        if self.random.chance(60) {
            self.random.shuffle(&mut new);
        }
        let random = &mut self.random;
        let mut page = Page::by(&system, &new, |choices| hand(random, system.n, choices));
        page.names = new.iter().map(|&m| named(random, m)).collect();
        Draft { system, page }
    }

    /// A draft that has a derivative line.
    fn draft_with_lines(&mut self) -> Draft {
        loop {
            let draft = self.draft();
            if !draft.page.rows.is_empty() {
                return draft;
            }
        }
    }

    fn right_listing(&mut self) {
        let case = self.draft().case();
        self.cases.push(case);
    }

    /// One line changed: a term more, fewer, or another.
    fn false_listing(&mut self) {
        let mut draft = self.draft_with_lines();
        let rows = &mut draft.page.rows;
        let at = self.random.below(rows.len());
        let other = self.random.below(rows.len());
        let from = rows[other].terms.clone();
        let terms = &mut rows[at].terms;
        let n = draft.system.n;
        let more = match self.random.below(3) {
            0 => "1".to_string(),
            1 => format!("-x{}", self.random.between(1, n)),
            _ => format!("2*x{}**2", self.random.between(1, n)),
        };
        match (self.random.below(6), terms.len()) {
            (0, _) | (_, 0) => terms.push(more),
            (1, count) => {
                terms.remove(self.random.below(count));
            }
            (2, count) => {
                let term = &mut terms[self.random.below(count)];
                *term = match term.strip_prefix('-') {
                    Some(size) => size.to_string(),
                    None => format!("-{term}"),
                };
            }
            (3, count) => {
                let term = &mut terms[self.random.below(count)];
                let digits = ["1", "2", "3", "4"];
                let (old, new) = (self.random.pick(&digits), self.random.pick(&digits));
                *term = term.replacen(old, new, 1);
            }
            (4, count) => terms[self.random.below(count)] = more,
            _ => *terms = from,
        }
        self.cases.push(draft.case());
    }

    fn damaged_listing(&mut self) {
        let draft = self.draft();
        let mut text = draft.page.write();
        damage(&mut self.random, &mut text);
        self.cases.push(draft.with(text));
    }

    /// Two lines exchanged, one left out, or one written twice.
    fn moved_lines(&mut self) {
        let draft = self.draft_with_lines();
        let text = draft.page.write();
        let mut lines: Vec<&[u8]> = text.split_inclusive(|&byte| byte == b'\n').collect();
        let (at, to) = (
            self.random.below(lines.len()),
            self.random.below(lines.len()),
        );
        match self.random.below(3) {
            0 => lines.swap(at, to),
            1 => {
                lines.remove(at);
            }
            _ => lines.insert(to, lines[at]),
        }
        self.cases.push(draft.with(lines.concat()));
    }

    /// Code 8: one name changed. Its lines stay as they are.
    fn names_changed(&mut self) {
        let mut draft = self.draft_with_lines();
        let (n, marks) = (draft.system.n, draft.system.marks);
        let i = self.random.between(1, n);
        let above = self
            .random
            .pick(&[MOST_SET_EXPONENT, MOST_SET_EXPONENT + 1, 258]);
        let mut name = match self.random.below(5) {
            0 => format!("x{i}"),
            1 => format!("x{i}**{above}"),
            2 => format!("x{i}**{}*x{i}", above - 1),
            3 => powers(systems::member(&mut self.random, n, Marks::NONE)),
            _ => match marks.variables()[..] {
                [] => format!("x{i}**1"),
                [signal, ..] => format!("x{signal}*x{i}"),
            },
        };
        let names = &mut draft.page.names;
        if names.len() > 1 && self.random.chance(30) {
            name = self.random.pick(&names.iter().collect::<Vec<_>>()).clone();
        }
        if !names.is_empty() {
            let at = self.random.below(names.len());
            names[at] = name;
        }
        self.cases.push(draft.case());
    }

    /// A digit behind x or w, wherever it stands, made another.
    fn unknown_name(&mut self) {
        let draft = self.draft_with_lines();
        let mut text = draft.page.write();
        let is_name = |at: &usize| b"xw".contains(&text[*at - 1]) && text[*at].is_ascii_digit();
        let digits: Vec<usize> = (22..text.len()).filter(is_name).collect();
        text[self.random.pick(&digits)] = b'0' + self.random.below(10) as u8;
        self.cases.push(draft.with(text));
    }

    /// A number of the text made another one near a limit.
    fn number_changed(&mut self) {
        let draft = self.draft_with_lines();
        let text = draft.page.write();
        let begins = |at: &usize| b" *-".contains(&text[*at - 1]) && text[*at].is_ascii_digit();
        let numbers: Vec<usize> = (22..text.len()).filter(begins).collect();
        let case = match numbers[..] {
            [] => draft.case(),
            _ => {
                let at = self.random.pick(&numbers);
                let behind = text[at..].iter().position(|byte| !byte.is_ascii_digit());
                let number = self.random.pick(&NUMBERS).as_bytes();
                let end = at + behind.expect("a newline ends it");
                draft.with([&text[..at], number, &text[end..]].concat())
            }
        };
        self.cases.push(case);
    }

    /// A text about as long as it may be: something comes and goes in its last line.
    fn long_listing(&mut self) {
        let mut draft = self.draft_with_lines();
        let i = self.random.between(1, draft.system.n);
        let length = self.random.between(MOST_TEXT - 3, MOST_TEXT + 6);
        while draft.page.write().len() + 40 < length {
            let number = "9".repeat(self.random.between(1, 9));
            let term = format!("{number}*x{i}");
            let last = draft.page.rows.last_mut().expect("a line");
            last.terms.extend([term.clone(), format!("-{term}")]);
        }
        let mut text = draft.page.write();
        // What is still missing, to a byte or some.
        if text.len() < length {
            text.pop();
            while text.len() + 5 < length {
                text.extend(b" + 1 - 1");
            }
            text.push(b'\n');
        }
        self.cases.push(draft.with(text));
    }

    /// Codes 1 to 4: what is refused before the text is read, right or not.
    fn refused_before_the_text(&mut self) {
        let groups: [fn(&mut Maker); 5] = [
            Maker::broken_field,
            Maker::repeated_record,
            Maker::wrong_and_repeated,
            Maker::bad_length,
            Maker::bad_setting,
        ];
        let mut draft = self.draft();
        let mut text = draft.page.write();
        if self.random.chance(50) {
            damage(&mut self.random, &mut text);
        }
        let case = match self.random.below(8) {
            0 => {
                let marks = beyond(draft.system.n);
                draft.system.marks = Marks(self.random.pick(&marks).0 | draft.system.marks.0);
                draft.with(text)
            }
            1 => {
                draft.system.degree = self.random.pick(&refused());
                draft.with(text)
            }
            2 => {
                text.resize(MOST_TEXT + 1 + self.random.below(9), b'\n');
                draft.with(text)
            }
            at => {
                groups[at - 3](self);
                let refused = self.cases.pop().expect("a case that is refused");
                text.truncate(MOST_CASE_GIVEN);
                Case {
                    operation: Operation::Read,
                    given: text,
                    buffer: 0,
                    ..refused
                }
            }
        };
        self.cases.push(case);
    }
}

#[cfg(test)]
mod tests {
    use super::*;
    use crate::panel::VARIABLES;

    /// A hand is right where each monomial is a product of two, whatever it does.
    #[test]
    fn hands_write_what_is_true() {
        let mut random = Random::from_seed(31);
        let mut right = 0;
        for _ in 0..400 {
            let n = random.between(1, VARIABLES);
            let size = random.below(7);
            let (system, set) = systems::around_a_set(&mut random, n, Marks::NONE, size);
            let quadratic = system.is_quadratic(&set);
            let mut new: Vec<Monomial> = set.into_iter().collect();
            random.shuffle(&mut new);
            let mut page = Page::by(&system, &new, |choices| hand(&mut random, n, choices));
            page.names = new.iter().map(|&m| named(&mut random, m)).collect();
            let draft = Draft { system, page };
            let case = draft.case();
            if case.given.len() <= MOST_TEXT {
                let code = case.answer().0.code;
                assert_eq!(code, if quadratic { 0 } else { 11 });
                right += usize::from(quadratic);
            }
        }
        assert!(right > 100, "{right}");
    }
}
