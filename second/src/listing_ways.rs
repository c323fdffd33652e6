//! Hasty ways of reading a listing. Each of them gives another answer to some of the
//! stored cases of reading (document 02, [7]). Taken rightly, this reading gives the
//! answers of all: it finds code 10 by the grammar's shape (`listing_shape.rs`), and
//! cuts a readable text into words.

use crate::batch::Case;
use crate::listing_shape::{Grammar, Shape};
use crate::maker::{first_listings, stored_listings};
use crate::marks::Marks;
use crate::panel::{CARDS, MOST_SET_EXPONENT, MOST_TEXT, SET_BYTES, VARIABLES};
use crate::records::{read_terms, terms_have_a_length};
use crate::reply::Reply;
use crate::system::System;
use crate::ways::{Answer, Stored};
use std::cell::RefCell;
use std::collections::{BTreeMap, HashMap};
use std::rc::Rc;
use std::sync::OnceLock;

macro_rules! ways {
    ($($way:ident,)*) => {
        /// How a listing is read.
        #[derive(Clone, Copy, PartialEq, Eq, Hash, Debug)]
        pub enum Way {
            Right,
            $($way,)*
        }

        /// Every way but the right one, under its own name.
        const WAYS: &[(Way, Way)] = &[$((Way::$way, Way::$way),)*];
    };
}

ways! {
    // More, or less, is readable.
    AMillionAtMost,
    AllNewAreKnown,
    AnyCoefficient,
    AnyExponentInATerm,
    AnyHeading,
    BlankLineIsNotNeeded,
    CaretIsRead,
    CarriageReturns,
    CoefficientBelowTheMost,
    CoefficientOfTenDigits,
    CoefficientOneIsNotRead,
    EmptyRightSide,
    EndsWithBlankLines,
    ExponentFromZero,
    ExponentOfTwoDigits,
    ExponentOneInATerm,
    ExponentOneIsNotRead,
    ExponentsUpTo54,
    FiveNames,
    FromZero,
    LastNewlineIsNotNeeded,
    LeadingZero,
    LinesMayBeMissing,
    MinusBehindSign,
    NamesComeFirst,
    NamesInAnyOrder,
    NegativeZero,
    NumberBehind,
    OneIsNamed,
    PlusInFront,
    SevenNames,
    SignalsAreUnknownInNames,
    SignalsAreUnknownInTerms,
    SignalsHaveLines,
    SixVariables,
    SpaceBehindMinus,
    SquaresAreNotRead,
    ThreeNames,
    TwoNumbers,
    ZeroInASum,
    // The place of code 10 is another.
    NoNewIsRefusedAtItsDigit,
    SeventhIsRefusedAtItsDigit,
    PlaceFromZero,
    PlaceIsTheEnd,
    PlaceIsTheLine,
    PlaceIsTheLinesFirstByte,
    PlaceIsTheWordsFirstByte,
    ShortTextIsPlacedAtItsLastByte,
    UnreadableHasNoPlace,
    // The checks come in another sequence, or are not made.
    FalseBeforeSet,
    NamesAreJudgedBeforeTheLinesAreRead,
    TextIsReadBeforeTheRecords,
    TextLengthBehindTheRecords,
    TextLengthIsNotAsked,
    TextUpTo4095,
    TextUpTo4097,
    TextUpTo8191,
    // The names form a set, or do not.
    AnyDegree,
    DegreeBelowTheLimit,
    DegreeOfOneExponent,
    EqualNamesAreSeenSideBySide,
    EqualNamesAreTaken,
    ExponentsOf8Bits,
    ExponentsOf16Bits,
    ExponentsOf32Bits,
    ExponentsOf64Bits,
    ExponentsUpTo53,
    ExponentsUpTo63,
    FirstExponentCounts,
    LastExponentCounts,
    NamesMustAscend,
    OnlyTheFirstNameIsJudged,
    SignalsInNames,
    SingleVariables,
    // A line is true, or is not.
    AnyOrderIsNotTaken,
    ConstantsAreNotAsked,
    LastLikeProductCounts,
    LikeProductsAreNotAdded,
    MissingTermsAreTaken,
    MoreTermsAreTaken,
    NamesMeanTheSetsOrder,
    OnlyNewNamesHaveLines,
    OnlyVariablesHaveLines,
    SaturatedSums,
    SecondNameIsDropped,
    SignInFrontIsDropped,
    SignsAreDropped,
    SlopeWithoutExponent,
    SquareIsOneName,
    SumsOf32Bits,
    ZeroSumsStay,
    // Another line is named, or another set comes back.
    FalseHasNoPlace,
    FalseIsTheLast,
    FalseLineFromZero,
    FalseLineIsItsNumber,
    NineIsSaid,
    NoSetComesBack,
    SetAsNamed,
    SetDespiteRefusal,
    SizeIsTheCount,
}

/// The stored cases of reading.
fn stored() -> &'static Stored {
    static STORED: OnceLock<Stored> = OnceLock::new();
    STORED.get_or_init(|| Stored::of(stored_listings()))
}

/// The shape of readable listings, made once for each panel and way.
fn shape(grammar: Grammar) -> Rc<Shape> {
    thread_local! {
        static SHAPES: RefCell<HashMap<Grammar, Rc<Shape>>> = RefCell::default();
    }
    let make = || grammar.listing();
    SHAPES.with_borrow_mut(|shapes| shapes.entry(grammar).or_insert_with(make).clone())
}

/// Exponents as they are read, before any rule is applied to them.
type Powers = [u128; VARIABLES];

const ONE: Powers = [0; VARIABLES];

fn times(first: Powers, second: Powers) -> Powers {
    std::array::from_fn(|i| first[i] + second[i])
}

/// A derivative line as it is read: its left side, and its terms.
type Line = (Powers, Vec<(i128, Powers)>);

/// A reader with one habit.
struct Reading<'a> {
    case: &'a Case,
    way: Way,
    lines: Vec<&'a str>,
}

impl Reading<'_> {
    fn is(&self, way: Way) -> bool {
        self.way == way
    }

    /// The name lines, without the heading.
    fn name_lines(&self) -> Vec<&str> {
        let names = self.lines[1..].iter().copied();
        names
            .take_while(|line| {
                line.starts_with('w') && line.contains(" = ") && !line.contains('\'')
            })
            .collect()
    }

    /// A number of any length, as far as this reader keeps it.
    fn kept(&self, number: u128) -> u128 {
        let bits = match self.way {
            Way::ExponentsOf8Bits => 8,
            Way::ExponentsOf16Bits => 16,
            Way::ExponentsOf32Bits => 32,
            Way::ExponentsOf64Bits => 64,
            _ => return number.min(1_000_000),
        };
        number & ((1 << bits) - 1)
    }

    fn number(&self, digits: &str) -> u128 {
        let digits = digits.bytes().map(|byte| u128::from(byte - b'0'));
        digits.fold(0, |number, digit| self.kept(10 * number + digit))
    }

    /// What each name line names.
    fn names(&self) -> Vec<Powers> {
        let mut names = Vec::new();
        for line in self.name_lines() {
            let (_, right) = line.split_once(" = ").expect("a name line");
            let mut named = ONE;
            for power in right.trim_end().replace("**", "^").split('*') {
                let (name, exponent) = power.split_once('^').unwrap_or((power, "1"));
                let Ok(i) = name.trim_start_matches('x').parse::<usize>() else {
                    continue;
                };
                let Some(place) = i.checked_sub(1).filter(|_| name.starts_with('x')) else {
                    continue;
                };
                let exponent = self.number(exponent);
                named[place] = match (self.way, named[place]) {
                    (Way::FirstExponentCounts, before) if before > 0 => before,
                    (Way::LastExponentCounts, _) => exponent,
                    (_, before) => self.kept(before + exponent),
                };
            }
            names.push(named);
        }
        names
    }

    /// What a name of a term stands for; an unknown one is 1.
    fn meaning(&self, names: &[Powers], name: &str) -> Powers {
        let (kind, digits) = name.split_at(1);
        let number: usize = digits.parse().unwrap_or(usize::MAX);
        let mut sorted = names.to_vec();
        sorted.sort();
        let named = match self.way {
            Way::NamesMeanTheSetsOrder => &sorted,
            _ => names,
        };
        let mut variable = ONE;
        match kind {
            "w" => named.get(number).copied().unwrap_or(ONE),
            _ => {
                if let Some(exponent) = number.checked_sub(1).and_then(|i| variable.get_mut(i)) {
                    *exponent = 1;
                }
                variable
            }
        }
    }

    /// A term from its words: numbers and names with a star between them.
    fn term(&self, names: &[Powers], word: &str) -> (i128, Powers) {
        let mut coefficient = 1;
        let mut factors = Vec::new();
        for factor in word.replace("**", "^").split('*') {
            if let Ok(number) = factor.parse::<i128>() {
                coefficient *= number;
                continue;
            }
            let (name, exponent) = factor.split_once('^').unwrap_or((factor, "1"));
            let exponent: usize = exponent.parse().unwrap_or(99);
            let times = match self.way {
                Way::SquareIsOneName => 1,
                _ => exponent.min(99),
            };
            factors.extend(vec![self.meaning(names, name); times]);
        }
        if self.is(Way::SecondNameIsDropped) {
            factors.truncate(1);
        }
        (coefficient, factors.into_iter().fold(ONE, times))
    }

    fn right(&self, names: &[Powers], right: &str) -> Vec<(i128, Powers)> {
        let mut terms: Vec<(i128, Powers)> = Vec::new();
        let mut sign = 1;
        for word in right.split_whitespace() {
            let is_first = terms.is_empty();
            let bare = word.trim_start_matches(['+', '-']);
            if word.starts_with('-') {
                sign = -sign;
            }
            if bare.is_empty() {
                continue;
            }
            let dropped =
                self.is(Way::SignsAreDropped) || is_first && self.is(Way::SignInFrontIsDropped);
            let (coefficient, product) = self.term(names, bare);
            terms.push((
                if dropped {
                    coefficient
                } else {
                    sign * coefficient
                },
                product,
            ));
            sign = 1;
        }
        terms
    }

    /// The derivative lines.
    fn derivative_lines(&self, names: &[Powers]) -> Vec<Line> {
        let is_line = |line: &&&str| line.contains("' =");
        let lines = self.lines.iter().filter(is_line);
        let mut read = Vec::new();
        for line in lines {
            let (left, right) = line.split_once("' =").expect("a derivative line");
            read.push((self.meaning(names, left), self.right(names, right)));
        }
        read
    }

    fn form_a_set(&self, names: &[Powers]) -> bool {
        let setting = self.case.setting();
        let most = match self.way {
            Way::ExponentsUpTo53 => MOST_SET_EXPONENT - 1,
            Way::ExponentsUpTo63 => 63,
            _ => MOST_SET_EXPONENT,
        };
        let is_marked = |(place, exponent): (usize, &u128)| {
            let known = place < VARIABLES && Marks(self.case.marks).mark(place + 1);
            *exponent > 0 && known
        };
        let is_good = |name: &Powers| {
            let degree: u128 = name.iter().sum();
            let tallest = *name.iter().max().expect("exponents");
            let limit = u128::from(setting.degree.0);
            let within = match self.way {
                Way::AnyDegree => true,
                Way::DegreeOfOneExponent => tallest <= limit,
                Way::DegreeBelowTheLimit => degree < limit,
                _ => degree <= limit,
            };
            let marked = name.iter().enumerate().any(is_marked) && !self.is(Way::SignalsInNames);
            let single = degree == 1 && !self.is(Way::SingleVariables);
            degree > 0 && !single && tallest <= most.into() && within && !marked
        };
        let judged = match self.way {
            Way::OnlyTheFirstNameIsJudged => &names[..names.len().min(1)],
            _ => names,
        };
        let mut sorted = names.to_vec();
        if !self.is(Way::EqualNamesAreSeenSideBySide) {
            sorted.sort();
        }
        let twice = sorted.windows(2).any(|two| two[0] == two[1]);
        let twice = twice && !self.is(Way::EqualNamesAreTaken);
        let ascend = names.windows(2).all(|two| two[0] < two[1]) || !self.is(Way::NamesMustAscend);
        judged.iter().all(is_good) && !twice && ascend
    }

    fn derivative(&self, system: &System, left: Powers) -> BTreeMap<Powers, i128> {
        let mut sum = BTreeMap::new();
        for term in &system.terms {
            let exponent = left[term.equation - 1];
            if exponent == 0 {
                continue;
            }
            let mut whole = times(left, term.monomial.0.map(u128::from));
            whole[term.equation - 1] -= 1;
            let factor = match self.way {
                Way::SlopeWithoutExponent => 1,
                _ => exponent as i128,
            };
            *sum.entry(whole).or_insert(0) += factor * i128::from(term.coefficient);
        }
        sum.retain(|_, coefficient| *coefficient != 0);
        sum
    }

    fn is_true(&self, system: &System, (left, terms): &Line) -> bool {
        let mut derivative = self.derivative(system, *left);
        let is_variable = left.iter().sum::<u128>() == 1;
        match self.way {
            Way::OnlyNewNamesHaveLines if is_variable => return true,
            Way::OnlyVariablesHaveLines if !is_variable => return true,
            Way::AnyOrderIsNotTaken => {
                let said: Vec<&Powers> = terms.iter().map(|(_, product)| product).collect();
                if !said.windows(2).all(|two| two[0] < two[1]) {
                    return false;
                }
            }
            _ => {}
        }
        let mut sum: BTreeMap<Powers, i128> = BTreeMap::new();
        for (coefficient, product) in terms {
            let before = sum.get(product).copied();
            if before.is_some() && self.is(Way::LikeProductsAreNotAdded) {
                return false;
            }
            let both = before.unwrap_or(0) + coefficient;
            let kept = match self.way {
                Way::LastLikeProductCounts => *coefficient,
                Way::SumsOf32Bits => i128::from(both as i32),
                Way::SaturatedSums => both.clamp(i32::MIN.into(), i32::MAX.into()),
                _ => both,
            };
            sum.insert(*product, kept);
        }
        if !self.is(Way::ZeroSumsStay) {
            sum.retain(|_, coefficient| *coefficient != 0);
        }
        if self.is(Way::ConstantsAreNotAsked) {
            derivative.remove(&ONE);
            sum.remove(&ONE);
        }
        let are_in = |some: &BTreeMap<Powers, i128>, others: &BTreeMap<Powers, i128>| {
            some.iter()
                .all(|(m, coefficient)| others.get(m) == Some(coefficient))
        };
        match self.way {
            Way::MissingTermsAreTaken => are_in(&sum, &derivative),
            Way::MoreTermsAreTaken => are_in(&derivative, &sum),
            _ => sum == derivative,
        }
    }

    /// The line that is named for a false one, or 0.
    fn first_false(&self, system: &System, names: &[Powers]) -> Option<u64> {
        let lines = self.derivative_lines(names);
        let mut wrong = (0..lines.len()).filter(|&index| !self.is_true(system, &lines[index]));
        let index = match self.way {
            Way::FalseIsTheLast => wrong.next_back(),
            _ => wrong.next(),
        }?;
        let number = index + 1;
        let line = match self.way {
            Way::FalseHasNoPlace => 0,
            Way::FalseLineFromZero => names.len() + 1 + number,
            Way::FalseLineIsItsNumber => number,
            _ => names.len() + 2 + number,
        };
        Some(line as u64)
    }
}

/// The set record of some names in this sequence.
fn record(names: &[Powers]) -> Vec<u8> {
    let mut record: Vec<u8> = names.iter().flatten().map(|&e| e as u8).collect();
    record.resize(SET_BYTES, 0);
    record
}

/// What one says who reads in this way.
fn said(case: &Case, way: Way) -> Answer {
    match judged(case, way) {
        Ok(answer) => answer,
        Err(reply) => (reply, vec![0; SET_BYTES]),
    }
}

fn judged(case: &Case, way: Way) -> Result<Answer, Reply> {
    let (setting, bytes) = (case.setting(), &case.given);
    if !setting.is_in_range() {
        return Err(Reply::bare(1));
    }
    let most = match way {
        Way::TextUpTo4095 => MOST_TEXT - 1,
        Way::TextUpTo4097 => MOST_TEXT + 1,
        Way::TextUpTo8191 => 2 * MOST_TEXT - 1,
        Way::TextLengthIsNotAsked => usize::MAX,
        _ => MOST_TEXT,
    };
    let is_long = bytes.len() > most;
    let late = way == Way::TextLengthBehindTheRecords;
    if !terms_have_a_length(&case.terms) || is_long && !late {
        return Err(Reply::bare(2));
    }
    let place = || {
        let grammar = Grammar {
            n: case.n as usize,
            marks: case.marks,
            way,
        };
        shape(grammar).place(bytes)
    };
    if way == Way::TextIsReadBeforeTheRecords {
        if let Some(place) = place() {
            return Err(Reply::at(10, place));
        }
    }
    let system = read_terms(setting, &case.terms)?;
    if is_long {
        return Err(Reply::bare(2));
    }
    let place = place();
    // What is readable is ASCII; the rest is looked at only as far as it is.
    let end = place.map_or(bytes.len(), |place| place - 1);
    let text = std::str::from_utf8(&bytes[..end]).expect("readable so far");
    let reading = Reading {
        case,
        way,
        lines: text
            .split('\n')
            .map(|line| line.trim_end_matches('\r'))
            .collect(),
    };
    if let Some(place) = place {
        let names_are_read = text.contains("\n\n");
        let early = way == Way::NamesAreJudgedBeforeTheLinesAreRead && names_are_read;
        if early && !reading.form_a_set(&reading.names()) {
            return Err(Reply::bare(8));
        }
        return Err(Reply::at(10, other_place(bytes, place, way)));
    }
    let names = reading.names();
    let first_false = reading.first_false(&system, &names);
    let is_set = reading.form_a_set(&names);
    if let (Way::FalseBeforeSet, Some(line)) = (way, first_false) {
        return Err(Reply::at(11, line as usize));
    }
    if !is_set {
        return Err(Reply::bare(8));
    }
    let mut sorted = names.clone();
    sorted.sort();
    let size = names.len() as u64;
    if let Some(line) = first_false {
        return match way {
            Way::SetDespiteRefusal => Ok((Reply::at(11, line as usize), record(&sorted))),
            Way::NineIsSaid => {
                Err(nine(case, &system, &sorted).unwrap_or(Reply::at(11, line as usize)))
            }
            _ => Err(Reply::at(11, line as usize)),
        };
    }
    sorted.truncate(CARDS);
    let set = match way {
        Way::NoSetComesBack => vec![0; SET_BYTES],
        Way::SetAsNamed => record(&names),
        _ => record(&sorted),
    };
    let (order, count) = match way {
        Way::SizeIsTheCount => (0, size),
        _ => (size, 0),
    };
    let reply = Reply {
        order,
        count,
        ..Reply::default()
    };
    Ok((reply, set))
}

/// What wiring says of a set that is not quadratic.
fn nine(case: &Case, system: &System, sorted: &[Powers]) -> Option<Reply> {
    let wiring = Case::wire(case.n, case.terms.clone(), record(sorted), 0).kit_of(system);
    Some(wiring.answer().0).filter(|reply| reply.code == 9)
}

/// The place that is named for a text that is not readable.
fn other_place(bytes: &[u8], place: usize, way: Way) -> usize {
    let before = &bytes[..place - 1];
    let behind_last = |ends: &[u8]| {
        before
            .iter()
            .rposition(|byte| ends.contains(byte))
            .map_or(1, |at| at + 2)
    };
    match way {
        Way::PlaceFromZero => place - 1,
        Way::PlaceIsTheEnd => bytes.len() + 1,
        Way::PlaceIsTheLine => 1 + before.iter().filter(|&&byte| byte == b'\n').count(),
        Way::PlaceIsTheLinesFirstByte => behind_last(b"\n"),
        Way::PlaceIsTheWordsFirstByte => behind_last(b"\n *"),
        Way::ShortTextIsPlacedAtItsLastByte => place.min(bytes.len()),
        Way::UnreadableHasNoPlace => 0,
        _ => place,
    }
}

#[test]
fn taken_rightly_it_gives_the_answers_of_all() {
    for case in &stored().cases {
        let right = stored().right(case);
        let text = String::from_utf8_lossy(&case.given);
        assert!(
            said(case, Way::Right) == right,
            "{right:?} for n {} in\n{text}",
            case.n
        );
    }
}

#[test]
fn it_gives_those_of_other_random_cases_too() {
    for seed in 2..6 {
        for case in first_listings(seed, 500) {
            let text = String::from_utf8_lossy(&case.given);
            assert!(said(&case, Way::Right) == case.answer(), "{text}");
        }
    }
}

#[test]
fn readings_that_go_astray() {
    stored().assert_told(WAYS, |way, case| said(case, *way));
}

/// How many answers tell each way; for looking at, with `--ignored --nocapture`.
#[test]
#[ignore = "it answers all cases in all ways"]
fn how_many_answers_tell_each_way() {
    stored().count_told(WAYS, |way, case| said(case, *way));
}
