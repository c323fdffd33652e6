//! The typed equations as the box takes them: numbered variables and term records; and the set that is given.

use crate::algebra::{self, Exponents};
use crate::panel::{COEFFICIENT_AT, EXPONENTS_AT, TERM_BYTES, VARIABLES};
use crate::typed::given::{Aim, Given, Signal};
use crate::typed::names::{too_many, wired, Kind, Variable};
use crate::typed::parser::{self, Typed};
use crate::typed::text::{Fault, Span};

/// A term record.
#[derive(Debug, Clone, PartialEq)]
pub struct Record {
    pub equation: u8,
    pub exponents: Exponents,
    pub coefficient: i32,
}

impl Record {
    pub fn bytes(&self) -> [u8; TERM_BYTES] {
        let mut out = [0; TERM_BYTES];
        out[0] = self.equation;
        out[EXPONENTS_AT..COEFFICIENT_AT].copy_from_slice(&self.exponents);
        out[COEFFICIENT_AT..].copy_from_slice(&self.coefficient.to_le_bytes());
        out
    }
}

/// The typed power of each variable, however large.
pub type Powers = [u128; VARIABLES];

/// The powers as the box holds them; nothing where one does not fit a byte.
pub fn exponents(powers: &Powers) -> Option<Exponents> {
    let mut exponents = [0; VARIABLES];
    for (e, &power) in exponents.iter_mut().zip(powers) {
        *e = u8::try_from(power).ok()?;
    }
    Some(exponents)
}

/// A term as typed, with its variables numbered. It need not fit a record.
#[derive(Debug, Clone, PartialEq)]
pub struct Term {
    /// From 1.
    pub equation: usize,
    pub powers: Powers,
    pub negative: bool,
    pub size: u128,
    pub span: Span,
}

impl Term {
    /// Nothing where a power does not fit a byte or the coefficient 32 bits.
    pub fn record(&self) -> Option<Record> {
        let exponents = exponents(&self.powers)?;
        let size = i64::try_from(self.size).ok()?;
        let coefficient = i32::try_from(if self.negative { -size } else { size }).ok()?;
        Some(Record { equation: self.equation as u8, exponents, coefficient })
    }
}

/// The numbers of the names that have none of their own: those that are left, in order.
fn numbers_left(typed: &Typed) -> Vec<usize> {
    let taken: Vec<usize> = typed.all_names().filter_map(|(v, _)| v.own_number()).collect();
    (1..).filter(|i| !taken.contains(i)).take(typed.known.others.len()).collect()
}

/// A system that can be asked about.
#[derive(Debug, PartialEq)]
pub struct System {
    /// The variables by their typed names: the first is x1 of the box.
    pub names: Vec<String>,
    /// Whether the variable stands anywhere in the equations.
    pub used: Vec<bool>,
    /// Whether the variable has an equation.
    pub fed: Vec<bool>,
    /// What an option says of the variable.
    pub said: Vec<Option<Kind>>,
    /// All terms in the order of the text: term p is record p.
    pub terms: Vec<Term>,
    /// New signals are named on from here, w1 where it is 0.
    pub wired: u32,
    /// The names that lines like `w1 = x^2` gave.
    pub namings: Vec<String>,
    /// The set that is given; nothing where a plan is asked for.
    pub given: Option<Given>,
}

impl System {
    pub fn of(typed: &Typed) -> Result<System, Fault> {
        let others = numbers_left(typed);
        let number = |v| match v {
            Variable::Letter(i) | Variable::Numbered(i) => i,
            Variable::Other(i) => others[i],
        };
        if let Some((_, span)) = typed.all_names().find(|&(v, _)| VARIABLES < number(v)) {
            return Err(too_many(span));
        }
        let powers = |factors: &[(Variable, u128)]| {
            let mut powers: Powers = [0; VARIABLES];
            for &(v, power) in factors {
                let place = &mut powers[number(v) - 1];
                *place = place.saturating_add(power);
            }
            powers
        };
        let n = typed.all_names().map(|(v, _)| number(v)).max().unwrap_or(0);
        let letters = typed.all_names().any(|(v, _)| matches!(v, Variable::Letter(_)));
        // A number that no name has is named as its neighbours are.
        let plain = |i| if letters { Variable::Letter(i) } else { Variable::Numbered(i) };
        let variable = |i| others.iter().position(|&other| other == i).map_or(plain(i), Variable::Other);
        let variables: Vec<Variable> = (1..=n).map(variable).collect();
        let names: Vec<String> = variables.iter().map(|&v| typed.known.text(v)).collect();
        let mut system = System {
            used: vec![false; n],
            fed: vec![false; n],
            said: variables.iter().map(|&v| typed.known.said_of(v)).collect(),
            terms: Vec::new(),
            wired: names.iter().filter_map(|name| wired(name)).max().unwrap_or(0),
            namings: Vec::new(),
            given: None,
            names,
        };
        for &(v, _) in &typed.names {
            system.used[number(v) - 1] = true;
        }
        for &(v, _) in &typed.namings {
            system.namings.push(system.names[number(v) - 1].clone());
        }
        for equation in &typed.equations {
            let left = number(equation.left);
            system.fed[left - 1] = true;
            for term in &equation.terms {
                let (negative, size, span) = (term.negative, term.size, term.span);
                system.terms.push(Term { equation: left, powers: powers(&term.powers), negative, size, span });
            }
        }
        let signal = |typed: &parser::Term| Signal { powers: powers(&typed.powers), span: typed.span };
        let given = |set: &parser::Given| Given { aim: set.aim, signals: set.signals.iter().map(signal).collect() };
        system.given = typed.given.as_ref().map(given);
        Ok(system)
    }

    /// What a variable is, by its number from 0.
    pub fn kind(&self, i: usize) -> Kind {
        self.said[i].unwrap_or(if self.fed[i] { Kind::Variable } else { Kind::Knob })
    }

    /// The names of those variables, by their numbers from 0.
    pub fn those(&self, which: impl Fn(usize) -> bool) -> Vec<&str> {
        let all = self.names.iter().enumerate();
        all.filter(|&(i, _)| which(i)).map(|(_, name)| name.as_str()).collect()
    }

    /// The names that options say to be of a kind.
    pub fn said_to_be(&self, kind: Kind) -> Vec<&str> {
        self.those(|i| self.said[i] == Some(kind))
    }

    /// The signals fed from outside.
    pub fn outside(&self) -> Vec<&str> {
        self.said_to_be(Kind::Signal)
    }

    /// The same as the planner takes them: bit i marks variable i, from 0.
    pub fn marks(&self) -> u64 {
        (0..self.names.len()).filter(|&i| self.kind(i) == Kind::Signal).map(|i| 1 << i).sum()
    }

    /// The records, or the number of the first term that fits none, from 1.
    pub fn records(&self) -> Result<Vec<Record>, usize> {
        self.terms.iter().enumerate().map(|(i, t)| t.record().ok_or(i + 1)).collect()
    }

    /// Variables that stand in a term and are fed neither by an equation nor from outside.
    pub fn unfed(&self) -> Vec<&str> {
        self.those(|i| self.used[i] && !self.fed[i] && self.kind(i) == Kind::Knob)
    }

    /// What is asked of the given set; nothing where a plan is asked for.
    pub fn aim(&self) -> Option<Aim> {
        self.given.as_ref().map(|given| given.aim)
    }

    /// Variables that stand in no equation, and in the set that is given.
    pub fn only_given(&self) -> Vec<&str> {
        let stands = |i: usize| self.given.iter().flat_map(|given| &given.signals).any(|s| s.powers[i] != 0);
        self.those(|i| !self.used[i] && stands(i))
    }

    /// The signals of the patch that a set makes, by number: 1, the variables, the new ones.
    pub fn signals(&self, set: &[Exponents]) -> Vec<Exponents> {
        let one = [0; VARIABLES];
        let variable = |i: usize| {
            let mut variable = one;
            variable[i] = 1;
            variable
        };
        let variables = (0..self.names.len()).map(variable);
        std::iter::once(one).chain(variables).chain(set.iter().copied()).collect()
    }

    /// What each new signal of a set is, as text over the variables.
    pub fn set(&self, set: &[Exponents]) -> Vec<String> {
        set.iter().map(|m| algebra::monomial(&self.names, m)).collect()
    }

    /// The name of new signal number `i` of a set, from 1. It is none of the typed names, however long those are.
    pub fn new_name(&self, i: usize) -> String {
        let numbers = u64::from(self.wired) + 1..;
        let names = numbers.map(|number| format!("w{number}")).filter(|name| !self.names.contains(name));
        names.take(i).last().unwrap_or_default()
    }

    /// The equations as they were read; nothing where a term fits no record.
    pub fn as_read(&self) -> Vec<String> {
        self.records().map_or(Vec::new(), |records| self.equations(&records))
    }

    /// Those that these records are, variable by variable.
    pub fn equations(&self, records: &[Record]) -> Vec<String> {
        let mut out = Vec::new();
        for (i, name) in self.names.iter().enumerate().filter(|&(i, _)| self.fed[i]) {
            let own = records.iter().filter(|r| usize::from(r.equation) == i + 1);
            let terms: Vec<(i64, String)> =
                own.map(|r| (r.coefficient.into(), algebra::monomial(&self.names, &r.exponents))).collect();
            out.push(format!("{name}' = {}", algebra::sum(terms.iter().map(|(c, m)| (*c, m.as_str())))));
        }
        out
    }
}

#[cfg(test)]
pub mod tests {
    use super::*;
    use crate::random::Random;
    use crate::typed::parser::parse;
    use crate::typed::text::{Holds, Source};

    /// Equations as a source.
    pub fn typed(text: &str) -> [Source; 1] {
        [Source::argument(Holds::Equations, text)]
    }

    /// The equations and the set that is given, as sources.
    pub fn typed_with_set(aim: Aim, text: &str, set: &str) -> [Source; 2] {
        [Source::argument(Holds::Equations, text), Source::argument(Holds::Set(aim), set)]
    }

    /// Names that are said to be of a kind, as sources.
    pub fn said(names: &[(Kind, &str)]) -> Vec<Source> {
        names.iter().map(|&(kind, names)| Source::argument(Holds::Names(kind), names)).collect()
    }

    fn taken(sources: &[Source]) -> Result<System, Fault> {
        parse(sources).and_then(|typed| System::of(&typed))
    }

    pub fn system_of(sources: &[Source]) -> System {
        taken(sources).unwrap()
    }

    pub fn system(text: &str) -> System {
        system_of(&typed(text))
    }

    /// A system with signals fed from outside.
    pub fn with_signals(text: &str, signals: &str) -> System {
        system_of(&[&typed(text)[..], &said(&[(Kind::Signal, signals)])].concat())
    }

    /// A system with a set that is given for something.
    pub fn given(aim: Aim, text: &str, set: &str) -> System {
        system_of(&typed_with_set(aim, text, set))
    }

    /// The same where it does not matter for what, and where it is to be thinned.
    pub fn with_set(text: &str, set: &str) -> System {
        given(Aim::Thinning, text, set)
    }

    fn exponents(first: [u8; 3]) -> Exponents {
        [first[0], first[1], first[2], 0, 0, 0]
    }

    #[test]
    fn a_record_is_twelve_bytes() {
        let records = system("y' = -2*x^4*y").records().unwrap();
        assert_eq!(records.len(), 1);
        assert_eq!(records[0].bytes(), [2, 0, 4, 1, 0, 0, 0, 0, 0xfe, 0xff, 0xff, 0xff]);
    }

    #[test]
    fn terms_go_as_typed() {
        let records = system("x' = x + x*x^2 + x + 2*3").records().unwrap();
        let seen: Vec<_> = records.iter().map(|r| (r.exponents, r.coefficient)).collect();
        let (x, one) = (exponents([1, 0, 0]), exponents([0, 0, 0]));
        assert_eq!(seen, vec![(x, 1), (exponents([3, 0, 0]), 1), (x, 1), (one, 6)]);
        let system = system("x' = x^10 + 1000001*x + 0*x");
        assert_eq!(system.records().unwrap().len(), 3, "what fits a record is for the planner to refuse");
    }

    #[test]
    fn what_fits_no_record_is_named() {
        assert_eq!(system("x' = x + x^256").records(), Err(2));
        assert!(system("x' = x^255").records().is_ok());
        assert_eq!(system("x' = x^200*x^56").records(), Err(1));
        assert_eq!(system("x' = 2147483648*x").records(), Err(1));
        assert!(system("x' = -2147483648*x + 2147483647").records().is_ok());
        assert_eq!(system(&format!("x' = {}*x", "7".repeat(50))).records(), Err(1));
    }

    #[test]
    fn variables_are_counted_to_the_largest() {
        let system = system("x' = z^2");
        assert_eq!(system.names, ["x", "y", "z"]);
        assert_eq!(system.used, [true, false, true]);
        assert_eq!(system.unfed(), ["z"], "y stands nowhere, so there is nothing to say of it");
        assert_eq!(super::tests::system("x6' = 1").names.len(), 6);
    }

    #[test]
    fn pasted_signals_follow_the_variables() {
        let system = system("w1 = x^2\nx' = x*w1\nw1' = 2*w1^2");
        assert_eq!(system.names, ["x", "w1"]);
        assert_eq!((system.wired, system.namings.as_slice()), (1, ["w1".to_string()].as_slice()));
        assert_eq!(system.records().unwrap()[1].exponents, exponents([0, 2, 0]));
    }

    #[test]
    fn names_take_the_numbers_that_are_left() {
        assert_eq!(system("S' = -2 S I, I' = 2 S I").names, ["S", "I"]);
        assert_eq!(system("I' = 2 S I, S' = -2 S I").names, ["I", "S"], "as their equations come");
        assert_eq!(system("S' = x, x' = S").names, ["x", "S"], "x is number 1");
        assert_eq!(system("S' = x3, T' = S, U' = T").names, ["S", "T", "x3", "U"], "x3 is number 3");
        assert_eq!(system("S' = y").names, ["S", "y"]);
        assert_eq!(system("S' = z").names, ["S", "y", "z"], "y stands nowhere");
        assert_eq!(system("S' = x3").names, ["S", "x2", "x3"]);
        let sources = [&typed("theta' = u a, x_1' = theta")[..], &said(&[(Kind::Signal, "u"), (Kind::Knob, "a")])];
        let system = system_of(&sources.concat());
        assert_eq!(system.names, ["theta", "x_1", "u", "a"]);
        assert_eq!([0, 1, 2, 3].map(|i| system.kind(i)), [Kind::Variable, Kind::Variable, Kind::Signal, Kind::Knob]);
        assert_eq!((system.marks(), system.outside()), (4, vec!["u"]));
        assert_eq!(system.records().unwrap()[0].exponents, [0, 0, 1, 1, 0, 0]);
    }

    #[test]
    fn a_signal_keeps_its_number() {
        let first = with_signals("x2' = x1*x2", "x1");
        assert_eq!((first.names.as_slice(), first.marks()), (["x1".to_string(), "x2".to_string()].as_slice(), 1));
        let both = with_signals("x1' = x2*x3", "x3, x2");
        assert_eq!((both.marks(), both.outside()), (6, vec!["x2", "x3"]));
        assert_eq!(system("x1' = x2").marks(), 0, "a knob has no mark");
        assert_eq!(system("x1' = x2").kind(1), Kind::Knob);
    }

    #[test]
    fn more_than_six_names() {
        let fault = |text: &str, names: &[(Kind, &str)]| {
            let sources = [&typed(text)[..], &said(names)].concat();
            let fault = taken(&sources).unwrap_err();
            assert!(fault.words.starts_with("one name too many: the box takes up to 6"), "{}", fault.words);
            crate::typed::text::text_of(&sources, fault.span.unwrap()).to_string()
        };
        assert_eq!(fault("x1' = x2 x3 x4 x5 x6, S' = x1", &[]), "S");
        assert_eq!(fault("a' = x1 x2 x3 x4 u v", &[(Kind::Signal, "u, v")]), "v");
        assert_eq!(system("x1' = x2 x3 x5 x6, S' = x1").names[3], "S");
    }

    #[test]
    fn new_signals_have_names_of_their_own() {
        let new = |text: &str| [1, 2].map(|i| system(text).new_name(i));
        assert_eq!(new("x' = 1"), ["w1", "w2"]);
        assert_eq!(new("w' = 1, w0' = 1, w01' = 1"), ["w1", "w2"]);
        assert_eq!(new("w2' = 1"), ["w3", "w4"]);
        assert_eq!(new("w4294967295' = 1, w4294967296' = 1"), ["w4294967297", "w4294967298"]);
    }

    #[test]
    fn a_set_has_the_variables_of_its_equations_and_its_own() {
        let system = with_set("x1' = x2^3", "x4^2, x2*x3^0");
        assert_eq!(system.names, ["x1", "x2", "x3", "x4"]);
        assert_eq!(system.used, [true, true, false, false]);
        assert_eq!(system.unfed(), ["x2"]);
        assert_eq!(system.only_given(), ["x4"], "x3 stands there with the power 0");
        assert_eq!(system.given.as_ref().unwrap().signals[0].powers, [0, 0, 0, 2, 0, 0]);
        let plain = super::tests::system("x1' = x2^3");
        assert_eq!((plain.only_given(), plain.aim()), (Vec::<&str>::new(), None));
        assert_eq!(given(Aim::Wiring, "x' = y", "").aim(), Some(Aim::Wiring));
        let fault = taken(&typed_with_set(Aim::Wiring, "S' = x1 x2 x3 x4", "x1*x2, x5*x6")).unwrap_err();
        assert!(fault.words.starts_with("one name too many"), "{}", fault.words);
    }

    #[test]
    fn signals_by_number() {
        let system = with_set("x' = w1, w1' = 1", "x^2");
        let x2 = exponents([2, 0, 0]);
        let (one, x, w1) = (exponents([0, 0, 0]), exponents([1, 0, 0]), exponents([0, 1, 0]));
        assert_eq!(system.signals(&[x2]), [one, x, w1, x2]);
        assert_eq!((system.set(&[x2]), system.new_name(1)), (vec!["x^2".to_string()], "w2".to_string()));
    }

    #[test]
    fn equations_are_shown_as_read() {
        let system = system("y' = - x 2 + 3y\nx' = 0");
        assert_eq!(system.equations(&system.records().unwrap()), ["x' = 0", "y' = -2*x + 3*y"]);
    }

    /// Texts of all sorts: pieces of equations and sets in any order, in every other text such as may stand there after
    /// `start`.
    fn babble(random: &mut Random, start: &'static str) -> String {
        const GOOD: [&str; 16] = [
            "x", "y", "z^2", "x^3", "**2", "2", "10", "*", " ", " + ", " - ", "+", ", y' = -", "\nz' = ", ", S' = ",
            "*S",
        ];
        const ALL: [&str; 35] = [
            "S' = ",
            "S",
            "S_2",
            "x1' = ",
            "w1' = ",
            "w1 = ",
            "x2",
            "x6",
            "w1",
            "w2",
            "0",
            "^",
            "-",
            "=",
            "'",
            ", ",
            "; ",
            "\n",
            "#",
            "/",
            ".",
            "(",
            ")",
            "²",
            "′",
            "é",
            "sin",
            "\t",
            "999999999999",
            "x",
            "*",
            " + ",
            "x' = ",
            "y' = ",
            "y",
        ];
        let length = 1 + random.below(10);
        let (start, pieces): (&str, &[&str]) = if random.below(2) == 0 { (start, &GOOD) } else { ("", &ALL) };
        let rest: String = (0..length).map(|_| pieces[random.below(pieces.len())]).collect();
        format!("{start}{rest}")
    }

    #[test]
    fn no_text_is_too_odd_and_what_is_shown_is_what_was_read() {
        let (mut random, mut read) = (Random::of(1), 0);
        for _ in 0..20_000 {
            let text = babble(&mut random, "x' = x");
            let sources = typed(&text);
            let system = match taken(&sources) {
                Ok(system) => system,
                Err(fault) => {
                    // Every fault can be pointed at.
                    fault.span.map(|span| crate::typed::text::point(&sources, span));
                    continue;
                }
            };
            // A lone 0 that was typed as a product is refused, and its equation shown as that of nothing.
            let records = system.records().ok().filter(|all| all.iter().all(|r| r.coefficient != 0));
            if let Some(mut records) = records {
                let shown = super::tests::system(&system.equations(&records).join("\n"));
                records.sort_by_key(|r| r.equation);
                let n = system.names.len();
                assert_eq!(shown.records(), Ok(records), "{:?}", sources[0].text);
                assert_eq!(shown.names[..], system.names[..shown.names.len().min(n)], "{:?}", sources[0].text);
                read += 1;
            }
        }
        assert!(500 < read, "{read}");
    }

    #[test]
    fn no_set_is_too_odd_and_what_is_shown_is_what_was_read() {
        let (mut random, mut read) = (Random::of(1), 0);
        for _ in 0..20_000 {
            let sources = typed_with_set(Aim::Wiring, "x' = y, z' = 1", &babble(&mut random, "x*y, x"));
            let system = match taken(&sources) {
                Ok(system) => system,
                Err(fault) => {
                    fault.span.map(|span| crate::typed::text::point(&sources, span));
                    continue;
                }
            };
            if let Some(set) = system.given.as_ref().unwrap().set() {
                let shown = with_set("x' = y, z' = 1", &system.set(&set).join(", "));
                assert_eq!(shown.given.unwrap().set(), Some(set), "{:?}", sources[1].text);
                read += 1;
            }
        }
        assert!(500 < read, "{read}");
    }
}
