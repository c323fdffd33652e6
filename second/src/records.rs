//! The three kinds of record as bytes, and the rules that refuse them
//! (document 01, The system on the panel; document 02, [3] and [6]).

use crate::marks::Marks;
use crate::monomial::Monomial;
use crate::panel::{
    CARDS, COEFFICIENT_AT, EXPONENTS_AT, MOST_COEFFICIENT, MOST_EXPONENT, MOST_SET_EXPONENT,
    MOST_TERMS_BYTES, SET_BYTES, TERM_BYTES, VARIABLES, WIRE_BYTES, WIRE_COEFFICIENT_AT,
};
use crate::reply::Reply;
use crate::setting::Setting;
use crate::system::{Set, System, Term};
use crate::wiring::Wire;
use std::fmt;

/// Code 2 as far as it is about the terms.
pub fn terms_have_a_length(bytes: &[u8]) -> bool {
    bytes.len().is_multiple_of(TERM_BYTES) && bytes.len() <= MOST_TERMS_BYTES
}

/// The coefficient that begins at a byte of a record.
fn coefficient_at(record: &[u8], at: usize) -> i32 {
    i32::from_le_bytes(std::array::from_fn(|i| record[at + i]))
}

/// The fields of one term record, before any rule is applied to them.
#[derive(Clone, Copy, PartialEq, Eq, Debug)]
pub struct Fields {
    pub equation: u8,
    pub zero: u8,
    pub exponents: [u8; VARIABLES],
    pub coefficient: i32,
}

impl Fields {
    /// Cuts one record into its fields.
    pub fn of(record: &[u8]) -> Fields {
        Fields {
            equation: record[0],
            zero: record[1],
            exponents: std::array::from_fn(|i| record[EXPONENTS_AT + i]),
            coefficient: coefficient_at(record, COEFFICIENT_AT),
        }
    }

    /// Every field that breaks its rule: none for a good record.
    pub fn faults(&self, n: usize, marks: Marks) -> Vec<TermFault> {
        let mut faults = Vec::new();
        match usize::from(self.equation) {
            0 => faults.push(TermFault::EquationZero),
            i if i > n => faults.push(TermFault::EquationBeyondN),
            i if marks.mark(i) => faults.push(TermFault::EquationMarked),
            _ => {}
        }
        if self.zero != 0 {
            faults.push(TermFault::ByteOne);
        }
        let (within, beyond) = self.exponents.split_at(n);
        if within.iter().any(|&e| u16::from(e) > MOST_EXPONENT) {
            faults.push(TermFault::ExponentAbove);
        }
        if beyond.iter().any(|&e| e != 0) {
            faults.push(TermFault::ExponentBeyondXn);
        }
        if self.coefficient == 0 {
            faults.push(TermFault::CoefficientZero);
        } else if i64::from(self.coefficient).abs() > MOST_COEFFICIENT {
            faults.push(TermFault::CoefficientBeyond);
        }
        faults
    }
}

/// A rule that a term record can break, with its name.
#[derive(Clone, Copy, PartialEq, Eq, Debug)]
pub enum TermFault {
    EquationZero,
    EquationBeyondN,
    EquationMarked,
    ByteOne,
    ExponentAbove,
    ExponentBeyondXn,
    CoefficientZero,
    CoefficientBeyond,
}

impl fmt::Display for TermFault {
    fn fmt(&self, f: &mut fmt::Formatter<'_>) -> fmt::Result {
        match self {
            TermFault::EquationZero => write!(f, "equation 0"),
            TermFault::EquationBeyondN => write!(f, "equation beyond n"),
            TermFault::EquationMarked => write!(f, "equation of a signal"),
            TermFault::ByteOne => write!(f, "byte 1 not zero"),
            TermFault::ExponentAbove => write!(f, "exponent above {MOST_EXPONENT}"),
            TermFault::ExponentBeyondXn => write!(f, "exponent beyond xn"),
            TermFault::CoefficientZero => write!(f, "coefficient 0"),
            TermFault::CoefficientBeyond => write!(f, "coefficient beyond a million"),
        }
    }
}

/// Reads the terms record by record: 3 before 4 within each, the first fault
/// decides. The setting and the length have been checked before.
pub fn read_terms(setting: Setting, bytes: &[u8]) -> Result<System, Reply> {
    let Setting { n, marks, degree } = setting;
    let n = n as usize;
    let mut terms: Vec<Term> = Vec::new();
    for (index, record) in bytes.chunks(TERM_BYTES).enumerate() {
        let place = index + 1;
        let fields = Fields::of(record);
        if !fields.faults(n, marks).is_empty() {
            return Err(Reply::at(3, place));
        }
        let term = Term {
            equation: usize::from(fields.equation),
            monomial: Monomial(fields.exponents.map(u16::from)),
            coefficient: i64::from(fields.coefficient),
        };
        if terms.iter().any(|earlier| earlier.repeats(&term)) {
            return Err(Reply::at(4, place));
        }
        terms.push(term);
    }
    Ok(System {
        n,
        marks,
        degree,
        terms,
    })
}

/// Writes one term record.
pub fn write_term(term: &Term) -> [u8; TERM_BYTES] {
    let mut record = [0; TERM_BYTES];
    record[0] = term.equation as u8;
    for (i, &exponent) in term.monomial.0.iter().enumerate() {
        record[EXPONENTS_AT + i] = exponent as u8;
    }
    record[COEFFICIENT_AT..].copy_from_slice(&(term.coefficient as i32).to_le_bytes());
    record
}

/// Writes a run of term records.
pub fn write_terms(terms: &[Term]) -> Vec<u8> {
    terms.iter().flat_map(write_term).collect()
}

/// The monomials of a set record, one for each card, unused places included.
pub fn set_places(record: &[u8]) -> [Monomial; CARDS] {
    let exponent = |j: usize, i: usize| u16::from(record[VARIABLES * j + i]);
    std::array::from_fn(|j| Monomial(std::array::from_fn(|i| exponent(j, i))))
}

/// A rule that a set record can break, with its name.
#[derive(Clone, Copy, PartialEq, Eq, Debug)]
pub enum SetFault {
    OneBefore,
    SingleVariable,
    EqualNeighbours,
    NotAscending,
    ExponentAbove,
    ExponentBeyondXn,
    Marked,
    DegreeAbove,
}

impl fmt::Display for SetFault {
    fn fmt(&self, f: &mut fmt::Formatter<'_>) -> fmt::Result {
        match self {
            SetFault::OneBefore => write!(f, "1 before a monomial"),
            SetFault::SingleVariable => write!(f, "single variable"),
            SetFault::EqualNeighbours => write!(f, "equal neighbours"),
            SetFault::NotAscending => write!(f, "not ascending"),
            SetFault::ExponentAbove => write!(f, "exponent above {MOST_SET_EXPONENT}"),
            SetFault::ExponentBeyondXn => write!(f, "exponent beyond xn"),
            SetFault::Marked => write!(f, "monomial with a signal"),
            SetFault::DegreeAbove => write!(f, "degree above the limit"),
        }
    }
}

/// Every rule that a set record breaks: none for a good record.
pub fn set_faults(setting: Setting, record: &[u8]) -> Vec<SetFault> {
    let Setting { n, marks, degree } = setting;
    let places = set_places(record);
    let used = places
        .iter()
        .rposition(|&m| m != Monomial::ONE)
        .map_or(0, |last| last + 1);
    let members = &places[..used];
    let mut faults = Vec::new();
    if members.contains(&Monomial::ONE) {
        faults.push(SetFault::OneBefore);
    }
    if members.iter().any(|m| m.is_variable()) {
        faults.push(SetFault::SingleVariable);
    }
    if members.windows(2).any(|two| two[0] == two[1]) {
        faults.push(SetFault::EqualNeighbours);
    }
    if members.windows(2).any(|two| two[0] > two[1]) {
        faults.push(SetFault::NotAscending);
    }
    let exponents = |m: &Monomial| m.0;
    if members
        .iter()
        .flat_map(exponents)
        .any(|e| e > MOST_SET_EXPONENT)
    {
        faults.push(SetFault::ExponentAbove);
    }
    if members
        .iter()
        .any(|m| m.0[n as usize..].iter().any(|&e| e != 0))
    {
        faults.push(SetFault::ExponentBeyondXn);
    }
    if members.iter().any(|m| marks.touch(*m)) {
        faults.push(SetFault::Marked);
    }
    if members.iter().any(|m| !degree.reaches(*m)) {
        faults.push(SetFault::DegreeAbove);
    }
    faults
}

/// Reads a set record of the right length.
pub fn read_set(setting: Setting, record: &[u8]) -> Result<Set, Reply> {
    if !set_faults(setting, record).is_empty() {
        return Err(Reply::bare(8));
    }
    let used = |m: &Monomial| *m != Monomial::ONE;
    Ok(set_places(record).into_iter().filter(used).collect())
}

/// Writes the monomials in the given sequence, then zeros. The sequence need
/// not be a good set: damaged records are written with this too.
pub fn write_places(monomials: &[Monomial]) -> [u8; SET_BYTES] {
    let mut record = [0; SET_BYTES];
    for (j, monomial) in monomials.iter().enumerate() {
        for (i, &exponent) in monomial.0.iter().enumerate() {
            record[VARIABLES * j + i] = exponent as u8;
        }
    }
    record
}

/// Writes a set record.
pub fn write_set(set: &Set) -> [u8; SET_BYTES] {
    let members: Vec<Monomial> = set.iter().copied().collect();
    write_places(&members)
}

/// Writes one wiring record.
pub fn write_wire(wire: &Wire) -> [u8; WIRE_BYTES] {
    let mut record = [0; WIRE_BYTES];
    record[0] = wire.left as u8;
    record[1] = wire.a as u8;
    record[2] = wire.b as u8;
    record[WIRE_COEFFICIENT_AT..].copy_from_slice(&(wire.coefficient as i32).to_le_bytes());
    record
}

/// Reads a wiring list back, for showing it; zeros after the list end it.
pub fn read_wires(bytes: &[u8]) -> Vec<Wire> {
    bytes
        .chunks_exact(WIRE_BYTES)
        .take_while(|record| record[0] != 0)
        .map(|r| Wire {
            left: usize::from(r[0]),
            a: usize::from(r[1]),
            b: usize::from(r[2]),
            coefficient: i64::from(coefficient_at(r, WIRE_COEFFICIENT_AT)),
        })
        .collect()
}
