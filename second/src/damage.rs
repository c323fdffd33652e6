//! Ways of breaking a term record or a set record, one rule at a time.

use crate::monomial::Monomial;
use crate::panel::{
    CARDS, COEFFICIENT_AT, EXPONENTS_AT, MOST_COEFFICIENT, MOST_EXPONENT, MOST_NONSQUARE_EXPONENT,
    MOST_SET_EXPONENT, TERM_BYTES, VARIABLES,
};
use crate::random::Random;

/// Where a term record is broken, and with what.
#[derive(Clone, Copy, PartialEq, Eq, Debug)]
pub enum Field {
    EquationZero,
    EquationAfterN,
    EquationLargest,
    ByteOne,
    ExponentAbove,
    ExponentLargest,
    ExponentAny,
    ExponentBeyond,
    CoefficientZero,
    CoefficientAbove,
    CoefficientBelow,
    CoefficientLeast,
    CoefficientMost,
}

/// Thirteen, which shares no factor with the most records: so a turn through
/// these and one through the places together meet every field at every place.
pub const FIELDS: [Field; 13] = [
    Field::EquationZero,
    Field::EquationAfterN,
    Field::EquationLargest,
    Field::ByteOne,
    Field::ExponentAbove,
    Field::ExponentLargest,
    Field::ExponentAny,
    Field::ExponentBeyond,
    Field::CoefficientZero,
    Field::CoefficientAbove,
    Field::CoefficientBelow,
    Field::CoefficientLeast,
    Field::CoefficientMost,
];

/// Breaks the record at a place (from 1) of a run. With all variables in use
/// there is no exponent beyond xn, and the last one is too large in its stead.
pub fn break_term(random: &mut Random, terms: &mut [u8], n: usize, place: usize, field: Field) {
    let record = &mut terms[(place - 1) * TERM_BYTES..place * TERM_BYTES];
    let variable = EXPONENTS_AT + random.below(n);
    let last = COEFFICIENT_AT - 1;
    let too_large = MOST_EXPONENT as u8 + 1;
    let mut number = None;
    match field {
        Field::EquationZero => record[0] = 0,
        Field::EquationAfterN => record[0] = n as u8 + 1,
        Field::EquationLargest => record[0] = 255,
        Field::ByteOne => record[1] = random.pick(&[1, 1, 16, 128, 255]),
        Field::ExponentAbove => record[variable] = too_large,
        Field::ExponentLargest => record[variable] = 255,
        Field::ExponentAny => {
            record[variable] = random.between(usize::from(too_large) + 1, 254) as u8;
        }
        Field::ExponentBeyond if n < VARIABLES => {
            let most = MOST_EXPONENT as u8;
            record[random.between(EXPONENTS_AT + n, last)] =
                random.pick(&[1, 1, most, too_large, 255]);
        }
        Field::ExponentBeyond => record[last] = too_large,
        Field::CoefficientZero => number = Some(0),
        Field::CoefficientAbove => number = Some(MOST_COEFFICIENT as i32 + 1),
        Field::CoefficientBelow => number = Some(-(MOST_COEFFICIENT as i32) - 1),
        Field::CoefficientLeast => number = Some(i32::MIN),
        Field::CoefficientMost => number = Some(i32::MAX),
    }
    if let Some(number) = number {
        record[COEFFICIENT_AT..].copy_from_slice(&number.to_le_bytes());
    }
}

/// How a set record is broken.
#[derive(Clone, Copy, PartialEq, Eq, Debug)]
pub enum Way {
    NotAscending,
    Equal,
    OneBefore,
    GapBeforeLast,
    Variable,
    ExponentAbove,
    ExponentAny,
    Beyond,
}

pub const WAYS: [Way; 8] = [
    Way::NotAscending,
    Way::Equal,
    Way::OneBefore,
    Way::GapBeforeLast,
    Way::Variable,
    Way::ExponentAbove,
    Way::ExponentAny,
    Way::Beyond,
];

/// Exponents that are more than one above what a set may have: what a nonsquare
/// comes to, what a product of two members comes to, and what a sign or a byte
/// makes special.
const FAR_ABOVE: [u16; 8] = [
    MOST_SET_EXPONENT + 2,
    MOST_NONSQUARE_EXPONENT,
    MOST_NONSQUARE_EXPONENT + 1,
    2 * MOST_SET_EXPONENT,
    127,
    128,
    200,
    255,
];

/// The last place of a set record, from 0.
const LAST: usize = CARDS - 1;

/// Breaks a good set of one member or more at a place (from 0; taken within the
/// set) and gives the places of the record. Where a member is changed the rest
/// stays ascending, so that nothing but the one rule is broken.
pub fn break_set(
    random: &mut Random,
    members: &mut Vec<Monomial>,
    n: usize,
    place: usize,
    way: Way,
) {
    let at = place % members.len();
    match way {
        Way::NotAscending | Way::Equal if members.len() == 1 => {
            let other = if way == Way::Equal {
                members[0]
            } else {
                lower(members[0])
            };
            members.push(other);
        }
        Way::NotAscending => members.swap(at.max(1) - 1, at.max(1)),
        Way::Equal => {
            members.insert(at, members[at]);
            members.truncate(CARDS);
            // A full set loses its last member; the pair must not lose half.
            if at == LAST {
                members[LAST - 1] = members[LAST];
            }
        }
        Way::OneBefore if members.len() < CARDS => members.insert(at, Monomial::ONE),
        Way::OneBefore => members[at.min(LAST - 1)] = Monomial::ONE,
        Way::GapBeforeLast => {
            let last = members.pop().expect("a member");
            members.truncate(at.min(LAST - 1));
            members.resize(LAST, Monomial::ONE);
            members.push(last);
        }
        Way::Variable => {
            members.truncate(LAST);
            members.push(Monomial::variable(1 + place % n));
            members.sort();
        }
        Way::ExponentAbove | Way::ExponentAny => {
            let exponent = match way {
                Way::ExponentAbove => MOST_SET_EXPONENT + 1,
                _ => random.pick(&FAR_ABOVE),
            };
            members[at].0[random.below(n)] = exponent;
            members.sort();
        }
        Way::Beyond if n < VARIABLES => {
            members[at].0[random.between(n, VARIABLES - 1)] =
                random.pick(&[1, 2, MOST_SET_EXPONENT]);
            members.sort();
        }
        Way::Beyond => {
            members[at].0[VARIABLES - 1] = MOST_SET_EXPONENT + 1;
            members.sort();
        }
    }
}

/// A monomial below a member, not 1 and not a variable where that can be.
fn lower(member: Monomial) -> Monomial {
    let mut lower = member;
    let largest = (0..VARIABLES)
        .max_by_key(|&i| member.0[i])
        .expect("exponents");
    lower.0[largest] -= 1;
    lower
}

#[cfg(test)]
mod tests {
    use super::*;
    use crate::marks::Marks;
    use crate::panel::MOST_TERMS;
    use crate::records::{read_terms, set_faults, write_places, write_terms, Fields};
    use crate::setting::Setting;
    use crate::systems;

    #[test]
    fn every_field_is_refused_at_every_place() {
        let mut random = Random::from_seed(6);
        for place in 1..=MOST_TERMS {
            for field in FIELDS {
                for n in 2..=VARIABLES {
                    let mut terms =
                        write_terms(&systems::run(&mut random, n, Marks::NONE, MOST_TERMS).terms);
                    break_term(&mut random, &mut terms, n, place, field);
                    let refusal = read_terms(Setting::full(n, Marks::NONE), &terms).unwrap_err();
                    assert_eq!(refusal.numbers(), [3, 0, 0, 0, place as u64]);
                    let broken = Fields::of(&terms[(place - 1) * TERM_BYTES..]);
                    assert_eq!(broken.faults(n, Marks::NONE).len(), 1);
                }
            }
        }
    }

    #[test]
    fn every_way_breaks_a_set() {
        let mut random = Random::from_seed(7);
        for way in WAYS {
            for n in 1..=VARIABLES {
                for size in 1..=CARDS {
                    for place in 0..CARDS {
                        let set = systems::set(&mut random, n, Marks::NONE, size);
                        let mut members: Vec<_> = set.into_iter().collect();
                        break_set(&mut random, &mut members, n, place, way);
                        assert!(members.len() <= CARDS);
                        let setting = Setting::full(n, Marks::NONE);
                        let faults = set_faults(setting, &write_places(&members));
                        assert!(!faults.is_empty(), "{way:?} {n} {size} {place}");
                    }
                }
            }
        }
    }
}
