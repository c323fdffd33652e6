//! How far the planner may go: cards, steps and room; and for which kit.

use crate::panel::{CARDS, FULL_DEGREE, LEAST_DEGREE, MOST_DEGREE, SETS, STEPS, USUAL_SETS, USUAL_STEPS};

/// A number as typed. It may be too large for the planner, which then refuses it.
#[derive(Debug, Clone, PartialEq)]
pub struct Count(String);

impl Count {
    /// Digits; commas and underscores may stand between them.
    pub fn of(text: &str) -> Option<Count> {
        let digits: String = text.chars().filter(|c| !matches!(c, ',' | '_')).collect();
        if digits.is_empty()
            || !digits.bytes().all(|b| b.is_ascii_digit())
            || !text.starts_with(|c: char| c.is_ascii_digit())
        {
            return None;
        }
        let short = digits.trim_start_matches('0');
        Some(Count(if short.is_empty() { "0".into() } else { short.into() }))
    }

    pub fn digits(&self) -> &str {
        &self.0
    }

    /// Nothing where it is beyond 64 bits.
    pub fn value(&self) -> Option<u64> {
        self.0.parse().ok()
    }
}

impl From<u64> for Count {
    fn from(number: u64) -> Count {
        Count(number.to_string())
    }
}

#[derive(Debug, Clone, PartialEq)]
pub struct Settings {
    /// K: the most new signals of a set.
    pub cards: Count,
    /// The step limit.
    pub steps: Count,
    /// The room, in sets.
    pub sets: Count,
    /// The most that the total degree of a new signal may be: a junior kit's limit, or what stands for the full kit.
    pub degree: Count,
    /// The number of the set that is wired, from 1.
    pub which: u64,
}

/// The numbers that an option takes: from the least to the most, and for a kit's limit also what stands for none.
#[derive(Debug, Clone, Copy, PartialEq)]
pub struct Range {
    pub least: u64,
    pub most: u64,
    pub open: Option<u64>,
}

impl Range {
    fn of(least: u64, most: u64) -> Range {
        Range { least, most, open: None }
    }

    fn takes(&self, count: &Count) -> bool {
        count.value().is_some_and(|v| self.least <= v && v <= self.most || self.open == Some(v))
    }
}

impl Default for Settings {
    /// As document 01's program plans.
    fn default() -> Settings {
        Settings {
            cards: CARDS.into(),
            steps: USUAL_STEPS.into(),
            sets: USUAL_SETS.into(),
            degree: FULL_DEGREE.into(),
            which: 1,
        }
    }
}

impl Settings {
    /// The options that are out of range: option, typed number, and what the option takes.
    pub fn out_of_range(&self) -> Vec<(&'static str, &Count, Range)> {
        let all = [
            ("--cards", &self.cards, Range::of(0, CARDS)),
            ("--steps", &self.steps, Range::of(1, STEPS)),
            ("--sets", &self.sets, Range::of(0, SETS)),
            ("--degree", &self.degree, Range { open: Some(FULL_DEGREE), ..Range::of(LEAST_DEGREE, MOST_DEGREE) }),
        ];
        all.into_iter().filter(|(_, count, range)| !range.takes(count)).collect()
    }

    /// The limit that is printed on a junior kit; nothing for the full kit, and for a number that no kit has.
    pub fn junior(&self) -> Option<u64> {
        self.degree.value().filter(|degree| (LEAST_DEGREE..=MOST_DEGREE).contains(degree))
    }
}

#[cfg(test)]
mod tests {
    use super::*;

    #[test]
    fn numbers_as_people_type_them() {
        assert_eq!(Count::of("1,000,000"), Count::of("1000000"));
        assert_eq!(Count::of("1_000").unwrap().value(), Some(1000));
        assert_eq!(Count::of("007").unwrap().digits(), "7");
        assert_eq!(Count::of("000").unwrap().value(), Some(0));
        for text in ["", "-1", "1e9", "two", "+3", "1.5", ",", ",1"] {
            assert_eq!(Count::of(text), None, "{text}");
        }
    }

    #[test]
    fn a_number_of_any_length_is_kept() {
        let long = Count::of("99999999999999999999999").unwrap();
        assert_eq!((long.value(), long.digits()), (None, "99999999999999999999999"));
    }

    #[test]
    fn ranges() {
        assert_eq!(Settings::default().out_of_range(), vec![]);
        let options = |cards: u64, steps: u64, sets: u64| {
            let settings =
                Settings { cards: cards.into(), steps: steps.into(), sets: sets.into(), ..Settings::default() };
            settings.out_of_range().iter().map(|f| f.0).collect::<Vec<_>>()
        };
        assert!(options(0, 1, 0).is_empty());
        assert!(options(6, 1_000_000_000, 20_000).is_empty());
        assert_eq!(options(7, 0, 20_001), ["--cards", "--steps", "--sets"]);
        assert_eq!(options(6, 1_000_000_001, 0), ["--steps"]);
    }

    #[test]
    fn kits() {
        let kit = |degree: &str| Settings { degree: Count::of(degree).unwrap(), ..Settings::default() };
        for degree in 2..=9 {
            let junior = kit(&degree.to_string());
            assert_eq!((junior.junior(), junior.out_of_range()), (Some(degree), vec![]));
        }
        assert_eq!((kit("324"), kit("324").junior()), (Settings::default(), None));
        for degree in ["0", "1", "10", "323", "325", "99999999999999999999999"] {
            let none = kit(degree);
            assert_eq!((none.junior(), none.out_of_range()[0].0), (None, "--degree"), "{degree}");
        }
    }
}
