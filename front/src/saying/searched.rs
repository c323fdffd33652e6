//! Among which sets a plan is searched, in words. These are not all where signals are fed from outside, which no new
//! signal holds, nor on a junior kit, where no new signal passes a total degree; so no more is said than of them.

use crate::saying::words::{listed, signals};
use crate::typed::settings::Settings;
use crate::typed::system::System;

/// What is known of every kit once the empty set is known not to do.
pub const UNWIRED: &str = "without new signals it cannot be wired";

#[derive(Default)]
pub struct Searched<'a> {
    /// The signals that are fed from outside.
    pub outside: Vec<&'a str>,
    /// The limit of a junior kit; nothing for the full kit.
    pub junior: Option<u64>,
}

impl Searched<'_> {
    pub fn of<'a>(system: &'a System, settings: &Settings) -> Searched<'a> {
        Searched { outside: system.outside(), junior: settings.junior() }
    }

    /// So many new signals, of the degree that the kit takes.
    pub fn signals(&self, number: u64) -> String {
        let signals = signals(number);
        self.junior.map_or(signals.clone(), |most| format!("{signals} of total degree up to {most}"))
    }

    /// What is known once level k has ended without a find.
    pub fn excluded(&self, k: u64) -> String {
        match (k, &self.outside[..]) {
            (0, _) => UNWIRED.into(),
            (_, []) => format!("no set of up to {} exists", self.signals(k)),
            (_, names) => {
                let (signals, names) = (self.signals(k), listed(names));
                format!("no patch of up to {signals} exists that leaves {names} outside the new signals")
            }
        }
    }

    /// What is known once levels below `least` have ended without a find.
    pub fn needed(&self, least: u64) -> String {
        let needed = format!("at least {} needed", if least == 1 { "1 is".into() } else { format!("{least} are") });
        let outside = match &self.outside[..] {
            [] => None,
            [name] => Some(format!("{name} stays outside the new signals")),
            names => Some(format!("{} stay outside the new signals", listed(names))),
        };
        let junior = self.junior.map(|most| format!("each has total degree up to {most}"));
        match [outside, junior].into_iter().flatten().collect::<Vec<_>>() {
            // Without new signals it is the same for all.
            rules if rules.is_empty() || least == 1 => needed,
            rules => format!("{needed} where {}", rules.join(" and ")),
        }
    }

    /// Among which sets those that were found are the smallest, where these are not all.
    pub fn among(&self) -> String {
        let outside = match &self.outside[..] {
            [] => None,
            names => Some(format!("that leave {} outside the new signals", listed(names))),
        };
        let junior = self.junior.map(|most| format!("whose new signals have total degree up to {most}"));
        match [outside, junior].into_iter().flatten().collect::<Vec<_>>() {
            rules if rules.is_empty() => String::new(),
            rules => format!(" among those {}", rules.join(" and ")),
        }
    }

    /// What may help where there is no set, each in a line of its own. Of what was left out of the search nothing is
    /// known.
    pub fn left_out(&self) -> String {
        let full_kit = self.junior.map(|most| {
            format!(
                "The search was among new signals of total degree up to {most}. The full kit may have a set: without \
                 --degree it is asked."
            )
        });
        full_kit.into_iter().chain(self.or_a_knob()).map(|line| format!("\n{line}")).collect()
    }

    /// Signals from outside may stand in the way of new ones.
    fn or_a_knob(&self) -> Option<String> {
        let (one, option) = match &self.outside[..] {
            [] => return None,
            [name] => (name.to_string(), format!("--knob {name}")),
            names => (format!("one of {}", listed(names)), "--knob".to_string()),
        };
        Some(format!(
            "If {one} never moves during a run, it is a knob, which new signals may hold: {option} enters it without \
             the mark."
        ))
    }
}

#[cfg(test)]
mod tests {
    use super::*;

    fn searched<'a>(outside: &[&'a str], junior: Option<u64>) -> Searched<'a> {
        Searched { outside: outside.to_vec(), junior }
    }

    #[test]
    fn of_the_full_kit_without_signals_all_is_said() {
        let all = Searched::default();
        assert_eq!(
            (all.signals(1), all.among(), all.left_out()),
            ("1 new signal".into(), String::new(), String::new())
        );
        assert_eq!(all.excluded(2), "no set of up to 2 new signals exists");
    }

    #[test]
    fn of_a_junior_kit_the_limit_is_said() {
        let junior = searched(&[], Some(3));
        assert_eq!(junior.signals(2), "2 new signals of total degree up to 3");
        assert_eq!(junior.excluded(1), "no set of up to 1 new signal of total degree up to 3 exists");
        assert_eq!(junior.among(), " among those whose new signals have total degree up to 3");
        assert_eq!(
            junior.left_out(),
            "\nThe search was among new signals of total degree up to 3. The full kit may have a set: without --degree \
             it is asked."
        );
    }

    #[test]
    fn a_limit_beside_signals_from_outside() {
        let both = searched(&["u", "v"], Some(2));
        assert_eq!(
            both.excluded(6),
            "no patch of up to 6 new signals of total degree up to 2 exists that leaves u and v outside the new signals"
        );
        assert_eq!(
            both.among(),
            " among those that leave u and v outside the new signals and whose new signals have total degree up to 2"
        );
        let lines = both.left_out();
        let lines: Vec<&str> = lines.lines().collect();
        assert!(lines[1].starts_with("The search was among new signals of total degree up to 2."), "{lines:?}");
        assert!(lines[2].starts_with("If one of u and v never moves during a run"), "{lines:?}");
    }

    #[test]
    fn how_many_are_needed_is_said_of_the_same_sets() {
        let needed = |outside: &[&str], junior, least| searched(outside, junior).needed(least);
        assert_eq!(needed(&[], None, 2), "at least 2 are needed");
        assert_eq!(needed(&["u"], None, 3), "at least 3 are needed where u stays outside the new signals");
        assert_eq!(needed(&["u", "v"], None, 2), "at least 2 are needed where u and v stay outside the new signals");
        assert_eq!(needed(&[], Some(3), 2), "at least 2 are needed where each has total degree up to 3");
        assert_eq!(
            needed(&["u"], Some(2), 6),
            "at least 6 are needed where u stays outside the new signals and each has total degree up to 2"
        );
        for (outside, junior) in [(&[][..], None), (&["u"], None), (&[], Some(9)), (&["u"], Some(2))] {
            assert_eq!(needed(outside, junior, 1), "at least 1 is needed");
        }
    }

    #[test]
    fn without_new_signals_nothing_is_left_out() {
        for searched in [searched(&[], None), searched(&["u"], None), searched(&[], Some(9)), searched(&["u"], Some(2))]
        {
            assert_eq!(searched.excluded(0), "without new signals it cannot be wired");
        }
    }
}
