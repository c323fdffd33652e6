//! The sign of life of a long search, on standard error. Whatever stands there when the search is stopped is true.

use std::io::Write;
use std::time::Duration;

use crate::saying::numbers::{counted, grouped};
use crate::saying::searched::Searched;

/// A search that is over sooner than this says nothing but its answer.
const PATIENCE: Duration = Duration::from_secs(1);

/// Whether a search is one of which something is said before its end.
pub fn is_long(elapsed: Duration) -> bool {
    PATIENCE <= elapsed
}

pub struct Watch<'a, W: Write> {
    out: W,
    /// A terminal shows one line that is written over; elsewhere each thing is said once.
    terminal: bool,
    /// Among which sets is searched.
    searched: &'a Searched<'a>,
    /// What has been shown and not been said yet.
    unsaid: Option<String>,
    level: u64,
    /// Whether the line that is written over stands there.
    open: bool,
}

impl<W: Write> Watch<'_, W> {
    pub fn new<'a>(out: W, terminal: bool, searched: &'a Searched<'a>) -> Watch<'a, W> {
        Watch { out, terminal, searched, unsaid: None, level: 0, open: false }
    }

    /// There is no set of up to `cards` signals.
    pub fn shown(&mut self, cards: u64, steps: u64, elapsed: Duration) {
        self.unsaid = Some(format!("So far: {} ({}).\n", self.searched.excluded(cards), counted(steps, "step")));
        self.level = cards + 1;
        self.say(elapsed);
    }

    /// Time has passed.
    pub fn tick(&mut self, elapsed: Duration) {
        self.say(elapsed);
        if self.terminal && is_long(elapsed) {
            let seconds = grouped(elapsed.as_secs());
            let sets = self.searched.signals(self.level);
            let line = format!("\r\x1b[KLooking through sets of up to {sets}, {seconds} s ");
            self.open = true;
            self.put(&line);
        }
    }

    /// Says what is not the search's own.
    pub fn tell(&mut self, words: &str) {
        self.end();
        self.put(words);
    }

    /// The level that the search is in: it has shown that those below have no set.
    pub fn level(&self) -> u64 {
        self.level
    }

    /// The search is over: the line that is written over goes.
    pub fn end(&mut self) {
        if std::mem::take(&mut self.open) {
            self.put("\r\x1b[K");
        }
    }

    fn say(&mut self, elapsed: Duration) {
        if !is_long(elapsed) {
            return;
        }
        if let Some(words) = self.unsaid.take() {
            self.tell(&words);
        }
    }

    /// A closed standard error does not stop a search.
    fn put(&mut self, text: &str) {
        let _ = self.out.write_all(text.as_bytes());
        let _ = self.out.flush();
    }
}

#[cfg(test)]
mod tests {
    use super::*;

    fn seconds(s: u64) -> Duration {
        Duration::from_secs(s)
    }

    fn heard(terminal: bool, searched: &Searched, say: impl Fn(&mut Watch<&mut Vec<u8>>)) -> String {
        let mut out = Vec::new();
        say(&mut Watch::new(&mut out, terminal, searched));
        String::from_utf8(out).unwrap()
    }

    #[test]
    fn a_short_search_is_silent() {
        let said = heard(true, &Searched::default(), |w| {
            w.shown(0, 1, Duration::from_millis(3));
            w.shown(1, 4, Duration::from_millis(900));
            w.end();
        });
        assert_eq!(said, "");
    }

    #[test]
    fn a_long_search_says_what_it_has_shown() {
        let long = |searched| {
            heard(false, &searched, |w| {
                w.shown(0, 1, seconds(0));
                w.shown(1, 4, seconds(0));
                w.tick(seconds(1));
                w.tick(seconds(2));
                w.shown(2, 4711, seconds(5));
                w.end();
            })
        };
        assert_eq!(
            long(Searched::default()),
            "So far: no set of up to 1 new signal exists (4 steps).\n\
             So far: no set of up to 2 new signals exists (4,711 steps).\n"
        );
        assert_eq!(
            long(Searched { outside: vec!["u"], junior: None }),
            "So far: no patch of up to 1 new signal exists that leaves u outside the new signals (4 steps).\n\
             So far: no patch of up to 2 new signals exists that leaves u outside the new signals (4,711 steps).\n"
        );
        assert_eq!(
            long(Searched { outside: vec![], junior: Some(3) }),
            "So far: no set of up to 1 new signal of total degree up to 3 exists (4 steps).\n\
             So far: no set of up to 2 new signals of total degree up to 3 exists (4,711 steps).\n"
        );
    }

    #[test]
    fn what_is_told_stands_on_lines_of_its_own() {
        let said = heard(true, &Searched::default(), |w| {
            w.shown(1, 4, seconds(1));
            w.tick(seconds(2));
            w.tell("A patch.\n");
            assert_eq!(w.level(), 2);
            w.end();
        });
        assert!(said.ends_with("up to 2 new signals, 2 s \r\x1b[KA patch.\n"), "{said:?}");
    }

    #[test]
    fn a_terminal_sees_the_time_pass() {
        let said = heard(true, &Searched::default(), |w| {
            w.shown(2, 9, seconds(1));
            w.tick(seconds(2));
            w.tick(seconds(3));
            w.shown(3, 99, seconds(4));
            w.end();
        });
        let line = |s| format!("\r\x1b[KLooking through sets of up to 3 new signals, {s} s ");
        let expected = [
            "So far: no set of up to 2 new signals exists (9 steps).\n",
            &line(2),
            &line(3),
            "\r\x1b[K",
            "So far: no set of up to 3 new signals exists (99 steps).\n",
        ];
        assert_eq!(said, expected.concat());
        let junior = heard(true, &Searched { junior: Some(2), ..Searched::default() }, |w| {
            w.shown(2, 9, seconds(1));
            w.tick(seconds(2));
        });
        assert!(
            junior.ends_with("KLooking through sets of up to 3 new signals of total degree up to 2, 2 s "),
            "{junior}"
        );
    }
}
