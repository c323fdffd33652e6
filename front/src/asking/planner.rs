//! Running the proved program.

use std::io::{Read, Write};
use std::process::{Command, Stdio};
use std::sync::mpsc::{channel, RecvTimeoutError};
use std::thread;
use std::time::Duration;

use crate::algebra::{degree, Exponents};
use crate::asking::answer::{self, Answer, Wire};
use crate::typed::given;
use crate::typed::settings::{Count, Settings};
use crate::typed::system::{Record, System};

/// The variable that names the script which runs a proved program by its name. The command `plan` sets it.
pub const RUNNER: &str = "SIRAGUMON_RUNNER";

/// The programs: the one that plans, thins and wires, and the one that prints listings and reads them.
const ASKED: &str = "asked";
const LISTED: &str = "listed";

pub struct Planner {
    pub runner: String,
    /// Variables of the system, a bit for each that is fed from outside, the kit's limit, and the term records.
    pub n: usize,
    pub marks: u64,
    pub degree: Count,
    pub terms: Vec<u8>,
}

impl Planner {
    /// Asks about a system by its records, for the kit that is set.
    pub fn of(runner: String, system: &System, records: &[Record], settings: &Settings) -> Planner {
        Planner {
            runner,
            n: system.names.len(),
            marks: system.marks(),
            degree: settings.degree.clone(),
            terms: records.iter().flat_map(Record::bytes).collect(),
        }
    }

    /// Asks once, and calls `tick` every second while the program runs.
    pub fn ask(&self, settings: &Settings, tick: impl FnMut()) -> Result<Answer, String> {
        let Settings { cards, steps, sets, which, .. } = settings;
        let which = which.to_string();
        let text = self.run(ASKED, &[cards.digits(), steps.digits(), sets.digits(), &which], &self.terms, tick)?;
        answer::planned(self.n, &text).and_then(|answer| self.keeps_rules(answer)).map_err(unreadable)
    }

    /// Asks for the smallest subsets of a set that will do, and for the wiring of subset `which`.
    pub fn thin(&self, set: &[Exponents], which: u64) -> Result<Answer, String> {
        let text = self.run_on_set(ASKED, &[&which.to_string()], set)?;
        answer::thinned(self.n, set, &text).and_then(|answer| self.keeps_rules(answer)).map_err(unreadable)
    }

    /// Asks whether a set will do as it is, and for its wiring.
    pub fn wire(&self, set: &[Exponents]) -> Result<Answer, String> {
        let text = self.run_on_set(ASKED, &[], set)?;
        answer::wired(self.n, set, &text).and_then(|answer| self.keeps_rules(answer)).map_err(unreadable)
    }

    /// Asks for the listing of a set with that wiring.
    pub fn print(&self, set: &[Exponents], wires: &[Wire]) -> Result<String, String> {
        let text = self.run_on_set(LISTED, &[], set)?;
        answer::printed(self.n, self.marks, set, wires, &text).map_err(unreadable)
    }

    /// Asks whether a listing is right.
    pub fn read(&self, listing: &[u8]) -> Result<Answer, String> {
        let input = [&self.terms, listing].concat();
        let text = self.run(LISTED, &[&self.terms.len().to_string()], &input, || ())?;
        let answer = answer::read(self.n, self.marks, listing, &text);
        answer.and_then(|answer| self.keeps_rules(answer)).map_err(unreadable)
    }

    /// An answer that holds a signal from outside in a new one, or wires one, is none. Nor is one that has a new signal
    /// above the kit's limit.
    fn keeps_rules(&self, answer: Answer) -> Result<Answer, String> {
        let marked = |i: usize| self.marks >> i & 1 == 1;
        let kept = |new: &Exponents| self.degree.value().is_some_and(|most| degree(new) <= most);
        let held = answer.sets.iter().flatten().any(|new| (0..self.n).any(|i| marked(i) && new[i] != 0));
        let wired = answer.wires.iter().any(|wire| wire.left <= self.n && marked(wire.left - 1));
        let above = !answer.sets.iter().flatten().all(kept);
        match (held, wired, above) {
            (true, ..) => Err("a new signal holds one from outside".into()),
            (_, true, _) => Err("a signal from outside is wired".into()),
            (.., true) => Err("a new signal has a total degree above the kit's limit".into()),
            _ => Ok(answer),
        }
    }

    /// The record of a set goes before the terms. A set has so few subsets that it is over at once.
    fn run_on_set(&self, program: &str, arguments: &[&str], set: &[Exponents]) -> Result<String, String> {
        let input = [&given::record(set)[..], &self.terms].concat();
        self.run(program, arguments, &input, || ())
    }

    /// Runs a program. Its first words are those of the system and the kit; the others are given.
    fn run(&self, program: &str, arguments: &[&str], input: &[u8], mut tick: impl FnMut()) -> Result<String, String> {
        let system = [self.n.to_string(), self.marks.to_string(), self.degree.digits().to_string()];
        let mut command = Command::new(&self.runner);
        command.arg(program).args(system).args(arguments).stdin(Stdio::piped()).stdout(Stdio::piped());
        leash(&mut command);
        let mut child = command.spawn().map_err(|why| format!("{} cannot be run: {why}", self.runner))?;
        // The program stops reading once it knows that there are too many terms, so a failed write says nothing.
        if let Some(mut stream) = child.stdin.take() {
            let _ = stream.write_all(input);
        }
        let mut output = child.stdout.take().ok_or("the planner has no output")?;
        let (send, receive) = channel();
        thread::spawn(move || {
            let mut text = String::new();
            let _ = send.send(output.read_to_string(&mut text).map(|_| text));
        });
        let text = loop {
            match receive.recv_timeout(Duration::from_secs(1)) {
                Ok(text) => break text.map_err(unreadable)?,
                Err(RecvTimeoutError::Timeout) => tick(),
                Err(RecvTimeoutError::Disconnected) => return Err("the planner's answer was lost".into()),
            }
        };
        let status = child.wait().map_err(|why| format!("the planner's end cannot be seen: {why}"))?;
        // A program that did not end by itself may have written half an answer.
        if status.success() {
            Ok(text)
        } else {
            Err(format!("the planner was stopped before it answered ({status})"))
        }
    }
}

fn unreadable(why: impl std::fmt::Display) -> String {
    format!("the planner's answer cannot be read ({why})")
}

/// Ends the program together with this one, so that a search of hours is not left behind by a command that was ended.
#[cfg(target_os = "linux")]
fn leash(command: &mut Command) {
    use std::os::unix::process::CommandExt;
    extern "C" {
        fn prctl(option: i32, ...) -> i32;
    }
    const SET_PARENT_DEATH_SIGNAL: i32 = 1;
    const TERMINATE: u64 = 15;
    // Between fork and exec only this one call of the system is made.
    unsafe {
        command.pre_exec(|| {
            prctl(SET_PARENT_DEATH_SIGNAL, TERMINATE);
            Ok(())
        });
    }
}

#[cfg(not(target_os = "linux"))]
fn leash(_: &mut Command) {}

#[cfg(test)]
mod tests {
    use super::*;
    use crate::panel::{FULL_DEGREE, TERM_BYTES};

    /// Why there is neither a plan nor a thinned or a wired set, and why no listing is read or printed.
    fn faults(runner: &str) -> [String; 5] {
        let terms = vec![0; TERM_BYTES * 9000];
        let planner = Planner { runner: runner.into(), n: 1, marks: 0, degree: FULL_DEGREE.into(), terms };
        let set = [[2, 0, 0, 0, 0, 0]];
        let planned = planner.ask(&Settings::default(), || ());
        let printed = planner.print(&set, &[]).map(|_| Answer::default());
        let answers = [planned, planner.thin(&set, 1), planner.wire(&set), planner.read(b""), printed];
        answers.map(|answer| answer.unwrap_err())
    }

    /// What becomes of an answer for two variables.
    fn taken(marks: u64, degree: u64, text: &str) -> Result<Answer, String> {
        let planner = Planner { runner: String::new(), n: 2, marks, degree: degree.into(), terms: vec![] };
        planner.keeps_rules(answer::planned(2, text).unwrap())
    }

    #[test]
    fn a_signal_from_outside_is_neither_held_nor_wired() {
        let asked = |marks: u64, text: &str| taken(marks, FULL_DEGREE, text);
        let held = "0 1 1 8 0\n1.1.0.0.0.0\n1 1 3 1\n3 3 3 1\n";
        assert!(asked(0, held).is_ok(), "a knob may be held");
        assert!(asked(2, held).unwrap_err().contains("holds one from outside"));
        let wired = "0 0 1 1 0\n\n1 0 2 1\n2 0 1 1\n";
        assert!(asked(0, wired).is_ok());
        assert!(asked(2, wired).unwrap_err().contains("is wired"));
        assert!(asked(2, "0 1 1 6 0\n2.0.0.0.0.0\n1 1 3 1\n3 2 3 2\n").is_ok());
        assert!(asked(2, "5 7 0 126 0\n").is_ok());
    }

    #[test]
    fn no_new_signal_passes_the_limit_of_the_kit() {
        let above = |degree: u64, text: &str| taken(0, degree, text).unwrap_err().contains("above the kit's limit");
        let sets = "0 1 2 9 0\n0.2.0.0.0.0\n2.2.0.0.0.0\n";
        assert!(above(3, sets), "the degree is the total, of whichever set");
        assert!(taken(0, 4, sets).is_ok());
        assert!(taken(0, FULL_DEGREE, "0 1 1 9 0\n54.54.54.54.54.54\n").is_ok());
        assert!(above(FULL_DEGREE, "0 1 1 9 0\n54.54.54.54.54.55\n"));
        assert!(taken(0, 10, "1 0 0 0 0\n").is_ok());
    }

    #[test]
    fn a_program_that_is_not_there() {
        assert!(faults("/nowhere/run-program").iter().all(|why| why.contains("cannot be run")));
    }

    #[test]
    fn a_program_that_fails_or_says_something_else() {
        assert!(faults("/bin/false").iter().all(|why| why.contains("stopped before it answered")));
        for silent in ["/bin/echo", "/bin/true"] {
            let faults = faults(silent);
            assert!(faults.iter().all(|why| why.contains("cannot be read")), "{silent}: {faults:?}");
        }
    }
}
