//! Recorded answers of the proved programs, for tests.

use crate::algebra::Exponents;
use crate::asking::answer::{planned, printed, read, thinned, wired, Answer};
use crate::panel::FULL_DEGREE;
use crate::patch::Patch;
use crate::typed::given::{self, Aim};
use crate::typed::names::Kind;
use crate::typed::settings::Settings;
use crate::typed::system::{tests, Record, System};

const RECORDED: &str = include_str!("../tests/recorded");

/// The programs: `asked` and `listed`.
const PROGRAMS: [&str; 2] = ["ask ", "list "];

/// What a program wrote. The call must be one that a case of front/tests/cases makes.
fn written_by(program: &str, system: &System, words: &str, input: &[u8]) -> String {
    let hex: String = input.iter().map(|byte| format!("{byte:02x}")).collect();
    let call = format!("{program}{} {} {words} [{hex}]", system.names.len(), system.marks());
    let mut lines = RECORDED.lines();
    assert!(lines.by_ref().any(|line| line == call), "not recorded: {call}");
    let next = |line: &&str| PROGRAMS.iter().any(|program| line.starts_with(program));
    lines.take_while(|line| !next(line)).map(|line| format!("{line}\n")).collect()
}

fn written(system: &System, words: &str, input: &[u8]) -> String {
    written_by(PROGRAMS[0], system, words, input)
}

fn terms(system: &System) -> Vec<u8> {
    system.records().unwrap().iter().flat_map(Record::bytes).collect()
}

/// The plan for a system.
pub fn plan(system: &System, settings: &Settings) -> Answer {
    let Settings { cards, steps, sets, degree, which } = settings;
    let words = format!("{} {} {} {} {which}", degree.digits(), cards.digits(), steps.digits(), sets.digits());
    planned(system.names.len(), &written(system, &words, &terms(system))).unwrap()
}

/// The set that is given with a system, and what the program wrote of it for the full kit.
fn of_set(system: &System, words: &str) -> (Vec<Exponents>, String) {
    let set = system.given.as_ref().unwrap().set().unwrap();
    let input = [&given::record(&set)[..], &terms(system)].concat();
    let text = written(system, &format!("{FULL_DEGREE}{words}"), &input);
    (set, text)
}

/// The thinning of the set that is given with a system.
pub fn thinning(system: &System, which: u64) -> Answer {
    let (set, text) = of_set(system, &format!(" {which}"));
    thinned(system.names.len(), &set, &text).unwrap()
}

/// The wiring of it.
pub fn wiring(system: &System) -> Answer {
    let (set, text) = of_set(system, "");
    wired(system.names.len(), &set, &text).unwrap()
}

/// What is said of a listing for a system.
pub fn reading(system: &System, settings: &Settings, listing: &[u8]) -> Answer {
    let terms = terms(system);
    let words = format!("{} {}", settings.degree.digits(), terms.len());
    let text = written_by(PROGRAMS[1], system, &words, &[&terms, listing].concat());
    read(system.names.len(), system.marks(), listing, &text).unwrap()
}

/// A plan or a wiring, with the listing of its first set.
pub fn with_listing(system: &System, answer: Answer) -> Answer {
    let set = &answer.sets[0];
    let input = [&given::record(set)[..], &terms(system)].concat();
    let text = written_by(PROGRAMS[1], system, &FULL_DEGREE.to_string(), &input);
    let listing = printed(system.names.len(), system.marks(), set, &answer.wires, &text).unwrap();
    Answer { listing: Some(listing), ..answer }
}

const CROWDED: &str = include_str!("../tests/crowded.txt");

/// Systems with sets of many kinds that were wired: some will do, some not; with signals that nothing uses, that never
/// change, with a variable of their own, and without any.
pub const WIRED: [(&str, &str); 10] = [
    ("x' = x^4 + x^3", "x^3, x^4"),
    ("x' = x^4 + x^3", "x^2, x^3, x^4"),
    ("x' = x^4", "x^2"),
    ("x' = x^2", ""),
    ("x' = x^3", ""),
    ("x' = 0", "x^2"),
    ("x' = 0", ""),
    ("x1' = x1^2 x2, x2' = -x1 x2^2", "x1 x2"),
    ("x' = 1", "x*z"),
    (CROWDED, "x3^2*x4^2, x3^6*x4^6*x6, x1*x3^4*x4^4*x6, x1^3*x6"),
];

/// Systems of many kinds with the patch of their first set, and of sets that were given.
pub fn patches() -> Vec<(System, Patch)> {
    let planned = planned_patches();
    let given = WIRED.iter().map(|(text, set)| tests::given(Aim::Wiring, text, set)).filter_map(|system| {
        let patch = Patch::of(&system, &wiring(&system), 1)?;
        Some((system, patch))
    });
    planned.into_iter().chain(given).collect()
}

fn planned_patches() -> Vec<(System, Patch)> {
    [
        ("x' = 0", "", "", 0),
        ("x' = x^4 + x^3", "", "", 2),
        ("x1' = x1^2 x2, x2' = -x1 x2^2", "", "", 1),
        ("x1' = x1^2 x2", "", "", 1),
        ("x1' = x2^4, x2' = x1^2", "", "", 3),
        ("x' = y z - y + x^2 y + x, y' = 3 x z + x - x^3 + y, z' = -2 z - 2 x y z", "", "", 3),
        ("x1' = 3 x2^2 x4 x5^5 x6^5 + 2 x6^3 + x1 x3^3 x6^5 - x2^2 x6^4, x5' = -1", "", "", 6),
        (CROWDED, "", "", 4),
        ("x1' = x1^3 + u x1", "u", "", 1),
        ("theta' = omega, omega' = -k*theta^3 - d*omega + push", "push", "k, d", 2),
    ]
    .into_iter()
    .map(|(text, signals, knobs, cards)| {
        let said = [(Kind::Signal, signals), (Kind::Knob, knobs)].into_iter().filter(|(_, names)| !names.is_empty());
        let system = tests::system_of(&[&tests::typed(text)[..], &tests::said(&said.collect::<Vec<_>>())].concat());
        let answer = plan(&system, &Settings { cards: cards.into(), ..Settings::default() });
        let patch = Patch::of(&system, &answer, 1).unwrap();
        (system, patch)
    })
    .collect()
}
