//! The fixed rows: document 01's worked sums, both sides of each limit, every
//! place of code 9, and larger systems from documents 000 and 001. Those of
//! verdict and room together, those of thinning, those with marks, those of the
//! counting rule, those of the junior kit, those of reading and those of the order of
//! pairs come after them.

use crate::batch::{Case, MOST_CASE_BUFFER};
use crate::cheap_rows;
use crate::closing_rows;
use crate::degree_rows;
use crate::listing_rows;
use crate::mark_rows;
use crate::monomial::Monomial;
use crate::no_room::NoRoom;
use crate::notation::{monomial, terms};
use crate::panel::{
    CARDS, COEFFICIENT_AT, EXPONENTS_AT, MOST_COEFFICIENT, MOST_EXPONENT, MOST_LIMIT, MOST_N,
    MOST_SET_EXPONENT, MOST_TERMS, MOST_WIRES_BYTES, SET_BYTES, TERM_BYTES, USUAL_CAP as CAP,
    USUAL_LIMIT as LIMIT, USUAL_ROOM, VARIABLES, WIRE_BYTES,
};
use crate::records::{write_places, write_set, write_terms};
use crate::system::{Set, Term};
use crate::systems::power;
use crate::thin_rows;
use crate::wire_rows;

/// The buffers of a row that names none.
const ROOM: usize = USUAL_ROOM * SET_BYTES;
const WIRES: usize = MOST_WIRES_BYTES;

/// Document 001, Example 2, with a = b = 1.
pub const RABINOVICH_FABRIKANT: &str = "x1' = x2 x3 - x2 + x1^2 x2 + x1; \
     x2' = 3 x1 x3 + x1 - x1^3 + x2; \
     x3' = - 2 x3 - 2 x1 x2 x3";

/// Document 001, Example 3.
pub const EXAMPLE_3: &str = "x1' = x2^4; x2' = x1^2";

/// A system whose set {x3^2 x4, x2 x3, x1 x3, x1 x2} is quadratic only because
/// the derivative of x1 x2 cancels.
pub const CANCELLING: &str = "x1' = 1000000 x1 x3 x4; x2' = - 1000000 x2 x3 x4";
pub const NEARLY_CANCELLING: &str = "x1' = 1000000 x1 x3 x4; x2' = - 999999 x2 x3 x4";
pub const CANCELLING_SET: [&str; 4] = ["x3^2 x4", "x2 x3", "x1 x3", "x1 x2"];

/// The batch of fixed rows.
pub fn rows() -> Vec<Case> {
    let mut rows = full_kit();
    rows.extend(degree_rows::rows());
    rows.extend(listing_rows::rows());
    rows.extend(cheap_rows::rows());
    rows
}

/// The rows from before document 02, [6], all of the full kit.
pub fn full_kit() -> Vec<Case> {
    let mut rows = Rows::default();
    rows.worked();
    rows.further();
    rows.settings();
    rows.lengths();
    rows.fields();
    rows.set_rules();
    rows.sequence_of_checks();
    rows.wiring_lengths();
    rows.long_lists();
    rows.places_of_code_9();
    rows.larger();
    rows.families();
    for case in wire_rows::rows() {
        if !rows.cases.contains(&case) {
            rows.cases.push(case);
        }
    }
    rows.verdicts();
    rows.cases.extend(thin_rows::rows());
    rows.cases.extend(mark_rows::rows());
    for case in closing_rows::rows() {
        if !rows.cases.contains(&case) {
            rows.cases.push(case);
        }
    }
    rows.cases
}

/// The wirings among the rows on what is refused before a set is judged, and on
/// what is just not, each once.
pub fn given_rows() -> Vec<Case> {
    let mut rows = Rows::default();
    rows.settings();
    rows.lengths();
    rows.set_rules();
    rows.sequence_of_checks();
    rows.given
}

/// Code 9 for every n, size and place: the last two, and a wiring. Up to n the
/// named equation is the first that is not quadratic; beyond it x1' = 1 leaves
/// x1^29 over.
pub fn places_of_code_9() -> Vec<(usize, usize, Case)> {
    let mut cases = Vec::new();
    for n in 1..=VARIABLES {
        for size in 0..=CARDS {
            for place in 1..=n + size {
                let (text, names) = if place <= n {
                    let text = format!("x1' = x1; x{place}' = x{n}^9; x{n}' = x1^8");
                    (text, (0..size).map(|j| 20 + j).collect())
                } else {
                    let gap = place - n;
                    let exponent = |j| if j < gap { j + 1 } else { 30 + j - gap };
                    let exponents: Vec<usize> = (1..=size).map(exponent).collect();
                    ("x1' = 1".to_string(), exponents)
                };
                let set: Set = names.into_iter().map(power).collect();
                let set = write_set(&set).to_vec();
                let case = Case::wire(n as u64, bytes_of(&text), set, 24);
                cases.push((size, place, case));
            }
        }
    }
    cases
}

/// A set record from the names of its members.
pub fn set_of(names: &[&str]) -> Vec<u8> {
    let set: Set = names.iter().map(|name| monomial(name)).collect();
    write_set(&set).to_vec()
}

/// A set record with its places as they are named, in any sequence.
fn places_of(names: &[&str]) -> Vec<u8> {
    let members: Vec<Monomial> = names.iter().map(|name| monomial(name)).collect();
    write_places(&members).to_vec()
}

pub fn bytes_of(text: &str) -> Vec<u8> {
    write_terms(&terms(text))
}

/// So many different records in two variables, the quadratic ones first.
pub fn different_records(count: usize) -> Vec<u8> {
    let mut monomials: Vec<Monomial> = (0..=MOST_EXPONENT)
        .flat_map(|e1| (0..=MOST_EXPONENT).map(move |e2| Monomial([e1, e2, 0, 0, 0, 0])))
        .collect();
    monomials.sort_by_key(|m| (m.0.iter().sum::<u16>(), *m));
    let of_equation = |equation| {
        let term = move |monomial| Term {
            equation,
            monomial,
            coefficient: 1,
        };
        monomials.iter().copied().map(term)
    };
    let both: Vec<Term> = of_equation(1)
        .zip(of_equation(2))
        .flat_map(|(a, b)| [a, b])
        .collect();
    write_terms(&both[..count])
}

/// Document 001, appendix: Cubic Cycle(n).
pub fn cubic_cycle(n: usize) -> String {
    let equation = |i: usize| format!("x{}' = x{}^3", i + 1, (i + 1) % n + 1);
    (0..n).map(equation).collect::<Vec<_>>().join("; ")
}

/// Document 001, appendix: Cubic Bicycle(n). With two variables both
/// neighbours are the same one.
pub fn cubic_bicycle(n: usize) -> String {
    let equation = |i: usize| {
        let (before, after) = ((i + n - 1) % n + 1, (i + 1) % n + 1);
        if before == after {
            return format!("x{}' = 2 x{after}^3", i + 1);
        }
        format!("x{}' = x{before}^3 + x{after}^3", i + 1)
    };
    (0..n).map(equation).collect::<Vec<_>>().join("; ")
}

/// Document 000, Example 2.6: (x1 + 1)^k, written out.
fn shifted_power(k: u64) -> String {
    let mut coefficient = 1;
    let mut parts = Vec::new();
    for e in 0..=k {
        parts.push(match e {
            0 => "1".to_string(),
            _ => format!("{coefficient} x1^{e}"),
        });
        coefficient = coefficient * (k - e) / (e + 1);
    }
    format!("x1' = {}", parts.join(" + "))
}

/// Two variables, each fed by a power of the other.
pub fn mutual_power(k: usize) -> String {
    format!("x1' = x2^{k}; x2' = x1^{k}")
}

/// One variable fed by so many products of unfed ones. Each can be made in four
/// ways, and so there are four times as many smallest sets with each.
pub fn unfed_products(count: usize) -> String {
    let products = [
        "x2^2 x3^2",
        "x4^2 x5^2",
        "x2^2 x6^4",
        "x3^2 x5^2",
        "x4^2 x6^2",
        "x3^4 x6^2",
    ];
    format!("x1' = {}", products[..count].join(" + "))
}

/// Six new monomials in x1 to x4.
pub const SIX_SIGNALS: [&str; 6] = ["x4^2", "x3 x4", "x2^3", "x1 x4", "x1 x2 x3", "x1^2"];

/// 32 records that each multiply their own variable by a signal, so that each
/// new monomial is multiplied by the same signals.
pub fn own_variable_times_signals() -> String {
    let signals = ["", "x1"].iter().chain(&SIX_SIGNALS);
    let mut equations = Vec::new();
    for (k, signal) in signals.enumerate() {
        for i in 1..=4_usize {
            let sign = if (i + k).is_multiple_of(3) {
                "- 1000000"
            } else {
                "7"
            };
            equations.push(format!("x{i}' = {sign} x{i} {signal}"));
        }
    }
    equations.join("; ")
}

/// All exponents up to 2 in two variables: the products reach up to 4.
pub const BOX_OF_TWO: [&str; 6] = ["x2^2", "x1 x2", "x1 x2^2", "x1^2", "x1^2 x2", "x1^2 x2^2"];

/// Every term that the box leaves quadratic: 3 in its own variable, 2 in the
/// other.
pub fn box_of_two() -> String {
    let mut equations = Vec::new();
    for own in 0..=3 {
        for other in 0..=2 {
            equations.push(format!("x1' = 5 x1^{own} x2^{other}"));
            equations.push(format!("x2' = 3 x1^{other} x2^{own}"));
        }
    }
    equations.join("; ")
}

/// All variables and all records, half of them of degree three: openings with
/// as much to add up as there can be.
fn cubes_of_six() -> String {
    let mut equations = Vec::new();
    for i in 0..VARIABLES {
        let x = |step: usize| (i + step) % VARIABLES + 1;
        let mut parts = vec![
            format!("x{} x{} x{}", x(1), x(2), x(3)),
            format!("- 2 x{}^2 x{}", x(0), x(1)),
            format!("- x{} x{}", x(2), x(4)),
            format!("+ 3 x{}", x(5)),
            format!("- {}", i + 1),
        ];
        if i < 2 {
            parts.push(format!("+ 1000000 x{}^3", x(4)));
        }
        equations.push(format!("x{}' = {}", i + 1, parts.join(" ")));
    }
    equations.join("; ")
}

#[derive(Default)]
struct Rows {
    cases: Vec<Case>,
    /// The wirings of a given set with the room that their row names.
    given: Vec<Case>,
    /// The wirings whose verdict alone is asked for too.
    judged: Vec<Case>,
}

impl Rows {
    fn plan(&mut self, n: u64, text: &str) {
        self.plan_with(n, text, CAP, LIMIT, ROOM);
    }

    fn plan_with(&mut self, n: u64, text: &str, cap: u64, limit: u64, buffer: usize) {
        self.cases
            .push(Case::plan(n, cap, limit, buffer, bytes_of(text)));
    }

    fn plan_bytes(&mut self, n: u64, terms: Vec<u8>) {
        self.cases
            .push(Case::plan(n, CAP, LIMIT, 2 * SET_BYTES, terms));
    }

    /// Asks for the verdict on a set alone, and wires it with room to spare.
    fn judge_and_wire(&mut self, n: u64, text: &str, names: &[&str]) {
        self.given(n, bytes_of(text), set_of(names), WIRES);
    }

    fn given(&mut self, n: u64, terms: Vec<u8>, set: Vec<u8>, buffer: usize) {
        let wiring = Case::wire(n, terms, set, buffer);
        self.cases.push(wiring.clone());
        self.given.push(wiring.clone());
        self.judged.push(wiring);
    }

    /// The verdicts alone, without room and otherwise as no other row asks.
    fn verdicts(&mut self) {
        let mut no_room = NoRoom::default();
        no_room.note(&self.cases);
        let judged = self.judged.drain(..);
        self.cases
            .extend(judged.map(|wiring| no_room.judge(wiring)));
    }

    /// Asks for the verdict alone.
    fn judge(&mut self, n: u64, terms: Vec<u8>, set: Vec<u8>) {
        self.judged.push(Case::wire(n, terms, set, 0));
    }

    /// Document 01, Sums worked by hand.
    fn worked(&mut self) {
        self.plan(1, "");
        self.plan(1, "x1' = x1^2");
        self.plan_with(1, "x1' = x1^2", CAP, LIMIT, 0);
        self.plan(1, "x1' = x1^3");
        self.plan_with(1, "x1' = x1^3", 0, LIMIT, ROOM);
        self.plan_with(1, "x1' = x1^5", CAP, 7, ROOM);
        self.plan_with(1, "x1' = x1^5", CAP, 6, ROOM);
        self.plan(1, "x1' = x1^4 + x1^3");
        self.plan_with(1, "x1' = x1^4 + x1^3", CAP, LIMIT, SET_BYTES);
        self.plan(2, "x1' = x1^3 + x2^2; x2' = x1 + x2");
        self.plan(2, "x1' = x1^2 x2; x2' = - x1 x2^2");
        self.judge_and_wire(2, "x1' = x1^2 x2; x2' = - x1 x2^2", &["x1 x2"]);
        self.plan(2, "x1' = x1^2 x2");
        self.judge_and_wire(2, "x1' = x1^2 x2", &["x1 x2"]);
        self.judge_and_wire(3, RABINOVICH_FABRIKANT, &["x2^2", "x1 x2", "x1^2"]);
        self.plan(1, "x1' = 1000000 x1");
        self.plan(1, "x1' = 1000001 x1");
        self.plan(1, "x1' = x1^9");
        self.plan(1, "x1' = x1^10");
        self.plan_bytes(2, different_records(MOST_TERMS));
        self.plan_bytes(2, different_records(MOST_TERMS + 1));
        self.plan(1, "x1' = x1 + x1");
    }

    /// Rows that the document lacks and that its rules decide.
    fn further(&mut self) {
        self.plan(1, "x1' = x1^4");
        self.plan(3, "x1' = x2^2 x3^2");
        self.plan(2, EXAMPLE_3);
        self.plan_with(2, EXAMPLE_3, CAP, LIMIT, 0);
        self.judge_and_wire(2, EXAMPLE_3, &["x1 x2^2", "x2^3", "x1^3"]);
        self.plan(3, RABINOVICH_FABRIKANT);
        for limit in [14, 15, 16] {
            self.plan_with(1, "x1' = x1^4 + x1^3", CAP, limit, SET_BYTES);
        }
        // Spent between two levels, and an end exactly at the limit.
        self.plan_with(1, "x1' = x1^3", CAP, 1, ROOM);
        self.plan_with(1, "x1' = x1^3", 0, 1, ROOM);
        // Full and spent would fall together: full.
        self.plan_with(1, "x1' = x1^2", 0, 1, SET_BYTES - 1);
        // The last step of the walk with the limit one short, exact, one over.
        for limit in [22, 23, 24] {
            self.plan_with(1, "x1' = x1^4 + x1^3", CAP, limit, 2 * SET_BYTES);
        }
        // A set met twice asks for no second place.
        let around = |bytes: usize| [bytes - 1, bytes, bytes + 1];
        let ends = (1..=3).flat_map(|room| around(room * SET_BYTES));
        for buffer in [0].into_iter().chain(ends) {
            self.plan_with(1, "x1' = x1^4 + x1^3", CAP, LIMIT, buffer);
        }
        // Unused variables change neither sets nor steps.
        for n in 1..=MOST_N {
            self.plan_with(n, "x1' = x1^4 + x1^3", CAP, LIMIT, 2 * SET_BYTES);
            self.plan_with(n, "x1' = x1^9 + x1^4", CAP, LIMIT, 2 * SET_BYTES);
        }
        self.judge_and_wire(4, CANCELLING, &CANCELLING_SET);
        self.judge_and_wire(4, NEARLY_CANCELLING, &CANCELLING_SET);
    }

    /// n, K and the limit, both sides of each.
    fn settings(&mut self) {
        let far = [255, 256, 257, 1 << 32, (1 << 32) + 1, 1 << 63, u64::MAX];
        let small = "x1' = x1^2";
        for n in (0..=MOST_N + 1).chain(far) {
            self.plan_with(n, small, CAP, LIMIT, SET_BYTES);
            self.given(n, bytes_of(small), set_of(&[]), 20);
        }
        for cap in (0..=CAP + 1).chain(far) {
            self.plan_with(1, "x1' = x1^9 + x1^8", cap, 20_000, SET_BYTES);
        }
        let most = MOST_LIMIT;
        let limits = [0, 1, 2, most - 1, most, most + 1, 1 << 30, 1 << 31];
        for limit in limits.into_iter().chain(far) {
            self.plan_with(1, small, CAP, limit, SET_BYTES);
            self.plan_with(1, "x1' = x1^3", CAP, limit, SET_BYTES);
        }
    }

    /// Lengths of terms and sets, both sides of each.
    fn lengths(&mut self) {
        let long = different_records(50);
        for length in [
            0, 1, 11, 12, 13, 24, 372, 383, 384, 385, 395, 396, 397, 408, 600,
        ] {
            let terms = long[..length].to_vec();
            self.plan_bytes(2, terms.clone());
            self.given(2, terms, set_of(&[]), 100);
        }
        for count in 0..=MOST_TERMS {
            let terms = different_records(count);
            self.cases.push(Case::plan(2, 1, 50, SET_BYTES, terms));
        }
        let (one, two) = (SET_BYTES, 2 * SET_BYTES);
        for length in [0, 1, one - 1, one, one + 1, two - 1, two, 255] {
            let set = vec![0; length];
            self.given(1, bytes_of("x1' = x1"), set, 8);
        }
    }

    /// The fields of a term record, both sides of each.
    fn fields(&mut self) {
        let record = |n: usize, at: usize, value: u8| {
            let mut bytes = bytes_of("x1' = 5 x1");
            bytes[at] = value;
            (n as u64, bytes)
        };
        for n in 1..=VARIABLES {
            for equation in [0, 1, n as u8, n as u8 + 1, 128, 255] {
                let (n, bytes) = record(n, 0, equation);
                self.plan_bytes(n, bytes);
            }
            for i in 0..VARIABLES {
                let most = MOST_EXPONENT as u8;
                for exponent in [0, 1, most, most + 1, 255] {
                    let (n, bytes) = record(n, EXPONENTS_AT + i, exponent);
                    let set = set_of(&[]);
                    self.cases.push(Case::wire(n, bytes, set, 8));
                }
            }
        }
        for value in [0, 1, 128, 255] {
            let (n, bytes) = record(1, 1, value);
            self.plan_bytes(n, bytes);
        }
        let most = MOST_COEFFICIENT as i32;
        for size in [0, 1, 255, 256, 65_536, most - 1, most, most + 1, i32::MAX] {
            for coefficient in [size, -size] {
                let mut bytes = bytes_of("x1' = x1");
                bytes[COEFFICIENT_AT..].copy_from_slice(&i32::to_le_bytes(coefficient));
                self.given(1, bytes, set_of(&[]), 8);
            }
        }
        let mut bytes = bytes_of("x1' = x1");
        bytes[COEFFICIENT_AT..].copy_from_slice(&i32::MIN.to_le_bytes());
        self.given(1, bytes, set_of(&[]), 8);
        // The same monomial in two equations is no repeat.
        self.plan(2, "x1' = x1 x2; x2' = x1 x2");
        self.plan(1, "x1' = x1 - 2 x1");
        self.plan(1, "x1' = x1 + x1^2 + x1^2 + x1");
        // Totals above a million: a set's exponent times a coefficient.
        self.judge_and_wire(2, "x1' = 1000000 x1; x2' = 1000000 x2", &["x1^54 x2^54"]);
    }

    /// The rules of a set record, both sides of each.
    fn set_rules(&mut self) {
        let ways: [&[&str]; 24] = [
            &[],
            &["x1 x2"],
            &["x1"],
            &["x2"],
            &["x3"],
            &["x4"],
            &["x5"],
            &["x6"],
            &["x1^54"],
            &["x1^55"],
            &["x2^54", "x1^54 x2^54"],
            &["x2^54", "x1^54 x2^55"],
            &["x2^2", "x1 x2", "x1^2"],
            &["x2^2", "x1^2", "x1 x2"],
            &["x1 x2", "x1 x2"],
            &["x1 x2", "x1 x2", "x1^2"],
            &["1", "x1 x2"],
            &["x1 x2", "1", "x1^2"],
            &["x2^2", "x1 x2", "1", "1", "1", "x1^2"],
            &["1", "1", "1", "1", "1", "x1^2"],
            &["x2^2", "x2^3", "x2^4", "x2^5", "x2^6", "x2^7"],
            &["x2^2", "x2^3", "x2^4", "x2^5", "x2^6", "x2^6"],
            &["x2^2", "x2^3", "x2^4", "x2^5", "x2^7", "x2^6"],
            &["x2", "x1 x2", "x1^2"],
        ];
        for way in ways {
            for n in [2, MOST_N] {
                self.given(n, bytes_of("x1' = 3 x1"), places_of(way), 80);
            }
        }
        // A single variable at each place, the rest in order.
        for place in 0..CARDS {
            let mut names: Vec<String> = (0..place).map(|j| format!("x2^{}", j + 2)).collect();
            names.push("x1".to_string());
            names.extend((place + 1..CARDS).map(|j| format!("x1^{j} x2")));
            let names: Vec<&str> = names.iter().map(String::as_str).collect();
            self.given(2, Vec::new(), places_of(&names), 8);
        }
        // Each byte of the record at the most and one above; each byte beyond xn
        // at 1.
        let powers: Vec<Monomial> = (2..).map(power).take(CARDS).collect();
        for byte in 0..SET_BYTES {
            let with = |value: u16| {
                let mut set = write_places(&powers).to_vec();
                set[byte] = value as u8;
                set
            };
            for value in [MOST_SET_EXPONENT, MOST_SET_EXPONENT + 1] {
                let set = with(value);
                self.judge(MOST_N, Vec::new(), set);
            }
            for n in 1..=byte % VARIABLES {
                let set = with(1);
                self.judge(n as u64, Vec::new(), set);
            }
        }
        // A monomial in all variables fits no fewer.
        for n in 1..=MOST_N {
            self.given(n, Vec::new(), set_of(&["x6^2"]), 0);
            self.given(n, Vec::new(), set_of(&["x1 x2 x3 x4 x5 x6"]), 0);
            let name = format!("x{n}^2");
            self.given(n, Vec::new(), set_of(&[&name]), 0);
        }
    }

    /// Several faults at once: 1, 2, then 3 and 4 by record, then 8, 9, 6.
    fn sequence_of_checks(&mut self) {
        let short = vec![0; TERM_BYTES + 1];
        let wrong = bytes_of("x1' = x1 + x1^10 + x1");
        let twice = bytes_of("x1' = x1 + x1 + x1^10");
        let both = bytes_of("x1' = x1 + 1000001 x1");
        let cubic = bytes_of("x1' = x1^3");
        let bad_set = set_of(&["x1"]);
        for terms in [short, wrong, twice, both, cubic] {
            for n in [0, 1] {
                self.plan_bytes(n, terms.clone());
                self.cases
                    .push(Case::plan(n, CAP + 1, LIMIT, SET_BYTES, terms.clone()));
                self.cases
                    .push(Case::plan(n, CAP, 0, SET_BYTES, terms.clone()));
                self.given(n, terms.clone(), vec![1; SET_BYTES - 1], 0);
                self.given(n, terms.clone(), bad_set.clone(), 0);
                self.given(n, terms.clone(), set_of(&[]), 0);
                self.given(n, terms.clone(), set_of(&["x1^2"]), 0);
            }
        }
    }

    /// Lists exactly as long as the buffer, a byte shorter and longer.
    fn wiring_lengths(&mut self) {
        let systems: [(u64, &str, &[&str], usize); 5] = [
            (1, "", &[], 0),
            (1, "x1' = x1", &[], 1),
            (2, "x1' = x1^2 x2; x2' = - x1 x2^2", &["x1 x2"], 2),
            (1, "x1' = x1^4 + x1^3", &["x1^2", "x1^3"], 6),
            (3, RABINOVICH_FABRIKANT, &["x2^2", "x1 x2", "x1^2"], 25),
        ];
        for (n, text, names, records) in systems {
            let exact = records * WIRE_BYTES;
            for buffer in [
                0,
                exact.saturating_sub(WIRE_BYTES),
                exact,
                exact + 1,
                exact + WIRE_BYTES - 1,
                exact + WIRE_BYTES,
                WIRES,
            ] {
                self.cases
                    .push(Case::wire(n, bytes_of(text), set_of(names), buffer));
            }
            if exact > 0 {
                self.cases
                    .push(Case::wire(n, bytes_of(text), set_of(names), exact - 1));
            }
        }
    }

    /// Lists of 80 and of 108 records.
    fn long_lists(&mut self) {
        for n in 4..=MOST_N {
            let set = set_of(&SIX_SIGNALS);
            for buffer in [639, 640, 641, WIRES] {
                let terms = bytes_of(&own_variable_times_signals());
                self.cases.push(Case::wire(n, terms, set.clone(), buffer));
            }
        }
        for buffer in [863, 864, 865, WIRES] {
            let terms = bytes_of(&box_of_two());
            let case = Case::wire(2, terms, set_of(&BOX_OF_TWO), buffer);
            self.cases.push(case);
        }
    }

    /// Code 9 at every place, by turns for the verdict alone and with some room;
    /// both for the largest sets.
    fn places_of_code_9(&mut self) {
        for (size, place, wiring) in places_of_code_9() {
            let alone = (size + place).is_multiple_of(2);
            if size == CARDS || alone {
                self.judged.push(wiring.clone());
            }
            if size == CARDS || !alone {
                self.cases.push(wiring);
            }
        }
    }

    /// Systems of documents 000 and 001 that are not in document 01's rows.
    fn larger(&mut self) {
        // 000: Examples 2.2, 2.7 and 3.2, Duffing's oscillator, (3.9), (5.2).
        self.plan(2, "x1' = x1^3 + 3 x1^2 + 3 x1 + 1 + x2; x2' = x1 + x2");
        self.plan(1, "x1' = x1^6 + x1^4 + x1^3");
        self.plan(2, "x1' = x1 + x1^2 x2");
        self.plan(3, "x1' = x2; x2' = - 2 x1 - 3 x2 - 5 x1^3 + x3");
        self.plan(3, "x1' = x1 + x1 x3; x2' = x1^2 x3");
        self.plan(3, "x1' = x2^2; x2' = x1 x3; x3' = - x1 x3^3");
        for k in 2..=u64::from(MOST_EXPONENT) {
            self.plan_with(1, &shifted_power(k), CAP, 20_000, 40 * SET_BYTES);
        }
        // 001, section 7: an unfed variable's powers feed another.
        self.plan(2, "x2' = x1 + x1^2 + x1^4 + x1^8");
        self.plan(2, "x2' = x1 + x1^3 + x1^5 + x1^7 + x1^9");
        self.plan(2, "x2' = x1 + x1^5 + x1^6 + x1^7 + x1^8 + x1^9");
        // One nonsquare with as many pairs as there can be.
        let tallest = "x1' = x1^9 x2^9 x3^9 x4^9 x5^9 x6^9";
        self.plan_with(6, tallest, CAP, 5_000, SET_BYTES);
        self.plan_with(6, "x1' = x2^9 x3^9 x4^9 x5^9", CAP, 12_000, SET_BYTES);
    }

    /// Document 001's appendix, as far as six variables go, and walks of some
    /// 10,000 to 200,000 steps.
    fn families(&mut self) {
        for cap in 0..CAP {
            self.plan_with(4, &cubic_cycle(4), cap, LIMIT, SET_BYTES);
        }
        for n in 2..=VARIABLES {
            self.plan(n as u64, &cubic_cycle(n));
            self.plan(n as u64, &cubic_bicycle(n));
        }
        for k in 3..=usize::from(MOST_EXPONENT) {
            self.plan(2, &mutual_power(k));
        }
        self.plan_with(2, &mutual_power(8), CAP, 96_361, ROOM);
        self.plan_with(2, &mutual_power(8), CAP, LIMIT, 4 * SET_BYTES - 1);
        self.plan(2, "x1' = x2^7; x2' = x1^3");
        self.plan(3, "x1' = x2^2 x3^2; x2' = x1^2 x3^2; x3' = x1^2 x2^2");
        self.plan(3, "x1' = x1 x2 x3; x2' = x1^2 x3^2; x3' = x2^4");
        self.plan(3, "x1' = x2^3 x3; x2' = x1 x3^3; x3' = x1^3 x2");
        let four = "x1' = x2 x3 x4; x2' = x1 x3 x4; x3' = x1 x2 x4; x4' = x1 x2 x3";
        self.plan(4, four);
        let six = "x1' = x1 x2 x3; x2' = x4 x5 x6; x4' = x1 x4 x6; x6' = x2 x3 x5";
        self.plan(6, six);
        self.plan_with(6, &cubes_of_six(), CAP, 20_000, ROOM);
        for products in 2..=6 {
            let text = unfed_products(products);
            self.plan_with(6, &text, CAP, 200_000, ROOM);
            self.plan_with(6, &text, CAP, 200_000, MOST_CASE_BUFFER);
        }
    }
}

#[cfg(test)]
mod tests {
    use super::*;
    use crate::batch::{write_batch, Cases, Operation};
    use crate::marks::Marks;
    use crate::panel::MOST_TERMS_BYTES;
    use crate::records::read_terms;
    use crate::setting::Setting;

    #[test]
    fn rows_are_the_same_each_time_and_well_formed() {
        let cases = rows();
        assert_eq!(cases, rows());
        let bytes = write_batch(&cases);
        let read: Result<Vec<Case>, _> = Cases::of(&bytes).collect();
        assert_eq!(read.unwrap(), cases);
    }

    #[test]
    fn code_9_is_met_at_every_place() {
        let cases = places_of_code_9();
        for (size, place, case) in &cases {
            let numbers = [9, *size, 0, 0, *place].map(|number| number as u64);
            assert_eq!(case.answer().0.numbers(), numbers);
        }
        let sizes = (1..=VARIABLES).flat_map(|n| (0..=CARDS).map(move |size| n + size));
        assert_eq!(cases.len(), sizes.sum::<usize>());
    }

    #[test]
    fn records_are_different_and_32_are_taken() {
        let case = |count| Case::plan(2, 0, 10, SET_BYTES, different_records(count));
        assert_eq!(case(12).answer().0.numbers(), [0, 0, 1, 1, 0]);
        assert_eq!(case(32).answer().0.numbers(), [5, 1, 0, 1, 0]);
        assert_eq!(case(33).answer().0.numbers(), [2, 0, 0, 0, 0]);
        assert_eq!(different_records(50).len(), 50 * TERM_BYTES);
    }

    #[test]
    fn the_wiring_rows_hold_the_true_lengths() {
        let mut rows = Rows::default();
        rows.wiring_lengths();
        let mut codes = Vec::new();
        for case in &rows.cases {
            assert_eq!(case.operation, Operation::Wire);
            codes.push(case.answer().0.code);
        }
        // Each system with a list: 0 and 8 short are full, exact is not, and a
        // byte short is full again.
        assert_eq!(codes[..7], [0; 7]);
        for group in codes[7..].chunks(8) {
            assert_eq!(group, [6, 6, 0, 0, 0, 0, 0, 6]);
        }
    }

    #[test]
    fn long_lists_are_long() {
        let mut rows = Rows::default();
        rows.long_lists();
        assert_eq!(rows.cases[0].terms.len(), MOST_TERMS_BYTES);
        for (index, case) in rows.cases.iter().enumerate() {
            let length = if index < 12 { 80 } else { 108 };
            let expected = match index % 4 {
                0 => [6, 6, 0, 0, 0],
                _ => [0, 6, length, 0, 0],
            };
            assert_eq!(case.answer().0.numbers(), expected);
        }
    }

    #[test]
    fn a_system_fills_the_records() {
        let bytes = bytes_of(&cubes_of_six());
        assert_eq!(bytes.len(), MOST_TERMS_BYTES);
        assert!(read_terms(Setting::full(VARIABLES, Marks::NONE), &bytes).is_ok());
    }

    #[test]
    fn powers_and_cycles_are_written_out() {
        assert_eq!(shifted_power(3), "x1' = 1 + 3 x1^1 + 3 x1^2 + 1 x1^3");
        assert_eq!(cubic_cycle(2), "x1' = x2^3; x2' = x1^3");
        let bicycle = "x1' = x3^3 + x2^3; x2' = x1^3 + x3^3; x3' = x2^3 + x1^3";
        assert_eq!(cubic_bicycle(3), bicycle);
    }
}
