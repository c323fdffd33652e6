//! What the proved program wrote, read back. Anything that is not exactly an answer is refused: half an answer is none.

use crate::algebra::Exponents;
use crate::panel::CARDS;
use crate::typed::listing::{self, Listing};
use crate::typed::system::exponents;

/// The five numbers of a reply (document 01, What the box says).
#[derive(Debug, Clone, Copy, PartialEq, Default)]
pub struct Reply {
    pub code: u64,
    pub order: u64,
    pub count: u64,
    pub steps: u64,
    pub place: u64,
}

pub const DONE: u64 = 0;
pub const SETTING: u64 = 1;
pub const LENGTH: u64 = 2;
pub const TERM: u64 = 3;
pub const TWICE: u64 = 4;
pub const NONE: u64 = 5;
pub const FULL: u64 = 6;
pub const SPENT: u64 = 7;
pub const SET: u64 = 8;
pub const NOT_QUADRATIC: u64 = 9;
pub const UNREADABLE: u64 = 10;
pub const FALSE: u64 = 11;

/// The codes that planning gives, those that thinning and wiring give of a set, and those that reading gives of a
/// listing.
pub const OF_PLANNING: [u64; 8] = [DONE, SETTING, LENGTH, TERM, TWICE, NONE, FULL, SPENT];
pub const OF_A_SET: [u64; 8] = [DONE, SETTING, LENGTH, TERM, TWICE, FULL, SET, NOT_QUADRATIC];
pub const OF_READING: [u64; 8] = [DONE, SETTING, LENGTH, TERM, TWICE, SET, UNREADABLE, FALSE];

impl Reply {
    /// The name of the code.
    pub fn name(&self) -> Option<&'static str> {
        let names = [
            "done",
            "setting",
            "length",
            "term",
            "twice",
            "none",
            "full",
            "spent",
            "set",
            "not quadratic",
            "unreadable",
            "false",
        ];
        names.get(usize::try_from(self.code).ok()?).copied()
    }
}

/// A wiring record: coefficient times signal a times signal b, summed into the left signal's integrator.
#[derive(Debug, Clone, Copy, PartialEq)]
pub struct Wire {
    pub left: usize,
    pub a: usize,
    pub b: usize,
    pub coefficient: i32,
}

#[derive(Debug, Clone, PartialEq, Default)]
pub struct Answer {
    pub reply: Reply,
    /// The sets in their order, each ascending; of a wiring the given one, and of a listing its own.
    pub sets: Vec<Vec<Exponents>>,
    /// The wiring of the set that was asked for.
    pub wires: Vec<Wire>,
    /// The same as a listing, where that was asked for.
    pub listing: Option<String>,
}

impl Answer {
    /// What the program says of input that cannot be sent to it.
    pub fn refused(code: u64, place: usize) -> Answer {
        Answer { reply: Reply { code, place: place as u64, ..Reply::default() }, ..Answer::default() }
    }
}

/// Reads the plan that the program wrote for a system of n variables.
pub fn planned(n: usize, text: &str) -> Result<Answer, String> {
    let (reply, lines) = begun(&OF_PLANNING, text)?;
    listed(n, reply, &lines)
}

/// Reads what the program wrote of a given set, ascending, that was to be thinned. A set that is none of its subsets,
/// or a number of steps that is not the number of its subsets, is no answer about it.
pub fn thinned(n: usize, given: &[Exponents], text: &str) -> Result<Answer, String> {
    let (reply, lines) = begun_of_set(n, given, text)?;
    let answer = listed(n, reply, &lines)?;
    let subset = |set: &Vec<Exponents>| set.windows(2).all(|w| w[0] < w[1]) && set.iter().all(|m| given.contains(m));
    if !answer.sets.iter().all(subset) {
        return Err("a set is no subset".into());
    }
    if matches!(reply.code, DONE | FULL) && reply.steps != 1 << given.len() {
        return Err(format!("{} is not the number of subsets", reply.steps));
    }
    Ok(answer)
}

/// Reads what the program wrote of a given set, ascending, that was to be wired. Here the reply counts the wiring
/// records, and the only set is the given one, which takes no steps.
pub fn wired(n: usize, given: &[Exponents], text: &str) -> Result<Answer, String> {
    let (reply, lines) = begun_of_set(n, given, text)?;
    if matches!(reply.code, DONE | FULL) && reply.order != given.len() as u64 {
        return Err(format!("{} is not the size of the set", reply.order));
    }
    if reply.count != lines.len() as u64 {
        return Err(format!("{} is not the number of wiring records", reply.count));
    }
    if reply.steps != 0 {
        return Err(format!("wiring takes no steps, and not {}", reply.steps));
    }
    let sets = if reply.code == DONE { vec![given.to_vec()] } else { Vec::new() };
    Ok(Answer { reply, sets, wires: wires(&lines, n + given.len())?, ..Answer::default() })
}

/// Reads what the program wrote of a listing. A set that is not that of its names is no answer about it, nor is a place
/// that it does not have.
pub fn read(n: usize, marks: u64, pasted: &[u8], text: &str) -> Result<Answer, String> {
    let (reply, lines) = begun(&OF_READING, text)?;
    let held = |place: u64, most: usize| 0 < place && place <= most as u64;
    match reply.code {
        DONE => {
            let [line] = lines[..] else {
                return Err("not one set".into());
            };
            let set = set(line, reply.order)?;
            let names = listing::read(pasted, n, marks).ok().and_then(|listing| names(&listing));
            if names != Some(set.clone()) {
                return Err("the set is not that of the listing".into());
            }
            if (reply.count, reply.steps, reply.place) != (0, 0, 0) {
                return Err("reading counts nothing, takes no steps and has no place after done".into());
            }
            Ok(Answer { reply, sets: vec![set], ..Answer::default() })
        }
        UNREADABLE if !held(reply.place, pasted.len() + 1) => Err(format!("there is no byte {}", reply.place)),
        FALSE if !held(reply.place, pasted.split(|&byte| byte == b'\n').count()) => {
            Err(format!("there is no line {}", reply.place))
        }
        _ => Ok(Answer { reply, ..Answer::default() }),
    }
}

/// What the names of a listing are, ascending; nothing where they fit no record.
fn names(listing: &Listing) -> Option<Vec<Exponents>> {
    let mut names: Vec<Exponents> = listing.names.iter().map(exponents).collect::<Option<_>>()?;
    names.sort_unstable();
    Some(names)
}

/// Reads the listing that the program printed of a set that it had wired. One that does not say what the wiring says is
/// none of it.
pub fn printed(n: usize, marks: u64, wired: &[Exponents], wires: &[Wire], text: &str) -> Result<String, String> {
    let (first, listing) = text.split_once('\n').ok_or("its first line has no end")?;
    let reply = reply(first, &[DONE])?;
    let expected = Reply { order: wired.len() as u64, count: wires.len() as u64, ..Reply::default() };
    if reply != expected {
        return Err(format!("no reply about the set that was wired: {first:?}"));
    }
    let read = listing::read(listing.as_bytes(), n, marks).map_err(|place| format!("no listing at byte {place}"))?;
    let said = read.lines.iter().flat_map(|line| line.terms.iter().map(|term| (line.left, term)));
    let said = said.map(|(left, term)| (left, term.a, term.b, term.coefficient));
    let held = wires.iter().map(|wire| (wire.left, wire.a, wire.b, i64::from(wire.coefficient)));
    if !read.names.iter().map(exponents).eq(wired.iter().copied().map(Some)) || !said.eq(held) {
        return Err("the listing does not say what the wiring says".into());
    }
    Ok(listing.into())
}

/// The reply, and the lines after it: only code 0 has any.
fn begun<'a>(codes: &[u64], text: &'a str) -> Result<(Reply, Vec<&'a str>), String> {
    let body = text.strip_suffix('\n').ok_or("its last line has no end")?;
    let mut lines = body.split('\n');
    let reply = reply(lines.next().unwrap_or(""), codes)?;
    let lines: Vec<&str> = lines.collect();
    match lines.first() {
        Some(line) if reply.code != DONE => Err(format!("a line too many: {line:?}")),
        _ => Ok((reply, lines)),
    }
}

/// The same of a given set: where it is not quadratic, the reply is of its size and names one of its signals.
fn begun_of_set<'a>(n: usize, given: &[Exponents], text: &'a str) -> Result<(Reply, Vec<&'a str>), String> {
    let (reply, lines) = begun(&OF_A_SET, text)?;
    let (size, signals) = (given.len() as u64, (n + given.len()) as u64);
    if reply.code == NOT_QUADRATIC && (reply.order != size || reply.place == 0 || signals < reply.place) {
        return Err(format!("signal {} beside {} new ones is none of this set", reply.place, reply.order));
    }
    Ok((reply, lines))
}

/// As many sets as the reply counts, then the wiring of one.
fn listed(n: usize, reply: Reply, lines: &[&str]) -> Result<Answer, String> {
    if reply.code != DONE {
        return Ok(Answer { reply, ..Answer::default() });
    }
    let count = usize::try_from(reply.count).ok().filter(|&count| count <= lines.len()).ok_or("a set is missing")?;
    let (sets, rest) = lines.split_at(count);
    let sets = sets.iter().map(|line| set(line, reply.order)).collect::<Result<_, _>>()?;
    Ok(Answer { reply, sets, wires: wires(rest, n + reply.order as usize)?, ..Answer::default() })
}

fn reply(line: &str, codes: &[u64]) -> Result<Reply, String> {
    let wrong = || format!("no reply: {line:?}");
    let numbers: Vec<u64> = line.split(' ').map(str::parse).collect::<Result<_, _>>().map_err(|_| wrong())?;
    let [code, order, count, steps, place] = numbers[..] else {
        return Err(wrong());
    };
    let reply = Reply { code, order, count, steps, place };
    // One more than there are cards stands for "none with up to all of them".
    if !codes.contains(&code) || CARDS + 1 < order {
        return Err(wrong());
    }
    Ok(reply)
}

fn set(line: &str, order: u64) -> Result<Vec<Exponents>, String> {
    let wrong = || format!("no set of {order}: {line:?}");
    let mut set = Vec::new();
    for word in line.split(' ').filter(|_| !line.is_empty()) {
        let exponents: Vec<u8> = word.split('.').map(str::parse).collect::<Result<_, _>>().map_err(|_| wrong())?;
        set.push(Exponents::try_from(exponents).map_err(|_| wrong())?);
    }
    if set.len() as u64 == order {
        Ok(set)
    } else {
        Err(wrong())
    }
}

fn wires(lines: &[&str], signals: usize) -> Result<Vec<Wire>, String> {
    lines.iter().map(|line| wire(line, signals)).collect()
}

fn wire(line: &str, signals: usize) -> Result<Wire, String> {
    let wrong = || format!("no wiring record: {line:?}");
    let words: Vec<&str> = line.split(' ').collect();
    let [left, a, b, coefficient] = words[..] else {
        return Err(wrong());
    };
    let signal = |word: &str| word.parse().ok().filter(|&s: &usize| s <= signals).ok_or_else(wrong);
    let wire = Wire {
        left: signal(left)?,
        a: signal(a)?,
        b: signal(b)?,
        coefficient: coefficient.parse().map_err(|_| wrong())?,
    };
    if wire.left == 0 || wire.b < wire.a {
        return Err(wrong());
    }
    Ok(wire)
}

#[cfg(test)]
pub mod tests {
    use super::*;

    /// Document 01's own example, for n = 1.
    pub const EXAMPLE: &str = "0 2 2 23 0\n2.0.0.0.0.0 3.0.0.0.0.0\n3.0.0.0.0.0 4.0.0.0.0.0\n\
        1 0 3 1\n1 1 3 1\n2 1 3 2\n2 2 3 2\n3 2 3 3\n3 3 3 3\n";

    /// The second set of it, wired by itself.
    pub const WIRED: &str = "0 2 6 0 0\n1 0 2 1\n1 0 3 1\n2 1 3 3\n2 2 2 3\n3 2 2 4\n3 2 3 4\n";

    #[test]
    fn an_answer_with_sets_and_wiring() {
        let answer = planned(1, EXAMPLE).unwrap();
        assert_eq!(answer.reply, Reply { code: 0, order: 2, count: 2, steps: 23, place: 0 });
        assert_eq!(answer.sets[1], [[3, 0, 0, 0, 0, 0], [4, 0, 0, 0, 0, 0]]);
        assert_eq!(answer.wires.len(), 6);
        assert_eq!(answer.wires[5], Wire { left: 3, a: 3, b: 3, coefficient: 3 });
    }

    #[test]
    fn an_empty_set_is_an_empty_line() {
        let answer = planned(1, "0 0 1 1 0\n\n1 1 1 1\n").unwrap();
        assert_eq!(answer.sets, [Vec::<Exponents>::new()]);
        assert_eq!(answer.wires.len(), 1);
        assert_eq!(planned(1, "0 0 1 1 0\n\n").unwrap().wires, []);
    }

    #[test]
    fn a_refusal_is_one_line() {
        assert_eq!(planned(1, "7 3 0 1000000 0\n").unwrap().reply.name(), Some("spent"));
        assert!(planned(1, "7 3 0 1000000 0\n1 1 1 1\n").is_err());
    }

    #[test]
    fn the_thinning_of_a_set() {
        let [x2, x3, x4] = [2, 3, 4].map(|e| [e, 0, 0, 0, 0, 0]);
        let given = [x2, x3, x4];
        let done = EXAMPLE.replace("0 2 2 23 0", "0 2 2 8 0");
        assert_eq!(thinned(1, &given, &done).unwrap().sets, [[x2, x3], [x3, x4]]);
        assert_eq!(thinned(1, &[x2], "0 0 1 2 0\n\n").unwrap().sets, [Vec::<Exponents>::new()]);
        assert_eq!(thinned(1, &given, "9 3 0 0 2\n").unwrap().reply.name(), Some("not quadratic"));
        assert_eq!(thinned(1, &given, "8 0 0 0 0\n").unwrap().reply.name(), Some("set"));
        assert_eq!(thinned(1, &given, "6 2 0 8 0\n").unwrap().reply.name(), Some("full"));
        assert!(thinned(1, &[x2, x3], &done).unwrap_err().contains("no subset"));
        assert!(thinned(1, &given, "0 2 1 8 0\n3.0.0.0.0.0 2.0.0.0.0.0\n").unwrap_err().contains("no subset"));
        assert!(thinned(1, &given, "0 2 1 8 0\n3.0.0.0.0.0 3.0.0.0.0.0\n").unwrap_err().contains("no subset"));
        for other in [EXAMPLE, "6 2 0 7 0\n"] {
            assert!(thinned(1, &given, other).unwrap_err().contains("number of subsets"), "{other}");
        }
        for other in ["5 3 0 8 0\n", "7 3 0 8 0\n", "10 0 0 0 0\n", "8 0 0 0 0\n1 1 1 1\n"] {
            assert!(thinned(1, &given, other).is_err(), "{other}");
        }
    }

    #[test]
    fn the_wiring_of_a_set() {
        let given = [3, 4].map(|e| [e, 0, 0, 0, 0, 0]);
        let done = wired(1, &given, WIRED).unwrap();
        assert_eq!(done.reply, Reply { code: 0, order: 2, count: 6, steps: 0, place: 0 });
        assert_eq!((done.sets, done.wires.len()), (vec![given.to_vec()], 6));
        assert_eq!(done.wires[2], Wire { left: 2, a: 1, b: 3, coefficient: 3 });
        let none = wired(1, &[], "0 0 0 0 0\n").unwrap();
        assert_eq!((none.sets, none.wires), (vec![vec![]], vec![]), "an empty list");
        for (other, name) in [("9 2 0 0 1\n", "not quadratic"), ("8 0 0 0 0\n", "set"), ("6 2 0 0 0\n", "full")] {
            let answer = wired(1, &given, other).unwrap();
            assert_eq!((answer.reply.name(), answer.sets.len(), answer.wires.len()), (Some(name), 0, 0), "{other}");
        }
    }

    #[test]
    fn half_a_wiring_is_none() {
        let given = [3, 4].map(|e| [e, 0, 0, 0, 0, 0]);
        let refused = |text: &str| wired(1, &given, text).unwrap_err();
        for (right, wrong, said) in [
            ("0 2 6 0 0", "0 3 6 0 0", "size of the set"),
            ("0 2 6 0 0", "0 2 5 0 0", "number of wiring records"),
            ("0 2 6 0 0", "0 2 7 0 0", "number of wiring records"),
            ("0 2 6 0 0", "0 2 18446744073709551615 0 0", "number of wiring records"),
            ("0 2 6 0 0", "0 2 6 4 0", "no steps"),
            ("0 2 6 0 0", "0 2 6 0", "no reply"),
            ("3 2 3 4\n", "3 2 3 4", "no end"),
            ("3 2 3 4\n", "", "number of wiring records"),
            ("3 2 3 4\n", "3 2 3 4\n3 3 3 4\n", "number of wiring records"),
            ("3 2 3 4\n", "3 2 3 4\n\n", "number of wiring records"),
            ("3 2 3 4\n", "4 2 3 4\n", "no wiring record"),
            ("3 2 3 4\n", "0 2 3 4\n", "no wiring record"),
            ("3 2 3 4\n", "3 2 4 4\n", "no wiring record"),
            ("3 2 3 4\n", "3 3 2 4\n", "no wiring record"),
            ("3 2 3 4\n", "3 2 3\n", "no wiring record"),
            ("3 2 3 4\n", "3 2 3 4 \n", "no wiring record"),
            ("3 2 3 4\n", "3 2 3 2147483648\n", "no wiring record"),
            ("3 2 3 4\n", "3.0.0.0.0.0 4.0.0.0.0.0\n", "no wiring record"),
        ] {
            let text = WIRED.replace(right, wrong);
            assert_ne!(text, WIRED);
            assert!(refused(&text).contains(said), "{wrong}: {}", refused(&text));
        }
        for text in ["6 1 0 0 0\n", "6 2 6 0 0\n", "6 2 0 1 0\n", "6 2 0 0 0\n1 0 2 1\n", "9 2 0 0 1\n1 0 2 1\n"] {
            refused(text);
        }
        for code in [5, 7, 10] {
            assert!(refused(&format!("{code} 2 0 0 0\n")).contains("no reply"));
        }
    }

    #[test]
    fn a_set_that_is_not_quadratic_has_a_signal_that_is_not_wired() {
        let given = [[2, 0, 0, 0, 0, 0]];
        for read in [thinned, wired] {
            assert_eq!(read(2, &given, "9 1 0 0 3\n").unwrap().reply.place, 3);
            for other in ["9 0 0 0 3\n", "9 2 0 0 3\n", "9 1 0 0 0\n", "9 1 0 0 4\n"] {
                assert!(read(2, &given, other).unwrap_err().contains("none of this set"), "{other}");
            }
        }
    }

    #[test]
    fn half_an_answer_is_none() {
        let beyond_the_cards = format!("5 {} 0 1 0\n", CARDS + 2);
        for text in [
            "",
            "\n",
            "0 2 2 23\n",
            "0 2 2 23 0",
            "0 2 2 23 0\n2.0.0.0.0.0 3.0.0.0.0.0\n",
            "0 2 1 23 0\n2.0.0.0.0.0\n",
            "0 1 1 6 0\n2.0.0.0.0\n",
            "0 1 1 6 0\n256.0.0.0.0.0\n",
            "0 1 1 6 0\n2.0.0.0.0.0\n1 1 3 1\n",
            "0 1 1 6 0\n2.0.0.0.0.0\n1 2 1 1\n",
            "0 1 1 6 0\n2.0.0.0.0.0\n0 1 1 1\n",
            "0 1 1 6 0\n2.0.0.0.0.0\n1 1 2\n",
            "8 0 0 0 0\n",
            "9 1 0 0 2\n",
            "10 0 0 0 0\n",
            &beyond_the_cards,
            "plan: killed\n",
        ] {
            assert!(planned(1, text).is_err(), "{text:?}");
        }
    }

    use crate::typed::listing::tests::EXAMPLE as LISTING;

    /// What becomes of an answer about document 000's listing.
    fn read_of(text: &str) -> Result<Answer, String> {
        read(2, 0, LISTING.as_bytes(), text)
    }

    #[test]
    fn a_listing_that_is_right_gives_its_set() {
        let answer = read_of("0 2 0 0 0\n0.2.0.0.0.0 2.0.0.0.0.0\n").unwrap();
        assert_eq!(answer.sets, [[[0, 2, 0, 0, 0, 0], [2, 0, 0, 0, 0, 0]]]);
        assert_eq!((answer.reply.order, answer.wires.len(), answer.listing), (2, 0, None));
        let empty = read(1, 0, b"Introduced variables:\n\nx1' = x1\n", "0 0 0 0 0\n\n").unwrap();
        assert_eq!(empty.sets, [Vec::<Exponents>::new()]);
    }

    #[test]
    fn a_refused_listing_has_a_place_in_it() {
        let last = LISTING.len() as u64 + 1;
        for (code, place, name) in
            [(8, 0, "set"), (10, 1, "unreadable"), (10, last, "unreadable"), (11, 8, "false"), (2, 0, "length")]
        {
            let answer = read_of(&format!("{code} 0 0 0 {place}\n")).unwrap();
            assert_eq!((answer.reply.name(), answer.reply.place, answer.sets.len()), (Some(name), place, 0));
        }
        for (code, place) in [(10, 0), (10, last + 1), (11, 0), (11, 99)] {
            assert!(read_of(&format!("{code} 0 0 0 {place}\n")).unwrap_err().contains("there is no"));
        }
    }

    #[test]
    fn half_an_answer_about_a_listing_is_none() {
        for (text, said) in [
            ("0 2 0 0 0\n", "not one set"),
            ("0 2 0 0 0\n0.2.0.0.0.0 2.0.0.0.0.0", "no end"),
            ("0 2 0 0 0\n0.2.0.0.0.0 2.0.0.0.0.0\n\n", "not one set"),
            ("0 2 0 0 0\n2.0.0.0.0.0 0.2.0.0.0.0\n", "not that of the listing"),
            ("0 2 0 0 0\n0.2.0.0.0.0 3.0.0.0.0.0\n", "not that of the listing"),
            ("0 1 0 0 0\n0.2.0.0.0.0\n", "not that of the listing"),
            ("0 1 0 0 0\n0.2.0.0.0.0 2.0.0.0.0.0\n", "no set of 1"),
            ("0 2 1 0 0\n0.2.0.0.0.0 2.0.0.0.0.0\n", "counts nothing"),
            ("8 0 0 0 0\n\n", "a line too many"),
            ("9 2 0 0 1\n", "no reply"),
            ("5 0 0 0 0\n", "no reply"),
            ("12 0 0 0 0\n", "no reply"),
            ("", "no end"),
        ] {
            let fault = read_of(text).unwrap_err();
            assert!(fault.contains(said), "{text:?}: {fault}");
        }
        let yes = "0 0 0 0 0\n\n";
        assert!(read(1, 0, b"", yes).unwrap_err().contains("not that of the listing"), "it is not readable");
    }

    /// What is printed of document 000's set for x1' = x1^3 + x2^2, x2' = x1 + x2, and its wiring.
    const PRINTED: &str = "0 2 8 0 0\nIntroduced variables:\nw0 = x2**2\nw1 = x1**2\n\nx1' = w0 + x1*w1\n\
                           x2' = x2 + x1\nw0' = 2*w0 + 2*x1*x2\nw1' = 2*x1*w0 + 2*w1**2\n";
    const ITS_WIRING: &str = "0 2 8 0 0\n1 0 3 1\n1 1 4 1\n2 0 2 1\n2 0 1 1\n3 0 3 2\n3 1 2 2\n4 1 3 2\n4 4 4 2\n";

    #[test]
    fn a_printed_listing_says_what_the_wiring_says() {
        let set = [[0, 2, 0, 0, 0, 0], [2, 0, 0, 0, 0, 0]];
        let wires = wired(2, &set, ITS_WIRING).unwrap().wires;
        let printed = |text: &str| printed(2, 0, &set, &wires, text);
        assert_eq!(printed(PRINTED).unwrap(), PRINTED.split_once('\n').unwrap().1);
        for (right, wrong, said) in [
            ("0 2 8 0 0", "0 1 8 0 0", "no reply about"),
            ("0 2 8 0 0", "0 2 7 0 0", "no reply about"),
            ("0 2 8 0 0", "9 2 0 0 1", "no reply"),
            ("0 2 8 0 0\n", "0 2 8 0 0", "no reply"),
            ("Intro", "intro", "no listing at byte 1"),
            ("2*w1**2\n", "2*w1**2", "no listing at byte"),
            ("x2**2", "x2**3", "not say what the wiring"),
            ("2*w0 + 2*x1*x2", "2*x1*x2 + 2*w0", "not say what the wiring"),
            ("2*w0 + 2*x1*x2", "2*w0 + 2*x2*x1", "not say what the wiring"),
            ("2*w0 + 2*x1*x2", "2*w0 - 2*x1*x2", "not say what the wiring"),
            ("x1' = w0 + x1*w1", "x1' = w0", "not say what the wiring"),
        ] {
            let text = PRINTED.replacen(right, wrong, 1);
            assert_ne!(text, PRINTED);
            assert!(printed(&text).unwrap_err().contains(said), "{wrong}: {:?}", printed(&text));
        }
        assert!(printed("").is_err() && printed("8 0 0 0 0\n").is_err());
    }
}
