// The groups of systems that are walked with the counting rule and without it.

use crate::panel::TERM_BYTES;
use crate::systems::{Record, SYSTEMS, System};

pub struct Group {
    pub name: &'static str,
    pub systems: Vec<System>,
}

pub fn groups() -> [Group; 3] {
    [
        Group { name: "own", systems: SYSTEMS.to_vec() },
        random("three", include_str!("random/three.txt"), 10_000_000),
        random("hundred", include_str!("random/hundred.txt"), 1_000_000),
    ]
}

// The systems of a data file, whose first paragraph says what they are. They live as long as the program.
fn random(name: &'static str, text: &str, limit: u64) -> Group {
    let read = |(i, paragraph): (usize, &str)| {
        let terms: Vec<Record> = paragraph.split_whitespace().map(record).collect();
        System { name: format!("3: {name}, {}", i + 1).leak(), n: 3, marks: 0, limit, terms: terms.leak() }
    };
    Group { name, systems: text.split("\n\n").skip(1).enumerate().map(read).collect() }
}

fn record(word: &str) -> Record {
    assert_eq!(word.len(), 2 * TERM_BYTES, "no term record: {word}");
    std::array::from_fn(|i| u8::from_str_radix(&word[2 * i..2 * i + 2], 16).expect("hexadecimal"))
}
