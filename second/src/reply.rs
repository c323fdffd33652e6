//! What the box says: a code and the four numbers that may go with it
//! (document 01, What the box says; document 02, [7]).

use std::fmt;

/// The five numbers of a reply. Numbers that a code does not name stay 0.
#[derive(Clone, Copy, PartialEq, Eq, Debug, Default)]
pub struct Reply {
    pub code: u64,
    pub order: u64,
    pub count: u64,
    pub steps: u64,
    pub place: u64,
}

/// The names of the codes, as document 01's table and document 02, [7] give them.
pub const NAMES: [&str; 12] = [
    "done",
    "setting",
    "length",
    "term",
    "twice",
    "none",
    "full",
    "spent",
    "set",
    "not quadratic",
    "unreadable",
    "false line",
];

impl Reply {
    /// A reply that is a code and nothing more: 1, 2 and 8.
    pub fn bare(code: u64) -> Reply {
        Reply {
            code,
            ..Reply::default()
        }
    }

    /// A reply that points at a record, a byte or a line: 3, 4, 10 and 11.
    pub fn at(code: u64, place: usize) -> Reply {
        Reply {
            code,
            place: place as u64,
            ..Reply::default()
        }
    }

    /// The code's name.
    pub fn name(&self) -> &'static str {
        NAMES[self.code as usize]
    }

    /// The five numbers in the document's sequence.
    #[cfg(test)]
    pub fn numbers(&self) -> [u64; 5] {
        [self.code, self.order, self.count, self.steps, self.place]
    }
}

/// The five numbers in decimal, one space between.
impl fmt::Display for Reply {
    fn fmt(&self, f: &mut fmt::Formatter<'_>) -> fmt::Result {
        write!(
            f,
            "{} {} {} {} {}",
            self.code, self.order, self.count, self.steps, self.place
        )
    }
}
