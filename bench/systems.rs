// The systems that are walked, as term records. No system of one variable has a longer walk than the first.

use crate::panel::{TERM_BYTES, TERMS, VARIABLES};

#[derive(Clone, Copy)]
pub struct System {
    pub name: &'static str,
    pub n: u64,
    pub marks: u64,
    pub limit: u64,
    pub terms: &'static [Record],
}

pub type Record = [u8; TERM_BYTES];

// A record: equation, exponents, coefficient.
const fn t(equation: u8, e: [u8; VARIABLES], c: i32) -> Record {
    let k = c.to_le_bytes();
    [equation, 0, e[0], e[1], e[2], e[3], e[4], e[5], k[0], k[1], k[2], k[3]]
}

// The mark of a variable that is a signal fed from outside.
const fn mark(variable: usize) -> u64 {
    1 << (variable - 1)
}

// Each of these is walked with knobs alone, and with a signal or two fed from outside.
const MANY_FINDS: [Record; 5] = [
    t(1, [0, 2, 0, 1, 5, 5], 3),
    t(1, [0, 0, 0, 0, 0, 3], 2),
    t(1, [1, 0, 3, 0, 0, 5], 1),
    t(1, [0, 2, 0, 0, 0, 4], -1),
    t(5, [0, 0, 0, 0, 0, 0], -1),
];
const THREE_RECORDS: [Record; 3] = [t(1, [4, 0, 0, 0, 1, 0], 2), t(1, [0, 2, 0, 0, 0, 0], 3), t(6, [4, 0, 3, 5, 0, 5], 1)];
const ALL_NINTH: [Record; 2] = [t(1, [9, 9, 9, 9, 9, 9], 1), t(2, [9, 9, 9, 9, 9, 9], 1)];

// All variables, each fed by five products of two, and two records that need new signals.
const CROWDED: [Record; TERMS] = {
    let mut all = [[0; TERM_BYTES]; TERMS];
    let mut i = 0;
    while i < VARIABLES {
        let mut j = 0;
        while j < 5 {
            let mut e = [0; VARIABLES];
            e[i] += 1;
            e[(i + j) % VARIABLES] += 1;
            all[5 * i + j] = t(i as u8 + 1, e, 1);
            j += 1;
        }
        i += 1;
    }
    all[TERMS - 2] = t(1, [0, 0, 4, 4, 0, 0], 1);
    all[TERMS - 1] = t(2, [4, 0, 0, 0, 0, 1], -1);
    all
};

pub const SYSTEMS: &[System] = &[
    System {
        name: "1: ninth to sixth power",
        n: 1,
        marks: 0,
        limit: 1_000_000,
        terms: &[
            t(1, [9, 0, 0, 0, 0, 0], 1),
            t(1, [8, 0, 0, 0, 0, 0], 1),
            t(1, [7, 0, 0, 0, 0, 0], 1),
            t(1, [6, 0, 0, 0, 0, 0], 1),
        ],
    },
    System {
        name: "2: ninth powers crossed",
        n: 2,
        marks: 0,
        limit: 1_000_000,
        terms: &[t(1, [0, 9, 0, 0, 0, 0], 1), t(2, [9, 0, 0, 0, 0, 0], 1)],
    },
    System {
        name: "2: six records",
        n: 2,
        marks: 0,
        limit: 1_000_000,
        terms: &[
            t(1, [2, 4, 0, 0, 0, 0], 2),
            t(1, [4, 4, 0, 0, 0, 0], 2),
            t(1, [0, 0, 0, 0, 0, 0], 3),
            t(2, [4, 1, 0, 0, 0, 0], 2),
            t(2, [6, 0, 0, 0, 0, 0], -1),
            t(2, [4, 0, 0, 0, 0, 0], 1),
        ],
    },
    System {
        name: "3: ninth powers in a ring",
        n: 3,
        marks: 0,
        limit: 1_000_000,
        terms: &[t(1, [0, 9, 0, 0, 0, 0], 1), t(2, [0, 0, 9, 0, 0, 0], 1), t(3, [9, 0, 0, 0, 0, 0], 1)],
    },
    System {
        name: "3: ninth power of a product",
        n: 3,
        marks: 0,
        limit: 3_000_000,
        terms: &[t(1, [9, 9, 9, 0, 0, 0], 1), t(2, [1, 0, 0, 0, 0, 0], 1)],
    },
    System {
        name: "3: seven records",
        n: 3,
        marks: 0,
        limit: 1_000_000,
        terms: &[
            t(1, [0, 0, 4, 0, 0, 0], -1),
            t(1, [0, 0, 3, 0, 0, 0], -1),
            t(1, [0, 0, 1, 0, 0, 0], -1),
            t(2, [2, 3, 2, 0, 0, 0], 2),
            t(2, [0, 1, 0, 0, 0, 0], 3),
            t(2, [0, 0, 0, 0, 0, 0], -1),
            t(3, [1, 0, 1, 0, 0, 0], 2),
        ],
    },
    System {
        name: "4: ninth power and a feed",
        n: 4,
        marks: 0,
        limit: 1_000_000,
        terms: &[
            t(1, [9, 0, 0, 0, 0, 0], 1),
            t(1, [0, 1, 1, 1, 0, 0], 5),
            t(2, [1, 1, 0, 0, 0, 0], -1),
            t(3, [0, 0, 1, 1, 0, 0], 1),
        ],
    },
    System {
        name: "4: three records",
        n: 4,
        marks: 0,
        limit: 1_000_000,
        terms: &[t(1, [4, 3, 3, 0, 0, 0], 2), t(2, [0, 0, 0, 6, 0, 0], 3), t(4, [0, 3, 2, 0, 0, 0], 1)],
    },
    // The derivative of x1 x2 is 0: a walk that drops signs takes other steps.
    System {
        name: "4: two that cancel",
        n: 4,
        marks: 0,
        limit: 1_000_000,
        terms: &[t(1, [5, 2, 3, 0, 0, 0], 1), t(2, [4, 3, 3, 0, 0, 0], -1), t(3, [0, 6, 0, 2, 0, 0], 2)],
    },
    System {
        name: "5: four records",
        n: 5,
        marks: 0,
        limit: 1_000_000,
        terms: &[
            t(1, [6, 1, 0, 0, 4, 0], 1),
            t(2, [0, 0, 0, 0, 6, 0], -1),
            t(3, [0, 0, 0, 4, 0, 0], 3),
            t(3, [3, 6, 0, 5, 5, 0], 1),
        ],
    },
    System {
        name: "5: three records",
        n: 5,
        marks: 0,
        limit: 3_000_000,
        terms: &[t(4, [0, 1, 2, 0, 1, 0], -1), t(5, [0, 3, 2, 0, 7, 0], 3), t(5, [0, 0, 2, 7, 6, 0], 1)],
    },
    System { name: "6: many finds", n: 6, marks: 0, limit: 1_000_000, terms: &MANY_FINDS },
    System { name: "6: many finds, x4 outside", n: 6, marks: mark(4), limit: 1_000_000, terms: &MANY_FINDS },
    System { name: "6: three records", n: 6, marks: 0, limit: 1_000_000, terms: &THREE_RECORDS },
    System { name: "6: three records, x3 outside", n: 6, marks: mark(3), limit: 1_000_000, terms: &THREE_RECORDS },
    System { name: "6: ninth power of all", n: 6, marks: 0, limit: 3_000_000, terms: &ALL_NINTH },
    System { name: "6: ninth power, two outside", n: 6, marks: mark(5) | mark(6), limit: 3_000_000, terms: &ALL_NINTH },
    System { name: "6: as many records as fit", n: 6, marks: 0, limit: 1_000_000, terms: &CROWDED },
];
