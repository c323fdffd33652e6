//! Batches: cases side by side as bytes, and one line of answer for each.
//!
//! All numbers are low byte first. A case is a head of 56 bytes, then its
//! terms, then what else is given: a set, or the text of a listing.
//!
//! | bytes | meaning |
//! |---|---|
//! | 0-1 | operation: 1 plan, 2 wire, 3 thin, 4 read a listing |
//! | 2-3 | length of the terms, at most 600 |
//! | 4-7 | length of what is given, at most 8,192 |
//! | 8-15, 16-23, 24-31 | n, marks, degree |
//! | 32-39, 40-47 | K, limit (planning's alone) |
//! | 48-55 | length of the answer buffer, at most 65,536 (not reading's) |
//!
//! Reading lends no buffer. What its answer holds is the set, which comes back.

use crate::degree::Degree;
use crate::marks::Marks;
use crate::operations::{plan_by, read_listing, thin, wire};
use crate::panel::FULL_DEGREE;
use crate::reply::Reply;
use crate::setting::Setting;
use crate::system::System;
use crate::walk::Rules;
use std::fmt::Write;

const MOST_CASE_TERMS: usize = 600;
pub const MOST_CASE_GIVEN: usize = 8_192;
pub const MOST_CASE_BUFFER: usize = 65_536;

/// The longest buffer whose bytes are written out one by one.
const MOST_SHOWN_BYTES: usize = 72;

/// What every lent buffer holds before the call, so that a byte left untouched
/// shows in the answer.
pub const UNTOUCHED: u8 = 165;

/// The four operations by their numbers in a batch.
#[derive(Clone, Copy, PartialEq, Eq, Hash, Debug)]
pub enum Operation {
    Plan = 1,
    Wire = 2,
    Thin = 3,
    Read = 4,
}

impl Operation {
    pub const ALL: [Operation; 4] = [
        Operation::Plan,
        Operation::Wire,
        Operation::Thin,
        Operation::Read,
    ];

    pub fn name(self) -> &'static str {
        match self {
            Operation::Plan => "plan",
            Operation::Wire => "wire",
            Operation::Thin => "thin",
            Operation::Read => "read",
        }
    }
}

/// One case of a batch.
#[derive(Clone, PartialEq, Eq, Hash, Debug)]
pub struct Case {
    pub operation: Operation,
    pub n: u64,
    pub marks: u64,
    pub degree: u64,
    pub cap: u64,
    pub limit: u64,
    pub buffer: usize,
    pub terms: Vec<u8>,
    /// The set of wiring and thinning, the text of reading.
    pub given: Vec<u8>,
}

impl Case {
    pub fn plan(n: u64, cap: u64, limit: u64, buffer: usize, terms: Vec<u8>) -> Case {
        Case {
            operation: Operation::Plan,
            n,
            marks: 0,
            degree: FULL_DEGREE,
            cap,
            limit,
            buffer,
            terms,
            given: Vec::new(),
        }
    }

    pub fn wire(n: u64, terms: Vec<u8>, set: Vec<u8>, buffer: usize) -> Case {
        Case {
            operation: Operation::Wire,
            n,
            marks: 0,
            degree: FULL_DEGREE,
            cap: 0,
            limit: 0,
            buffer,
            terms,
            given: set,
        }
    }

    pub fn thin(n: u64, terms: Vec<u8>, set: Vec<u8>, buffer: usize) -> Case {
        Case {
            operation: Operation::Thin,
            ..Case::wire(n, terms, set, buffer)
        }
    }

    pub fn read(n: u64, terms: Vec<u8>, text: Vec<u8>) -> Case {
        Case {
            operation: Operation::Read,
            ..Case::wire(n, terms, text, 0)
        }
    }

    /// The same case with these marks.
    pub fn marked(self, marks: Marks) -> Case {
        Case {
            marks: marks.0,
            ..self
        }
    }

    /// The same case with this limit on the degree.
    pub fn limited(self, degree: Degree) -> Case {
        Case {
            degree: degree.0,
            ..self
        }
    }

    /// The same case with the marks and the limit of a system.
    pub fn kit_of(self, system: &System) -> Case {
        self.marked(system.marks).limited(system.degree)
    }

    /// What the operation is told before all else.
    pub fn setting(&self) -> Setting {
        Setting {
            n: self.n,
            marks: Marks(self.marks),
            degree: Degree(self.degree),
        }
    }

    /// Appends the case to a batch.
    pub fn write(&self, batch: &mut Vec<u8>) {
        let buffer = self.buffer as u64;
        batch.extend((self.operation as u16).to_le_bytes());
        batch.extend((self.terms.len() as u16).to_le_bytes());
        batch.extend((self.given.len() as u32).to_le_bytes());
        let settings = [self.n, self.marks, self.degree, self.cap, self.limit];
        for number in settings.into_iter().chain([buffer]) {
            batch.extend(number.to_le_bytes());
        }
        batch.extend(&self.terms);
        batch.extend(&self.given);
    }

    /// The reply, and the buffer after the call, or the set that comes back.
    pub fn answer(&self) -> (Reply, Vec<u8>) {
        self.answer_by(Rules::NOW)
    }

    /// The same where planning walks by other rules.
    pub fn answer_by(&self, rules: Rules) -> (Reply, Vec<u8>) {
        let Case { terms, given, .. } = self;
        let setting = self.setting();
        let mut buffer = vec![UNTOUCHED; self.buffer];
        let reply = match self.operation {
            Operation::Plan => plan_by(rules, setting, self.cap, self.limit, terms, &mut buffer),
            Operation::Wire => wire(setting, terms, given, &mut buffer),
            Operation::Thin => thin(setting, terms, given, &mut buffer),
            Operation::Read => {
                let (reply, set) = read_listing(setting, terms, given);
                buffer = set.to_vec();
                reply
            }
        };
        (reply, buffer)
    }

    /// The answer as a line, without its newline.
    pub fn line(&self) -> String {
        let (reply, buffer) = self.answer();
        format!("{reply} {}", written(&buffer))
    }
}

/// A buffer as an answer line holds it: its bytes, or a digest of them.
pub fn written(buffer: &[u8]) -> String {
    if buffer.is_empty() {
        return "-".to_string();
    }
    if buffer.len() > MOST_SHOWN_BYTES {
        return format!("#{:016x}", digest(buffer));
    }
    hex(buffer)
}

/// Each byte as two lower-case hexadecimal digits.
pub fn hex(bytes: &[u8]) -> String {
    let mut text = String::new();
    for byte in bytes {
        write!(text, "{byte:02x}").expect("a string takes it");
    }
    text
}

/// The FNV-1a digest of 64 bits.
fn digest(bytes: &[u8]) -> u64 {
    let start = 14_695_981_039_346_656_037_u64;
    bytes.iter().fold(start, |sum, &byte| {
        (sum ^ u64::from(byte)).wrapping_mul(1_099_511_628_211)
    })
}

/// A case that is itself broken; nothing after it is read.
#[derive(PartialEq, Eq, Debug)]
pub struct Broken;

/// The cases of a batch in their sequence, up to the first broken one.
pub struct Cases<'a> {
    rest: &'a [u8],
    stopped: bool,
}

impl<'a> Cases<'a> {
    pub fn of(batch: &'a [u8]) -> Cases<'a> {
        Cases {
            rest: batch,
            stopped: false,
        }
    }

    /// Takes so many bytes from the front.
    fn take(&mut self, length: usize) -> Result<&'a [u8], Broken> {
        if self.rest.len() < length {
            return Err(Broken);
        }
        let (front, rest) = self.rest.split_at(length);
        self.rest = rest;
        Ok(front)
    }

    /// A number of so many bytes.
    fn number(&mut self, length: usize) -> Result<u64, Broken> {
        let bytes = self.take(length)?;
        Ok(bytes
            .iter()
            .rev()
            .fold(0, |sum, &b| sum << 8 | u64::from(b)))
    }

    /// A length of so many bytes that is not above the most.
    fn length(&mut self, length: usize, most: usize) -> Result<usize, Broken> {
        let number = self.number(length)?;
        match number <= most as u64 {
            true => Ok(number as usize),
            false => Err(Broken),
        }
    }

    fn read(&mut self) -> Result<Case, Broken> {
        let number = self.number(2)?;
        let operation = Operation::ALL
            .into_iter()
            .find(|operation| *operation as u64 == number)
            .ok_or(Broken)?;
        let terms_length = self.length(2, MOST_CASE_TERMS)?;
        let given_length = self.length(4, MOST_CASE_GIVEN)?;
        Ok(Case {
            operation,
            n: self.number(8)?,
            marks: self.number(8)?,
            degree: self.number(8)?,
            cap: self.number(8)?,
            limit: self.number(8)?,
            buffer: self.length(8, MOST_CASE_BUFFER)?,
            terms: self.take(terms_length)?.to_vec(),
            given: self.take(given_length)?.to_vec(),
        })
    }
}

impl Iterator for Cases<'_> {
    type Item = Result<Case, Broken>;

    fn next(&mut self) -> Option<Result<Case, Broken>> {
        if self.stopped || self.rest.is_empty() {
            return None;
        }
        let case = self.read();
        self.stopped = case.is_err();
        Some(case)
    }
}

/// A whole batch as bytes.
pub fn write_batch(cases: &[Case]) -> Vec<u8> {
    let mut batch = Vec::new();
    for case in cases {
        case.write(&mut batch);
    }
    batch
}

/// The line that stands for a broken case.
pub const BROKEN_LINE: &str = "broken batch";

#[cfg(test)]
mod tests {
    use super::*;
    use crate::panel::{MOST_N, SET_BYTES};

    fn some_cases() -> Vec<Case> {
        vec![
            Case::plan(1, 6, 1_000_000, 40, vec![]),
            Case::plan(u64::MAX, 1 << 32, 1 << 63, 65_536, (0..=254).collect()),
            Case::wire(3, vec![5; 600], vec![9; 255], 7),
            Case::wire(6, vec![1; 12], vec![0; 36], 1_792),
            Case::wire(0, vec![], vec![], 0),
            Case::thin(2, vec![3; 24], vec![2; 36], 71),
            Case::plan(1, 2, 3, 4, vec![]).marked(Marks(u64::MAX)),
            Case::wire(4, vec![9], vec![8], 0).marked(Marks(1 << 63)),
            Case::plan(1, 2, 3, 4, vec![]).limited(Degree(u64::MAX)),
            Case::thin(5, vec![7], vec![6], 1).limited(Degree(2)),
            Case::read(6, vec![4; 12], vec![3; 8_192]).marked(Marks(5)),
            Case::read(2, vec![], vec![]).limited(Degree(9)),
        ]
    }

    fn lines(batch: &[u8]) -> Vec<String> {
        Cases::of(batch)
            .map(|case| case.map_or(BROKEN_LINE.to_string(), |case| case.line()))
            .collect()
    }

    #[test]
    fn what_is_written_is_read_again() {
        let cases = some_cases();
        let batch = write_batch(&cases);
        let read: Vec<Case> = Cases::of(&batch).map(|case| case.unwrap()).collect();
        assert_eq!(read, cases);
    }

    #[test]
    fn the_head_has_its_bytes_where_the_table_says() {
        let mut batch = Vec::new();
        let n = 0x0807_0605_0403_0201;
        Case {
            operation: Operation::Wire,
            n,
            marks: 0x0d0c,
            degree: 0x0f0e,
            cap: 2,
            limit: 0x0a09,
            buffer: 0x0001_0000,
            terms: vec![7; 0x0201],
            given: vec![8; 0x0102],
        }
        .write(&mut batch);
        assert_eq!(batch[..8], [2, 0, 1, 2, 2, 1, 0, 0]);
        assert_eq!(batch[8..16], [1, 2, 3, 4, 5, 6, 7, 8]);
        assert_eq!(batch[16..24], [12, 13, 0, 0, 0, 0, 0, 0]);
        assert_eq!(batch[24..32], [14, 15, 0, 0, 0, 0, 0, 0]);
        assert_eq!(batch[32..40], [2, 0, 0, 0, 0, 0, 0, 0]);
        assert_eq!(batch[40..48], [9, 10, 0, 0, 0, 0, 0, 0]);
        assert_eq!(batch[48..56], [0, 0, 1, 0, 0, 0, 0, 0]);
        assert_eq!(batch.len(), 56 + 0x0201 + 0x0102);
        assert_eq!(batch[56 + 0x0201 - 1..][..2], [7, 8]);
    }

    #[test]
    fn digest_matches_published_vectors() {
        assert_eq!(digest(b""), 0xcbf2_9ce4_8422_2325);
        assert_eq!(digest(b"a"), 0xaf63_dc4c_8601_ec8c);
        assert_eq!(digest(b"foobar"), 0x8594_4171_f739_67e8);
    }

    #[test]
    fn buffers_are_written_out_up_to_72_bytes() {
        assert_eq!(written(&[]), "-");
        assert_eq!(written(&[0, 165, 15]), "00a50f");
        assert_eq!(written(&[0; 72]), "0".repeat(144));
        let longer = written(&[0; 73]);
        assert_eq!(longer.len(), 17);
        assert!(longer.starts_with('#'));
    }

    #[test]
    fn every_byte_of_the_buffer_is_answered() {
        let planned = Case::plan(1, 6, 1_000_000, 40, vec![]);
        assert_eq!(planned.line(), format!("0 0 1 1 0 {}", "00".repeat(40)));
        let refused = Case::plan(MOST_N + 1, 6, 1_000_000, 3, vec![]);
        assert_eq!(refused.line(), "1 0 0 0 0 000000");
        let wired = Case::wire(1, vec![], vec![0; SET_BYTES], 0);
        assert_eq!(wired.line(), "0 0 0 0 0 -");
        let short = Case::wire(1, vec![], vec![0; SET_BYTES], 7);
        assert_eq!(short.line(), format!("0 0 0 0 0 {}", "00".repeat(7)));
        let thinned = Case::thin(1, vec![], vec![0; SET_BYTES], 37);
        assert_eq!(thinned.line(), format!("0 0 1 1 0 {}", "00".repeat(37)));
        let full = Case::thin(1, vec![], vec![0; SET_BYTES], 2);
        assert_eq!(full.line(), "6 0 0 1 0 0000");
    }

    #[test]
    fn a_broken_case_ends_the_answers() {
        let good = write_batch(&[Case::wire(1, vec![], vec![0; SET_BYTES], 0)]);
        let changed = |at: usize, bytes: &[u8]| {
            let mut case = good.clone();
            case[at..at + bytes.len()].copy_from_slice(bytes);
            case.extend([0; 9_000]);
            case
        };
        let unknown = Operation::ALL.len() as u8 + 1;
        let broken = [
            changed(0, &[unknown]),
            changed(0, &[0]),
            changed(1, &[1]),
            changed(2, &601_u16.to_le_bytes()),
            changed(4, &8_193_u32.to_le_bytes()),
            changed(4, &(1_u32 << 31).to_le_bytes()),
            changed(48, &65_537_u64.to_le_bytes()),
            changed(48, &(1_u64 << 32).to_le_bytes()),
        ];
        let short_head = good[..55].to_vec();
        let short_set = good[..good.len() - 1].to_vec();
        for broken in broken {
            let batch = [good.clone(), broken].concat();
            assert_eq!(lines(&batch), ["0 0 0 0 0 -", BROKEN_LINE]);
        }
        for cut in [short_head, short_set] {
            let batch = [good.clone(), cut].concat();
            assert_eq!(lines(&batch), ["0 0 0 0 0 -", BROKEN_LINE]);
        }
        assert!(lines(&[]).is_empty());
    }
}
