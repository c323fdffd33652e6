//! The listing that an owner gives, as bytes, which need be no text; and pointing at a byte or a line of it.

use crate::panel::LISTING_BYTES;
use crate::typed::text::{Holds, Source, Span};

/// Its text as a source is shown text: a byte that is no printable ASCII character stands there as its number.
#[derive(Debug, PartialEq)]
pub struct Pasted {
    /// The name of its file.
    pub file: String,
    /// At most one more than the box reads.
    pub bytes: Vec<u8>,
    /// The number of its source.
    source: usize,
    /// Where each byte begins in the shown text; the last is its end.
    begins: Vec<usize>,
}

impl Pasted {
    /// The listing as it is shown, and its text as source number `source`.
    pub fn of(source: usize, file: &str, bytes: Vec<u8>) -> (Pasted, Source) {
        let mut text = String::new();
        let mut begins = vec![0];
        for &byte in &bytes {
            match byte {
                b'\n' | b' '..=b'~' => text.push(byte.into()),
                _ => text += &format!("<{byte}>"),
            }
            begins.push(text.len());
        }
        let source_of = Source { file: Some(file.into()), holds: Holds::Listing, text };
        (Pasted { file: file.into(), bytes, source, begins }, source_of)
    }

    pub fn is_too_long(&self) -> bool {
        LISTING_BYTES < self.bytes.len()
    }

    /// The byte at a place from 1; nothing where the text ends before it.
    pub fn byte(&self, place: usize) -> Option<u8> {
        self.bytes.get(place.checked_sub(1)?).copied()
    }

    /// The line of a place, and the number of the byte in that line; all count from 1.
    pub fn line_of(&self, place: usize) -> (usize, usize) {
        let before = &self.bytes[..self.bytes.len().min(place.saturating_sub(1))];
        let start = before.iter().rposition(|&byte| byte == b'\n').map_or(0, |at| at + 1);
        (1 + before.iter().filter(|&&byte| byte == b'\n').count(), 1 + before.len() - start)
    }

    /// The byte at a place from 1, as shown; the end of the text where there is none.
    pub fn span(&self, place: usize) -> Span {
        let last = self.begins.len() - 1;
        let at = |place: usize| self.begins[place.min(last)];
        Span { source: self.source, from: at(place.saturating_sub(1)), to: at(place) }
    }

    /// The bytes of a line from 1, without its end, and where they are shown.
    pub fn line(&self, number: usize) -> Option<(&[u8], Span)> {
        let mut start = 0;
        for (i, line) in self.bytes.split(|&byte| byte == b'\n').enumerate() {
            let end = start + line.len();
            if i + 1 == number {
                return Some((line, Span { source: self.source, from: self.begins[start], to: self.begins[end] }));
            }
            start = end + 1;
        }
        None
    }

    /// Whether a line from 1 has a byte that is shown as its number.
    pub fn has_numbers(&self, line: usize) -> bool {
        self.line(line).is_some_and(|(bytes, _)| bytes.iter().any(|byte| !matches!(byte, b' '..=b'~')))
    }
}

/// A byte in words.
pub fn named(byte: u8) -> String {
    match byte {
        b'\n' => "the end of the line".into(),
        b'\r' => "a carriage return, byte 13".into(),
        b'\t' => "a tab, byte 9".into(),
        b' ' => "a space".into(),
        b'!'..=b'~' => format!("{:?}", char::from(byte).to_string()),
        0..=127 => format!("a control byte, {byte}"),
        _ => format!("byte {byte}, which is no ASCII character"),
    }
}

#[cfg(test)]
mod tests {
    use super::*;
    use crate::typed::text::point;

    fn pasted(bytes: &[u8]) -> (Pasted, Vec<Source>) {
        let (pasted, source) = Pasted::of(0, "a.txt", bytes.to_vec());
        (pasted, vec![source])
    }

    #[test]
    fn a_byte_is_pointed_at() {
        let (pasted, sources) = pasted(b"ab\ncd\n");
        let shown = |place| point(&sources, pasted.span(place));
        assert_eq!(shown(1), "  a.txt, line 1:\n  ab\n  ^\n");
        assert_eq!(shown(3), "  a.txt, line 1:\n  ab\n    ^\n", "the end of a line is behind it");
        assert_eq!(shown(5), "  a.txt, line 2:\n  cd\n   ^\n");
        assert_eq!(shown(7), "  a.txt, line 3:\n\n  ^\n", "one past the end");
        assert_eq!([1, 3, 4, 6, 7].map(|place| pasted.line_of(place)), [(1, 1), (1, 3), (2, 1), (2, 3), (3, 1)]);
        assert_eq!((pasted.byte(6), pasted.byte(7), pasted.byte(0)), (Some(b'\n'), None, None));
    }

    #[test]
    fn bytes_that_are_not_printable_are_shown_as_numbers() {
        let (pasted, sources) = pasted(b"a\xe9\r\n\tb\0");
        let shown = |place| point(&sources, pasted.span(place));
        assert_eq!(shown(2), "  a.txt, line 1:\n  a<233><13>\n   ^^^^^\n");
        assert_eq!(shown(3), "  a.txt, line 1:\n  a<233><13>\n        ^^^^\n");
        assert_eq!(shown(6), "  a.txt, line 2:\n  <9>b<0>\n     ^\n");
        assert_eq!([1, 2, 3].map(|line| pasted.has_numbers(line)), [true, true, false]);
        let (line, span) = pasted.line(2).unwrap();
        assert_eq!((line, span.to - span.from), (&b"\tb\0"[..], 7));
        assert_eq!(pasted.line(3), None);
    }

    #[test]
    fn nothing_at_all_is_pointed_at() {
        let (pasted, sources) = pasted(b"");
        assert_eq!(point(&sources, pasted.span(1)), "  a.txt, line 1:\n\n  ^\n");
        assert_eq!((pasted.line_of(1), pasted.is_too_long()), ((1, 1), false));
    }

    #[test]
    fn bytes_in_words() {
        for (byte, words) in [
            (b'*', "\"*\""),
            (b'\'', "\"'\""),
            (b' ', "a space"),
            (b'\n', "the end of the line"),
            (b'\r', "a carriage return, byte 13"),
            (b'\t', "a tab, byte 9"),
            (0, "a control byte, 0"),
            (127, "a control byte, 127"),
            (195, "byte 195, which is no ASCII character"),
        ] {
            assert_eq!(named(byte), words);
        }
    }
}
