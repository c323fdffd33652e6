//! The small program of document 01: term records in, lines of numbers out.

use crate::marks::Marks;
use crate::monomial::Monomial;
use crate::operations::{plan, wire};
use crate::panel::{
    MOST_TERMS_BYTES, MOST_WIRES_BYTES, SET_BYTES, USUAL_CAP, USUAL_LIMIT, USUAL_ROOM, VARIABLES,
};
use crate::records::{read_wires, set_places};
use crate::setting::Setting;
use std::io::Read;

/// One byte more than a system has: enough to know that there are too many.
const MOST_INPUT: usize = MOST_TERMS_BYTES + 1;

/// Reads what the program needs to know. A failed read is the input's end.
pub fn read_input(input: impl Read) -> Vec<u8> {
    let mut terms = Vec::new();
    let _ = input.take(MOST_INPUT as u64).read_to_end(&mut terms);
    terms
}

/// A monomial as the program writes it: exponents joined by dots.
fn dotted(monomial: &Monomial) -> String {
    monomial.0.map(|e| e.to_string()).join(".")
}

/// Everything the program writes for these records.
pub fn output(terms: &[u8]) -> String {
    // What it reads is document 01's: no variable is fed from outside, and the kit
    // is the full one.
    let setting = Setting::full(VARIABLES, Marks::NONE);
    let mut sets = vec![0; USUAL_ROOM * SET_BYTES];
    let reply = plan(setting, USUAL_CAP, USUAL_LIMIT, terms, &mut sets);
    let mut lines = vec![reply.to_string()];
    if reply.code == 0 {
        for record in sets.chunks(SET_BYTES).take(reply.count as usize) {
            let members: Vec<String> = set_places(record)
                .iter()
                .filter(|m| **m != Monomial::ONE)
                .map(dotted)
                .collect();
            lines.push(members.join(" "));
        }
        let mut list = vec![0; MOST_WIRES_BYTES];
        wire(setting, terms, &sets[..SET_BYTES], &mut list);
        for w in read_wires(&list) {
            lines.push(format!("{} {} {} {}", w.left, w.a, w.b, w.coefficient));
        }
    }
    lines.iter().map(|line| line.clone() + "\n").collect()
}

#[cfg(test)]
mod tests {
    use super::*;
    use crate::notation::terms;
    use crate::records::write_terms;

    #[test]
    fn document_01_example_verbatim() {
        let expected = "\
0 2 2 23 0
2.0.0.0.0.0 3.0.0.0.0.0
3.0.0.0.0.0 4.0.0.0.0.0
1 0 8 1
1 1 8 1
7 1 8 2
7 7 8 2
8 7 8 3
8 8 8 3
";
        let input = write_terms(&terms("x1' = x1^4 + x1^3"));
        assert_eq!(output(&input), expected);
        let input = write_terms(&terms("x1' = x1^3 + x1^4"));
        assert_eq!(output(&input), expected);
    }

    #[test]
    fn no_input_is_the_empty_set_on_an_empty_line() {
        assert_eq!(output(&[]), "0 0 1 1 0\n\n");
    }

    #[test]
    fn a_quadratic_system_has_an_empty_line_and_its_wiring() {
        let input = write_terms(&terms("x2' = - 7 x1 x2 + 3; x1' = 1000000 x6"));
        let expected = "0 0 1 1 0\n\n1 0 6 1000000\n2 0 0 3\n2 1 2 -7\n";
        assert_eq!(output(&input), expected);
    }

    #[test]
    fn after_a_refusal_only_the_first_line() {
        assert_eq!(output(&[0; 11]), "2 0 0 0 0\n");
        assert_eq!(output(&[0; 385]), "2 0 0 0 0\n");
        assert_eq!(output(&[0; 12]), "3 0 0 0 1\n");
        let twice = write_terms(&terms("x1' = x1 + x1"));
        assert_eq!(output(&twice), "4 0 0 0 2\n");
    }

    #[test]
    fn no_more_than_385_bytes_are_read() {
        assert_eq!(read_input(&[7; 384][..]).len(), 384);
        assert_eq!(read_input(&[7; 385][..]).len(), 385);
        assert_eq!(read_input(&[7; 2000][..]).len(), 385);
    }

    #[test]
    fn a_failed_read_is_the_end() {
        struct Fails(usize);
        impl Read for Fails {
            fn read(&mut self, buffer: &mut [u8]) -> std::io::Result<usize> {
                if self.0 == 0 {
                    return Err(std::io::Error::other("no more"));
                }
                self.0 -= 1;
                buffer[0] = 9;
                Ok(1)
            }
        }
        assert_eq!(read_input(Fails(5)), [9; 5]);
    }
}
