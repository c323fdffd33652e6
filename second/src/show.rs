//! A batch written for a person, one block per case: for looking at a case
//! whose answers differ.

use crate::batch::{hex, Case, Operation};
use crate::monomial::Monomial;
use crate::notation::{write_members, write_system};
use crate::panel::{FULL_DEGREE, MOST_N, SET_BYTES, TERM_BYTES, WIRE_BYTES};
use crate::records::{read_terms, read_wires, set_places, terms_have_a_length, Fields};
use crate::reply::Reply;
use crate::setting::{n_is_in_range, Setting};

/// The block of one case, counted from 1.
pub fn block(number: usize, case: &Case) -> String {
    let (reply, buffer) = case.answer();
    let mut lines = vec![format!("case {number}: {}", heading(case))];
    lines.extend(system_lines(case));
    match case.operation {
        Operation::Plan => {}
        Operation::Wire | Operation::Thin => {
            lines.push(format!("  set {}", set_text(&case.given)));
        }
        Operation::Read => lines.extend(text_lines(&case.given)),
    }
    lines.push(format!(
        "  code {} {}: {}",
        reply.code,
        reply.name(),
        numbers(&reply)
    ));
    lines.extend(answer_lines(case, &reply, &buffer));
    lines.push(format!("  line {}", case.line()));
    lines.join("\n") + "\n"
}

fn heading(case: &Case) -> String {
    let (name, n) = (case.operation.name(), case.n);
    let marks = match case.marks {
        0 => String::new(),
        marks => format!(", marks {marks:#x}"),
    };
    let degree = match case.degree {
        FULL_DEGREE => String::new(),
        degree => format!(", degree {degree}"),
    };
    let settings = match case.operation {
        Operation::Plan => format!(", K = {}, limit {}", case.cap, case.limit),
        Operation::Wire | Operation::Thin | Operation::Read => String::new(),
    };
    let buffer = case.buffer;
    let bytes = match case.operation {
        Operation::Wire => format!("buffer {buffer} bytes ({} records)", buffer / WIRE_BYTES),
        Operation::Plan | Operation::Thin => {
            format!("buffer {buffer} bytes ({} sets)", buffer / SET_BYTES)
        }
        Operation::Read => format!("text {} bytes", case.given.len()),
    };
    format!("{name}, n = {n}{marks}{degree}{settings}, {bytes}")
}

fn numbers(reply: &Reply) -> String {
    format!(
        "order {}, count {}, steps {}, place {}",
        reply.order, reply.count, reply.steps, reply.place
    )
}

/// The equations; or the bare records where they are refused.
fn system_lines(case: &Case) -> Vec<String> {
    let setting = Setting {
        n: match n_is_in_range(case.n) {
            true => case.n,
            false => MOST_N,
        },
        ..case.setting()
    };
    if terms_have_a_length(&case.terms) {
        if let Ok(system) = read_terms(setting, &case.terms) {
            let lines = write_system(&system);
            return lines.iter().map(|line| format!("  {line}")).collect();
        }
    }
    let mut lines = vec![format!("  {} bytes of terms", case.terms.len())];
    for (index, record) in case.terms.chunks(TERM_BYTES).enumerate() {
        let place = index + 1;
        if record.len() < TERM_BYTES {
            lines.push(format!("  record {place} is cut: {}", hex(record)));
            continue;
        }
        let fields = Fields::of(record);
        let mut line = format!(
            "  record {place}: equation {}, byte 1 is {}, exponents {}, coefficient {}",
            fields.equation,
            fields.zero,
            fields.exponents.map(|e| e.to_string()).join("."),
            fields.coefficient
        );
        for fault in fields.faults(setting.n as usize, setting.marks) {
            line += &format!(" ({fault})");
        }
        lines.push(line);
    }
    lines
}

/// The lines of a text by their numbers, newlines and all that cannot be printed
/// written as in a program.
fn text_lines(text: &[u8]) -> Vec<String> {
    let lines = text.split_inclusive(|&byte| byte == b'\n');
    lines
        .enumerate()
        .map(|(index, line)| format!("  {} | {}", index + 1, written_out(line)))
        .collect()
}

/// An apostrophe is no special byte here.
fn written_out(bytes: &[u8]) -> String {
    bytes.escape_ascii().to_string().replace("\\'", "'")
}

/// Where a text stops being readable: the line that it is in, up to there, and the
/// byte itself.
fn unreadable_line(text: &[u8], place: usize) -> String {
    let before = &text[..place - 1];
    let line = before.rsplit(|&byte| byte == b'\n').next().expect("a line");
    let byte = match text.get(place - 1..place) {
        Some(byte) => format!("'{}'", written_out(byte)),
        None => "the end".to_string(),
    };
    format!("  after '{}' unreadable: {byte}", written_out(line))
}

/// The members of a set record, places left empty inside shown as 1.
fn set_text(record: &[u8]) -> String {
    if record.len() != SET_BYTES {
        return format!("of {} bytes: {}", record.len(), hex(record));
    }
    let mut places = set_places(record).to_vec();
    while places.last() == Some(&Monomial::ONE) {
        places.pop();
    }
    write_members(&places)
}

/// The sets that the buffer holds, each after a word of what it is.
pub fn listed(word: &str, buffer: &[u8], count: usize) -> Vec<String> {
    let records = buffer.chunks(SET_BYTES).take(count);
    let line = |record| format!("  {word} {}", set_text(record));
    records.map(line).collect()
}

/// The sets or the wiring that the buffer holds.
fn answer_lines(case: &Case, reply: &Reply, buffer: &[u8]) -> Vec<String> {
    if reply.code == 10 {
        return vec![unreadable_line(&case.given, reply.place as usize)];
    }
    if reply.code != 0 {
        return Vec::new();
    }
    let count = reply.count as usize;
    match case.operation {
        Operation::Plan => listed("found", buffer, count),
        Operation::Thin => listed("kept", buffer, count),
        Operation::Read => listed("read", buffer, 1),
        Operation::Wire => read_wires(buffer)
            .iter()
            .map(|w| format!("  wire {} {} {} {}", w.left, w.a, w.b, w.coefficient))
            .collect(),
    }
}

#[cfg(test)]
mod tests {
    use super::*;
    use crate::degree::Degree;
    use crate::marks::Marks;
    use crate::notation::terms;
    use crate::records::write_terms;
    use crate::rows::set_of;

    #[test]
    fn a_plan_is_shown() {
        let input = write_terms(&terms("x1' = x1^3"));
        let expected = "\
case 7: plan, n = 2, K = 6, limit 100, buffer 40 bytes (1 sets)
  x1' = x1^3
  x2' = 0
  code 0 done: order 1, count 1, steps 6, place 0
  found {x1^2}
  line 0 1 1 6 0 02000000000000000000000000000000000000000000000000\
000000000000000000000000000000
";
        assert_eq!(block(7, &Case::plan(2, 6, 100, 40, input)), expected);
    }

    #[test]
    fn marks_are_shown() {
        let input = write_terms(&terms("x1' = x1^2 x2"));
        let expected = "\
case 4: plan, n = 2, marks 0x2, K = 1, limit 100, buffer 1 bytes (0 sets)
  x1' = x1^2 x2
  x2 from outside
  code 5 none: order 2, count 0, steps 6, place 0
  line 5 2 0 6 0 00
";
        let plan = Case::plan(2, 1, 100, 1, input.clone());
        assert_eq!(block(4, &plan.marked(Marks(0b10))), expected);
        let expected = "\
case 5: thin, n = 2, marks 0x1, buffer 0 bytes (0 sets)
  12 bytes of terms
  record 1: equation 1, byte 1 is 0, exponents 2.1.0.0.0.0, coefficient 1 (equation of a signal)
  set {}
  code 3 term: order 0, count 0, steps 0, place 1
  line 3 0 0 0 1 -
";
        let thinning = Case::thin(2, input, set_of(&[]), 0);
        assert_eq!(block(5, &thinning.marked(Marks(0b1))), expected);
    }

    #[test]
    fn the_limit_of_a_junior_kit_is_shown() {
        let input = write_terms(&terms("x1' = x1^5"));
        let expected = "\
case 6: plan, n = 1, degree 3, K = 6, limit 100, buffer 0 bytes (0 sets)
  x1' = x1^5
  code 5 none: order 7, count 0, steps 46, place 0
  line 5 7 0 46 0 -
";
        let plan = Case::plan(1, 6, 100, 0, input);
        assert_eq!(block(6, &plan.limited(Degree(3))), expected);
    }

    #[test]
    fn a_wiring_is_shown() {
        let input = write_terms(&terms("x1' = - x1^2"));
        let expected = "\
case 1: wire, n = 1, buffer 9 bytes (1 records)
  x1' = - x1^2
  set {}
  code 0 done: order 0, count 1, steps 0, place 0
  wire 1 1 1 -1
  line 0 0 1 0 0 01010100ffffffff00
";
        assert_eq!(block(1, &Case::wire(1, input, set_of(&[]), 9)), expected);
    }

    #[test]
    fn a_thinning_is_shown() {
        let input = write_terms(&terms("x1' = x1^3"));
        let expected = format!(
            "\
case 3: thin, n = 1, buffer 37 bytes (1 sets)
  x1' = x1^3
  set {{x1^2, x1^4}}
  code 0 done: order 1, count 1, steps 4, place 0
  kept {{x1^2}}
  line 0 1 1 4 0 02{}
",
            "00".repeat(36)
        );
        let set = set_of(&["x1^2", "x1^4"]);
        assert_eq!(block(3, &Case::thin(1, input, set, 37)), expected);
    }

    #[test]
    fn a_listing_is_shown() {
        let input = write_terms(&terms("x1' = x1^3"));
        let text = "Introduced variables:\nw0 = x1**2\n\nx1' = x1*w0\nw0' = 2*w0**2\n";
        let shown = [
            "  x1' = x1^3",
            "  1 | Introduced variables:\\n",
            "  2 | w0 = x1**2\\n",
            "  3 | \\n",
            "  4 | x1' = x1*w0\\n",
        ]
        .join("\n");
        let zeros = "00".repeat(35);
        let expected = format!(
            "\
case 9: read, n = 1, text 60 bytes
{shown}
  5 | w0' = 2*w0**2\\n
  code 0 done: order 1, count 0, steps 0, place 0
  read {{x1^2}}
  line 0 1 0 0 0 02{zeros}
"
        );
        let case = Case::read(1, input.clone(), text.as_bytes().to_vec());
        assert_eq!(block(9, &case), expected);
        let expected = format!(
            "\
case 9: read, n = 1, text 59 bytes
{shown}
  5 | w0' = 2*w0**2
  code 10 unreadable: order 0, count 0, steps 0, place 60
  after 'w0' = 2*w0**2' unreadable: the end
  line 10 0 0 0 60 00{zeros}
"
        );
        let case = Case::read(1, input, text.as_bytes()[..59].to_vec());
        assert_eq!(block(9, &case), expected);
    }

    #[test]
    fn a_refused_case_shows_its_records() {
        let mut input = write_terms(&terms("x1' = x1; x2' = x1"));
        input.truncate(20);
        input[1] = 3;
        let expected = "\
case 2: wire, n = 1, buffer 3 bytes (0 records)
  20 bytes of terms
  record 1: equation 1, byte 1 is 3, exponents 1.0.0.0.0.0, coefficient 1 (byte 1 not zero)
  record 2 is cut: 0200010000000000
  set of 2 bytes: 0506
  code 2 length: order 0, count 0, steps 0, place 0
  line 2 0 0 0 0 000000
";
        assert_eq!(block(2, &Case::wire(1, input, vec![5, 6], 3)), expected);
    }
}
