//! Text on a drawing: powers are raised, the numbers of names lowered, and a text's width is never guessed too small.

#[derive(Debug, Clone, Copy, PartialEq)]
pub enum Height {
    Plain,
    /// A power.
    Raised,
    /// The number of a name.
    Lowered,
}

/// Characters at one height.
#[derive(Debug, PartialEq)]
pub struct Run {
    pub text: String,
    pub height: Height,
}

/// How large raised and lowered characters are beside the others.
pub const REDUCED: f64 = 0.72;

/// Turns text like `-2*x1^10*y'` into runs; products become dots, and signs are as on paper.
pub fn runs(plain: &str) -> Vec<Run> {
    let mut out: Vec<Run> = Vec::new();
    let (mut height, mut before) = (Height::Plain, ' ');
    for c in plain.chars() {
        height = match c {
            '^' => Height::Raised,
            c if !c.is_ascii_digit() => Height::Plain,
            _ if before.is_alphabetic() => Height::Lowered,
            _ => height,
        };
        before = c;
        let shown = match c {
            '^' => continue,
            '*' => '·',
            '-' => '−',
            '\'' => '′',
            c => c,
        };
        match out.last_mut() {
            Some(run) if run.height == height => run.text.push(shown),
            _ => out.push(Run { text: shown.into(), height }),
        }
    }
    out
}

/// Widths in parts of the font's size, from a wide common font (DejaVu Sans), rounded up.
fn part(c: char) -> f64 {
    match c {
        ' ' | '.' | ',' | ':' | ';' | '·' | '′' | '(' | ')' | 'i' | 'j' | 'l' | 't' | 'f' | 'r' => 0.42,
        'm' | 'w' | 'M' | 'W' => 1.0,
        '=' | '+' | '−' | '×' | 'Σ' => 0.85,
        c if c.is_uppercase() => 0.8,
        c if c.is_ascii() => 0.66,
        // A letter of any script.
        _ => 1.1,
    }
}

/// The width of a text in the drawing's units.
pub fn width(plain: &str, size: i32, bold: bool) -> i32 {
    let mut parts = 0.0;
    for run in runs(plain) {
        let of_run: f64 = run.text.chars().map(part).sum();
        parts += if run.height == Height::Plain { of_run } else { of_run * REDUCED };
    }
    let heavier = if bold { 1.12 } else { 1.0 };
    (parts * heavier * f64::from(size)).ceil() as i32
}

/// Breaks a text into lines of at most `most` units, at the given separators, which stay with what follows them.
/// A piece that is longer than a line has a line of its own.
pub fn lines(plain: &str, separators: &[&str], size: i32, most: i32) -> Vec<String> {
    let mut out: Vec<String> = Vec::new();
    let mut rest = plain;
    while !rest.is_empty() {
        let next = separators.iter().filter_map(|s| rest[1..].find(s).map(|at| at + 1)).min();
        let (piece, after) = rest.split_at(next.unwrap_or(rest.len()));
        match out.last_mut() {
            Some(line) if width(&format!("{line}{piece}"), size, false) <= most => *line += piece,
            Some(_) => out.push(format!("      {}", piece.trim_start())),
            None => out.push(piece.to_string()),
        }
        rest = after;
    }
    out
}

#[cfg(test)]
mod tests {
    use super::*;

    fn heights(plain: &str) -> Vec<(String, Height)> {
        runs(plain).into_iter().map(|r| (r.text, r.height)).collect()
    }

    #[test]
    fn powers_are_raised_and_numbers_of_names_lowered() {
        use Height::{Lowered, Plain, Raised};
        let run = |text: &str, height| (text.to_string(), height);
        assert_eq!(
            heights("x1^10*y' = 20"),
            [run("x", Plain), run("1", Lowered), run("10", Raised), run("·y′ = 20", Plain)]
        );
        assert_eq!(heights("-2*x"), [run("−2·x", Plain)]);
        assert_eq!(heights("Set 1"), [run("Set 1", Plain)]);
        assert_eq!(heights("w1^2"), [run("w", Plain), run("1", Lowered), run("2", Raised)]);
    }

    #[test]
    fn widths_grow_with_the_text() {
        assert!(width("x", 14, false) < width("xy", 14, false));
        assert!(width("x^2", 14, false) < width("x 2", 14, false), "a raised 2 is smaller");
        assert!(width("w1", 14, false) < width("w1", 14, true));
        assert_eq!(width("", 14, false), 0);
    }

    #[test]
    fn long_sums_are_broken_at_their_signs() {
        let sum = "x' = x^2 + y^2 - z^2";
        assert_eq!(lines(sum, &[" + ", " - "], 14, 10_000), [sum]);
        let broken = lines(sum, &[" + ", " - "], 14, 90);
        assert_eq!(broken, ["x' = x^2", "      + y^2", "      - z^2"]);
        assert_eq!(lines("", &[" + "], 14, 90), Vec::<String>::new());
    }
}
