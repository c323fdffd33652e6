//! What was typed, and pointing at a place in it.

use crate::typed::given::Aim;
use crate::typed::names::Kind;

/// A text that was typed: an argument, a file or standard input.
#[derive(Debug, Clone, PartialEq)]
pub struct Source {
    /// The file's name, or nothing for an argument.
    pub file: Option<String>,
    pub holds: Holds,
    pub text: String,
}

/// What a text is read for.
#[derive(Debug, Clone, Copy, PartialEq)]
pub enum Holds {
    Equations,
    /// The set that is given, and what is asked of it.
    Set(Aim),
    /// Names that are said to be of a kind.
    Names(Kind),
    /// The desktop tool's listing.
    Listing,
}

impl Source {
    pub fn argument(holds: Holds, text: impl Into<String>) -> Source {
        Source { file: None, holds, text: text.into() }
    }
}

/// Bytes `from` to `to` of one source.
#[derive(Debug, Clone, Copy, PartialEq)]
pub struct Span {
    pub source: usize,
    pub from: usize,
    pub to: usize,
}

impl Span {
    pub fn to_end_of(self, other: Span) -> Span {
        Span { to: other.to, ..self }
    }
}

/// Why a text is not taken, and where.
#[derive(Debug, Clone, PartialEq)]
pub struct Fault {
    pub words: String,
    pub span: Option<Span>,
}

impl Fault {
    pub fn at(span: Span, words: impl Into<String>) -> Fault {
        Fault { words: words.into(), span: Some(span) }
    }

    pub fn nowhere(words: impl Into<String>) -> Fault {
        Fault { words: words.into(), span: None }
    }
}

/// What stands in a span.
pub fn text_of(sources: &[Source], span: Span) -> &str {
    &sources[span.source].text[span.from..span.to]
}

/// The line of a span: its number from 1, its text, and the columns of the span in it, in characters from 0.
#[derive(Debug, PartialEq)]
pub struct Place<'a> {
    pub file: Option<&'a str>,
    pub line: usize,
    pub text: &'a str,
    pub from: usize,
    pub to: usize,
}

pub fn place(sources: &[Source], span: Span) -> Place<'_> {
    let source = &sources[span.source];
    let text = source.text.as_str();
    let start = text[..span.from].rfind('\n').map_or(0, |at| at + 1);
    let end = text[span.from..].find('\n').map_or(text.len(), |at| span.from + at);
    let from = text[start..span.from].chars().count();
    let marked = text[span.from..span.to.clamp(span.from, end)].chars().count();
    Place {
        file: source.file.as_deref(),
        line: 1 + text[..start].matches('\n').count(),
        text: text[start..end].trim_end_matches('\r'),
        from,
        to: from + marked.max(1),
    }
}

/// A longer line is shown in part.
const LONGEST: usize = 120;

/// The typed line with a row of carets under the span.
pub fn point(sources: &[Source], span: Span) -> String {
    let place = place(sources, span);
    let mut lines = String::new();
    if let Some(file) = place.file {
        lines += &format!("  {}, line {}:\n", file, place.line);
    }
    let length = place.text.chars().count();
    let (left, right) = if length <= LONGEST {
        (0, length)
    } else {
        let left = place.from.saturating_sub(LONGEST / 2);
        (left, length.min(left + LONGEST))
    };
    let before = if 0 < left { ".. " } else { "" };
    let after = if right < length { " .." } else { "" };
    let shown: String = place.text.chars().take(right).skip(left).collect();
    let line = format!("  {before}{shown}{after}");
    lines += &format!("{}\n", line.trim_end());
    // Tabs stay tabs, so that the carets stand under what they point at.
    let skipped = shown.chars().chain(std::iter::repeat(' ')).take(place.from - left);
    let blank: String = before.chars().map(|_| ' ').chain(skipped.map(|c| if c == '\t' { c } else { ' ' })).collect();
    let marked = place.to.min(right.max(place.from + 1)) - place.from;
    lines += &format!("  {blank}{}\n", "^".repeat(marked));
    lines
}

/// The beginning of a text, where it is long.
pub fn short(text: &str) -> String {
    const SHORT: usize = 60;
    if text.chars().count() <= SHORT {
        return text.into();
    }
    text.chars().take(SHORT).chain(" ..".chars()).collect()
}

#[cfg(test)]
mod tests {
    use super::*;

    fn argument(text: &str) -> Vec<Source> {
        vec![Source::argument(Holds::Equations, text)]
    }

    #[test]
    fn carets_stand_under_the_span() {
        let span = Span { source: 0, from: 5, to: 9 };
        assert_eq!(point(&argument("x' = x^10 + x"), span), "  x' = x^10 + x\n       ^^^^\n");
    }

    #[test]
    fn a_line_of_a_file_is_named() {
        let sources =
            vec![Source { file: Some("two.txt".into()), holds: Holds::Equations, text: "x' = x\n\ty' = y/2\n".into() }];
        let span = Span { source: 0, from: 14, to: 15 };
        assert_eq!(point(&sources, span), "  two.txt, line 2:\n  \ty' = y/2\n  \t      ^\n");
    }

    #[test]
    fn the_end_of_a_text_is_pointed_at() {
        let span = Span { source: 0, from: 4, to: 4 };
        assert_eq!(point(&argument("x' ="), span), "  x' =\n      ^\n");
    }

    #[test]
    fn a_long_line_is_shown_in_part() {
        let text = format!("x' = {}y{}", "x + ".repeat(100), " + x".repeat(100));
        let at = text.find('y').unwrap();
        let shown = point(&argument(&text), Span { source: 0, from: at, to: at + 1 });
        let lines: Vec<&str> = shown.lines().collect();
        assert!(lines[0].starts_with("  .. ") && lines[0].ends_with(" .."), "{shown}");
        assert!(lines[0].len() < 140);
        assert_eq!(lines[0].find('y'), lines[1].find('^'), "{shown}");
        let end = point(&argument(&text), Span { source: 0, from: text.len(), to: text.len() });
        assert!(end.lines().next().unwrap().ends_with("+ x"), "{end}");
        let all = point(&argument(&text), Span { source: 0, from: 5, to: text.len() });
        assert_eq!(all.lines().nth(1).unwrap().matches('^').count(), LONGEST - 5);
        assert_eq!(short("x^2"), "x^2");
        assert_eq!(short(&text).len(), 63);
    }

    #[test]
    fn columns_are_characters() {
        let span = Span { source: 0, from: "x′ = ".len(), to: "x′ = y".len() };
        assert_eq!(point(&argument("x′ = y"), span), "  x′ = y\n       ^\n");
    }
}
