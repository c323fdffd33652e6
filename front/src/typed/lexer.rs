//! The words of an equation or a set: names, numbers and signs, each with its place.

use crate::typed::text::{Source, Span};

#[derive(Debug, Clone, PartialEq)]
pub enum Word {
    Name(String),
    Number(String),
    Prime,
    Equals,
    Plus,
    Minus,
    Times,
    Power,
    /// The end of an equation or of a signal: a line's end, a comma or a semicolon.
    Break,
    /// Any other character. The parser says what is wrong with it where it stands.
    Other(char),
    /// The end of the text.
    End,
}

#[derive(Debug, Clone, PartialEq)]
pub struct Token {
    pub word: Word,
    pub span: Span,
}

/// The tokens of a source; the last is `End`. A number sign hides the rest of its line.
pub fn tokens(source: usize, text: &Source) -> Vec<Token> {
    let text = text.text.as_str();
    let mut out = Vec::new();
    let mut at = 0;
    while let Some(c) = text[at..].chars().next() {
        let rest = &text[at..];
        let length = match c {
            '#' => rest.find('\n').unwrap_or(rest.len()),
            c if c.is_ascii_digit() => run(rest, |c| c.is_ascii_digit()),
            c if c.is_alphabetic() => run(rest, |c| c.is_alphabetic() || c.is_ascii_digit() || c == '_'),
            '*' if rest.starts_with("**") => 2,
            c => c.len_utf8(),
        };
        let taken = &rest[..length];
        let word = match c {
            '#' | '\u{feff}' => None,
            '\n' | ',' | ';' => Some(Word::Break),
            c if c.is_whitespace() => None,
            c if c.is_ascii_digit() => Some(Word::Number(taken.into())),
            c if c.is_alphabetic() => Some(Word::Name(taken.into())),
            // The second and third are what word processors make of the first.
            '\'' | '′' | '’' => Some(Word::Prime),
            '=' => Some(Word::Equals),
            '+' => Some(Word::Plus),
            '-' | '−' => Some(Word::Minus),
            '^' => Some(Word::Power),
            '*' if length == 2 => Some(Word::Power),
            '*' | '·' | '×' => Some(Word::Times),
            c => Some(Word::Other(c)),
        };
        if let Some(word) = word {
            let span = Span { source, from: at, to: at + length };
            out.push(Token { word, span });
        }
        at += length;
    }
    let span = Span { source, from: at, to: at };
    out.push(Token { word: Word::End, span });
    out
}

fn run(text: &str, belongs: impl Fn(char) -> bool) -> usize {
    text.find(|c| !belongs(c)).unwrap_or(text.len())
}

#[cfg(test)]
mod tests {
    use super::*;
    use crate::typed::text::Holds;

    fn words(text: &str) -> Vec<Word> {
        let source = Source::argument(Holds::Equations, text);
        tokens(0, &source).into_iter().map(|t| t.word).collect()
    }

    fn name(text: &str) -> Word {
        Word::Name(text.into())
    }

    fn number(text: &str) -> Word {
        Word::Number(text.into())
    }

    #[test]
    fn an_equation_is_cut_into_words() {
        assert_eq!(
            words("x1' = -2x1**2*y"),
            vec![
                name("x1"),
                Word::Prime,
                Word::Equals,
                Word::Minus,
                number("2"),
                name("x1"),
                Word::Power,
                number("2"),
                Word::Times,
                name("y"),
                Word::End
            ]
        );
    }

    #[test]
    fn lines_commas_and_semicolons_end_an_equation() {
        assert_eq!(words("x\n,;"), vec![name("x"), Word::Break, Word::Break, Word::Break, Word::End]);
    }

    #[test]
    fn a_remark_is_hidden_to_the_end_of_its_line() {
        assert_eq!(words("# x' = 1\nx"), vec![Word::Break, name("x"), Word::End]);
        assert_eq!(words("x # y"), vec![name("x"), Word::End]);
    }

    #[test]
    fn other_characters_are_kept_for_the_parser() {
        assert_eq!(words("x/2"), vec![name("x"), Word::Other('/'), number("2"), Word::End]);
    }

    #[test]
    fn characters_of_word_processors_are_read() {
        assert_eq!(
            words("x′ = −x·y"),
            vec![name("x"), Word::Prime, Word::Equals, Word::Minus, name("x"), Word::Times, name("y"), Word::End]
        );
    }
}
