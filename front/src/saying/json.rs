//! JSON, written.

pub enum Json {
    Null,
    Bool(bool),
    Number(i64),
    Text(String),
    List(Vec<Json>),
    Object(Vec<(&'static str, Json)>),
}

impl From<&str> for Json {
    fn from(text: &str) -> Json {
        Json::Text(text.into())
    }
}

impl From<String> for Json {
    fn from(text: String) -> Json {
        Json::Text(text)
    }
}

impl From<i64> for Json {
    fn from(number: i64) -> Json {
        Json::Number(number)
    }
}

impl Json {
    pub fn list<T: Into<Json>>(items: impl IntoIterator<Item = T>) -> Json {
        Json::List(items.into_iter().map(Into::into).collect())
    }

    /// Lists of plain values stand on one line, all else on lines of its own.
    pub fn written(&self) -> String {
        let mut out = String::new();
        self.write(&mut out, 0);
        out.push('\n');
        out
    }

    fn is_plain(&self) -> bool {
        !matches!(self, Json::List(_) | Json::Object(_))
    }

    fn write(&self, out: &mut String, depth: usize) {
        match self {
            Json::Null => *out += "null",
            Json::Bool(truth) => *out += &truth.to_string(),
            Json::Number(number) => *out += &number.to_string(),
            Json::Text(text) => quote(out, text),
            Json::List(items) if items.iter().all(Json::is_plain) => {
                out.push('[');
                for (i, item) in items.iter().enumerate() {
                    *out += if i == 0 { "" } else { ", " };
                    item.write(out, depth);
                }
                out.push(']');
            }
            Json::List(items) => {
                out.push('[');
                for (i, item) in items.iter().enumerate() {
                    line(out, i, depth);
                    item.write(out, depth + 1);
                }
                end(out, items.len(), depth, ']');
            }
            Json::Object(fields) => {
                out.push('{');
                for (i, (name, value)) in fields.iter().enumerate() {
                    line(out, i, depth);
                    quote(out, name);
                    *out += ": ";
                    value.write(out, depth + 1);
                }
                end(out, fields.len(), depth, '}');
            }
        }
    }
}

fn line(out: &mut String, number: usize, depth: usize) {
    *out += if number == 0 { "\n" } else { ",\n" };
    *out += &"  ".repeat(depth + 1);
}

fn end(out: &mut String, length: usize, depth: usize, bracket: char) {
    if 0 < length {
        out.push('\n');
        *out += &"  ".repeat(depth);
    }
    out.push(bracket);
}

fn quote(out: &mut String, text: &str) {
    out.push('"');
    for c in text.chars() {
        match c {
            '"' => *out += "\\\"",
            '\\' => *out += "\\\\",
            '\n' => *out += "\\n",
            c if (c as u32) < 0x20 => *out += &format!("\\u{:04x}", c as u32),
            c => out.push(c),
        }
    }
    out.push('"');
}

#[cfg(test)]
mod tests {
    use super::*;

    #[test]
    fn plain_values() {
        assert_eq!(Json::Null.written(), "null\n");
        assert_eq!([true, false].map(|truth| Json::Bool(truth).written()), ["true\n", "false\n"]);
        assert_eq!(Json::from(-3).written(), "-3\n");
    }

    #[test]
    fn text_is_quoted() {
        assert_eq!(Json::from("x' = \"\\\t\n²").written(), "\"x' = \\\"\\\\\\u0009\\n²\"\n");
    }

    #[test]
    fn lists_and_objects() {
        assert_eq!(Json::list([1, 2]).written(), "[1, 2]\n");
        assert_eq!(Json::List(vec![]).written(), "[]\n");
        assert_eq!(Json::Object(vec![]).written(), "{}\n");
        let nested = Json::Object(vec![("a", Json::List(vec![Json::list([1]), Json::list([2])])), ("b", Json::Null)]);
        assert_eq!(nested.written(), "{\n  \"a\": [\n    [1],\n    [2]\n  ],\n  \"b\": null\n}\n");
    }
}
