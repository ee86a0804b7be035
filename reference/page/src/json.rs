//! JSON that may stand inside a script element of a page.

use std::fmt::{self, Display, Formatter};

pub enum Json {
    Number(u64),
    Text(String),
    List(Vec<Json>),
    Object(Vec<(&'static str, Json)>),
}

impl Json {
    pub fn number(number: usize) -> Json {
        Json::Number(number as u64)
    }

    pub fn text(text: impl Into<String>) -> Json {
        Json::Text(text.into())
    }

    pub fn list(items: impl IntoIterator<Item = Json>) -> Json {
        Json::List(items.into_iter().collect())
    }

    pub fn texts<T: Into<String>>(items: impl IntoIterator<Item = T>) -> Json {
        Json::list(items.into_iter().map(Json::text))
    }
}

impl Display for Json {
    fn fmt(&self, out: &mut Formatter) -> fmt::Result {
        match self {
            Json::Number(number) => write!(out, "{number}"),
            Json::Text(text) => write_text(out, text),
            Json::List(items) => {
                out.write_str("[")?;
                for (place, item) in items.iter().enumerate() {
                    write!(out, "{}{item}", if place == 0 { "" } else { "," })?;
                }
                out.write_str("]")
            }
            Json::Object(fields) => {
                out.write_str("{")?;
                for (place, (name, value)) in fields.iter().enumerate() {
                    write!(out, "{}\"{name}\":{value}", if place == 0 { "" } else { ",\n" })?;
                }
                out.write_str("}")
            }
        }
    }
}

/// No `<`, `>` or `&` is left as it is, so that no text ends the script element or
/// opens a comment in it.
fn write_text(out: &mut Formatter, text: &str) -> fmt::Result {
    out.write_str("\"")?;
    for letter in text.chars() {
        match letter {
            '"' => out.write_str("\\\"")?,
            '\\' => out.write_str("\\\\")?,
            '<' | '>' | '&' | '\u{2028}' | '\u{2029}' | '\0'..='\u{1f}' | '\u{7f}' => {
                write!(out, "\\u{:04x}", u32::from(letter))?
            }
            _ => write!(out, "{letter}")?,
        }
    }
    out.write_str("\"")
}

#[cfg(test)]
mod tests {
    use super::*;

    #[test]
    fn texts_are_escaped() {
        let text = Json::text("a \"b\" \\ </script><!-- & \n \u{2028} é");
        let wanted =
            "\"a \\\"b\\\" \\\\ \\u003c/script\\u003e\\u003c!-- \\u0026 \\u000a \\u2028 é\"";
        assert_eq!(text.to_string(), wanted);
    }

    #[test]
    fn lists_and_objects() {
        let made = Json::Object(vec![
            ("a", Json::list([Json::number(1), Json::texts(["x"])])),
            ("b", Json::number(2)),
        ]);
        assert_eq!(made.to_string(), "{\"a\":[1,[\"x\"]],\n\"b\":2}");
    }
}
