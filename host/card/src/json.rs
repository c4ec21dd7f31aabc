//! What is said for other programs: JSON.

use std::fmt::{self, Display, Formatter, Write};

pub enum Json {
    Null,
    Flag(bool),
    Number(u64),
    Text(String),
    List(Vec<Json>),
    Object(Vec<(&'static str, Json)>),
}

impl Json {
    pub fn number(number: usize) -> Json {
        Json::Number(number as u64)
    }

    pub fn text(text: impl Into<String>) -> Json {
        Json::Text(text.into())
    }

    pub fn numbers(numbers: impl IntoIterator<Item = usize>) -> Json {
        Json::List(numbers.into_iter().map(Json::number).collect())
    }

    /// A number, or null.
    pub fn number_if_any(number: Option<usize>) -> Json {
        number.map_or(Json::Null, Json::number)
    }
}

impl Display for Json {
    fn fmt(&self, out: &mut Formatter) -> fmt::Result {
        match self {
            Json::Null => out.write_str("null"),
            Json::Flag(flag) => write!(out, "{flag}"),
            Json::Number(number) => write!(out, "{number}"),
            Json::Text(text) => quoted(text, out),
            Json::List(items) => {
                out.write_char('[')?;
                for (i, item) in items.iter().enumerate() {
                    write!(out, "{}{item}", if i == 0 { "" } else { "," })?;
                }
                out.write_char(']')
            }
            Json::Object(fields) => {
                out.write_char('{')?;
                for (i, (name, value)) in fields.iter().enumerate() {
                    write!(out, "{}\"{name}\":{value}", if i == 0 { "" } else { "," })?;
                }
                out.write_char('}')
            }
        }
    }
}

fn quoted(text: &str, out: &mut Formatter) -> fmt::Result {
    out.write_char('"')?;
    for letter in text.chars() {
        match letter {
            '"' | '\\' => write!(out, "\\{letter}")?,
            '\n' => out.write_str("\\n")?,
            letter if letter.is_control() => write!(out, "\\u{:04x}", u32::from(letter))?,
            letter => out.write_char(letter)?,
        }
    }
    out.write_char('"')
}

#[cfg(test)]
mod tests {
    use super::Json;

    #[test]
    fn values_are_written_as_json_has_them() {
        let object = Json::Object(vec![
            ("none", Json::number_if_any(None)),
            ("list", Json::numbers([1, 2])),
            ("text", Json::text("a \"b\"\\\n\u{1}")),
            ("flag", Json::Flag(true)),
            ("empty", Json::List(Vec::new())),
        ]);
        let expected =
            r#"{"none":null,"list":[1,2],"text":"a \"b\"\\\n\u0001","flag":true,"empty":[]}"#;
        assert_eq!(object.to_string(), expected);
    }
}
