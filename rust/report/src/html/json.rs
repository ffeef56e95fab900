//! JSON, as far as the page needs it, in the element `script` of a page.

use std::fmt::{self, Write};

/// A value.
pub enum Json {
    /// A number.
    Number(i64),
    /// A text.
    Text(String),
    /// Values in their order.
    List(Vec<Json>),
    /// Values under names.
    Object(Vec<(&'static str, Json)>),
}

impl FromIterator<Json> for Json {
    fn from_iter<I: IntoIterator<Item = Json>>(items: I) -> Json {
        Json::List(items.into_iter().collect())
    }
}

/// The object of these members.
pub fn object<const N: usize>(members: [(&'static str, Json); N]) -> Json {
    Json::Object(members.into_iter().collect())
}

/// Writes a text in quotes. `<` and what ends a line are written as numbers: so no text ends the element, or begins a comment in it.
fn write_text(text: &str, f: &mut fmt::Formatter<'_>) -> fmt::Result {
    f.write_char('"')?;
    for c in text.chars() {
        match c {
            '"' => f.write_str("\\\"")?,
            '\\' => f.write_str("\\\\")?,
            '<' | '>' | '&' | '\u{2028}' | '\u{2029}' => write!(f, "\\u{:04x}", u32::from(c))?,
            c if c.is_control() => write!(f, "\\u{:04x}", u32::from(c))?,
            c => f.write_char(c)?,
        }
    }
    f.write_char('"')
}

fn write_items<T>(
    items: &[T],
    f: &mut fmt::Formatter<'_>,
    mut write: impl FnMut(&T, &mut fmt::Formatter<'_>) -> fmt::Result,
) -> fmt::Result {
    for (at, item) in items.iter().enumerate() {
        if at > 0 {
            f.write_char(',')?;
        }
        write(item, f)?;
    }
    Ok(())
}

impl fmt::Display for Json {
    fn fmt(&self, f: &mut fmt::Formatter<'_>) -> fmt::Result {
        match self {
            Json::Number(number) => write!(f, "{number}"),
            Json::Text(text) => write_text(text, f),
            Json::List(items) => {
                f.write_char('[')?;
                write_items(items, f, fmt::Display::fmt)?;
                f.write_char(']')
            }
            Json::Object(members) => {
                f.write_char('{')?;
                write_items(members, f, |(name, value), f| {
                    write_text(name, f)?;
                    write!(f, ":{value}")
                })?;
                f.write_char('}')
            }
        }
    }
}

#[cfg(test)]
mod tests {
    use super::{object, Json};

    #[test]
    fn texts_end_no_element() {
        let text = Json::Text(String::from("</script>\"\\\n\u{2028}é"));
        let object = object([
            ("a", Json::List(vec![Json::Number(-1), text])),
            ("b", Json::List(Vec::new())),
        ]);
        let wanted = r#"{"a":[-1,"\u003c/script\u003e\"\\\u000a\u2028é"],"b":[]}"#;
        assert_eq!(object.to_string(), wanted);
    }
}
