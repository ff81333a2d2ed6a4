//! A small writer of JSON: one value on one line.

use std::fmt;

/// A value.
#[derive(Clone, PartialEq, Debug)]
pub enum Json {
    Null,
    Flag(bool),
    Whole(i128),
    /// A part of something, or a percentage; never infinite.
    Real(f64),
    Text(String),
    List(Vec<Json>),
    /// Names with their values, in the order in which they are written.
    Object(Vec<(&'static str, Json)>),
}

impl Json {
    /// An object of these names and values.
    pub fn object<const N: usize>(fields: [(&'static str, Json); N]) -> Json {
        Json::Object(fields.into())
    }

    /// A list of what each of some things is written as.
    pub fn list<T>(things: impl IntoIterator<Item = T>, json: impl Fn(T) -> Json) -> Json {
        Json::List(things.into_iter().map(json).collect())
    }
}

impl From<bool> for Json {
    fn from(flag: bool) -> Json {
        Json::Flag(flag)
    }
}

/// Whole numbers of every width are written as they are.
macro_rules! whole {
    ($($number:ty),*) => {
        $(impl From<$number> for Json {
            fn from(number: $number) -> Json {
                Json::Whole(number as i128)
            }
        })*
    };
}
whole!(u8, u32, u64, usize, i32, i64);

impl From<&str> for Json {
    fn from(text: &str) -> Json {
        Json::Text(text.to_string())
    }
}

impl From<String> for Json {
    fn from(text: String) -> Json {
        Json::Text(text)
    }
}

impl<T: Into<Json>> From<Option<T>> for Json {
    fn from(value: Option<T>) -> Json {
        value.map_or(Json::Null, T::into)
    }
}

impl<T: Into<Json>> From<Vec<T>> for Json {
    fn from(values: Vec<T>) -> Json {
        Json::list(values, T::into)
    }
}

impl fmt::Display for Json {
    fn fmt(&self, out: &mut fmt::Formatter<'_>) -> fmt::Result {
        match self {
            Json::Null => out.write_str("null"),
            Json::Flag(flag) => write!(out, "{flag}"),
            Json::Whole(number) => write!(out, "{number}"),
            Json::Real(number) if number.is_finite() => write!(out, "{number}"),
            Json::Real(_) => out.write_str("null"),
            Json::Text(text) => quote(text, out),
            Json::List(values) => {
                out.write_str("[")?;
                for (place, value) in values.iter().enumerate() {
                    write!(out, "{}{value}", if place > 0 { "," } else { "" })?;
                }
                out.write_str("]")
            }
            Json::Object(fields) => {
                out.write_str("{")?;
                for (place, (name, value)) in fields.iter().enumerate() {
                    out.write_str(if place > 0 { "," } else { "" })?;
                    quote(name, out)?;
                    write!(out, ":{value}")?;
                }
                out.write_str("}")
            }
        }
    }
}

/// A text in quotes. Besides quotes, backslashes and control characters those two line ends are
/// escaped that some readers of lines know.
fn quote(text: &str, out: &mut fmt::Formatter<'_>) -> fmt::Result {
    out.write_str("\"")?;
    for letter in text.chars() {
        match letter {
            '"' => out.write_str("\\\"")?,
            '\\' => out.write_str("\\\\")?,
            '\n' => out.write_str("\\n")?,
            '\u{0}'..='\u{1f}' | '\u{7f}' | '\u{2028}' | '\u{2029}' => {
                write!(out, "\\u{:04x}", u32::from(letter))?
            }
            other => write!(out, "{other}")?,
        }
    }
    out.write_str("\"")
}

#[cfg(test)]
mod tests {
    use super::Json;

    #[test]
    fn values_are_written() {
        let value = Json::object([
            ("none", Json::Null),
            ("yes", true.into()),
            ("most", u64::MAX.into()),
            ("less", (-5_i32).into()),
            ("part", Json::Real(66.25)),
            ("whole", Json::Real(50.0)),
            ("no number", Json::Real(f64::NAN)),
            ("list", vec![1_u32, 2].into()),
            ("nothing", Vec::<u32>::new().into()),
        ]);
        let wanted = "{\"none\":null,\"yes\":true,\"most\":18446744073709551615,\"less\":-5,\
                      \"part\":66.25,\"whole\":50,\"no number\":null,\"list\":[1,2],\"nothing\":[]}";
        assert_eq!(value.to_string(), wanted);
    }

    #[test]
    fn texts_are_escaped() {
        let text = Json::from("a\"b\\c\nd\u{1}\u{7f}\u{2028}\u{e9}\u{1f600}").to_string();
        assert_eq!(
            text,
            "\"a\\\"b\\\\c\\nd\\u0001\\u007f\\u2028\u{e9}\u{1f600}\""
        );
    }
}
