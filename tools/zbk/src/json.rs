//! Values as JSON, to be read by programs: one line each.

use std::fmt::{self, Display, Formatter, Write};

pub enum Value {
    Null,
    Flag(bool),
    Number(usize),
    /// a fraction, with four digits behind the point at most
    Fraction(f64),
    Words(String),
    List(Vec<Value>),
    Object(Vec<(&'static str, Value)>),
}

/// An object of these members, in this order.
pub fn object<const COUNT: usize>(members: [(&'static str, Value); COUNT]) -> Value {
    Value::Object(members.into())
}

impl Value {
    /// Members put behind those of an object.
    pub fn extend<const COUNT: usize>(&mut self, more: [(&'static str, Value); COUNT]) {
        if let Value::Object(members) = self {
            members.extend(more);
        }
    }

    pub fn line(&self) -> String {
        format!("{self}\n")
    }
}

impl From<bool> for Value {
    fn from(flag: bool) -> Value {
        Value::Flag(flag)
    }
}

impl From<usize> for Value {
    fn from(number: usize) -> Value {
        Value::Number(number)
    }
}

impl From<&usize> for Value {
    fn from(number: &usize) -> Value {
        Value::Number(*number)
    }
}

impl From<&str> for Value {
    fn from(words: &str) -> Value {
        Value::Words(words.to_string())
    }
}

impl From<&String> for Value {
    fn from(words: &String) -> Value {
        Value::Words(words.clone())
    }
}

impl<T> From<&Option<T>> for Value
where
    for<'a> &'a T: Into<Value>,
{
    fn from(value: &Option<T>) -> Value {
        value.as_ref().map_or(Value::Null, Into::into)
    }
}

impl<T> From<&Vec<T>> for Value
where
    for<'a> &'a T: Into<Value>,
{
    fn from(values: &Vec<T>) -> Value {
        Value::List(values.iter().map(Into::into).collect())
    }
}

/// A list, with what stands before it, behind it, and commas between.
fn listed<T>(
    to: &mut Formatter,
    [open, close]: [char; 2],
    items: &[T],
    one: impl Fn(&mut Formatter, &T) -> fmt::Result,
) -> fmt::Result {
    to.write_char(open)?;
    for (place, item) in items.iter().enumerate() {
        if place > 0 {
            to.write_char(',')?;
        }
        one(to, item)?;
    }
    to.write_char(close)
}

fn quoted(to: &mut Formatter, words: &str) -> fmt::Result {
    to.write_char('"')?;
    for character in words.chars() {
        match character {
            '"' | '\\' => write!(to, "\\{character}")?,
            '\n' => to.write_str("\\n")?,
            _ if (character as u32) < 0x20 => write!(to, "\\u{:04x}", character as u32)?,
            _ => to.write_char(character)?,
        }
    }
    to.write_char('"')
}

impl Display for Value {
    fn fmt(&self, to: &mut Formatter) -> fmt::Result {
        match self {
            Value::Null => to.write_str("null"),
            Value::Flag(flag) => write!(to, "{flag}"),
            Value::Number(number) => write!(to, "{number}"),
            Value::Fraction(number) => write!(to, "{}", (number * 10_000.0).round() / 10_000.0),
            Value::Words(words) => quoted(to, words),
            Value::List(values) => listed(to, ['[', ']'], values, |to, value| write!(to, "{value}")),
            Value::Object(members) => {
                listed(to, ['{', '}'], members, |to, (name, value)| write!(to, "\"{name}\":{value}"))
            }
        }
    }
}

#[cfg(test)]
mod tests {
    use super::{object, Value};

    #[test]
    fn values_as_json() {
        let mut value = object([("a", 1.into()), ("b", "x\"\\\n\u{1}\u{e9}".into()), ("c", (&vec![1, 2]).into())]);
        value.extend([("d", Value::Fraction(2.0 / 3.0)), ("e", (&None::<usize>).into()), ("f", true.into())]);
        assert_eq!(
            value.line(),
            "{\"a\":1,\"b\":\"x\\\"\\\\\\n\\u0001\u{e9}\",\"c\":[1,2],\"d\":0.6667,\"e\":null,\"f\":true}\n"
        );
        assert_eq!(Value::List(Vec::new()).line(), "[]\n");
    }
}
