//! One object a line, for scripts.

use std::fmt;

/// An object, its fields in the order in which they were put.
#[derive(Clone, Debug, Default)]
pub struct Object(Vec<(&'static str, Value)>);

#[derive(Clone, Debug)]
pub enum Value {
    Number(u64),
    Text(String),
    List(Vec<Value>),
    Object(Object),
}

impl Object {
    pub fn new() -> Object {
        Object::default()
    }

    pub fn put(mut self, name: &'static str, value: impl Into<Value>) -> Object {
        self.0.push((name, value.into()));
        self
    }
}

impl From<u64> for Value {
    fn from(number: u64) -> Value {
        Value::Number(number)
    }
}

impl From<u32> for Value {
    fn from(number: u32) -> Value {
        Value::Number(number.into())
    }
}

impl From<usize> for Value {
    fn from(number: usize) -> Value {
        Value::Number(number as u64)
    }
}

impl From<&str> for Value {
    fn from(text: &str) -> Value {
        Value::Text(text.into())
    }
}

impl From<Object> for Value {
    fn from(object: Object) -> Value {
        Value::Object(object)
    }
}

impl<T: Into<Value>> FromIterator<T> for Value {
    fn from_iter<I: IntoIterator<Item = T>>(items: I) -> Value {
        Value::List(items.into_iter().map(Into::into).collect())
    }
}

impl fmt::Display for Object {
    fn fmt(&self, f: &mut fmt::Formatter<'_>) -> fmt::Result {
        f.write_str("{")?;
        for (at, (name, value)) in self.0.iter().enumerate() {
            write!(f, "{}\"{name}\":{value}", if at == 0 { "" } else { "," })?;
        }
        f.write_str("}")
    }
}

impl fmt::Display for Value {
    fn fmt(&self, f: &mut fmt::Formatter<'_>) -> fmt::Result {
        match self {
            Value::Number(number) => write!(f, "{number}"),
            Value::Text(text) => quoted(f, text),
            Value::Object(object) => write!(f, "{object}"),
            Value::List(items) => {
                f.write_str("[")?;
                for (at, item) in items.iter().enumerate() {
                    write!(f, "{}{item}", if at == 0 { "" } else { "," })?;
                }
                f.write_str("]")
            }
        }
    }
}

fn quoted(f: &mut fmt::Formatter<'_>, text: &str) -> fmt::Result {
    f.write_str("\"")?;
    for c in text.chars() {
        match c {
            '"' | '\\' => write!(f, "\\{c}")?,
            c if c < ' ' => write!(f, "\\u{:04x}", u32::from(c))?,
            c => write!(f, "{c}")?,
        }
    }
    f.write_str("\"")
}

#[cfg(test)]
mod tests {
    use super::*;

    #[test]
    fn texts_are_quoted() {
        let object = Object::new()
            .put("words", "a \"b\" \\ \u{1}\n\u{e9}")
            .put("cut", [1u32, 2].into_iter().collect::<Value>())
            .put("none", Value::List(vec![]))
            .put("at", Object::new().put("row", 7usize));
        let wanted =
            "{\"words\":\"a \\\"b\\\" \\\\ \\u0001\\u000a\u{e9}\",\"cut\":[1,2],\"none\":[],\"at\":{\"row\":7}}";
        assert_eq!(object.to_string(), wanted);
    }
}
