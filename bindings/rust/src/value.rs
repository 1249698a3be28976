//! Reads the JSON that the library writes.

use pulldown_cmark::CowStr;
use std::ops::Range;

/// A value of JSON.
pub enum Value {
    Null,
    Truth(bool),
    Number(u64),
    Text(String),
    List(Vec<Value>),
    Members(Vec<(String, Value)>),
}

/// A place in the library's JSON, which has no blanks between its tokens.
struct Cursor<'j> {
    rest: &'j str,
}

impl Cursor<'_> {
    fn takes(&mut self, word: &str) -> bool {
        let after = self.rest.strip_prefix(word);
        self.rest = after.unwrap_or(self.rest);
        after.is_some()
    }

    fn escaped(&mut self) -> Option<char> {
        let sign = self.rest.chars().next()?;
        self.rest = &self.rest[sign.len_utf8()..];
        Some(match sign {
            'n' => '\n',
            't' => '\t',
            'r' => '\r',
            'b' => '\u{8}',
            'f' => '\u{c}',
            'u' => {
                let digits = self.rest.get(..4)?;
                self.rest = &self.rest[4..];
                char::from_u32(u32::from_str_radix(digits, 16).ok()?)?
            }
            _ => sign,
        })
    }

    fn text(&mut self) -> Option<String> {
        let mut text = String::new();
        loop {
            let end = self.rest.find(['"', '\\'])?;
            text.push_str(&self.rest[..end]);
            let is_end = self.rest[end..].starts_with('"');
            self.rest = &self.rest[end + 1..];
            if is_end {
                return Some(text);
            }
            text.push(self.escaped()?);
        }
    }

    fn number(&mut self) -> Option<u64> {
        let end = self
            .rest
            .find(|it: char| !it.is_ascii_digit())
            .unwrap_or(self.rest.len());
        let (digits, rest) = self.rest.split_at(end);
        self.rest = rest;
        digits.parse().ok()
    }

    /// A list's items, or an object's members, up to the closing bracket.
    fn items<T>(&mut self, close: &str, item: impl Fn(&mut Self) -> Option<T>) -> Option<Vec<T>> {
        let mut items = Vec::new();
        while !self.takes(close) {
            self.takes(",");
            items.push(item(self)?);
        }
        Some(items)
    }

    fn member(&mut self) -> Option<(String, Value)> {
        let name = self.takes("\"").then(|| self.text())??;
        self.takes(":")
            .then(|| self.value())?
            .map(|value| (name, value))
    }

    fn value(&mut self) -> Option<Value> {
        if self.takes("\"") {
            return self.text().map(Value::Text);
        }
        if self.takes("[") {
            return self.items("]", Self::value).map(Value::List);
        }
        if self.takes("{") {
            return self.items("}", Self::member).map(Value::Members);
        }
        let words = [
            ("null", Value::Null),
            ("true", Value::Truth(true)),
            ("false", Value::Truth(false)),
        ];
        for (word, value) in words {
            if self.takes(word) {
                return Some(value);
            }
        }
        self.number().map(Value::Number)
    }
}

impl Value {
    /// The value of a key.
    pub fn part(&self, key: &str) -> Option<&Value> {
        let Value::Members(members) = self else {
            return None;
        };
        members
            .iter()
            .find(|(name, _)| name == key)
            .map(|(_, value)| value)
    }

    /// The name of a tag or an event, and what it has.
    pub fn named(&self) -> Option<(&str, &Value)> {
        match self {
            Value::Text(name) => Some((name, &Value::Null)),
            Value::Members(members) => members.first().map(|(name, value)| (name.as_str(), value)),
            _ => None,
        }
    }

    pub fn text(&self) -> Option<CowStr<'static>> {
        match self {
            Value::Text(text) => Some(text.clone().into()),
            _ => None,
        }
    }

    pub fn name(&self) -> Option<&str> {
        self.named().map(|(name, _)| name)
    }

    pub fn truth(&self) -> Option<bool> {
        match self {
            Value::Truth(truth) => Some(*truth),
            _ => None,
        }
    }

    pub fn number(&self) -> Option<u64> {
        match self {
            Value::Number(number) => Some(*number),
            _ => None,
        }
    }

    /// The range that `{"start": .., "end": ..}` is.
    pub fn range(&self) -> Option<Range<usize>> {
        let number = |key| Some(self.part(key)?.number()? as usize);
        Some(number("start")?..number("end")?)
    }

    pub fn each<T>(&self, item: impl Fn(&Value) -> Option<T>) -> Option<Vec<T>> {
        match self {
            Value::List(items) => items.iter().map(item).collect(),
            _ => None,
        }
    }
}

/// The value that a text of the library is, or `None` if it is none.
pub fn value_of(text: &str) -> Option<Value> {
    (Cursor { rest: text }).value()
}
