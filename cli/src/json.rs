//! JSON text: objects of named values, on one line.

use std::fmt::{self, Write};

/// An object; its values stand in the order in which they were added.
#[derive(Debug, Default)]
pub struct Object {
    members: String,
}

impl Object {
    pub fn new() -> Object {
        Object::default()
    }

    pub fn string(self, name: &str, value: &str) -> Object {
        self.member(name, &quoted(value))
    }

    pub fn number(self, name: &str, value: u64) -> Object {
        self.member(name, &value.to_string())
    }

    pub fn truth(self, name: &str, value: bool) -> Object {
        self.member(name, if value { "true" } else { "false" })
    }

    pub fn object(self, name: &str, value: Object) -> Object {
        self.member(name, &value.to_string())
    }

    /// The text, or null where there is none.
    pub fn string_or_null(self, name: &str, value: Option<&str>) -> Object {
        match value {
            Some(value) => self.string(name, value),
            None => self.member(name, "null"),
        }
    }

    pub fn array(self, name: &str, values: impl Iterator<Item = Object>) -> Object {
        self.list(name, values.map(|value| value.to_string()))
    }

    pub fn numbers(self, name: &str, values: &[u64]) -> Object {
        self.list(name, values.iter().map(u64::to_string))
    }

    fn list(self, name: &str, values: impl Iterator<Item = String>) -> Object {
        let values: Vec<String> = values.collect();
        self.member(name, &format!("[{}]", values.join(",")))
    }

    fn member(mut self, name: &str, json: &str) -> Object {
        if !self.members.is_empty() {
            self.members.push(',');
        }
        self.members.push_str(&quoted(name));
        self.members.push(':');
        self.members.push_str(json);
        self
    }
}

impl fmt::Display for Object {
    fn fmt(&self, f: &mut fmt::Formatter<'_>) -> fmt::Result {
        write!(f, "{{{}}}", self.members)
    }
}

fn quoted(text: &str) -> String {
    let mut json = String::with_capacity(text.len() + 2);
    json.push('"');
    for c in text.chars() {
        match c {
            '"' | '\\' => json.extend(['\\', c]),
            '\n' => json.push_str("\\n"),
            '\r' => json.push_str("\\r"),
            '\t' => json.push_str("\\t"),
            // Writing to a String does not fail.
            c if c.is_control() => drop(write!(json, "\\u{:04x}", u32::from(c))),
            c => json.push(c),
        }
    }
    json.push('"');
    json
}

#[cfg(test)]
mod tests {
    use super::*;

    #[test]
    fn texts_are_escaped() {
        assert_eq!(quoted("a\"b\\c"), r#""a\"b\\c""#);
        assert_eq!(quoted("\n\r\t\u{1}\u{7f}"), r#""\n\r\t\u0001\u007f""#);
        assert_eq!(quoted("Kante ü €"), "\"Kante ü €\"");
    }

    #[test]
    fn members_keep_their_order() {
        let inner = || Object::new().truth("c", true);
        let object = Object::new()
            .number("a", u64::MAX)
            .array("b", [inner(), inner()].into_iter())
            .string_or_null("d", None)
            .numbers("e", &[0, 7]);
        let expected =
            r#"{"a":18446744073709551615,"b":[{"c":true},{"c":true}],"d":null,"e":[0,7]}"#;
        assert_eq!(object.to_string(), expected);
        assert_eq!(Object::new().to_string(), "{}");
    }
}
