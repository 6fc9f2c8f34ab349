//! Objects in JSON, written field by field.

use crate::text;
use std::fmt::Write;

/// An object that is being written.
#[derive(Debug)]
pub struct Object {
    fields: String,
}

impl Object {
    pub fn new() -> Object {
        Object { fields: String::new() }
    }

    pub fn text(&mut self, name: &str, value: &str) -> &mut Object {
        self.raw(name, &quoted(value))
    }

    pub fn number(&mut self, name: &str, value: u64) -> &mut Object {
        self.raw(name, &value.to_string())
    }

    pub fn null(&mut self, name: &str) -> &mut Object {
        self.raw(name, "null")
    }

    /// Bytes as text, null where they are none, and as hex under the name with `_hex`.
    pub fn bytes(&mut self, name: &str, text: &[u8], whole: &[u8]) -> &mut Object {
        match std::str::from_utf8(text) {
            Ok(text) => self.text(name, text),
            Err(_) => self.null(name),
        };
        self.text(&format!("{name}_hex"), &text::hex(whole))
    }

    /// A list of things that are JSON already.
    pub fn list(&mut self, name: &str, values: &[String]) -> &mut Object {
        self.raw(name, &format!("[{}]", values.join(",")))
    }

    pub fn finish(&self) -> String {
        format!("{{{}}}", self.fields)
    }

    fn raw(&mut self, name: &str, value: &str) -> &mut Object {
        if !self.fields.is_empty() {
            self.fields.push(',');
        }
        let _ = write!(self.fields, "{}:{value}", quoted(name));
        self
    }
}

/// A string in quotes. What a terminal would obey is escaped, as well as what JSON forbids.
fn quoted(text: &str) -> String {
    let mut out = String::from("\"");
    for c in text.chars() {
        match c {
            '"' => out.push_str("\\\""),
            '\\' => out.push_str("\\\\"),
            c if text::is_plain(c) => out.push(c),
            c => c.encode_utf16(&mut [0; 2]).iter().for_each(|unit| {
                let _ = write!(out, "\\u{unit:04x}");
            }),
        }
    }
    out.push('"');
    out
}

#[cfg(test)]
mod tests {
    use super::*;

    #[test]
    fn every_string_is_escaped_as_json_wants_it() {
        assert_eq!(quoted("a\"b\\c"), r#""a\"b\\c""#);
        assert_eq!(quoted("\n\t\u{1b}\u{7f}"), r#""\u000a\u0009\u001b\u007f""#);
        assert_eq!(quoted("Café \u{202e}"), "\"Café \\u202e\"");
        assert_eq!(quoted("\u{e0001}"), r#""\udb40\udc01""#);
    }

    #[test]
    fn fields_stand_in_the_order_in_which_they_came() {
        let mut object = Object::new();
        object.text("a", "x").number("b", 7).null("c").list("d", &["1".into(), "2".into()]);
        assert_eq!(object.finish(), r#"{"a":"x","b":7,"c":null,"d":[1,2]}"#);
        assert_eq!(Object::new().finish(), "{}");
    }

    #[test]
    fn bytes_that_are_no_text_are_null_and_hex() {
        let mut object = Object::new();
        object.bytes("key", b"\xff0", b"\xff0");
        assert_eq!(object.finish(), r#"{"key":null,"key_hex":"ff30"}"#);
    }
}
