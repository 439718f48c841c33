//! JSON, written as it comes: one object on one line, without spaces.

use std::io::{self, Write};

use avsplus::fields::Field;

use crate::failure::{Failure, Refusal, Written};

/// A value that is no object and no list.
#[derive(Debug, Clone)]
pub enum Value {
    /// Not given.
    Null,
    /// Yes or no.
    Truth(bool),
    /// A whole number.
    Number(i64),
    /// A text.
    Text(String),
}

/// An object that is being written.
pub struct Object<'w> {
    output: &'w mut dyn Write,
    empty: bool,
}

/// Writes an object on a line of its own.
pub fn line(output: &mut dyn Write, members: impl FnOnce(&mut Object) -> Written) -> Written {
    object(output, members)?;
    Ok(output.write_all(b"\n")?)
}

fn object(output: &mut dyn Write, members: impl FnOnce(&mut Object) -> Written) -> Written {
    output.write_all(b"{")?;
    members(&mut Object { output, empty: true })?;
    Ok(output.write_all(b"}")?)
}

impl Object<'_> {
    fn name(&mut self, name: &str) -> io::Result<()> {
        if !self.empty {
            self.output.write_all(b",")?;
        }
        self.empty = false;
        write!(self.output, "\"{}\":", name)
    }

    /// A member that is a value.
    pub fn put(&mut self, name: &str, value: impl Into<Value>) -> Written {
        self.name(name)?;
        Ok(write_value(self.output, &value.into())?)
    }

    /// Fields of a layout.
    pub fn fields(&mut self, fields: &[(Field, u64)]) -> Written {
        for (field, value) in fields {
            self.put(&field.name.replace(' ', "_"), *value)?;
        }
        Ok(())
    }

    /// A member that is an object.
    pub fn object(&mut self, name: &str, members: impl FnOnce(&mut Object) -> Written) -> Written {
        self.name(name)?;
        object(self.output, members)
    }

    /// A member that is a list of objects.
    pub fn objects<T>(
        &mut self,
        name: &str,
        items: impl Iterator<Item = T>,
        mut members: impl FnMut(&mut Object, T) -> Written,
    ) -> Written {
        self.list(name, items, |output, item| object(output, |o| members(o, item)))
    }

    /// A member that is a list of values.
    pub fn values<T: Into<Value>>(&mut self, name: &str, items: impl Iterator<Item = T>) -> Written {
        self.list(name, items, |output, item| Ok(write_value(output, &item.into())?))
    }

    fn list<T>(
        &mut self,
        name: &str,
        items: impl Iterator<Item = T>,
        mut write: impl FnMut(&mut dyn Write, T) -> Written,
    ) -> Written {
        self.name(name)?;
        let mut between: &[u8] = b"[";
        for item in items {
            self.output.write_all(between)?;
            write(self.output, item)?;
            between = b",";
        }
        if between == b"[" {
            self.output.write_all(between)?;
        }
        Ok(self.output.write_all(b"]")?)
    }

    /// A member that is a text of bytes in hexadecimal.
    pub fn hex(&mut self, name: &str, bytes: &[u8]) -> Written {
        self.name(name)?;
        self.output.write_all(b"\"")?;
        write_hex(self.output, bytes)?;
        Ok(self.output.write_all(b"\"")?)
    }

    /// The members that name a good answer.
    pub fn done(&mut self, name: &str) -> Written {
        self.put("answer", name)?;
        self.put("number", 0_u32)
    }

    /// The members that name an answer, which is good or a refusal.
    pub fn answer(&mut self, name: &str, refusal: Option<&Refusal>) -> Written {
        match refusal {
            Some(refusal) => self.refused(refusal),
            None => self.done(name),
        }
    }

    /// The members that name a refusal and say where it stands and how many bits were missing; what it does not carry is no
    /// member.
    pub fn refused(&mut self, refusal: &Refusal) -> Written {
        let reason = refusal.reason();
        self.put("answer", reason.name())?;
        self.put("number", reason.number())?;
        if let Some(field) = reason.field() {
            self.put("field", field.name())?;
        }
        for (name, place) in [
            ("offset", refusal.refused.offset),
            ("bit", reason.bit()),
            ("place", refusal.place),
        ] {
            if let Some(place) = place {
                self.put(name, place)?;
            }
        }
        if let Some(missing) = reason.missing() {
            self.put("missing", missing)?;
        }
        self.put("meaning", refusal.meaning.as_str())
    }
}

/// Bytes in hexadecimal, without spaces.
pub fn write_hex(output: &mut dyn Write, bytes: &[u8]) -> Result<(), Failure> {
    for byte in bytes {
        write!(output, "{:02x}", byte)?;
    }
    Ok(())
}

fn write_value(output: &mut dyn Write, value: &Value) -> io::Result<()> {
    match value {
        Value::Null => output.write_all(b"null"),
        Value::Truth(truth) => write!(output, "{}", truth),
        Value::Number(number) => write!(output, "{}", number),
        Value::Text(text) => write_text(output, text),
    }
}

/// Quotes, backslashes and control characters may not stand in a text as they are.
fn write_text(output: &mut dyn Write, text: &str) -> io::Result<()> {
    output.write_all(b"\"")?;
    for character in text.chars() {
        match character {
            '"' => output.write_all(b"\\\"")?,
            '\\' => output.write_all(b"\\\\")?,
            control if control < ' ' => write!(output, "\\u{:04x}", control as u32)?,
            other => write!(output, "{}", other)?,
        }
    }
    output.write_all(b"\"")
}

impl From<bool> for Value {
    fn from(truth: bool) -> Value {
        Value::Truth(truth)
    }
}

impl From<u32> for Value {
    fn from(number: u32) -> Value {
        Value::Number(i64::from(number))
    }
}

impl From<i64> for Value {
    fn from(number: i64) -> Value {
        Value::Number(number)
    }
}

impl From<usize> for Value {
    fn from(number: usize) -> Value {
        Value::from(number as u64)
    }
}

impl From<u64> for Value {
    /// A number over 2^53, which readers would round, as a text.
    fn from(number: u64) -> Value {
        match number <= 1 << 53 {
            true => Value::Number(number as i64),
            false => Value::Text(number.to_string()),
        }
    }
}

impl From<&str> for Value {
    fn from(text: &str) -> Value {
        Value::Text(text.to_string())
    }
}

impl From<String> for Value {
    fn from(text: String) -> Value {
        Value::Text(text)
    }
}

impl<T: Into<Value>> From<Option<T>> for Value {
    fn from(value: Option<T>) -> Value {
        value.map_or(Value::Null, Into::into)
    }
}

#[cfg(test)]
mod tests {
    use super::*;

    fn written(members: impl FnOnce(&mut Object) -> Written) -> String {
        let mut output = Vec::new();
        line(&mut output, members).unwrap();
        String::from_utf8(output).unwrap()
    }

    #[test]
    fn texts_are_escaped() {
        let text = written(|o| o.put("t", "a\"b\\c\nd\u{1}e\u{1f}f/é"));
        assert_eq!(text, "{\"t\":\"a\\\"b\\\\c\\u000ad\\u0001e\\u001ff/é\"}\n");
    }

    #[test]
    fn lists_and_objects_keep_their_order() {
        let text = written(|o| {
            o.values("b", [-1_i64, 2].into_iter())?;
            o.values("wide", [1_u64 << 53, (1 << 53) + 1].into_iter())?;
            o.values("none", std::iter::empty::<u32>())?;
            o.objects("a", [true, false].into_iter(), |o, truth| o.put("x", truth))?;
            o.object("c", |o| o.put("null", None::<u32>))?;
            o.hex("hex", &[0, 0xAB])
        });
        let expected = "{\"b\":[-1,2],\"wide\":[9007199254740992,\"9007199254740993\"],\"none\":[],\"a\":[{\"x\":true},{\"x\":false}],\"c\":{\"null\":null},\"hex\":\"00ab\"}\n";
        assert_eq!(text, expected);
    }
}
