//! Objects for programs that read the answers: one a line, with the papers' numbers.

use std::fmt;
use std::fmt::Write;

/// An object, as far as it is written.
#[derive(Debug, Clone)]
pub struct Object {
    text: String,
}

impl Object {
    /// An answer: its first key says which kind it is.
    pub fn new(answer: &str) -> Object {
        Object::part().text("answer", answer)
    }

    /// An object inside another.
    pub fn part() -> Object {
        Object { text: String::new() }
    }

    pub fn number(self, key: &str, number: impl TryInto<u64>) -> Object {
        // every number of the papers is below 2 to the 64th
        self.raw(key, &number.try_into().unwrap_or(u64::MAX).to_string())
    }

    pub fn text(self, key: &str, text: &str) -> Object {
        self.raw(key, &quoted(text))
    }

    /// The codes of a run.
    pub fn run(self, key: &str, steps: &[u8]) -> Object {
        self.raw(key, &codes(steps))
    }

    pub fn runs<'a>(self, key: &str, runs: impl IntoIterator<Item = &'a [u8]>) -> Object {
        self.raw(key, &listed(runs.into_iter().map(codes)))
    }

    pub fn objects(self, key: &str, objects: impl IntoIterator<Item = Object>) -> Object {
        self.raw(key, &listed(objects.into_iter().map(|object| object.to_string())))
    }

    pub fn object(self, key: &str, object: Object) -> Object {
        self.raw(key, &object.to_string())
    }

    fn raw(mut self, key: &str, value: &str) -> Object {
        let comma = if self.text.is_empty() { "" } else { "," };
        self.text.extend([comma, &quoted(key), ":", value]);
        self
    }
}

impl fmt::Display for Object {
    fn fmt(&self, f: &mut fmt::Formatter<'_>) -> fmt::Result {
        write!(f, "{{{}}}", self.text)
    }
}

/// Bytes as digits, two a byte.
pub fn hex(bytes: &[u8]) -> String {
    bytes.iter().map(|byte| format!("{byte:02x}")).collect()
}

fn codes(steps: &[u8]) -> String {
    listed(steps.iter().map(u8::to_string))
}

fn listed(items: impl Iterator<Item = String>) -> String {
    format!("[{}]", items.collect::<Vec<_>>().join(","))
}

/// A text in quotes; everything but printable ASCII is spelled out.
fn quoted(text: &str) -> String {
    let mut quoted = String::from("\"");
    for character in text.chars() {
        match character {
            '"' | '\\' => quoted.extend(['\\', character]),
            '\n' => quoted.push_str("\\n"),
            ' '..='~' => quoted.push(character),
            other => {
                for unit in other.encode_utf16(&mut [0; 2]) {
                    write!(quoted, "\\u{unit:04x}").expect("a string takes everything");
                }
            }
        }
    }
    quoted.push('"');
    quoted
}

#[cfg(test)]
mod tests {
    use super::*;

    #[test]
    fn objects_are_as_json_has_them() {
        let part = Object::part().number("place", 5002u64);
        let object = Object::new("same").run("u", &[0, 63]).run("v", &[]).runs("pieces", [&[1u8][..], &[2, 3]]).objects("at", [part]);
        assert_eq!(object.to_string(), r#"{"answer":"same","u":[0,63],"v":[],"pieces":[[1],[2,3]],"at":[{"place":5002}]}"#);
    }

    #[test]
    fn texts_are_spelled_out() {
        assert_eq!(quoted("a\"b\\c\nd\te\u{7f}\u{e9}\u{1f600}"), r#""a\"b\\c\nd\u0009e\u007f\u00e9\ud83d\ude00""#);
    }
}
