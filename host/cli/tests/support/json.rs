//! A strict reader of the objects that the command prints: natural numbers, texts in ASCII, lists and objects, one object a line.

use std::iter::Peekable;
use std::ops::Index;
use std::str::Chars;

/// A value. The command has no others.
#[derive(Debug, Clone, PartialEq, Eq)]
pub enum Json {
    Number(u64),
    Text(String),
    List(Vec<Json>),
    Object(Vec<(String, Json)>),
}

impl Json {
    pub fn get(&self, key: &str) -> Option<&Json> {
        match self {
            Json::Object(members) => members.iter().find(|(name, _)| name == key).map(|(_, value)| value),
            other => panic!("{other:?} is no object with the key {key}"),
        }
    }

    pub fn number(&self) -> usize {
        match self {
            Json::Number(number) => usize::try_from(*number).expect("a number of this machine"),
            other => panic!("{other:?} is no number"),
        }
    }

    pub fn text(&self) -> &str {
        match self {
            Json::Text(text) => text,
            other => panic!("{other:?} is no text"),
        }
    }

    pub fn list(&self) -> &[Json] {
        match self {
            Json::List(items) => items,
            other => panic!("{other:?} is no list"),
        }
    }

    /// The codes of a run.
    pub fn run(&self) -> Vec<u8> {
        self.list().iter().map(|code| u8::try_from(code.number()).expect("a code")).collect()
    }

    /// Which answer it is.
    pub fn answer(&self) -> &str {
        self["answer"].text()
    }
}

impl Index<&str> for Json {
    type Output = Json;

    fn index(&self, key: &str) -> &Json {
        self.get(key).unwrap_or_else(|| panic!("no {key} in {self:?}"))
    }
}

/// The objects of an output, one a line, each line with its end; or the line that is no object.
pub fn lines(output: &str) -> Result<Vec<Json>, String> {
    if !output.is_empty() && !output.ends_with('\n') {
        return Err("the last line has no end".into());
    }
    let object = |line: &str| match read(line) {
        Ok(object @ Json::Object(_)) => Ok(object),
        Ok(_) => Err(format!("no object: {line}")),
        Err(fault) => Err(format!("{fault}: {line}")),
    };
    output.split_terminator('\n').map(object).collect()
}

/// The value that a text is, and nothing behind it.
pub fn read(text: &str) -> Result<Json, String> {
    let mut reader = Reader { rest: text.chars().peekable() };
    let value = reader.value()?;
    match reader.rest.next() {
        None => Ok(value),
        Some(more) => Err(format!("{more:?} stands behind the value")),
    }
}

struct Reader<'a> {
    rest: Peekable<Chars<'a>>,
}

impl Reader<'_> {
    fn value(&mut self) -> Result<Json, String> {
        match self.rest.peek() {
            Some('"') => Ok(Json::Text(self.string()?)),
            Some('[') => Ok(Json::List(self.sequence(['[', ']'], Reader::value)?)),
            Some('{') => self.object(),
            Some('0'..='9') => self.natural(),
            other => Err(format!("{other:?} begins no value")),
        }
    }

    fn take(&mut self, wanted: char) -> Result<(), String> {
        match self.rest.next() {
            Some(found) if found == wanted => Ok(()),
            other => Err(format!("{other:?} stands where {wanted:?} should")),
        }
    }

    /// Items with commas between them, and none behind the last.
    fn sequence<T>(&mut self, [open, close]: [char; 2], item: impl Fn(&mut Self) -> Result<T, String>) -> Result<Vec<T>, String> {
        self.take(open)?;
        let mut items = Vec::new();
        if self.rest.next_if_eq(&close).is_some() {
            return Ok(items);
        }
        loop {
            items.push(item(self)?);
            if self.rest.next_if_eq(&close).is_some() {
                return Ok(items);
            }
            self.take(',')?;
        }
    }

    fn object(&mut self) -> Result<Json, String> {
        let members = self.sequence(['{', '}'], |reader| {
            let key = reader.string()?;
            reader.take(':')?;
            Ok((key, reader.value()?))
        })?;
        match members.iter().enumerate().find(|(index, (key, _))| members[..*index].iter().any(|(other, _)| other == key)) {
            None => Ok(Json::Object(members)),
            Some((_, (key, _))) => Err(format!("the key {key:?} stands twice")),
        }
    }

    fn natural(&mut self) -> Result<Json, String> {
        let mut digits = String::new();
        while let Some(digit) = self.rest.next_if(char::is_ascii_digit) {
            digits.push(digit);
        }
        match digits.parse() {
            Ok(_) if digits.len() > 1 && digits.starts_with('0') => Err(format!("{digits} has a zero in front")),
            Ok(number) => Ok(Json::Number(number)),
            Err(error) => Err(format!("{digits}: {error}")),
        }
    }

    fn string(&mut self) -> Result<String, String> {
        self.take('"')?;
        let mut units: Vec<u16> = Vec::new();
        loop {
            match self.rest.next() {
                Some('"') => return String::from_utf16(&units).map_err(|_| "half a character stands alone".into()),
                Some('\\') => units.push(self.escaped()?),
                Some(plain @ ' '..='~') => units.push(plain as u16),
                other => return Err(format!("{other:?} stands in a text")),
            }
        }
    }

    fn escaped(&mut self) -> Result<u16, String> {
        match self.rest.next() {
            Some(same @ ('"' | '\\' | '/')) => Ok(same as u16),
            Some('n') => Ok(10),
            Some('r') => Ok(13),
            Some('t') => Ok(9),
            Some('b') => Ok(8),
            Some('f') => Ok(12),
            Some('u') => {
                let digits: String = self.rest.by_ref().take(4).collect();
                let all = digits.len() == 4 && digits.chars().all(|digit| digit.is_ascii_hexdigit());
                u16::from_str_radix(&digits, 16).ok().filter(|_| all).ok_or(format!("\\u{digits} is no character"))
            }
            other => Err(format!("\\ and {other:?} stand in a text")),
        }
    }
}
