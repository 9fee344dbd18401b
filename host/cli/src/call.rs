//! The call of the command: its word, its arguments and its options.

use std::ffi::{OsStr, OsString};
use std::os::unix::ffi::OsStrExt;

use booktext::shown;

use crate::failure::Failure;
use crate::help::{Word, WORDS};

/// What is asked for.
pub enum Asked {
    /// an answer of this word
    Answer(&'static Word),
    /// how the command, or a word of it, is called
    Help(Option<&'static Word>),
    /// which version it is
    Version,
}

/// A call.
pub struct Call {
    pub asked: Asked,
    pub arguments: Vec<OsString>,
    pub json: bool,
    pub allowance: Option<u32>,
    pub width: Option<usize>,
    pub output: Option<OsString>,
}

/// Whether objects are asked for in a call that is wrong, as far as it can be told.
pub fn wants_json(arguments: &[OsString]) -> bool {
    arguments.iter().take_while(|argument| *argument != "--").any(|argument| argument == "--json")
}

/// Reads a call. Options may stand anywhere behind the command; `--` ends them.
pub fn read(arguments: &[OsString]) -> Result<Call, Failure> {
    let mut call = Call { asked: Asked::Help(None), arguments: Vec::new(), json: false, allowance: None, width: None, output: None };
    let (mut word, mut used, mut may_be_option) = (None, Vec::new(), true);
    let mut rest = arguments.iter();
    while let Some(argument) = rest.next() {
        let text = argument.to_string_lossy();
        let wrong = |message| Failure::Call { message, word: word.map(|word: &Word| word.name) };
        match word {
            _ if may_be_option && text == "--" => may_be_option = false,
            _ if may_be_option && text.starts_with('-') && text != "-" => used.push(call.option(argument, &mut rest).map_err(wrong)?),
            None => word = Some(WORDS.iter().find(|word| word.name == text).ok_or_else(|| wrong(format!("there is no word {}", shown(&text))))?),
            Some(_) => call.arguments.push(argument.clone()),
        }
    }
    call.asked = match word {
        _ if used.contains(&"version") => Asked::Version,
        word if used.contains(&"help") => Asked::Help(word),
        Some(word) => Asked::Answer(word),
        None => return Err(Failure::Call { message: "a word is missing: what is to be done?".into(), word: None }),
    };
    call.fits(&used)?;
    Ok(call)
}

impl Call {
    /// Takes an option and its value, which stands behind a `=` or is the next argument; gives the option's name.
    fn option<'a>(&mut self, argument: &OsStr, rest: &mut impl Iterator<Item = &'a OsString>) -> Result<&'static str, String> {
        let mut parts = argument.as_bytes().splitn(2, |&byte| byte == b'=');
        let name = String::from_utf8_lossy(parts.next().unwrap_or_default());
        let inline = parts.next().map(|value| OsStr::from_bytes(value).to_os_string());
        let plain = |name| inline.as_ref().map_or(Ok(name), |_| Err(format!("--{name} takes no value")));
        let mut value = |name| inline.clone().or_else(|| rest.next().cloned()).ok_or_else(|| format!("--{name} wants a value"));
        match &name[..] {
            "--help" | "-h" => plain("help"),
            "--version" => plain("version"),
            "--json" => {
                self.json = true;
                plain("json")
            }
            "--allowance" => {
                let most = vanecitron::ALLOWANCE;
                self.allowance = Some(number(&value("allowance")?, most).ok_or_else(|| format!("--allowance wants a number from 0 to {most}"))?);
                Ok("allowance")
            }
            "--width" => {
                let most = vanecitron::LEAST as u32;
                self.width = Some(number(&value("width")?, most).ok_or_else(|| format!("--width wants a number from 0 to {most}"))? as usize);
                Ok("width")
            }
            "--output" | "-o" => {
                self.output = Some(value("output")?);
                Ok("output")
            }
            _ => Err(format!("there is no option {}", shown(&name))),
        }
    }

    /// The word takes these options, and so many arguments.
    fn fits(&self, used: &[&str]) -> Result<(), Failure> {
        let Asked::Answer(word) = self.asked else { return Ok(()) };
        if let Some(option) = used.iter().find(|option| **option != "json" && !word.options.contains(option)) {
            return Err(self.wrong(&format!("{} takes no --{option}", word.name)));
        }
        let fault = match self.arguments.len() {
            given if given < *word.arguments.start() => "something is missing",
            given if given > *word.arguments.end() => "that is too much",
            _ => return Ok(()),
        };
        Err(self.wrong(&format!("{fault}; the form is: vanecitron {} {}", word.name, word.form)))
    }

    /// A fault of this call, of which its word's help says more.
    pub fn wrong(&self, message: &str) -> Failure {
        let word = match self.asked {
            Asked::Answer(word) => Some(word.name),
            _ => None,
        };
        Failure::Call { message: message.to_string(), word }
    }
}

/// A decimal number of at most `most`.
pub fn number(text: &OsStr, most: u32) -> Option<u32> {
    let text = text.to_str().filter(|text| text.bytes().all(|byte| byte.is_ascii_digit()))?;
    text.parse().ok().filter(|&number| number <= most)
}
