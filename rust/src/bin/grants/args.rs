//! The command line: words and options, told apart by what the command declares.

use crate::fail::Fail;
use std::ffi::{OsStr, OsString};
use std::os::unix::ffi::OsStrExt;
use std::path::Path;

/// An option, and what its value is called if it takes one.
pub struct Choice {
    pub name: &'static str,
    pub value: Option<&'static str>,
    pub help: &'static str,
}

/// What a command takes: its name and usage, the least and the most words, and its options.
#[derive(Clone, Copy)]
pub struct Form {
    pub name: &'static str,
    pub usage: &'static str,
    pub words: (usize, usize),
    pub choices: &'static [Choice],
}

pub struct Args {
    form: Form,
    words: Vec<OsString>,
    chosen: Vec<(&'static str, OsString)>,
}

/// Whether a word is an option that all commands take, wherever it stands before `--`.
pub fn everywhere(given: &[OsString], name: &str) -> bool {
    let before = given.iter().take_while(|word| *word != "--");
    before.into_iter().any(|word| word == name)
}

/// None where help was asked for.
pub fn parse(command: Form, given: &[OsString]) -> Result<Option<Args>, Fail> {
    let mut args = Args {
        form: command,
        words: vec![],
        chosen: vec![],
    };
    let command = &command;
    let mut rest = given.iter();
    let mut only_words = false;
    while let Some(word) = rest.next() {
        let bytes = word.as_bytes();
        if only_words || !bytes.starts_with(b"-") || bytes == b"-" {
            args.words.push(word.clone());
        } else if bytes == b"--" {
            only_words = true;
        } else if bytes == b"--help" || bytes == b"-h" {
            return Ok(None);
        } else {
            let (name, joined) = match bytes.iter().position(|b| *b == b'=') {
                Some(at) => (&bytes[..at], Some(OsStr::from_bytes(&bytes[at + 1..]))),
                None => (bytes, None),
            };
            let shown = String::from_utf8_lossy(name);
            let choice = command
                .choices
                .iter()
                .find(|choice| choice.name.as_bytes() == name)
                .ok_or_else(|| wrong(command, format!("there is no option {shown}")))?;
            let value = match (choice.value, joined) {
                (None, None) => OsString::new(),
                (None, Some(_)) => {
                    return Err(wrong(command, format!("{shown} takes no value")));
                }
                (Some(_), Some(value)) => value.to_os_string(),
                (Some(what), None) => rest
                    .next()
                    .cloned()
                    .ok_or_else(|| wrong(command, format!("{shown} wants {what} after it")))?,
            };
            args.chosen.push((choice.name, value));
        }
    }
    let (least, most) = command.words;
    if args.words.len() < least {
        let missing = command.usage.split(' ').nth(args.words.len());
        let missing = missing.unwrap_or_default().trim_matches(['[', ']']);
        return Err(wrong(command, format!("{missing} is missing")));
    }
    if args.words.len() > most {
        let over = args.words[most].to_string_lossy().into_owned();
        return Err(wrong(command, format!("{over} is one word too many")));
    }
    Ok(Some(args))
}

fn wrong(command: &Form, why: String) -> Fail {
    Fail::Usage(format!(
        "{why}. Usage: grants {} {}; `grants {} --help` says more",
        command.name, command.usage, command.name
    ))
}

impl Args {
    pub fn word(&self, i: usize) -> Option<&OsStr> {
        self.words.get(i).map(OsString::as_os_str)
    }

    pub fn rest(&self, from: usize) -> impl Iterator<Item = &OsStr> {
        self.words.iter().skip(from).map(OsString::as_os_str)
    }

    /// A word that must be there: the count was tested.
    pub fn path(&self, i: usize) -> &Path {
        Path::new(&self.words[i])
    }

    pub fn text(&self, i: usize) -> String {
        self.words[i].to_string_lossy().into_owned()
    }

    /// Whether the command takes an option at all: what isn't taken isn't advised.
    pub fn takes(&self, name: &str) -> bool {
        self.form.choices.iter().any(|choice| choice.name == name)
    }

    /// A word that the other options make necessary is missing.
    pub fn missing(&self, what: &str) -> Fail {
        wrong(&self.form, format!("{what} is missing"))
    }

    pub fn has(&self, name: &str) -> bool {
        self.value(name).is_some()
    }

    pub fn value(&self, name: &str) -> Option<&OsStr> {
        let chosen = self.chosen.iter().rev().find(|(chosen, _)| *chosen == name);
        chosen.map(|(_, value)| value.as_os_str())
    }

    /// Every value of an option that may be given again; each must be text.
    pub fn all_said(&self, name: &str) -> Result<Vec<String>, Fail> {
        let chosen = self.chosen.iter().filter(|(chosen, _)| *chosen == name);
        chosen.map(|(_, value)| as_text(name, value)).collect()
    }

    /// The value of an option, which must be text.
    pub fn said(&self, name: &str) -> Result<Option<String>, Fail> {
        self.value(name)
            .map(|value| as_text(name, value))
            .transpose()
    }
}

fn as_text(name: &str, value: &OsStr) -> Result<String, Fail> {
    let text = value.to_str().map(str::to_string);
    text.ok_or_else(|| Fail::Usage(format!("what follows {name} is no text in UTF-8")))
}

/// A number that fits 32 bits.
pub fn number(what: &str, word: &OsStr) -> Result<u32, Fail> {
    let text = word.to_string_lossy();
    let digits = text.bytes().all(|b| b.is_ascii_digit());
    text.parse().ok().filter(|_| digits).ok_or_else(|| {
        Fail::Usage(format!(
            "{what} is a number from 0 to 4294967295, and {text:?} is not"
        ))
    })
}
