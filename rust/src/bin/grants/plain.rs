//! Text for people: counts, paths and names, with nothing in them that a terminal would obey.

use grants::Place;
use std::fmt::{Display, Write};
use std::path::Path;

/// '1 record', '2 records'.
pub fn counted<N: Display + PartialEq + From<u8>>(n: N, what: &str) -> String {
    let s = if n == N::from(1) { "" } else { "s" };
    format!("{n} {what}{s}")
}

/// 'place 0110', 'the empty place'.
pub fn at(place: Place) -> String {
    match place.count() {
        0 => "the empty place".to_string(),
        _ => format!("place {place}"),
    }
}

/// Whether a terminal would obey the character, or show text in another order for it.
pub fn is_hidden(c: char) -> bool {
    c.is_control()
        || matches!(c, '\u{200e}' | '\u{200f}' | '\u{202a}'..='\u{202e}' | '\u{2066}'..='\u{2069}')
}

pub fn escaped(text: &str) -> String {
    let mut plain = String::with_capacity(text.len());
    for c in text.chars() {
        if is_hidden(c) {
            plain.extend(c.escape_default());
        } else {
            plain.push(c);
        }
    }
    plain
}

/// A path as it was given.
pub fn shown(path: &Path) -> String {
    escaped(&path.to_string_lossy())
}

/// A name or a message in double quotes, as batches and the book have it.
pub fn quoted(text: &str) -> String {
    let mut line = String::from("\"");
    for c in text.chars() {
        match c {
            '"' | '\\' => {
                let _ = write!(line, "\\{c}");
            }
            c if is_hidden(c) => line.extend(c.escape_unicode()),
            c => line.push(c),
        }
    }
    line.push('"');
    line
}

/// A word that a shell takes as it stands.
pub fn in_shell(text: &str) -> String {
    format!("'{}'", escaped(text).replace('\'', "'\\''"))
}

/// A word of a line: as it stands, or what was in double quotes.
#[derive(Clone, Debug, PartialEq, Eq)]
pub enum Word {
    Plain(String),
    Quoted(String),
}

/// The words of a line up to a '#', or why it has none.
pub fn words(line: &str) -> Result<Vec<Word>, &'static str> {
    let mut words = vec![];
    let mut rest = line.chars().peekable();
    loop {
        while rest.next_if(|c| c.is_whitespace()).is_some() {}
        match rest.peek() {
            None | Some('#') => return Ok(words),
            Some('"') => {
                rest.next();
                words.push(Word::Quoted(inside(&mut rest)?));
                if rest.peek().is_some_and(|c| !c.is_whitespace() && *c != '#') {
                    return Err("something stands right after a closing quote");
                }
            }
            Some(_) => {
                let mut word = String::new();
                while let Some(c) = rest.next_if(|c| !c.is_whitespace() && *c != '#') {
                    word.push(c);
                }
                words.push(Word::Plain(word));
            }
        }
    }
}

/// What stands before the closing quote.
fn inside(rest: &mut impl Iterator<Item = char>) -> Result<String, &'static str> {
    const OPEN: &str = "a quote is not closed";
    const BACKSLASH: &str = "a backslash in quotes stands before \\, \" or u{..} only";
    let mut text = String::new();
    loop {
        match rest.next().ok_or(OPEN)? {
            '"' => return Ok(text),
            '\\' => match rest.next().ok_or(OPEN)? {
                c @ ('"' | '\\') => text.push(c),
                'u' => {
                    if rest.next() != Some('{') {
                        return Err(BACKSLASH);
                    }
                    let digits: String = rest.take_while(|c| *c != '}').collect();
                    let code = u32::from_str_radix(&digits, 16).ok();
                    text.push(code.and_then(char::from_u32).ok_or(BACKSLASH)?);
                }
                _ => return Err(BACKSLASH),
            },
            c => text.push(c),
        }
    }
}

#[cfg(test)]
mod tests {
    use super::*;

    #[test]
    fn quotes_come_back() {
        for text in [
            "",
            "chords sonata",
            "a \"b\" \\ # c",
            "tab\there\n\u{202e}\u{1b}[31m",
            "é",
        ] {
            let line = quoted(text);
            assert!(!line.chars().any(is_hidden), "{line}");
            assert_eq!(words(&line), Ok(vec![Word::Quoted(text.to_string())]));
        }
        assert_eq!(words("  # nothing"), Ok(vec![]));
        assert_eq!(
            words("+ \"a # b\" c# d"),
            Ok(vec![
                Word::Plain("+".to_string()),
                Word::Quoted("a # b".to_string()),
                Word::Plain("c".to_string())
            ])
        );
        for wrong in [
            "\"",
            "\"a",
            "\"a\\n\"",
            "\"\\u{110000}\"",
            "\"a\"b",
            "\"\\u{\"",
        ] {
            assert!(words(wrong).is_err(), "{wrong}");
        }
    }
}
