//! A batch as text: a line `+ KEY VALUE` inserts, a line `- KEY` deletes. A key or a value is 64 hex digits, or a name in double quotes. Empty
//! lines and what follows '#' say nothing. A line `end COUNT`, the last one, says how many keys there are, so that a batch that was cut off shows it.

use crate::book::Book;
use crate::fail::Fail;
use crate::plain::{counted, in_shell, quoted, words, Word};
use grants::{to_hex, Batch, Error, Key};
use std::collections::HashMap;

/// The batch, and the names that it uses with what they stand for.
pub struct Lines {
    pub batch: Batch,
    pub names: Vec<Named>,
    /// Whether the end line is there.
    pub ended: bool,
}

/// A name with what it stands for.
pub struct Named {
    pub word: [u8; 32],
    pub name: String,
    /// Whether a line deletes the key of this name.
    pub deleted: bool,
}

impl Named {
    /// Whether what it stands for is the book's word alone.
    pub fn by_book(&self) -> bool {
        grants::sha256(self.name.as_bytes()) != self.word
    }
}

/// Reads a batch. A name that the book gives to anything but its SHA-256 is one of those allowed, or the batch is held back: whoever can write the
/// book would else choose the keys that are published.
pub fn batch(text: &str, book: &Book, allowed: &[String]) -> Result<Lines, Fail> {
    let mut batch = Batch::new();
    let mut names = vec![];
    let mut lines: HashMap<Key, usize> = HashMap::new();
    let mut ended = false;
    let text = text.strip_prefix('\u{feff}').unwrap_or(text);
    for (i, line) in text.lines().enumerate() {
        let at = i + 1;
        let words = words(line).map_err(|why| off_form(at, why.to_string()))?;
        if ended && !words.is_empty() {
            return Err(off_form(at, "it stands after the end line".to_string()));
        }
        let deleted = matches!(&words[..], [Word::Plain(sign), _] if sign == "-");
        let mut bytes = |what: &str, word: &Word| match word {
            Word::Plain(digits) => digits.parse::<Key>().map(<[u8; 32]>::from).map_err(|e| {
                off_form(
                    at,
                    format!("the {what} is wrong ({e}); a name stands in double quotes"),
                )
            }),
            Word::Quoted(name) => {
                let word = book.meaning(name)?;
                let name = name.clone();
                let named = Named {
                    word,
                    name,
                    deleted,
                };
                if named.by_book() && !allowed.contains(&named.name) {
                    return Err(not_its_hash(at, &named, book));
                }
                names.push(named);
                Ok(word)
            }
        };
        let (key, asked) = match &words[..] {
            [] => continue,
            [Word::Plain(end), Word::Plain(count)] if end == "end" => {
                is_end(at, count, batch.len())?;
                ended = true;
                continue;
            }
            [Word::Plain(sign), key, value] if sign == "+" => {
                let (key, value) = (bytes("key", key)?, bytes("value", value)?);
                (key, batch.insert(key, value))
            }
            [Word::Plain(sign), key] if sign == "-" => {
                let key = bytes("key", key)?;
                (key, batch.delete(key))
            }
            _ => {
                return Err(off_form(
                    at,
                    "it is neither '+ KEY VALUE' nor '- KEY' nor 'end COUNT'".to_string(),
                ));
            }
        };
        let key = Key::from(key);
        if asked.is_err() {
            return Err(Fail::Refused(
                Error::BatchOrder,
                format!(
                    "The key {key} stands in line {} and again in line {at}; a batch names a key once. Nothing was changed.",
                    lines[&key]
                ),
            ));
        }
        lines.insert(key, at);
    }
    Ok(Lines {
        batch,
        names,
        ended,
    })
}

/// The end line says how many lines of keys stand before it.
fn is_end(line: usize, count: &str, before: usize) -> Result<(), Fail> {
    match count.parse::<usize>() {
        Ok(count) if count == before => Ok(()),
        Ok(count) => Err(off_form(
            line,
            format!(
                "it ends a batch of {}, and {before} stand before it",
                counted(count, "key")
            ),
        )),
        Err(_) => Err(off_form(
            line,
            "after 'end' stands the number of keys".to_string(),
        )),
    }
}

fn not_its_hash(line: usize, named: &Named, book: &Book) -> Fail {
    let name = quoted(&named.name);
    Fail::Held(format!(
        "line {line} names {name}, which {} gives to {} and not to its SHA-256, {}. If that is meant, say --by-book {} to publish it so; else write the 64 hex digits.",
        book.shown(),
        to_hex(&named.word),
        to_hex(&grants::sha256(named.name.as_bytes())),
        in_shell(&named.name)
    ))
}

fn off_form(line: usize, why: String) -> Fail {
    Fail::Refused(
        Error::BatchForm,
        format!("Line {line} of the batch: {why}. Nothing was changed."),
    )
}
