//! The names in the book, listed and given.

use crate::args::Args;
use crate::asked::{hex, LENGTH_ADVICE, writable};
use crate::book::{self, Book};
use crate::fail::Fail;
use crate::files::Locked;
use crate::json::{object, Json};
use crate::out::Out;
use crate::plain::quoted;
use grants::{to_hex, Error};

pub fn name(args: &Args, out: &mut Out) -> Result<u8, Fail> {
    let Some(name) = args.word(1) else {
        return all(args, out);
    };
    let name = name
        .to_str()
        .ok_or_else(|| Fail::Usage("a name is text in UTF-8".to_string()))?;
    let path = writable(args)?;
    let _locked = Locked::take(args, path)?;
    book::is_none_of(args, &[path])?;
    let mut book = Book::of(args, Some(path))?;
    let word = match args.word(2) {
        Some(digits) => hex("key", &digits.to_string_lossy())?,
        None => grants::sha256(name.as_bytes()).to_vec(),
    };
    let word: [u8; 32] = word
        .try_into()
        .map_err(|_| Fail::Refused(Error::NotThirtyTwoBytes, LENGTH_ADVICE.to_string()))?;
    if book.knows(name) && book.meaning(name)? != word {
        return Err(Fail::Book(format!(
            "{} names {} so already, and lines are only ever added: choose another name",
            book.shown(),
            to_hex(&book.meaning(name)?)
        )));
    }
    book.add_name(word, name);
    book.write()?;
    out.answer(0, row(&word, name), line(&word, name))
}

fn all(args: &Args, out: &mut Out) -> Result<u8, Fail> {
    let book = Book::of(args, Some(args.path(0)))?;
    let names = book.names();
    if out.json {
        let list = names.iter().map(|(word, name)| row(word, name));
        return out.answer(0, Json::List(list.collect()), "");
    }
    let mut answer = out.decided(0);
    for (word, name) in names {
        answer.line(line(&word, name))?;
    }
    answer.end()
}

fn row(word: &[u8; 32], name: &str) -> Json {
    object(vec![("name", name.into()), ("bytes", to_hex(word).into())])
}

fn line(word: &[u8; 32], name: &str) -> String {
    format!("{} {}", to_hex(word), quoted(name))
}
