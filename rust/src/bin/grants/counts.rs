//! How many grants a version has, and the grant at a position: no other grant is looked at.

use crate::args::Args;
use crate::asked::{read_kept, version};
use crate::book::Book;
use crate::fail::Fail;
use crate::json::Json;
use crate::listing::named;
use crate::missing::{refused_at, refused_read};
use crate::out::Out;
use crate::page::long;

pub fn count(args: &Args, out: &mut Out) -> Result<u8, Fail> {
    let path = args.path(0);
    let store = read_kept(path)?;
    let version = version(args, 1, &store, path)?;
    let count = store
        .count(version)
        .map_err(refused_read(&store, path, version, None))?;
    out.answer(
        0,
        Json::Object(vec![
            ("version", version.into()),
            ("count", Json::Number(count)),
        ]),
        count,
    )
}

pub fn at(args: &Args, out: &mut Out) -> Result<u8, Fail> {
    let path = args.path(0);
    let position = long("POSITION", args.word(1).unwrap_or_default())?;
    let store = read_kept(path)?;
    let version = version(args, 2, &store, path)?;
    let (key, value) = store
        .at(version, position)
        .map_err(refused_at(&store, path, version, position))?;
    let book = Book::of(args, Some(path))?;
    let name = |word: &[u8; 32]| book.name(word).map(str::to_string);
    let line = format!("{key} {value}  {}", named(&book, &key, &value));
    out.answer(
        0,
        Json::Object(vec![
            ("version", version.into()),
            ("position", Json::Number(position)),
            ("key", key.to_string().into()),
            ("value", value.to_string().into()),
            ("key_name", name(key.as_bytes()).into()),
            ("value_name", name(value.as_bytes()).into()),
        ]),
        line.trim_end(),
    )
}
