//! The root of a version, alone or as the statement that is signed (docs/SIGNING.md), and that statement read again.

use crate::args::{number, Args};
use crate::asked::{hex, read_kept, version, Kept};
use crate::book::{self, Book, Said};
use crate::fail::Fail;
use crate::files::{self, PROOF_LIMIT};
use crate::json::object;
use crate::missing::refused_read;
use crate::out::{beside, both_to_output, Out};
use crate::plain::shown;
use grants::{dates, Root, Statement};
use std::path::Path;

pub fn root(args: &Args, out: &mut Out) -> Result<u8, Fail> {
    let path = args.path(0);
    let store = read_kept(path)?;
    let version = version(args, 1, &store, path)?;
    let root = store
        .root(version)
        .map_err(refused_read(&store, path, version, None))?;
    if let Some(to) = args.value("--out").map(Path::new) {
        return put(args, stated(args, &store, version, root)?, to, out);
    }
    if args.has("--not-after") {
        return Err(Fail::Usage("--not-after goes with --out FILE".to_string()));
    }
    let mut fields = vec![
        ("version", version.into()),
        ("root", root.to_string().into()),
    ];
    fields.extend(store.shelf().map(|shelf| ("bits", shelf.bits().get().into())));
    out.answer(0, object(fields), root)
}

/// What is to be signed of this root.
fn stated(args: &Args, store: &Kept, version: u32, root: Root) -> Result<Statement, Fail> {
    let until = args.said("--not-after")?;
    let until = until.map(|text| book::date("--not-after", &text));
    if let Some(Ok((_, last))) = &until {
        if *last < dates::now() {
            beside(format_args!(
                "note: {} is past already: no editor takes this root",
                dates::text(*last)
            ));
        }
    }
    let published = match Book::of(args, Some(args.path(0)))?.said(version, root) {
        Said::This(entry) => Some(entry.time),
        _ => None,
    };
    Ok(Statement {
        version,
        root,
        bits: store.shelf().map(|shelf| shelf.bits().get()),
        published,
        made: book::time(args)?,
        not_after: until.transpose()?.map(|(_, last)| last),
    })
}

fn put(args: &Args, statement: Statement, to: &Path, out: &mut Out) -> Result<u8, Fail> {
    let text = statement.text();
    if to.as_os_str() == "-" {
        if out.json {
            return Err(both_to_output());
        }
        let mut answer = out.decided(0);
        answer.raw(text.as_bytes())?;
        return answer.end();
    }
    files::write(args, to, text.as_bytes(), &[args.path(0)])?;
    let version = statement.version;
    out.answer(
        0,
        object(vec![
            ("version", version.into()),
            ("root", statement.root.to_string().into()),
            ("not_after", statement.not_after.map(dates::text).into()),
        ]),
        format_args!("{}: the root of version {version}, to be signed", shown(to)),
    )
}

/// The root to verify against: hex digits, or a file that `root --out` wrote, whose date has not passed and whose version is not too old.
/// With it, the bits of a shelf that the file says.
pub fn known_root(args: &Args) -> Result<(Vec<u8>, Option<u32>), Fail> {
    let path = args.path(0);
    match hex("root", &args.text(0)) {
        Err(Fail::Usage(_)) if path.is_file() => {}
        _ if args.has("--least") => {
            return Err(Fail::Usage(
                "--least goes with a ROOT that is a file, which has its version".to_string(),
            ));
        }
        digits => return Ok((digits?, None)),
    }
    let bytes = files::read(path, PROOF_LIMIT)?;
    let statement = Statement::read(&bytes).ok_or_else(|| {
        Fail::Usage(format!(
            "the root is wrong: {} is neither 64 hex digits nor a file that `grants root --out` wrote",
            shown(path)
        ))
    })?;
    let least = args.value("--least").map(|word| number("VERSION", word));
    if let Some(least) = least
        .transpose()?
        .filter(|least| statement.version < *least)
    {
        return Err(Fail::Book(format!(
            "the root in {} is that of version {}, older than {least}: get the latest",
            shown(path),
            statement.version
        )));
    }
    match statement.not_after {
        Some(last) if dates::now() > last => Err(Fail::Book(format!(
            "the root in {} is past its date, {}: get one that was signed since",
            shown(path),
            dates::text(last)
        ))),
        _ => Ok((statement.root.as_bytes().to_vec(), statement.bits)),
    }
}

/// The bits of the shelf that a proof is of: those that were signed with the root, else those of `--bits`; none for a store's proof.
pub fn bits(args: &Args, signed: Option<u32>) -> Result<Option<u32>, Fail> {
    let asked = args.value("--bits").map(|word| number("--bits", word));
    match (asked.transpose()?, signed) {
        (Some(asked), Some(signed)) if asked != signed => Err(Fail::Usage(format!(
            "--bits {asked} was asked for, and the root in {} is that of a shelf of {signed} bits",
            shown(args.path(0))
        ))),
        (asked, signed) => Ok(asked.or(signed)),
    }
}
