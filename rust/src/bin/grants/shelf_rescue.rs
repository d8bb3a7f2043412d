//! Rescue of a damaged shelf: by its list, or, where that is lost, by its parts alone.

use crate::args::{number, Args};
use crate::fail::Fail;
use crate::files::{already_there, is_shelf};
use crate::json::{object, Json};
use crate::kept::{shelf_refused, trimmed};
use crate::out::Out;
use crate::plain::counted;
use grants::{Error, PartsAlone, RescuedShelf, Root, ShelfError, ShelfRescue, LIST_FILE};
use std::path::{Path, PathBuf};

/// What nothing but the signed root shows.
pub const COMPARE: &str = "Compare it with the root that was signed: nothing else shows that no grant withdrawn since seems in force.";

/// The same of a list that was made of the parts.
const COMPARE_PARTS: &str = "Compare it with the root that was signed: a part whose file is lost leaves no trace, and nothing else shows that none is missing, or that a publishing was not finished.";

/// How many versions are tried, from the newest down, to say what can be had.
const TRIED: usize = 16;

/// Whether a folder is rescued as a shelf.
pub fn is_asked(args: &Args) -> bool {
    let path = args.path(0);
    is_shelf(path) || path.is_dir() && args.has("--bits")
}

/// Whether its parts alone are looked at: where it is said so, and where there is no list in it or in another copy.
pub fn parts_alone(args: &Args) -> bool {
    let copies = [args.path(0)].into_iter().chain(args.value("--with").map(Path::new));
    args.has("--parts-alone") || !copies.into_iter().any(|copy| already_there(&copy.join(LIST_FILE)))
}

/// The other copy, where one is named: a folder too.
fn with(args: &Args) -> Result<Option<&Path>, Fail> {
    match args.value("--with").map(Path::new) {
        Some(other) if !other.is_dir() => Err(Fail::Usage(format!(
            "{} is a shelf, and {} is no shelf: name another copy of it",
            trimmed(args.path(0)),
            trimmed(other)
        ))),
        other => Ok(other),
    }
}

fn bits(args: &Args) -> Result<Option<u32>, Fail> {
    args.value("--bits").map(|word| number("--bits", word)).transpose()
}

/// What a rescue of a shelf is asked for.
pub struct Asked {
    pub latest: u32,
    pub oldest: u32,
    pub signed: Option<Root>,
}

/// The good versions of a damaged shelf, in another folder.
pub fn rescue(args: &Args, asked: &Asked, out: &mut Out) -> Result<u8, Fail> {
    let path = args.path(0);
    let Some(to) = args.word(1).map(Path::new) else {
        return Err(Fail::Usage(
            "OUT is missing: the folder to make what is rescued in".to_string(),
        ));
    };
    let to: PathBuf = to.components().collect();
    if already_there(&to) {
        return Err(Fail::File(format!(
            "{} is there already and was left alone",
            trimmed(&to)
        )));
    }
    let Asked { latest, oldest, signed } = *asked;
    let alone = parts_alone(args);
    let (with, bits) = (with(args)?, bits(args)?);
    let wanted = ShelfRescue { folder: path, with, bits, oldest, latest, root: signed };
    let came = match alone {
        true => wanted.by_parts(&to),
        false => wanted.by_list(&to),
    };
    let came = came.map_err(|e| refused(path, asked, alone, e))?;
    out.changed = true;
    told(&to, asked, &came, out)
}

fn refused(path: &Path, asked: &Asked, alone: bool, error: ShelfError) -> Fail {
    let Asked { latest, oldest, .. } = *asked;
    let other = match alone {
        true => "",
        false => " --parts-alone makes another list of the parts.",
    };
    match error.refusal() {
        Some(refusal @ Error::Header) if oldest > latest => {
            Fail::Refused(refusal, format!("--oldest {oldest} is above --latest {latest}."))
        }
        Some(refusal) => Fail::Refused(
            refusal,
            format!("A run ends at --latest, and version {latest} can't be rescued: {error}.{other} Nothing was written."),
        ),
        None => no_bits(path, error),
    }
}

/// What is said where the file 'shelf' is lost: the bits are not in the parts.
fn no_bits(path: &Path, error: ShelfError) -> Fail {
    match error {
        ShelfError::NoShelf { why, .. } => Fail::File(format!(
            "cannot read {}: {why}; its parts can be rescued where you say its bits: --parts-alone --bits B",
            trimmed(path)
        )),
        error => shelf_refused(None, path, error),
    }
}

fn told(to: &Path, asked: &Asked, came: &RescuedShelf, out: &mut Out) -> Result<u8, Fail> {
    let latest = asked.latest;
    let compared = match (asked.signed, came.rebuilt) {
        (Some(_), _) => "It is the root that was given.",
        (None, false) => COMPARE,
        (None, true) => COMPARE_PARTS,
    };
    let rebuilt = match came.rebuilt {
        true => ", and a list made of their roots",
        false => "",
    };
    out.answer(
        0,
        object(vec![
            ("first", came.first.into()),
            ("latest", latest.into()),
            ("root", came.root.to_string().into()),
            ("root_compared", asked.signed.is_some().into()),
            ("parts", came.parts.into()),
            ("same", Json::Number(came.same)),
            ("other", Json::Number(came.other)),
            ("out", Json::Number(came.out)),
            ("list_rebuilt", came.rebuilt.into()),
        ]),
        format_args!(
            "{}: versions {} to {latest} came back, {}{rebuilt}\nrecords: {} as they were, {} with another retired-since; {} left out\nroot of version {latest}: {}\n{compared}",
            trimmed(to),
            came.first,
            counted(came.parts, "part"),
            came.same,
            came.other,
            counted(came.out, "used slot"),
            came.root
        ),
    )
}

/// What the parts alone have: the newest version that all of them can be had in, with the root that each publishing up to it gave the list.
pub fn listed(args: &Args, out: &mut Out) -> Result<u8, Fail> {
    let path = args.path(0);
    let (with, bits) = (with(args)?, bits(args)?);
    let asked = |latest| ShelfRescue { folder: path, with, bits, oldest: 0, latest, root: None };
    let latest = asked(0).latest_of_parts().map_err(|e| shelf_refused(None, path, e))?;
    let mut lost = vec![];
    let mut found = None;
    for version in latest.into_iter().take(TRIED) {
        match asked(version).parts_alone() {
            Ok(alone) => {
                found = Some(alone);
                break;
            }
            Err(e) if e.refusal().is_some() => lost.push((version, e.to_string())),
            Err(e) => return Err(no_bits(path, e)),
        }
    }
    match out.json {
        true => out.answer(0, listed_json(&lost, found.as_ref()), ""),
        false => out.answer(0, Json::Null, listed_lines(path, &lost, found.as_ref())),
    }
}

fn listed_json(lost: &[(u32, String)], found: Option<&PartsAlone>) -> Json {
    let row = |version: u32, root: Option<&Root>, parts: Option<usize>, why: Option<&str>| {
        object(vec![
            ("version", version.into()),
            ("root", root.map(Root::to_string).into()),
            ("parts_changed", parts.into()),
            ("can_be_rescued", why.is_none().into()),
            ("why_not", why.map(str::to_string).into()),
        ])
    };
    let there = found.iter().flat_map(|found| &found.publishings);
    let there = there.map(|(version, root, parts)| row(*version, Some(root), Some(*parts), None));
    let lost = lost.iter().rev().map(|(version, why)| row(*version, None, None, Some(why)));
    object(vec![
        ("parts", found.map(|found| found.parts).into()),
        ("first", found.map(|found| found.first).into()),
        ("roots", Json::List(there.chain(lost).collect())),
    ])
}

fn listed_lines(path: &Path, lost: &[(u32, String)], found: Option<&PartsAlone>) -> String {
    let name = trimmed(path);
    let mut lines = match found {
        Some(found) => format!(
            "{name}: {} without a list, which can be made of them for versions {} to {}",
            counted(found.parts, "part"),
            found.first,
            found.latest
        ),
        None => format!("{name}: no version can be rescued of its parts alone"),
    };
    for (version, root, parts) in found.iter().flat_map(|found| &found.publishings) {
        lines += &format!("\n{version}  {root}  {} changed", counted(*parts, "part"));
    }
    for (version, why) in lost.iter().rev() {
        lines += &format!("\n{version}  can't be rescued: {why}");
    }
    if let Some(found) = found {
        lines += &format!(
            "\nA part whose file is lost leaves no trace: find the root that was signed among these.\nTo rescue: grants rescue {name} OUT --parts-alone --latest {} --root HEX, with the root that was signed for that version",
            found.latest
        );
    }
    lines
}
