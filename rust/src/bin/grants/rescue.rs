//! Rescue from a damaged store. What comes back is the library's word; why a slot was left out, why the run begins no earlier, and which root records
//! there are, is looked up here, so that a person sees what was lost.

use crate::args::{number, Args};
use crate::asked::{hex, read_store, refused, Bytes};
use crate::fail::Fail;
use crate::files;
use crate::found::{Found, WHYS};
use crate::json::{object, Json};
use crate::out::Out;
use crate::plain::{counted, shown};
use crate::shelf_rescue::{self, COMPARE};
use grants::{to_hex, Error, Place, Publishing, Record, Rescued, RescuedFromTwo, Root};
use std::collections::{BTreeMap, BTreeSet};
use std::path::Path;

/// '3, 7 to 9'.
fn ranges(numbers: &[usize]) -> String {
    let mut parts: Vec<(usize, usize)> = vec![];
    for &n in numbers {
        match parts.last_mut() {
            Some((_, last)) if *last + 1 == n => *last = n,
            _ => parts.push((n, n)),
        }
    }
    let parts = parts.iter().map(|(a, b)| match b - a {
        0 => a.to_string(),
        1 => format!("{a}, {b}"),
        _ => format!("{a} to {b}"),
    });
    parts.collect::<Vec<_>>().join(", ")
}

/// What a rescue is asked for: the file to write, the versions that it may have, and the root that was signed.
struct Asked<'a> {
    to: &'a Path,
    oldest: u32,
    latest: u32,
    signed: Option<Root>,
}

impl Asked<'_> {
    fn of(args: &Args, latest: u32) -> Result<Asked<'_>, Fail> {
        let to = args.word(1).map(Path::new).ok_or_else(|| {
            Fail::Usage("OUT is missing: the file to write what is rescued to".to_string())
        })?;
        if to.as_os_str() == "-" {
            return Err(Fail::Usage(
                "a store that is written must be a file, not standard output".to_string(),
            ));
        }
        Ok(Asked {
            to,
            oldest: oldest(args)?,
            latest,
            signed: signed(args)?,
        })
    }
}

/// The other copy of a rescue from two, and what was taken from which.
struct With<'a> {
    damaged: &'a Path,
    other: &'a Path,
    /// Whether it is the other copy that was filled up, so that slots are its slots.
    from_other: bool,
    taken: BTreeMap<usize, usize>,
    /// The versions that came back by a root record that the other copy alone has.
    by_other: Vec<u32>,
}

impl With<'_> {
    fn lines(&self) -> String {
        let (base, from) = match self.from_other {
            true => (self.other, self.damaged),
            false => (self.damaged, self.other),
        };
        let slots: BTreeSet<usize> = self.taken.values().copied().collect();
        let slots: Vec<usize> = slots.into_iter().collect();
        let mut lines = match (slots.len(), self.from_other) {
            (0, false) => format!("\nnothing was taken from {}: it makes the run no longer", shown(self.other)),
            (0, true) => format!("\nall of it is from {}", shown(self.other)),
            (n, _) => format!(
                "\nfrom {}: {}, its slot {}; the rest is from {}, whose slots these are",
                shown(from),
                counted(n, "record"),
                ranges(&slots),
                shown(base)
            ),
        };
        if let [first, more @ ..] = &self.by_other[..] {
            let versions = match more {
                [] => format!("version {first} stands"),
                more => format!("versions {first} and {} more stand", more.len()),
            };
            lines += &format!(
                "\n{versions} by a root record that {} alone has: compare its root with the one that was signed",
                shown(self.other)
            );
        }
        lines
    }

    fn json(&self) -> Json {
        let taken = self.taken.iter().map(|(slot, from)| {
            object(vec![("slot", (*slot).into()), ("from", (*from).into())])
        });
        let by_other = self.by_other.iter().map(|version| (*version).into());
        object(vec![
            ("filled_up", if self.from_other { "other" } else { "damaged" }.into()),
            ("taken", Json::List(taken.collect())),
            ("by_other", Json::List(by_other.collect())),
        ])
    }
}

/// What came back, and what is said of it.
struct Came {
    store: Bytes,
    what: Rescued,
    root: Root,
    spans: Vec<Publishing>,
    left_out: Vec<Vec<usize>>,
    no_earlier: String,
    newest: Option<u32>,
}

fn wrong_size(store: &Bytes, path: &Path) -> impl Fn(Error) -> Fail {
    let (length, name) = (store.as_bytes().len(), shown(path));
    move |e| {
        Fail::Refused(e, format!("{name} has {length} bytes: a rescue needs the whole file, with its length. Pad what was cut off with zero bytes."))
    }
}

/// The version that a rescue must end at, where it is said.
fn latest(args: &Args) -> Result<Option<u32>, Fail> {
    args.value("--latest").map(|word| number("--latest", word)).transpose()
}

fn oldest(args: &Args) -> Result<u32, Fail> {
    let oldest = args.value("--oldest").map(|word| number("--oldest", word));
    Ok(oldest.transpose()?.unwrap_or(0))
}

fn signed(args: &Args) -> Result<Option<Root>, Fail> {
    args.said("--root")?.map(|text| root_of(&text)).transpose()
}

/// Who named a file to write without the version that it is to end at did not get it.
fn nothing_written(args: &Args) -> Result<(), Fail> {
    match args.word(1) {
        Some(_) => Err(Fail::Usage(format!(
            "--latest is missing, the version that the rescue must end at: nothing was written. `grants rescue {}` lists the root records that are there",
            shown(args.path(0))
        ))),
        None => Ok(()),
    }
}

pub fn rescue(args: &Args, out: &mut Out) -> Result<u8, Fail> {
    let path = args.path(0);
    let latest = latest(args)?;
    if shelf_rescue::is_asked(args) {
        if let Some(latest) = latest {
            let (oldest, signed) = (oldest(args)?, signed(args)?);
            let asked = shelf_rescue::Asked { latest, oldest, signed };
            return shelf_rescue::rescue(args, &asked, out);
        }
        if shelf_rescue::parts_alone(args) {
            nothing_written(args)?;
            return shelf_rescue::listed(args, out);
        }
    }
    if let Some(name) = ["--parts-alone", "--bits"].into_iter().find(|name| args.has(name) && !files::is_shelf(path)) {
        return Err(Fail::Usage(format!("{name} is for a shelf, and {} is none", shown(path))));
    }
    // The root records of a shelf are those of its list.
    let store = readable(&files::main_file(path), path)?;
    let other = other(args, path)?;
    let Some(latest) = latest else {
        nothing_written(args)?;
        return listed(args, store, other.as_ref(), out);
    };
    let asked = Asked::of(args, latest)?;
    let (source, with) = together(store, path, other.as_ref(), &asked);
    let mut found = Found::of(source.slots_found().map_err(wrong_size(&source, path))?);
    let came = came(&source, path, &asked, &mut found)?;
    let inputs: Vec<&Path> = [path].into_iter().chain(other.as_ref().map(|(other, _)| *other)).collect();
    files::write(args, asked.to, came.store.as_bytes(), &inputs)?;
    out.changed = true;
    match out.json {
        true => out.answer(0, came.json(&asked, with.as_ref()), ""),
        false => out.answer(0, Json::Null, came.lines(&asked, with.as_ref())),
    }
}

/// A store with any contents, but the length of one and today's form.
fn readable(file: &Path, path: &Path) -> Result<Bytes, Fail> {
    let store = read_store(file)?;
    if store.is_old_form() {
        let error = store.header().err().unwrap_or(Error::Size);
        return Err(refused(&store, path)(error));
    }
    store.slots_found().map_err(wrong_size(&store, path))?;
    Ok(store)
}

/// The other copy, where one is named.
fn other<'a>(args: &'a Args, path: &Path) -> Result<Option<(&'a Path, Bytes)>, Fail> {
    let Some(other) = args.value("--with").map(Path::new) else {
        return Ok(None);
    };
    if files::one_file(path, other) {
        return Err(Fail::Usage(format!("{} is DAMAGED itself: name another copy", shown(other))));
    }
    Ok(Some((other, readable(&files::main_file(other), other)?)))
}

/// What the library is handed: the store, or what gives the longest run of it and of another copy.
fn together<'a>(
    store: Bytes,
    path: &'a Path,
    other: Option<&'a (&'a Path, Bytes)>,
    asked: &Asked,
) -> (Bytes, Option<With<'a>>) {
    let Some((name, copy)) = other else {
        return (store, None);
    };
    // Where neither has it, the store's own troubles are told.
    let Some(best) = store.rescue_with(copy, asked.oldest, asked.latest, asked.signed) else {
        return (store, None);
    };
    let with = With {
        damaged: path,
        other: name,
        from_other: best.from_other,
        by_other: by_other(&store, &best),
        taken: best.taken,
    };
    (best.source, Some(with))
}

/// The versions that came back by a root record that the store itself doesn't have.
fn by_other(store: &Bytes, best: &RescuedFromTwo) -> Vec<u32> {
    let own = Found::of(store.slots_found().unwrap_or_default()).roots;
    let records = best.store.slots().unwrap_or_default();
    let roots = records.iter().flatten().filter(|record| record.place == Place::EMPTY);
    let news = roots.filter(|root| own.get(&root.version).is_none_or(|(_, own)| own.hash() != root.hash()));
    let mut versions: Vec<u32> = news.map(|root| root.version).collect();
    versions.sort_unstable();
    versions
}

/// The rescue itself, and the root compared with the one that was signed; nothing is written yet.
fn came(store: &Bytes, path: &Path, asked: &Asked, found: &mut Found) -> Result<Came, Fail> {
    let (oldest, latest) = (asked.oldest, asked.latest);
    let (rescued, what) = store.rescue(oldest, latest).map_err(|e| match e {
        Error::Header => Fail::Refused(e, format!("--oldest {oldest} is above --latest {latest}.")),
        Error::Unsound => {
            let why = found.stands(latest).err();
            let why = why.map_or(String::new(), |why| format!(": {why}"));
            Fail::Refused(
                e,
                format!("A run ends at --latest, and version {latest} can't be rescued{why}. Without --latest the root records that are there are listed."),
            )
        }
        other => wrong_size(store, path)(other),
    })?;
    let sure = |e: Error| Fail::Refused(e, "This is a fault of the tool.".to_string());
    let root = rescued.root(latest).map_err(sure)?;
    if let Some(signed) = asked.signed.filter(|signed| *signed != root) {
        return Err(Fail::Book(format!(
            "the root of version {latest} would be {root}, not {signed}: this is not what was signed, and nothing was written. Take another copy, or another --latest"
        )));
    }
    let kept = rescued.slots().map_err(sure)?;
    let newest = found.roots.range(..=latest).next_back();
    Ok(Came {
        root,
        spans: rescued.publishings().map_err(sure)?,
        left_out: found.left_out(&kept, latest),
        newest: newest.map(|(version, _)| *version),
        no_earlier: found.no_earlier(what.first, oldest),
        store: rescued,
        what,
    })
}

impl Came {
    fn json(&self, asked: &Asked, with: Option<&With>) -> Json {
        let list = |why: usize| {
            self.left_out[why]
                .iter()
                .map(move |slot| object(vec![("slot", (*slot).into()), ("why", WHYS[why].into())]))
        };
        let publishings = self.spans.iter().map(|span| {
            let root = self.store.root(span.first).ok();
            object(vec![
                ("first", span.first.into()),
                ("last", span.last.into()),
                ("root", root.map(|root| root.to_string()).into()),
            ])
        });
        let mut fields: Vec<(&'static str, Json)> = vec![
            ("first", self.what.first.into()),
            ("latest", asked.latest.into()),
            ("root", self.root.to_string().into()),
            ("root_compared", asked.signed.is_some().into()),
            ("newest_root_record", self.newest.into()),
            ("same", self.what.same.into()),
            ("other", self.what.other.into()),
            ("out", self.what.out.into()),
            ("no_earlier", self.no_earlier.as_str().into()),
            ("publishings", Json::List(publishings.collect())),
            (
                "left_out",
                Json::List((0..WHYS.len()).flat_map(list).collect()),
            ),
        ];
        fields.extend(with.map(|with| ("with", with.json())));
        object(fields)
    }

    fn lines(&self, asked: &Asked, with: Option<&With>) -> String {
        let (latest, what) = (asked.latest, &self.what);
        let mut lines = format!(
            "{}: versions {} to {latest} came back, {}\nno earlier: {}\nrecords: {} as they were, {} with another retired-since; {} left out",
            shown(asked.to),
            what.first,
            counted(self.spans.len(), "publishing"),
            self.no_earlier,
            what.same,
            what.other,
            counted(what.out as usize, "used slot"),
        );
        let left_out = WHYS.iter().zip(&self.left_out);
        for (why, slots) in left_out.filter(|(_, s)| !s.is_empty()) {
            lines += &format!("\n  {why}: slot {}", ranges(slots));
        }
        lines += &with.map(With::lines).unwrap_or_default();
        lines += &format!("\nroot of version {latest}: {}\n", self.root);
        lines += match asked.signed {
            Some(_) => "It is the root that was given.",
            None => COMPARE,
        };
        if let Some(newest) = self.newest.filter(|newest| *newest < latest) {
            lines += &format!(
                "\nWarning: the newest root record is of version {newest}. Versions {} to {latest} read as that one, and no number up to {latest} can be published any more.",
                newest + 1
            );
        }
        lines
    }
}

fn root_of(text: &str) -> Result<Root, Fail> {
    let bytes = hex("root", text)?;
    let bytes: [u8; 32] = bytes.try_into().map_err(|_| {
        Fail::Refused(
            Error::NotThirtyTwoBytes,
            "Write it as 64 hex digits.".to_string(),
        )
    })?;
    Ok(Root::from(bytes))
}

/// A root record of a listing, and why its version can't be rescued, if it can't.
struct Listed {
    slot: usize,
    root: Record,
    why: Option<String>,
    /// The copy that has another root for the version, and that root.
    differs: Option<(String, [u8; 32])>,
}

/// The root records that are there, in the store or in it and another copy: which version could be the latest of a rescue.
fn listed(
    args: &Args,
    store: Bytes,
    other: Option<&(&Path, Bytes)>,
    out: &mut Out,
) -> Result<u8, Fail> {
    let slots = |store: &Bytes| store.slots_found().unwrap_or_default();
    let both = other.and_then(|(_, other)| store.filled_from(other, u32::MAX, None));
    let mut found = Found::of(slots(both.as_ref().map_or(&store, |both| &both.store)));
    let of = |name: &Path, store: &Bytes| (shown(name), Found::of(slots(store)).roots);
    let copies = [of(args.path(0), &store)].into_iter().chain(other.map(|(name, other)| of(name, other)));
    let copies: Vec<_> = copies.collect();
    let mut rows: Vec<Listed> = vec![];
    for (version, (slot, root)) in found.roots.clone() {
        let why = found.stands(version).err();
        let roots = copies.iter().filter_map(|(name, roots)| Some((name, roots.get(&version)?.1.hash())));
        let differs = roots.filter(|(_, own)| *own != root.hash()).map(|(name, own)| (name.clone(), own)).next();
        rows.push(Listed { slot, root, why, differs });
    }
    match out.json {
        true => {
            let rows = rows.iter().map(|row| row.json(other.is_some()));
            out.answer(0, object(vec![("roots", Json::List(rows.collect()))]), "")
        }
        false => out.answer(0, Json::Null, listed_lines(args, &rows, other.map(|(name, _)| *name))),
    }
}

impl Listed {
    fn json(&self, of_two: bool) -> Json {
        let mut fields: Vec<(&'static str, Json)> = vec![
            ("version", self.root.version.into()),
            ("slot", self.slot.into()),
            ("root", to_hex(&self.root.hash()).into()),
            ("retired_since", self.root.retired_since.into()),
            ("can_be_rescued", self.why.is_none().into()),
            ("why_not", self.why.clone().into()),
        ];
        if of_two {
            let other = self.differs.as_ref().map(|(_, root)| to_hex(root));
            fields.push(("other_root", other.into()));
        }
        object(fields)
    }
}

fn listed_lines(args: &Args, rows: &[Listed], other: Option<&Path>) -> String {
    let mut lines = counted(rows.len(), "root record");
    lines += &other.map_or(String::new(), |other| format!(", with those of {}", shown(other)));
    for row in rows {
        let word = row.why.as_ref().map_or("can be rescued".to_string(), |why| {
            format!("can't be rescued: {why}")
        });
        lines += &format!("\n{}  {}  {word}", row.root.version, to_hex(&row.root.hash()));
        if let Some((copy, root)) = &row.differs {
            lines += &format!("\n   {copy} has another root for it, {}", to_hex(root));
        }
    }
    let newest = rows.iter().rev().find(|row| row.why.is_none());
    if let Some(newest) = newest {
        let with = other.map_or(String::new(), |other| format!(" --with {}", shown(other)));
        lines += &format!(
            "\nTo rescue: grants rescue {} OUT{with} --latest {} --root HEX, with the root that was signed for that version",
            shown(args.path(0)),
            newest.root.version
        );
    }
    lines
}
