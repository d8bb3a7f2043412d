//! The commands that make one call of the library and say what came.

use crate::args::{number, Args};
use crate::asked::{key, read_kept, read_store, refused, version, writable};
use crate::book::{self, write_book, Book};
use crate::fail::Fail;
use crate::files::{self, is_shelf, Locked, PROOF_LIMIT};
use crate::finding::{self, Accepted};
use crate::held;
use crate::json::{object, Json};
use crate::message;
use crate::missing::{self, refused_read};
use crate::moving;
use crate::out::{both_to_output, Out, ABSENT};
use crate::palette;
use crate::plain::{counted, shown};
use crate::proof::{proof_advice, proof_bytes};
use crate::shelves;
use crate::sizing::Plan;
use crate::statement::{bits, known_root};
use grants::{dates, to_hex, Slot, Store};
use std::path::Path;

pub fn format(args: &Args, out: &mut Out) -> Result<u8, Fail> {
    let path = writable(args)?;
    if args.has("--bits") {
        return shelves::format(args, path, out);
    }
    if let Some(name) = ["--slots", "--list-slots"].into_iter().find(|name| args.has(name)) {
        return Err(Fail::Usage(format!("{name} goes with --bits, for a shelf")));
    }
    if is_shelf(path) {
        return Err(Fail::File(format!(
            "{} is a shelf: --bits with --force makes it afresh; nothing was changed",
            shown(path)
        )));
    }
    let plan = Plan::of(args)?;
    let capacity = match (&plan, args.word(1)) {
        (Some(_), Some(_)) => {
            return Err(Fail::Usage(
                "CAPACITY and --for both say how many slots: name one of them".to_string(),
            ))
        }
        (Some(plan), None) => plan.capacity()?,
        (None, Some(word)) => number("CAPACITY", word)?,
        (None, None) => return Err(args.missing("CAPACITY")),
    };
    let store = Store::with_capacity(capacity).map_err(|e| {
        Fail::Refused(
            e,
            format!("{capacity} slots were asked for: a store has 1 to 16,384."),
        )
    })?;
    book::is_none_of(args, &[path])?;
    Book::of(args, Some(path))?.may_be_written()?;
    let locked = if files::already_there(path) {
        if !args.has("--force") {
            return Err(Fail::File(format!(
                "{} is there already and was left alone; --force makes a fresh store of it, and what it holds is lost",
                shown(path)
            )));
        }
        let mut locked = Locked::take(args, path)?;
        locked.replace(store.as_bytes())?;
        locked
    } else {
        files::create(path, store.as_bytes())?;
        Locked::take(args, path)?
    };
    out.changed = true;
    // A book that lies there speaks of another history, unless someone has published already.
    let mut book = Book::of(args, Some(path))?;
    if book.latest().is_some() && locked.still_holds(store.as_bytes()) {
        book.add_fresh(dates::now());
        write_book(&book)?;
    }
    let length = store.as_bytes().len();
    out.answer(
        0,
        object(vec![
            ("capacity", capacity.into()),
            ("bytes", length.into()),
        ]),
        format_args!(
            "{}: {}, {length} bytes{}",
            shown(path),
            counted(capacity as usize, "free slot"),
            plan.map_or(String::new(), |plan| format!("; {}", plan.advice()))
        ),
    )
}

pub fn check(args: &Args, out: &mut Out) -> Result<u8, Fail> {
    let path = args.path(0);
    let store = read_kept(path)?;
    let refused = store.refused(path);
    store.check().map_err(|e| missing::checked(&store, path, e))?;
    let header = store.header().map_err(&refused)?;
    out.answer(
        0,
        object(vec![
            ("sound", true.into()),
            ("oldest", header.oldest.into()),
            ("latest", header.latest.into()),
        ]),
        format_args!(
            "{} is sound, versions {} to {}",
            shown(path),
            header.oldest,
            header.latest
        ),
    )
}

pub fn prune(args: &Args, out: &mut Out) -> Result<u8, Fail> {
    let path = writable(args)?;
    let version = number("VERSION", args.word(1).unwrap_or_default())?;
    let mut locked = Locked::take(args, path)?;
    let (store, freed) = match is_shelf(path) {
        true => shelves::pruned(path, version, &mut locked)?,
        false => {
            let mut store = Store::over(locked.read()?);
            let freed = store.prune(version).map_err(refused(&store, path))?;
            locked.replace(store.as_bytes())?;
            (store, u64::from(freed))
        }
    };
    out.changed = true;
    let header = store.header().map_err(refused(&store, path))?;
    out.answer(
        0,
        object(vec![
            ("freed", Json::Number(freed)),
            ("oldest", header.oldest.into()),
            ("latest", header.latest.into()),
        ]),
        format_args!(
            "{} freed, versions {} to {} kept",
            counted(freed, "record"),
            header.oldest,
            header.latest
        ),
    )
}

pub fn get(args: &Args, out: &mut Out) -> Result<u8, Fail> {
    let path = args.path(0);
    let key = key(args, 1, Some(path))?;
    let store = read_kept(path)?;
    let version = version(args, 2, &store, path)?;
    let value =
        store
            .get(version, &key)
            .map_err(refused_read(&store, path, version, Some(&key)))?;
    let value = value.map(|v| v.to_string());
    out.answer(
        if value.is_some() { 0 } else { ABSENT },
        object(vec![
            ("version", version.into()),
            ("key", to_hex(&key).into()),
            ("value", value.clone().into()),
        ]),
        value.as_deref().unwrap_or("absent"),
    )
}

/// The pocket profile has no call for several keys.
fn one_proof(args: &Args) -> Result<(), Fail> {
    for name in ["--pocket", "--ics23"] {
        if args.has(name) {
            return Err(Fail::Usage(format!("{name} is for one key")));
        }
    }
    Ok(())
}

/// What goes with a message alone, and what doesn't.
fn message_options(args: &Args) -> Result<(), Fail> {
    for name in ["--raw-key", "--raw-value"] {
        if args.has(name) && !args.has("--ics23") {
            return Err(Fail::Usage(format!("{name} goes with --ics23")));
        }
    }
    match args.has("--ics23") && args.has("--pocket") {
        true => Err(Fail::Usage("--pocket does not go with --ics23".to_string())),
        false => Ok(()),
    }
}

pub fn prove(args: &Args, out: &mut Out) -> Result<u8, Fail> {
    message_options(args)?;
    if args.has("--version") || args.has("--keys") {
        one_proof(args)?;
        return palette::prove(args, out);
    }
    if args.word(1).is_none() {
        return Err(args.missing("KEY"));
    }
    if args.word(3).is_some() {
        return Err(Fail::Usage(
            "several keys want --version VERSION, so that no key is taken for a version"
                .to_string(),
        ));
    }
    let path = args.path(0);
    let key = key(args, 1, Some(path))?;
    let store = read_kept(path)?;
    let version = version(args, 2, &store, path)?;
    if args.has("--ics23") {
        return message::prove(args, out, &store, version, &key);
    }
    let refused = refused_read(&store, path, version, Some(&key));
    let proof = match args.has("--pocket") {
        true => store.prove_pocket(version, &key),
        false => store.prove(version, &key),
    }
    .map_err(&refused)?;
    let bytes = proof.as_bytes();
    let root = store.root(version).map_err(&refused)?;
    let value = store.get(version, &key).map_err(&refused)?;
    let to = args.value("--out").map(Path::new);
    match to {
        Some(to) if to.as_os_str() == "-" => {
            if out.json {
                return Err(both_to_output());
            }
            let mut answer = out.decided(0);
            answer.raw(bytes)?;
            return answer.end();
        }
        Some(to) => files::write(args, to, bytes, &[path])?,
        None => {}
    }
    let line = match to {
        Some(to) => {
            let shows = if value.is_some() { "present" } else { "absent" };
            format!(
                "{}: {} bytes, {shows} in version {version}",
                shown(to),
                bytes.len()
            )
        }
        None => to_hex(bytes),
    };
    out.answer(
        0,
        object(vec![
            ("version", version.into()),
            ("root", root.to_string().into()),
            ("key", to_hex(&key).into()),
            ("value", value.map(|v| v.to_string()).into()),
            ("length", bytes.len().into()),
            ("proof", to.is_none().then(|| to_hex(bytes)).into()),
        ]),
        line,
    )
}

pub fn verify(args: &Args, out: &mut Out) -> Result<u8, Fail> {
    if args.has("--ics23") {
        return message::verify(args, out);
    }
    if args.word(3).is_some() || args.has("--keys") {
        one_proof(args)?;
        if args.has("--against") {
            return Err(Fail::Usage("--against takes one key and its proof".to_string()));
        }
        return palette::verify(args, out);
    }
    if args.word(2).is_none() {
        return Err(args.missing("PROOF"));
    }
    let (root, signed) = known_root(args)?;
    let bits = bits(args, signed)?;
    let key = key(args, 1, None)?;
    let path = args.path(2);
    let proof = proof_bytes(files::read(path, PROOF_LIMIT)?)?;
    let value = match (args.has("--pocket"), bits) {
        (true, Some(bits)) => grants::shelf_verify_pocket(&root, bits, &key, &proof),
        (true, None) => grants::verify_pocket(&root, &key, &proof),
        (false, Some(bits)) => grants::shelf_verify(&root, bits, &key, &proof),
        (false, None) => grants::verify(&root, &key, &proof),
    }
    .map_err(|e| Fail::Refused(e, proof_advice(e, path)))?;
    if let Some(store) = args.value("--against").map(Path::new) {
        let of = Accepted { root: root.as_ref(), bits, key: key.as_ref(), proof: &proof, value };
        return finding::against(args, store, &of, out);
    }
    for name in ["--version", "--out"] {
        if args.has(name) {
            return Err(Fail::Usage(format!("{name} goes with --against STORE")));
        }
    }
    let value = value.map(|v| v.to_string());
    let line = match &value {
        Some(value) => format!("present {value}"),
        None => "absent".to_string(),
    };
    out.answer(
        if value.is_some() { 0 } else { ABSENT },
        object(vec![
            ("root", to_hex(&root).into()),
            ("key", to_hex(&key).into()),
            ("present", value.is_some().into()),
            ("value", value.clone().into()),
        ]),
        line,
    )
}

pub fn stat(args: &Args, out: &mut Out) -> Result<u8, Fail> {
    let path = args.path(0);
    if is_shelf(path) {
        return shelves::stat(path, out);
    }
    let mut store = read_store(path)?;
    let length = store.as_bytes().len();
    // A store of the old form is told of as what it is brought over.
    let old = store.is_old_form();
    if old {
        store = moving::brought_over(&store, path)?;
    }
    let header = store.header().map_err(refused(&store, path))?;
    let found = store.slots_found().map_err(refused(&store, path))?;
    let free = found.iter().filter(|slot| **slot == Slot::Free).count();
    let used = header.capacity as usize - free;
    let kept = u64::from(header.latest - header.oldest) + 1;
    // None where the latest root's record is spoilt.
    let grants = store.count(header.latest).ok();
    // Of a store that isn't sound nothing is guessed.
    let slots = store.slots().ok();
    let spans = slots.as_ref().map(|slots| held::spans(header, slots, []));
    let publishings = spans.as_ref().map(Vec::len);
    let each = slots
        .zip(spans)
        .and_then(|(slots, spans)| held::usual(&slots, &spans));
    let left = each.map(|each| (each, (free as f64 / each) as usize));
    if out.json {
        let fields = object(vec![
            ("form", if old { moving::OLD } else { moving::NEW }.into()),
            ("capacity", header.capacity.into()),
            ("used", used.into()),
            ("free", free.into()),
            ("oldest", header.oldest.into()),
            ("latest", header.latest.into()),
            ("kept", Json::Number(kept)),
            ("publishings", publishings.into()),
            ("grants", grants.map(Json::Number).unwrap_or(Json::Null)),
            ("bytes", length.into()),
            ("publishings_left", left.map(|(_, left)| left).into()),
        ]);
        return out.answer(0, fields, "");
    }
    let gaps = publishings.filter(|publishings| *publishings as u64 != kept);
    let among = gaps.map_or(String::new(), |n| format!(", {}", counted(n, "publishing")));
    let mut lines = format!(
        "form      {}\ncapacity  {}\nused      {used}\nfree      {free}\nkept      {} to {}, {}{among}\ngrants    {}\nbytes     {length}",
        match old {
            true => "old, slots of 120 bytes (grants move brings it over)",
            false => "new, slots of 128 bytes",
        },
        counted(header.capacity as usize, "slot"),
        header.oldest,
        header.latest,
        counted(kept as usize, "version"),
        grants.map_or("-".to_string(), |n| format!("{n} in version {}", header.latest)),
    );
    if let Some((each, left)) = left {
        lines += &format!(
            "\nleft      about {}, if each makes {each:.1} records as the last ones did",
            counted(left, "publishing")
        );
    }
    out.answer(0, Json::Null, lines)
}
