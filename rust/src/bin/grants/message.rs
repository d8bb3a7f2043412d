//! ICS 23's message: a proof for partners' verifiers, with raw keys and values in it. What was hashed comes from files, or is a name of the book.

use crate::args::Args;
use crate::asked::key;
use crate::book::Book;
use crate::fail::Fail;
use crate::files;
use crate::json::{object, Json};
use crate::kept::Kept;
use crate::missing::refused_read;
use crate::out::{both_to_output, Out, ABSENT};
use crate::plain::{counted, quoted, shown, words, Word};
use crate::proof::{proof_advice, proof_bytes};
use crate::statement::known_root;
use grants::{
    read_message, sha256, to_hex, write_message, Message, RawLeaf, ABSENCE_MESSAGE_BYTES,
    RAW_KEY_BYTES, RAW_VALUE_BYTES,
};
use std::collections::HashMap;
use std::path::Path;

/// A byte more than a raw value has.
const RAW_LIMIT: u64 = RAW_VALUE_BYTES as u64 + 1;

/// Hex digits of the longest message, with some room for what stands between them.
const MESSAGE_LIMIT: u64 = 4 * ABSENCE_MESSAGE_BYTES as u64;

/// What is known to hash to 32 bytes: names of the book, and the files given.
fn known(args: &Args, store: &Path) -> Result<HashMap<[u8; 32], Vec<u8>>, Fail> {
    let book = Book::of(args, Some(store))?;
    let own = |(word, name): ([u8; 32], &str)| {
        (sha256(name.as_bytes()) == word).then(|| (word, name.as_bytes().to_vec()))
    };
    let mut raw: HashMap<[u8; 32], Vec<u8>> = book.names().into_iter().filter_map(own).collect();
    // A name between double quotes that is asked for is raw itself.
    if let Ok([Word::Quoted(name)]) = words(&args.text(1)).as_deref() {
        raw.insert(sha256(name.as_bytes()), name.as_bytes().to_vec());
    }
    for name in ["--raw-key", "--raw-value"] {
        for file in args.all_said(name)? {
            let bytes = files::read(Path::new(&file), RAW_LIMIT)?;
            raw.insert(sha256(&bytes), bytes);
        }
    }
    Ok(raw)
}

/// The hashes of a proof's leaves, key and value of each, the left one first; the record is in form.
fn leaves(proof: &[u8]) -> Vec<[[u8; 32]; 2]> {
    let at = |at: usize| -> [u8; 32] { proof[at..at + 32].try_into().expect("32 bytes") };
    let length = |at: usize| {
        u32::from_le_bytes(proof[at..at + 4].try_into().expect("4 bytes")) as usize
    };
    let mut begin = if proof[4] == 16 { 0 } else { 40 };
    let mut found = vec![];
    while begin < proof.len() {
        found.push([at(begin + 8), at(begin + 40)]);
        begin += length(begin);
    }
    found
}

/// A message shows raw keys, and its check hashes them. The keys of a shelf's list are a part's bits and zeros, which nothing is known to hash to.
fn no_message() -> Fail {
    Fail::Usage(
        "--ics23 is for the proof of a store: a message shows the raw key of every leaf, and those of a shelf's list, a part's bits and then zeros, are the SHA-256 of nothing that is known; give partners a root of a store of their own"
            .to_string(),
    )
}

/// `grants prove --ics23`: the message of one key.
pub fn prove(args: &Args, out: &mut Out, store: &Kept, version: u32, key: &[u8]) -> Result<u8, Fail> {
    if store.shelf().is_some() {
        return Err(no_message());
    }
    let path = args.path(0);
    let refused = refused_read(store, path, version, Some(key));
    let proof = store.prove(version, key).map_err(&refused)?;
    let raw = known(args, path)?;
    let of = |what: &str, word: &[u8; 32]| {
        raw.get(word).map(Vec::as_slice).ok_or_else(|| {
            Fail::Usage(format!(
                "no raw {what} is known that hashes to {}: give it with --raw-{what} FILE, or put its name in the book",
                to_hex(word)
            ))
        })
    };
    let asked: [u8; 32] = key.try_into().expect("the proof was made for 32 bytes");
    let asked = of("key", &asked)?;
    let mut lent = vec![];
    for [key, value] in leaves(proof.as_bytes()) {
        lent.push(RawLeaf { key: of("key", &key)?, value: of("value", &value)? });
    }
    let bytes = write_message(&proof, asked, &lent).map_err(|e| {
        let most = format!("A raw key has 1 to {RAW_KEY_BYTES} bytes, a raw value 1 to {RAW_VALUE_BYTES}.");
        Fail::Refused(e, most)
    })?;
    let root = store.root(version).map_err(&refused)?;
    let to = args.value("--out").map(Path::new);
    match to {
        Some(to) if to.as_os_str() == "-" => {
            if out.json {
                return Err(both_to_output());
            }
            let mut answer = out.decided(0);
            answer.raw(&bytes)?;
            return answer.end();
        }
        Some(to) => files::write(args, to, &bytes, &[path])?,
        None => {}
    }
    let present = proof.as_bytes()[4] == 16;
    let shows = if present { "present" } else { "absent" };
    let line = match to {
        Some(to) => format!("{}: a message of {}, {shows} in version {version}", shown(to), counted(bytes.len(), "byte")),
        None => to_hex(&bytes),
    };
    out.answer(
        0,
        object(vec![
            ("version", version.into()),
            ("root", root.to_string().into()),
            ("key", to_hex(key).into()),
            ("present", present.into()),
            ("length", bytes.len().into()),
            ("message", to.is_none().then(|| to_hex(&bytes)).into()),
        ]),
        line,
    )
}

/// Raw bytes as they are said: between double quotes where they are text, else hex digits.
fn said(raw: &[u8]) -> String {
    match std::str::from_utf8(raw) {
        Ok(text) if !text.chars().any(char::is_control) => quoted(text),
        _ => to_hex(raw),
    }
}

fn read(path: &Path) -> Result<Message<Vec<u8>>, Fail> {
    let bytes = proof_bytes(files::read(path, MESSAGE_LIMIT)?)?;
    read_message(bytes).map_err(|e| {
        let advice = format!(
            "{} is no ICS 23 message of these grants in its one encoding: get it again.",
            shown(path)
        );
        Fail::Refused(e, advice)
    })
}

/// `grants verify --ics23`: the words are ROOT and the message, or ROOT, KEY and the message.
pub fn verify(args: &Args, out: &mut Out) -> Result<u8, Fail> {
    for name in ["--pocket", "--against", "--keys", "--version", "--out"] {
        if args.has(name) {
            return Err(Fail::Usage(format!("{name} does not go with --ics23")));
        }
    }
    let last = args.rest(0).count() - 1;
    if last > 2 {
        return Err(Fail::Usage("with --ics23 the words are ROOT and a message, or ROOT, KEY and a message".to_string()));
    }
    let (root, bits) = known_root(args)?;
    if bits.is_some() {
        return Err(no_message());
    }
    let path = args.path(last);
    let message = read(path)?;
    let asked = match last {
        2 => key(args, 1, None)?,
        _ => message.key().as_bytes().to_vec(),
    };
    let value = message
        .proof()
        .verify(&root, &asked)
        .map_err(|e| Fail::Refused(e, proof_advice(e, path)))?;
    let leaves = message.leaves();
    let raw = value.and(leaves.first()).map(|leaf| leaf.value);
    let line = match (value, raw) {
        (Some(value), Some(raw)) => format!("{} present {value} {}", said(message.asked()), said(raw)),
        _ => format!("{} absent", said(message.asked())),
    };
    out.answer(
        if value.is_some() { 0 } else { ABSENT },
        object(vec![
            ("root", to_hex(&root).into()),
            ("key", to_hex(&asked).into()),
            ("raw_key", to_hex(message.asked()).into()),
            ("present", value.is_some().into()),
            ("value", value.map(|v| v.to_string()).into()),
            ("raw_value", raw.map(to_hex).into()),
        ]),
        line,
    )
}

/// A leaf as it stands in a message: its fields, then its steps from the leaf upwards.
fn leaf_text(text: &mut String, indent: &str, leaf: &RawLeaf<'_>, record: &[u8]) {
    *text += &format!("{indent}key    {}, {}\n", counted(leaf.key.len(), "byte"), said(leaf.key));
    *text += &format!("{indent}value  {}, {}\n", counted(leaf.value.len(), "byte"), said(leaf.value));
    *text += &format!("{indent}leaf   hash SHA256, prehash_key SHA256, prehash_value SHA256, length NO_PREFIX, prefix 01\n");
    *text += &format!("{indent}path   {}, from the leaf upwards\n", counted(record[72..].len() / 33, "step"));
    for (step, n) in record[72..].chunks_exact(33).zip(1..) {
        let sibling = to_hex(&step[1..]);
        *text += &match step[0] {
            0 => format!("{indent}  {n}  hash SHA256, prefix 00, suffix {sibling}\n"),
            _ => format!("{indent}  {n}  hash SHA256, prefix 00{sibling}\n"),
        };
    }
}

fn leaf_json(leaf: &RawLeaf<'_>, record: &[u8]) -> Json {
    let step = |step: &[u8]| {
        let sibling = to_hex(&step[1..]);
        let (prefix, suffix) = match step[0] {
            0 => ("00".to_string(), sibling),
            _ => (format!("00{sibling}"), String::new()),
        };
        object(vec![("prefix", prefix.into()), ("suffix", suffix.into())])
    };
    object(vec![
        ("key", to_hex(leaf.key).into()),
        ("value", to_hex(leaf.value).into()),
        ("path", Json::List(record[72..].chunks_exact(33).map(step).collect())),
    ])
}

/// `grants ics23 show FILE`: a message as text.
pub fn ics23(args: &Args, out: &mut Out) -> Result<u8, Fail> {
    if args.text(0) != "show" {
        return Err(Fail::Usage("usage: grants ics23 show FILE".to_string()));
    }
    let message = read(args.path(1))?;
    let record = message.proof().as_bytes();
    let leaves = message.leaves();
    let length = |at: usize| u32::from_le_bytes(record[at..at + 4].try_into().expect("4 bytes")) as usize;
    if record[4] == 16 {
        let mut text = "exist\n".to_string();
        leaf_text(&mut text, "  ", &leaves[0], record);
        let fields = object(vec![("exist", leaf_json(&leaves[0], record))]);
        return out.answer(0, fields, text.trim_end());
    }
    let (flags, first) = (record[6], 40 + length(40));
    let parts = [&record[40..first], &record[first..]];
    let sides: &[&'static str] = match flags {
        1 => &["left"],
        2 => &["right"],
        _ => &["left", "right"],
    };
    let mut text = format!("nonexist\n  key    {}, {}\n", counted(message.asked().len(), "byte"), said(message.asked()));
    let mut fields = vec![("key", to_hex(message.asked()).into())];
    for ((side, leaf), record) in sides.iter().zip(&leaves).zip(parts) {
        text += &format!("  {side}\n");
        leaf_text(&mut text, "    ", leaf, record);
        fields.push((side, leaf_json(leaf, record)));
    }
    out.answer(0, object(vec![("nonexist", object(fields))]), text.trim_end())
}

#[cfg(test)]
mod tests {
    use super::*;

    #[test]
    fn leaves_of_a_record() {
        let mut presence = vec![72 + 33, 0, 0, 0, 16, 0, 1, 0];
        presence.extend([1; 32]);
        presence.extend([2; 32]);
        presence.extend([0; 33]);
        assert_eq!(leaves(&presence), [[[1; 32], [2; 32]]]);
        let mut absence = vec![0, 0, 0, 0, 17, 0, 3, 0];
        absence.extend([9; 32]);
        absence.extend(&presence);
        absence.extend(&presence);
        assert_eq!(leaves(&absence).len(), 2);
        assert_eq!(said(b"viola"), "\"viola\"");
        assert_eq!(said(&[0, 255]), "00ff");
    }
}
