//! The proofs of several keys, made and checked at once.

use crate::args::{number, Args};
use crate::asked::{self, read_kept, Kept, Keys, LENGTH_ADVICE};
use crate::fail::Fail;
use crate::files;
use crate::json::{object, Json};
use crate::out::{both_to_output, Out, ABSENT};
use crate::plain::{counted, quoted, shown, words, Word};
use crate::proof::{proof_advice, proof_bytes};
use crate::statement::{bits, known_root};
use grants::{to_hex, Error, Key, Palette, Value, PALETTE_KEYS, PROOF_BYTES};
use std::path::Path;

/// The most bytes of a file of proofs: hex digits, with some room for what stands between them.
const PALETTE_LIMIT: u64 = 4 * (PALETTE_KEYS * PROOF_BYTES) as u64;

/// The keys that are asked for: the lines of `--keys`, else the words from one to another. A list is whole keys, so each must be one.
fn keys(args: &Args, from: usize, to: usize, store: Option<&Path>) -> Result<Vec<Key>, Fail> {
    let asked = match args.value("--keys") {
        Some(file) => lines(Path::new(file))?,
        None => (from..to).map(|i| args.text(i)).collect(),
    };
    let known = Keys::new(args, store);
    let each = asked.iter().zip(1..).map(|(text, i)| {
        let bytes: Result<[u8; 32], Vec<u8>> = known.key(text)?.try_into();
        bytes.map(Key::from).map_err(|bytes| {
            let has = counted(bytes.len(), "byte");
            let advice = format!("Key {i} has {has}. {LENGTH_ADVICE}");
            Fail::Refused(Error::NotThirtyTwoBytes, advice)
        })
    });
    each.collect()
}

/// The keys of a file, a line each; empty lines and what follows '#' are passed over.
fn lines(path: &Path) -> Result<Vec<String>, Fail> {
    let bytes = files::read(path, files::BATCH_LIMIT)?;
    let off_form = |line: usize, why: &str| {
        Fail::Usage(format!("line {line} of {} is no key: {why}", shown(path)))
    };
    let text = std::str::from_utf8(&bytes).map_err(|_| off_form(1, "it is no text in UTF-8"))?;
    let mut keys = vec![];
    for (line, at) in text.trim_start_matches('\u{feff}').lines().zip(1..) {
        match &words(line).map_err(|why| off_form(at, why))?[..] {
            [] => {}
            [Word::Plain(digits)] => keys.push(digits.clone()),
            [Word::Quoted(name)] => keys.push(quoted(name)),
            _ => return Err(off_form(at, "a line has one key")),
        }
    }
    Ok(keys)
}

fn count(args: &Args) -> usize {
    args.rest(0).count()
}

/// The version that several keys are asked for in: with `--keys` as for one key, else by `--version`.
fn version(args: &Args, store: &Kept, path: &Path) -> Result<u32, Fail> {
    let twice = "--version and --at both say which version: name one of them";
    match (args.value("--version"), args.has("--keys")) {
        (Some(_), _) if args.has("--at") => Err(Fail::Usage(twice.to_string())),
        (Some(_), true) if args.word(1).is_some() => Err(Fail::Usage(
            "with --keys the words are STORE and VERSION alone".to_string(),
        )),
        (Some(word), _) => number("VERSION", word),
        (None, _) => asked::version(args, 1, store, path),
    }
}

pub fn prove(args: &Args, out: &mut Out) -> Result<u8, Fail> {
    let path = args.path(0);
    if args.has("--keys") && args.word(2).is_some() {
        return Err(Fail::Usage(
            "with --keys the words are STORE and VERSION alone".to_string(),
        ));
    }
    let keys = keys(args, 1, count(args), Some(path))?;
    let store = read_kept(path)?;
    let version = version(args, &store, path)?;
    let refused = store.refused(path);
    let palette = store.palette(version, &keys).map_err(|e| match e.refusal() {
        Some(error @ Error::NotThirtyTwoBytes) => Fail::Refused(
            error,
            format!(
                "{} were asked for: a call takes 256 at most.",
                counted(keys.len(), "key")
            ),
        ),
        _ => refused(e),
    })?;
    let bytes = palette.as_bytes();
    let root = store.root(version).map_err(&refused)?;
    let to = args.value("--out").map(Path::new);
    match to {
        Some(to) if to.as_os_str() == "-" => {
            if out.json {
                return Err(both_to_output());
            }
            let mut answer = out.decided(0);
            answer.raw(bytes)?;
            return answer.end();
        }
        Some(to) => files::write(args, to, bytes, &[path])?,
        None => {}
    }
    let line = match to {
        Some(to) => format!(
            "{}: {}, {} in version {version}",
            shown(to),
            counted(keys.len(), "proof"),
            counted(bytes.len(), "byte")
        ),
        None => to_hex(bytes),
    };
    let each = keys.iter().zip(store.pieces(&palette)).map(|(key, proof)| {
        let fields = vec![
            ("key", key.to_string().into()),
            ("length", proof.len().into()),
        ];
        object(fields)
    });
    let fields = object(vec![
        ("version", version.into()),
        ("root", root.to_string().into()),
        ("proofs", Json::List(each.collect())),
        ("length", bytes.len().into()),
        ("bytes", to.is_none().then(|| to_hex(bytes)).into()),
    ]);
    out.answer(0, fields, line)
}

pub fn verify(args: &Args, out: &mut Out) -> Result<u8, Fail> {
    let (root, statement_bits) = known_root(args)?;
    let last = count(args) - 1;
    if args.has("--keys") && last > 1 {
        return Err(Fail::Usage(
            "with --keys the words are ROOT and PROOF alone".to_string(),
        ));
    }
    let keys = keys(args, 1, last, None)?;
    let path = args.path(last);
    let palette = Palette::from_bytes(proof_bytes(files::read(path, PALETTE_LIMIT)?)?);
    let shows = match bits(args, statement_bits)? {
        Some(bits) => palette.verify_shelf(&root, bits, &keys),
        None => palette.verify(&root, &keys),
    };
    let shows = shows.map_err(|refused| {
        let advice = proof_advice(refused.error, path);
        match keys.get(refused.position) {
            Some(key) => Fail::Refused(
                refused.error,
                format!(
                    "The proof for key {}, {key}. {advice}",
                    refused.position + 1
                ),
            ),
            None => Fail::Refused(
                refused.error,
                format!(
                    "{} has more than {}.",
                    shown(path),
                    counted(keys.len(), "proof")
                ),
            ),
        }
    })?;
    let status = if shows.iter().all(Option::is_some) {
        0
    } else {
        ABSENT
    };
    let said = |value: &Option<Value>| {
        value.map_or("absent".to_string(), |value| format!("present {value}"))
    };
    let lines: Vec<String> = keys
        .iter()
        .zip(&shows)
        .map(|(key, value)| format!("{key} {}", said(value)))
        .collect();
    let each = keys.iter().zip(&shows).map(|(key, value)| {
        object(vec![
            ("key", key.to_string().into()),
            ("present", value.is_some().into()),
            ("value", value.map(|value| value.to_string()).into()),
        ])
    });
    let fields = object(vec![
        ("root", to_hex(&root).into()),
        ("keys", Json::List(each.collect())),
    ]);
    out.answer(status, fields, lines.join("\n"))
}
