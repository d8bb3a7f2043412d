// SPDX-License-Identifier: Apache-2.0
//! The composer's editor refuses the old list: as examples/stale.c tells it, and with the same output.
//!
//! cargo run --manifest-path rust/Cargo.toml --example stale

use grants::{dates, Batch, Error, Key, Proof, Root, Seen, Statement, Store, Value, Verdict};

/// Monday, the 4th of May 2026, nine o'clock.
const MONDAY: i64 = 1_777_885_200;
const HOUR: i64 = 3_600;

/// A text, and whether it carries the desk's signature. The flag stands for a check by ssh-keygen, minisign or openssl (docs/SIGNING.md): whoever changes the
/// text loses it.
#[derive(Clone)]
struct List {
    text: String,
    by_desk: bool,
}

fn name(words: &str) -> [u8; 32] {
    grants::sha256(words.as_bytes())
}

fn seconds(text: &str) -> i64 {
    dates::parse(text).expect("a date").0
}

/// The desk publishes one change, and signs what `grants root --out` writes of it.
fn publish(
    store: &mut Store<Vec<u8>>,
    version: u32,
    (words, value): (&str, Option<&str>),
    made: &str,
    not_after: Option<&str>,
) -> Result<List, Box<dyn std::error::Error>> {
    let mut batch = Batch::new();
    match value {
        Some(value) => batch.insert(name(words), Value::from(name(value)))?,
        None => batch.delete(name(words))?,
    };
    let statement = Statement {
        version,
        root: store.apply(version, &batch)?.root,
        bits: None,
        published: None,
        made: seconds(made),
        not_after: not_after.map(seconds),
    };
    Ok(List {
        text: statement.text(),
        by_desk: true,
    })
}

/// What an editor does with a list and a proof from anybody: the signature, the form, whether it is stale, and only then the proof.
#[derive(Default)]
struct Editor {
    seen: Seen,
}

impl Editor {
    fn may_open(&mut self, when: &str, now: i64, list: &List, words: &str, proof: &Proof) {
        println!(
            "{when}: {}",
            self.answer(now, list, Key::from(name(words)), proof)
        );
    }

    fn answer(&mut self, now: i64, list: &List, key: Key, proof: &Proof) -> String {
        if !list.by_desk {
            return "refused, the desk didn't sign this list".to_string();
        }
        let Some(statement) = Statement::read(list.text.as_bytes()) else {
            return "refused, this is no statement".to_string();
        };
        let version = statement.version;
        match self.seen.take(&statement, now) {
            Verdict::Fresh => {}
            stale => return format!("refused, the list of version {version} is {stale}"),
        }
        let shown = match statement.root {
            Root::EMPTY => "nothing is granted".to_string(),
            root => match proof.verify(root, key) {
                Ok(Some(_)) => "the grant stands".to_string(),
                Ok(None) => "there is no such grant".to_string(),
                Err(refused) => refusal(refused),
            },
        };
        format!("the list of version {version} is fresh; {shown}")
    }
}

fn refusal(refused: Error) -> String {
    format!("the proof shows nothing, refused with {}", refused.number())
}

fn main() -> Result<(), Box<dyn std::error::Error>> {
    let score = "chords symphony";
    let (mut composer, mut traveller) = (Editor::default(), Editor::default());
    let mut store = Store::with_capacity(20)?;
    let desk = &mut store;

    // Version 1 grants, version 2 grants another plugin something else, version 3 withdraws the first. Each list is good for two days.
    let tuner = "tuner sonata";
    publish(
        desk,
        1,
        (score, Some("read")),
        "2026-05-04T08:00:00Z",
        Some("2026-05-06T08:00:00Z"),
    )?;
    let old = publish(
        desk,
        2,
        (tuner, Some("read")),
        "2026-05-04T09:00:00Z",
        Some("2026-05-06T09:00:00Z"),
    )?;
    let then = desk.prove(2, name(score))?;
    let fresh = publish(
        desk,
        3,
        (score, None),
        "2026-05-05T09:00:00Z",
        Some("2026-05-07T09:00:00Z"),
    )?;
    let now = desk.prove(3, name(score))?;
    let after = |hours: i64| MONDAY + hours * HOUR;

    composer.may_open("monday", after(1), &old, score, &then);
    composer.may_open("tuesday, withdrawn", after(25), &fresh, score, &now);

    // A plugin brings its own copy of the list: all of it was signed, and all of it was true on monday.
    composer.may_open("the old list again", after(26), &old, score, &then);
    composer.may_open(
        "the old proof with the new list",
        after(26),
        &fresh,
        score,
        &then,
    );
    let forged = List {
        text: old.text.replace("version 2", "version 9"),
        by_desk: false,
    };
    composer.may_open(
        "the old list under a higher number",
        after(26),
        &forged,
        score,
        &then,
    );

    // An editor that was offline has seen no newer list. The date is what ends it, also for a clock that is set back.
    traveller.may_open("offline, before its date", after(47), &old, score, &then);
    traveller.may_open("offline, after its date", after(49), &old, score, &then);
    traveller.may_open("offline, the clock set back", after(0), &old, score, &then);
    traveller.may_open("online again", after(50), &fresh, score, &then);
    traveller.may_open(
        "online, the clock a day behind",
        after(24),
        &fresh,
        score,
        &now,
    );

    // What a desk must not sign: a list without a date, and two lists of one number.
    let undated = publish(desk, 4, (tuner, None), "2026-05-06T09:00:00Z", None)?;
    composer.may_open("without a date", after(49), &undated, score, &now);
    let root = |list: &List| list.text.split('\n').nth(2).map(str::to_string);
    let (root_then, root_now) = (root(&old).unwrap(), root(&fresh).unwrap());
    let twice = List {
        text: fresh.text.replace(&root_now, &root_then),
        by_desk: true,
    };
    composer.may_open(
        "version 3 signed with another root",
        after(49),
        &twice,
        score,
        &then,
    );

    // With the last grant gone the root is 32 zero bytes: itself the proof.
    let empty = publish(
        desk,
        5,
        (tuner, None),
        "2026-05-06T10:00:00Z",
        Some("2026-05-08T10:00:00Z"),
    )?;
    composer.may_open("the empty list", after(50), &empty, score, &then);
    println!(
        "the composer's editor keeps: version {}",
        composer.seen.version
    );
    Ok(())
}
