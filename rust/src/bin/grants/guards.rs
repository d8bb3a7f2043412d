//! What holds a publishing back: it looks like one that was not meant, and an option says that it was.

use crate::args::{number, Args};
use crate::asked::hex32;
use crate::effect::{Ask, Effect};
use crate::fail::Fail;
use crate::plain::counted;
use grants::{Key, Root};

/// How many removals one by one a person may have written by hand: an `apply` with no more of them isn't asked whether they are meant.
const BY_HAND: usize = 10;

/// How the removals came about.
#[derive(Clone, Copy, PartialEq, Eq)]
pub enum Removals {
    /// Each is a line of the batch.
    Named,
    /// They are what a list doesn't have.
    LeftOut,
}

/// Holds back what the options don't let through. `shown` says a key as a person would.
pub fn hold(
    args: &Args,
    effect: &Effect,
    removals: Removals,
    root: Root,
    shown: &dyn Fn(&Key) -> String,
) -> Result<(), Fail> {
    if args.has("--strict") {
        strict(effect, shown)?;
    }
    let expected = args.said("--expect-root")?;
    let expected = expected.map(|text| hex32("root", &text)).transpose()?;
    let most = args.value("--most-removed").map(|word| number("N", word));
    match most.transpose()? {
        Some(most) => most_removed(effect, most as usize)?,
        None if expected.is_none() => a_tenth(effect, removals)?,
        None => {}
    }
    match expected.map(Root::from) {
        Some(expected) if expected != root => Err(Fail::Held(format!(
            "the root would be {root}, and {expected} was expected: what is published would be another list."
        ))),
        _ => Ok(()),
    }
}

fn most_removed(effect: &Effect, most: usize) -> Result<(), Fail> {
    if effect.removed <= most {
        return Ok(());
    }
    Err(Fail::Held(format!(
        "this would remove {} of {}, and --most-removed allows {most}.",
        effect.removed,
        counted(effect.before, "grant")
    )))
}

/// Above a tenth of the list, how many may go is to be said.
fn a_tenth(effect: &Effect, removals: Removals) -> Result<(), Fail> {
    let by_hand = removals == Removals::Named && effect.removed <= BY_HAND;
    if by_hand || effect.removed * 10 <= effect.before {
        return Ok(());
    }
    Err(Fail::Held(format!(
        "this would remove {} of {}, more than a tenth. If that is meant, say --most-removed {}; else see that the batch is whole.",
        effect.removed,
        counted(effect.before, "grant"),
        effect.removed
    )))
}

fn strict(effect: &Effect, shown: &dyn Fn(&Key) -> String) -> Result<(), Fail> {
    let Some(first) = effect.idle.first() else {
        return Ok(());
    };
    let more = match effect.idle.len() - 1 {
        0 => String::new(),
        n => format!(", and {} more", counted(n, "record")),
    };
    Err(Fail::Held(format!(
        "{}{more}: --strict takes no record that changes nothing.",
        idle(first, shown)
    )))
}

/// '"lyrics sonota" (5f..) is to be removed and isn't there'.
pub fn idle((key, value): &Ask, shown: &dyn Fn(&Key) -> String) -> String {
    let what = match value {
        Some(_) => "has this value already",
        None => "is to be removed and isn't there",
    };
    format!("{} {what}", shown(key))
}

/// A list to import says itself that it is whole, and that it is empty only where that is meant.
pub fn whole(args: &Args, grants: usize, ended: bool) -> Result<(), Fail> {
    if grants == 0 && !args.has("--allow-empty") {
        return Err(Fail::Held(
            "the list has no grant, so every grant would be removed. If that is meant, say --allow-empty; else see what should have written it."
                .to_string(),
        ));
    }
    if ended || args.has("--no-end") {
        return Ok(());
    }
    Err(Fail::Held(format!(
        "the list has no end line, so it may have been cut off. `grants export` writes one; add the line 'end {grants}' where this is all of it, or say --no-end."
    )))
}
