//! Where a store has too few free slots: how many a publishing takes, and what would make room for it.

use crate::held::Bytes;
use crate::plain::counted;
use grants::{store_bytes, Error, Store, CAPACITY_AT, MOST_SLOTS};

/// The same store with as many slots as there may be. It is for counting alone, and never written.
fn widest(store: &Bytes) -> Bytes {
    let mut bytes = vec![0; store_bytes(MOST_SLOTS)];
    let known = store.as_bytes();
    bytes[..known.len()].copy_from_slice(known);
    bytes[CAPACITY_AT].copy_from_slice(&MOST_SLOTS.to_le_bytes());
    Store::over(bytes)
}

/// How many records these batches make, or none where no store has that many slots.
fn needed(store: &Bytes, numbers: &[u32], batches: &[&[u8]]) -> Result<Option<usize>, Error> {
    let mut wide = widest(store);
    let mut sum = 0;
    for (number, batch) in numbers.iter().zip(batches) {
        match wide.apply_bytes(*number, batch) {
            Ok(made) => sum += made.new_records as usize,
            Err(Error::NoRoom) => return Ok(None),
            Err(other) => return Err(other),
        }
    }
    Ok(Some(sum))
}

/// What is said of the store that has too few slots.
pub struct Words {
    /// What it is called.
    store: String,
    /// What gives it more slots, up to their number.
    grow: String,
    /// What helps where no store has as many slots.
    wider: String,
    /// What is as it was.
    whole: String,
}

impl Words {
    pub fn of_store(name: &str) -> Words {
        Words {
            store: name.to_string(),
            grow: format!("give the store more slots (grants grow {name}"),
            wider: format!("Make a shelf of it (grants shelf {name} DIR --bits 8; docs/SCALE.md)"),
            whole: name.to_string(),
        }
    }

    pub fn of_part(part: u16, shelf: &str) -> Words {
        Words {
            store: format!("part {part:03x} of {shelf}"),
            grow: format!("give the parts more slots (grants grow {shelf}"),
            wider: format!("Make a shelf of more bits of it (grants shelf {shelf} NEW --bits B; docs/SCALE.md)"),
            whole: shelf.to_string(),
        }
    }
}

/// What to do where these batches found too few free slots in a store that the library calls sound.
pub fn advice(
    store: &Bytes,
    words: &Words,
    numbers: &[u32],
    batches: &[&[u8]],
) -> Result<String, Error> {
    let Words { store: name, grow, wider, whole } = words;
    let slots = store.slots()?;
    let free = slots.iter().filter(|slot| slot.is_none()).count();
    let records = slots.iter().flatten();
    let old = records
        .filter(|record| record.retired_since.is_some())
        .count();
    let used = slots.len() - free;
    let has = counted(free, "free slot");
    let Some(needed) = needed(store, numbers, batches)? else {
        return Ok(format!(
            "{name} has {has}, and no store has room for this: {MOST_SLOTS} slots at most, so some 6,000 grants. {wider}. {whole} is as it was."
        ));
    };
    let takes = format!(
        "It takes {}, and {name} has {has}.",
        counted(needed, "new record")
    );
    let mut ways = vec![];
    if old > 0 && free + old >= needed {
        ways.push(format!(
            "prune versions that no one asks for any more (grants prune frees up to {})",
            counted(old, "slot")
        ));
    }
    if used + needed <= MOST_SLOTS as usize {
        ways.push(format!("{grow} {}, or more)", used + needed));
    }
    let ways = match ways.len() {
        0 => "prune, then grow".to_string(),
        _ => ways.join(", or "),
    };
    Ok(format!(
        "{takes} To make room, {ways}. {whole} is as it was."
    ))
}
