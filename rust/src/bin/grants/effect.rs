//! What a publishing does to the list of grants: how many it adds, removes and changes, and which of its records change nothing.

use crate::held::{Bytes, Grants};
use crate::json::{object, Json};
use crate::plain::counted;
use grants::{Error, Key, Value};

/// A record of a batch: its key, and the value that it gets, none where it is deleted.
pub type Ask = (Key, Option<Value>);

#[derive(Default)]
pub struct Effect {
    pub before: usize,
    pub added: usize,
    pub removed: usize,
    pub changed: usize,
    /// Deletes of keys that weren't there, and inserts of the value that was.
    pub idle: Vec<Ask>,
}

/// The grants of the latest version, from the records of a store that the library calls sound.
pub fn latest(store: &Bytes) -> Result<Grants, Error> {
    let latest = store.header()?.latest;
    let slots = store.slots()?;
    let standing = slots.iter().flatten().filter(|r| r.stands_in(latest));
    Ok(standing.filter_map(|record| record.grant()).collect())
}

impl Effect {
    pub fn of(now: &Grants, asks: impl IntoIterator<Item = Ask>) -> Effect {
        let mut effect = Effect {
            before: now.len(),
            ..Effect::default()
        };
        for (key, value) in asks {
            match (now.get(&key), value) {
                (None, Some(_)) => effect.added += 1,
                (Some(_), None) => effect.removed += 1,
                (Some(old), Some(new)) if *old != new => effect.changed += 1,
                _ => effect.idle.push((key, value)),
            }
        }
        effect
    }

    pub fn after(&self) -> usize {
        self.before + self.added - self.removed
    }

    /// '0 added, 1 removed, 1 changed; 4 grants before, 3 after'.
    pub fn line(&self) -> String {
        let idle = match self.idle.len() {
            0 => String::new(),
            n => format!(", {n} without effect"),
        };
        format!(
            "{} added, {} removed, {} changed{idle}; {} before, {} after",
            self.added,
            self.removed,
            self.changed,
            counted(self.before, "grant"),
            self.after()
        )
    }

    pub fn fields(&self) -> Vec<(&'static str, Json)> {
        let idle = self.idle.iter().map(|(key, value)| {
            object(vec![
                ("key", key.to_string().into()),
                ("value", value.map(|value| value.to_string()).into()),
            ])
        });
        vec![
            ("added", self.added.into()),
            ("removed", self.removed.into()),
            ("changed", self.changed.into()),
            ("before", self.before.into()),
            ("after", self.after().into()),
            ("no_change", Json::List(idle.collect())),
        ]
    }
}

#[cfg(test)]
mod tests {
    use super::*;

    #[test]
    fn every_record_is_counted_once() {
        let word = |n: u8| [n; 32];
        let now = Grants::from([
            (Key::from(word(1)), Value::from(word(1))),
            (Key::from(word(2)), Value::from(word(2))),
            (Key::from(word(3)), Value::from(word(3))),
        ]);
        let ask = |key: u8, value: Option<u8>| {
            (Key::from(word(key)), value.map(|v| Value::from(word(v))))
        };
        let asks = [
            ask(1, None),
            ask(2, Some(9)),
            ask(3, Some(3)),
            ask(4, Some(4)),
            ask(5, None),
        ];
        let effect = Effect::of(&now, asks);
        assert_eq!(
            effect.line(),
            "1 added, 1 removed, 1 changed, 2 without effect; 3 grants before, 3 after"
        );
        assert_eq!(effect.idle, [asks[2], asks[4]]);
    }
}
