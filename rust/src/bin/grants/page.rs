//! A page of a long list, read by position, so that the rest of the list isn't looked at.

use crate::args::Args;
use crate::asked::Kept;
use crate::fail::Fail;
use crate::missing::refused_at;
use crate::plain::counted;
use grants::{Key, Value};
use std::ffi::OsStr;
use std::path::Path;

/// A grant with its position.
pub type Placed = (u64, Key, Value);

/// A number that fits 64 bits.
pub fn long(what: &str, word: &OsStr) -> Result<u64, Fail> {
    let text = word.to_string_lossy();
    let digits = text.bytes().all(|b| b.is_ascii_digit());
    text.parse().ok().filter(|_| digits).ok_or_else(|| {
        Fail::Usage(format!(
            "{what} is a number from 0 to {}, and {text:?} is not",
            u64::MAX
        ))
    })
}

/// Which grants of a list are asked for: those from a position on, at most so many.
#[derive(Clone, Copy)]
pub struct Page {
    pub from: u64,
    most: u64,
}

impl Page {
    /// None where the whole list is asked for.
    pub fn of(args: &Args) -> Result<Option<Page>, Fail> {
        let given = |name: &str| args.value(name).map(|word| long(name, word)).transpose();
        let (from, most) = (given("--from")?, given("--most")?);
        if from.is_none() && most.is_none() {
            return Ok(None);
        }
        if most == Some(0) {
            return Err(Fail::Usage("--most wants 1 or more".to_string()));
        }
        if args.has("--match") {
            return Err(Fail::Usage(
                "--match looks at all grants, --from and --most read some of them alone: choose one".to_string(),
            ));
        }
        Ok(Some(Page {
            from: from.unwrap_or(0),
            most: most.unwrap_or(u64::MAX),
        }))
    }

    /// Its grants, each read by its position.
    pub fn read(
        self,
        store: &Kept,
        path: &Path,
        version: u32,
        count: u64,
    ) -> Result<Vec<Placed>, Fail> {
        let end = count.min(self.from.saturating_add(self.most));
        if let Some(shelf) = store.shelf() {
            let page = shelf.range(version, self.from, end).map_err(store.refused(path))?;
            let placed = (self.from..).zip(page);
            return Ok(placed.map(|(i, (key, value))| (i, key, value)).collect());
        }
        let mut grants = vec![];
        for position in self.from..end {
            let (key, value) = store
                .at(version, position)
                .map_err(refused_at(store, path, version, position))?;
            grants.push((position, key, value));
        }
        Ok(grants)
    }

    /// 'positions 2 to 3 of 9 grants', or that there is none.
    pub fn heading(self, count: u64, grants: &[Placed]) -> String {
        let all = counted(count, "grant");
        match (grants.first(), grants.last()) {
            (Some((first, ..)), Some((last, ..))) if first < last => {
                format!("positions {first} to {last} of {all}")
            }
            (Some((first, ..)), _) => format!("position {first} of {all}"),
            _ => format!("no position from {} on, {all}", self.from),
        }
    }
}
