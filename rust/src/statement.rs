//! What the publisher signs, read; and what an editor keeps so that a stale list is refused (docs/EDITOR.md).

use crate::{dates, Root, SHELF_BITS};
use std::fmt;

/// A root with its version and dates, as it is signed (docs/SIGNING.md). Dates are seconds since 1970. Check the signature first, over the same
/// bytes.
///
/// ```
/// use grants::{Root, Seen, Statement, Verdict};
///
/// let text = "the root of a grant store\n\
///     version 2\n\
///     root f5d7fa76ae94b01bee4e95b0ccc514710956389b2bc39eeef16634ae3be0ea87\n\
///     made 2026-05-10T10:30:00Z\n\
///     not-after 2026-06-10T23:59:59Z\n";
/// let statement = Statement::read(text.as_bytes()).unwrap();
/// assert_eq!((statement.version, statement.made), (2, 1_778_409_000));
/// assert_eq!(statement.text(), text);
/// assert_eq!(Statement::read(text.trim_end().as_bytes()), None);
///
/// // What the editor keeps from one start to the next.
/// let mut seen = Seen::default();
/// assert_eq!(seen.take(&statement, 1_778_500_000), Verdict::Fresh);
/// let older = Statement { version: 1, ..statement };
/// assert_eq!(seen.take(&older, 1_778_500_000), Verdict::Older);
/// assert_eq!(seen.take(&statement, 1_800_000_000), Verdict::Past);
/// ```
#[derive(Clone, Copy, Debug, PartialEq, Eq)]
pub struct Statement {
    pub version: u32,
    pub root: Root,
    /// Of a shelf, how many bits of a key name its part; the root is then the list's, and [`shelf_verify`](crate::shelf_verify) checks its proofs.
    pub bits: Option<u32>,
    pub published: Option<i64>,
    pub made: i64,
    pub not_after: Option<i64>,
}

const FIRST: &str = "the root of a grant store";

impl Statement {
    /// The text that is signed.
    pub fn text(&self) -> String {
        let mut text = format!("{FIRST}\nversion {}\nroot {}\n", self.version, self.root);
        if let Some(bits) = self.bits {
            text += &format!("bits {bits}\n");
        }
        if let Some(time) = self.published {
            text += &format!("published {}\n", dates::text(time));
        }
        text += &format!("made {}\n", dates::text(self.made));
        if let Some(time) = self.not_after {
            text += &format!("not-after {}\n", dates::text(time));
        }
        text
    }

    /// The very lines that [`Statement::text`] writes, and no others; none for any other bytes.
    pub fn read(bytes: &[u8]) -> Option<Statement> {
        let text = std::str::from_utf8(bytes).ok()?;
        let mut lines = text.lines().peekable();
        let mut field = |name: &str| {
            let line = lines.next_if(|line| line.split(' ').next() == Some(name));
            line.and_then(|line| line.split_once(' '))
                .map(|(_, rest)| rest)
        };
        let time = |text: &str| dates::parse(text).map(|(time, _)| time);
        field("the").filter(|rest| FIRST.strip_prefix("the ") == Some(rest))?;
        let statement = Statement {
            version: field("version")?.parse().ok()?,
            root: field("root")?.parse().ok()?,
            bits: match field("bits") {
                Some(digits) => Some(digits.parse().ok().filter(|bits| *bits <= SHELF_BITS)?),
                None => None,
            },
            published: field("published").and_then(time),
            made: field("made").and_then(time)?,
            not_after: field("not-after").and_then(time),
        };
        (statement.text() == text).then_some(statement)
    }
}

/// What an editor makes of a statement whose signature holds.
#[derive(Clone, Copy, Debug, PartialEq, Eq)]
pub enum Verdict {
    Fresh,
    /// Its version is below the highest one seen.
    Older,
    /// It has another root for the version seen before: one of the two is a lie of whoever signs.
    OtherRoot,
    /// It has no `not-after`.
    Undated,
    /// Its `not-after` has passed.
    Past,
}

impl fmt::Display for Verdict {
    fn fmt(&self, f: &mut fmt::Formatter<'_>) -> fmt::Result {
        f.write_str(match self {
            Verdict::Fresh => "fresh",
            Verdict::Older => "older than the version seen before",
            Verdict::OtherRoot => "another root for the version seen before",
            Verdict::Undated => "without a date",
            Verdict::Past => "past its date",
        })
    }
}

/// What an editor keeps of a list, from one start to the next: the highest version, its root, and the latest time that it knows to have come, in
/// seconds since 1970. At first that is version 0, which holds nothing.
#[derive(Clone, Copy, Debug, PartialEq, Eq)]
pub struct Seen {
    pub version: u32,
    pub root: Root,
    pub time: i64,
}

impl Default for Seen {
    fn default() -> Seen {
        Seen {
            version: 0,
            root: Root::EMPTY,
            time: 0,
        }
    }
}

impl Seen {
    /// Whether to believe a signed statement at a time of the clock. A clock that is behind what was seen, or behind the statement's own `made`, is
    /// not believed.
    pub fn judge(&self, statement: &Statement, now: i64) -> Verdict {
        if statement.version < self.version {
            return Verdict::Older;
        }
        if statement.version == self.version && statement.root != self.root {
            return Verdict::OtherRoot;
        }
        match statement.not_after {
            None => Verdict::Undated,
            Some(last) if self.time_by(statement, now) > last => Verdict::Past,
            Some(_) => Verdict::Fresh,
        }
    }

    /// Judges a signed statement, and keeps what it says where it is fresh. Of one that is past, that its date has come is kept: no clock that is
    /// set back makes it fresh again.
    pub fn take(&mut self, statement: &Statement, now: i64) -> Verdict {
        let verdict = self.judge(statement, now);
        match (verdict, statement.not_after) {
            (Verdict::Fresh, _) => {
                *self = Seen {
                    version: statement.version,
                    root: statement.root,
                    time: self.time_by(statement, now),
                }
            }
            (Verdict::Past, Some(last)) => self.time = self.time.max(last + 1),
            _ => {}
        }
        verdict
    }

    fn time_by(&self, statement: &Statement, now: i64) -> i64 {
        now.max(self.time).max(statement.made)
    }
}
