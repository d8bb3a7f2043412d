//! What the versions hold and when it came: log, list, export, history. The store is checked first.

use crate::args::{number, Args};
use crate::asked::{key, note, read_kept, version, Bytes, Kept};
use crate::book::{Book, Said};
use crate::fail::Fail;
use crate::held::{self, Span};
use crate::json::{object, Json};
use crate::kept::meanwhile;
use crate::missing::refused_read;
use crate::out::{Out, ABSENT};
use crate::page::{Page, Placed};
use crate::plain::{counted, escaped, quoted, shown};
use grants::{dates, to_hex, Error, Header, Key, Record, Root, ShelfError, Slot, Value};
use std::fmt::Write as _;

/// How many grants stand in a version by the library, how many records, and how many of them it made.
#[derive(Clone, Copy, Default)]
struct Counts {
    grants: u64,
    records: i64,
    new: i64,
}

/// 64 hex digits, or their two ends.
pub fn ends(bytes: &[u8], full: bool) -> String {
    let digits = to_hex(bytes);
    if full {
        return digits;
    }
    format!("{}..{}", &digits[..8], &digits[60..])
}

/// 'mira: Spring list', or what can be said instead.
pub fn remark(said: Said<'_>) -> String {
    match said {
        Said::Nothing => String::new(),
        Said::Disagrees => "the book disagrees".to_string(),
        Said::This(entry) => {
            let parts = [entry.author.as_str(), entry.message.as_str()];
            let parts: Vec<&str> = parts.into_iter().filter(|p| !p.is_empty()).collect();
            escaped(&parts.join(": "))
        }
    }
}

pub fn when(said: Said<'_>) -> String {
    match said {
        Said::This(entry) => dates::short(entry.time),
        _ => "-".to_string(),
    }
}

/// The book's part of an answer in JSON.
fn said_fields(said: Said<'_>) -> Vec<(&'static str, Json)> {
    let entry = match said {
        Said::This(entry) => Some(entry),
        _ => None,
    };
    let book = match said {
        Said::Nothing => Json::Null,
        Said::This(_) => "agrees".into(),
        Said::Disagrees => "disagrees".into(),
    };
    vec![
        ("book", book),
        ("time", entry.map(|e| dates::text(e.time)).into()),
        ("author", entry.map(|e| e.author.clone()).into()),
        ("message", entry.map(|e| e.message.clone()).into()),
    ]
}

/// What is odd about the book, a line for each.
fn oddities(book: &Book, latest: u32) -> Vec<String> {
    let mut odd = vec![];
    if let Some(most) = book.latest().filter(|most| *most > latest) {
        odd.push(format!(
            "{} speaks of version {most}: this store is older than its book",
            book.shown()
        ));
    }
    if let Some(line) = book.unread.first() {
        odd.push(format!(
            "{}: {} can't be read, the first is line {line}",
            book.shown(),
            counted(book.unread.len(), "line")
        ));
    }
    odd
}

/// One line of the log. What the oldest kept version changed isn't known any more.
struct Row<'a> {
    span: Span,
    counts: Counts,
    changed: Option<[usize; 3]>,
    root: Root,
    said: Said<'a>,
}

impl Row<'_> {
    fn json(&self) -> Json {
        let changed = |i: usize| self.changed.map(|c| c[i]).into();
        let mut fields: Vec<(&'static str, Json)> = vec![
            ("version", self.span.first.into()),
            ("last", self.span.last.into()),
            ("published", self.span.published.into()),
            ("grants", Json::Number(self.counts.grants)),
            ("added", changed(0)),
            ("removed", changed(1)),
            ("changed", changed(2)),
            ("records", (self.counts.records as usize).into()),
            ("new", (self.counts.new as usize).into()),
            ("root", self.root.to_string().into()),
        ];
        fields.extend(said_fields(self.said));
        object(fields)
    }

    fn line(&self, full: bool, widest: usize) -> String {
        let changed = |i: usize| self.changed.map_or("-".to_string(), |c| c[i].to_string());
        let columns = [
            range(&self.span),
            when(self.said),
            self.counts.grants.to_string(),
            changed(0),
            changed(1),
            changed(2),
            self.counts.records.to_string(),
            self.counts.new.to_string(),
            ends(self.root.as_ref(), full),
            remark(self.said),
        ];
        in_columns(columns.each_ref().map(String::as_str), full, widest)
    }
}

/// '9', or '5 to 8' where no one published the versions after 5.
fn range(span: &Span) -> String {
    match span.first == span.last {
        true => span.first.to_string(),
        false => format!("{} to {}", span.first, span.last),
    }
}

/// A line of the log, with nothing after its last word.
fn in_columns(words: [&str; 10], full: bool, widest: usize) -> String {
    let [version, when, grants, added, removed, changed, records, new, root, remark] = words;
    let width = if full { 64 } else { 14 };
    let line = format!(
        "{version:>widest$}  {when:<16}  {grants:>6}  {added:>5}  {removed:>7}  {changed:>7}  {records:>7}  {new:>5}  {root:<width$}  {remark}"
    );
    line.trim_end().to_string()
}

const HEADS: [&str; 10] = [
    "version",
    "published",
    "grants",
    "added",
    "removed",
    "changed",
    "records",
    "new",
    "root",
    "by whom, and why",
];

/// How many publishings are asked for.
fn last(args: &Args) -> Result<usize, Fail> {
    let Some(word) = args.value("--last") else {
        return Ok(usize::MAX);
    };
    match number("N", word)? {
        0 => Err(Fail::Usage("--last wants 1 or more".to_string())),
        last => Ok(last as usize),
    }
}

/// The publishings, those that left no record where the book has them.
fn publishings(
    store: &Kept,
    slots: &[Option<Record>],
    header: Header,
    book: &Book,
) -> Result<Vec<Span>, ShelfError> {
    let mut known = vec![];
    for version in book.versions() {
        if header.oldest <= version && version <= header.latest {
            if let Said::This(_) = book.said(version, store.root(version)?) {
                known.push(version);
            }
        }
    }
    Ok(held::spans(header, slots, known))
}

pub fn log(args: &Args, out: &mut Out) -> Result<u8, Fail> {
    let path = args.path(0);
    let store = read_kept(path)?;
    let refused = store.refused(path);
    let slots = store.slots().map_err(&refused)?;
    let header = store.header().map_err(&refused)?;
    let book = Book::of(args, Some(path))?;
    // A book that is newer may be so by a publishing since the store was read.
    let newer = book.latest().is_some_and(|most| most > header.latest);
    if newer && store.was_replaced(path) {
        return Err(meanwhile(path));
    }
    let last = last(args)?;
    let mut spans = publishings(&store, &slots, header, &book).map_err(&refused)?;
    spans.drain(..spans.len().saturating_sub(last));
    let firsts: Vec<u32> = spans.iter().map(|span| span.first).collect();
    let ledger = store.ledger(&slots, &firsts).map_err(&refused)?;
    let widest = spans
        .iter()
        .map(|span| range(span).len())
        .max()
        .unwrap_or(0)
        .max(10);
    let (json, full) = (out.json, args.has("--full"));
    let mut answer = out.decided(0);
    if json {
        answer.line("[")?;
    } else {
        for odd in oddities(&book, header.latest) {
            answer.line(format_args!("({odd})"))?;
        }
        let mut heads = HEADS;
        if !book.is_there() {
            heads[9] = "";
        }
        answer.line(in_columns(heads, full, widest))?;
    }
    let mut now = Counts::default();
    for span in spans {
        let version = span.first;
        // A record begins or ends with a root, so at the first version of a span.
        now.records += ledger.records.get(&version).copied().unwrap_or(0);
        now.grants = ledger.grants.get(&version).copied().unwrap_or(0);
        let published = span.published.unwrap_or(version);
        now.new = ledger.made.get(&published).copied().unwrap_or(0);
        let root = store.root(version).map_err(&refused)?;
        let changed = match version {
            v if v == 0 || v > header.oldest => {
                Some(ledger.tallies.get(&v).copied().unwrap_or_default())
            }
            _ => None,
        };
        let row = Row {
            counts: now,
            changed,
            root,
            said: book.said(published, root),
            span,
        };
        match json {
            true if row.span.last == header.latest => answer.line(row.json())?,
            true => answer.line(format_args!("{},", row.json()))?,
            false => answer.line(row.line(full, widest))?,
        }
    }
    if json {
        answer.line("]")?;
    }
    answer.end()
}

/// A version, the number it was published under, how many grants it has, those that are asked for, and what the book says of it.
struct Listed {
    version: u32,
    published: u32,
    root: Root,
    count: u64,
    page: Option<Page>,
    grants: Vec<Placed>,
    matched: Option<Matched>,
    book: Book,
}

/// Of how many grants those are that match, and how many of these have no name to look at.
struct Matched {
    of: usize,
    without_name: usize,
}

impl Matched {
    /// '1 of 2 match; 1 has no name'.
    fn line(&self, matching: usize) -> String {
        let match_ = if matching == 1 { "matches" } else { "match" };
        let has = if self.without_name == 1 {
            "has"
        } else {
            "have"
        };
        format!(
            "{matching} of {} {match_}; {} {has} no name",
            self.of, self.without_name
        )
    }
}

/// Leaves those grants whose key has a name with this part in it.
fn matching(grants: &mut Vec<Placed>, book: &Book, part: &str) -> Matched {
    let of = grants.len();
    let nameless = grants
        .iter()
        .filter(|(_, key, _)| book.name(key.as_bytes()).is_none());
    let without_name = nameless.count();
    grants.retain(|(_, key, _)| {
        book.name(key.as_bytes())
            .is_some_and(|name| name.contains(part))
    });
    Matched { of, without_name }
}

fn listed(args: &Args) -> Result<Listed, Fail> {
    let path = args.path(0);
    let store = read_kept(path)?;
    let refused = store.refused(path);
    let page = Page::of(args)?;
    // A page is read without a check; which number it was published under is then for the book's line alone, whose root must be the one read.
    let slots = match page {
        None => store.slots().map_err(&refused)?,
        Some(_) => records_found(store.first()).map_err(|e| refused(e.into()))?,
    };
    let version = version(args, 1, &store, path)?;
    let root = store
        .root(version)
        .map_err(refused_read(&store, path, version, None))?;
    let count = store.count(version).map_err(&refused)?;
    let mut grants = match page {
        None => (0..)
            .zip(store.grants(&slots, version).map_err(&refused)?)
            .map(|(position, (key, value))| (position, key, value))
            .collect(),
        Some(page) => page.read(&store, path, version, count)?,
    };
    let book = Book::of(args, Some(path))?;
    let part = args.said("--match")?;
    let matched = part.map(|part| matching(&mut grants, &book, &part));
    Ok(Listed {
        version,
        published: held::published(&slots, version),
        root,
        count,
        page,
        grants,
        matched,
        book,
    })
}

/// The records in form of a store that wasn't checked.
fn records_found(store: &Bytes) -> Result<Vec<Option<Record>>, Error> {
    let record = |slot| match slot {
        Slot::Record(record) => Some(record),
        Slot::Free | Slot::OffForm => None,
    };
    Ok(store.slots_found()?.into_iter().map(record).collect())
}

pub fn list(args: &Args, out: &mut Out) -> Result<u8, Fail> {
    let Listed {
        version,
        published: number,
        root,
        count,
        page,
        grants,
        matched,
        book,
    } = listed(args)?;
    let said = book.said(number, root);
    let name = |word: &[u8; 32]| book.name(word).map(str::to_string);
    let status = if grants.is_empty() { ABSENT } else { 0 };
    if out.json {
        let list = grants.iter().map(|(position, key, value)| {
            object(vec![
                ("position", Json::Number(*position)),
                ("key", key.to_string().into()),
                ("value", value.to_string().into()),
                ("key_name", name(key.as_bytes()).into()),
                ("value_name", name(value.as_bytes()).into()),
            ])
        });
        let mut fields: Vec<(&'static str, Json)> = vec![
            ("version", version.into()),
            ("root", root.to_string().into()),
            ("count", Json::Number(count)),
            ("grants", Json::List(list.collect())),
        ];
        if let Some(matched) = &matched {
            fields.push(("without_name", matched.without_name.into()));
        }
        fields.extend(said_fields(said));
        return out.answer(status, object(fields), "");
    }
    let mut text = String::new();
    if args.has("--csv") {
        if let Some(matched) = &matched {
            note(&book, &matched.line(grants.len()));
        }
        text += "key,value,key_name,value_name\n";
        for (_, key, value) in &grants {
            let names =
                [key.as_bytes(), value.as_bytes()].map(|w| csv(book.name(w).unwrap_or_default()));
            let _ = writeln!(text, "{key},{value},{},{}", names[0], names[1]);
        }
    } else {
        let full = args.has("--full");
        let published = match said {
            Said::This(_) => {
                let parts = [when(said), remark(said)];
                let parts: Vec<String> = parts.into_iter().filter(|p| !p.is_empty()).collect();
                format!(" ({})", parts.join(", "))
            }
            Said::Disagrees => " (the book disagrees)".to_string(),
            Said::Nothing => String::new(),
        };
        let held = match (page, &matched) {
            (Some(page), _) => page.heading(count, &grants),
            (None, Some(matched)) => {
                format!("{}; of all of them", matched.line(grants.len()))
            }
            (None, None) => counted(count, "grant"),
        };
        let _ = writeln!(text, "version {version}{published}: {held}, root {root}");
        let widest = grants.last().map_or(0, |(last, ..)| last.to_string().len());
        for (position, key, value) in &grants {
            let position = match page {
                Some(_) => format!("{position:>widest$}  "),
                None => String::new(),
            };
            let line = format!(
                "  {position}{} = {}  {}",
                ends(key.as_ref(), full),
                ends(value.as_ref(), full),
                named(&book, key, value)
            );
            let _ = writeln!(text, "{}", line.trim_end());
        }
    }
    let mut answer = out.decided(status);
    answer.raw(text.as_bytes())?;
    answer.end()
}

/// '"chords sonata" = "read"', with what is known of it.
pub fn named(book: &Book, key: &Key, value: &Value) -> String {
    let names = [book.name(key.as_bytes()), book.name(value.as_bytes())];
    if names == [None, None] {
        return String::new();
    }
    let [key, value] = names.map(|name| name.map_or("?".to_string(), quoted));
    format!("{key} = {value}")
}

/// A field of CSV. A backslash in a name is doubled, so that one that stands for a character of no look is told from it.
pub fn csv(text: &str) -> String {
    let text = escaped(&text.replace('\\', "\\\\"));
    if text.contains([',', '"']) {
        return format!("\"{}\"", text.replace('"', "\"\""));
    }
    text
}

/// A batch as text, which publishes these grants elsewhere: names in quotes where they give the same bytes there, without this book.
pub fn export(args: &Args, out: &mut Out) -> Result<u8, Fail> {
    let Listed {
        version,
        root,
        count,
        grants,
        book,
        ..
    } = listed(args)?;
    let mut text = format!(
        "# version {version} of {}: {}, root {root}\n",
        shown(args.path(0)),
        counted(count, "grant")
    );
    let word = |word: &[u8; 32]| match book.name(word) {
        Some(name) if grants::sha256(name.as_bytes()) == *word => quoted(name),
        _ => to_hex(word),
    };
    for (_, key, value) in &grants {
        let given = [key.as_bytes(), value.as_bytes()].map(|w| {
            let name = book
                .name(w)
                .filter(|name| grants::sha256(name.as_bytes()) != *w);
            name.map(quoted)
        });
        let given: Vec<String> = given.into_iter().flatten().collect();
        let line = format!(
            "+ {} {}  # {}",
            word(key.as_bytes()),
            word(value.as_bytes()),
            given.join(" ")
        );
        let _ = writeln!(text, "{}", line.trim_end_matches([' ', '#']));
    }
    // The line by which `import` sees that nothing was cut off.
    let _ = writeln!(text, "end {}", grants.len());
    if out.json {
        return out.answer(
            0,
            object(vec![
                ("version", version.into()),
                ("root", root.to_string().into()),
                ("batch", text.into()),
            ]),
            "",
        );
    }
    let mut answer = out.decided(0);
    answer.raw(text.as_bytes())?;
    answer.end()
}

/// Every kept version in which a key's value is another than before.
pub fn history(args: &Args, out: &mut Out) -> Result<u8, Fail> {
    let path = args.path(0);
    let key = key(args, 1, Some(path))?;
    let store = read_kept(path)?;
    let refused = store.refused(path);
    let slots = store.slots().map_err(&refused)?;
    let book = Book::of(args, Some(path))?;
    let mut rows = vec![];
    let mut before = None;
    for version in store.turns(&slots, &key).map_err(&refused)? {
        let value = store.get(version, &key).map_err(&refused)?;
        if before != Some(value) {
            let root = store.root(version).map_err(&refused)?;
            let number = held::published(&slots, version);
            rows.push((version, value, book.said(number, root)));
        }
        before = Some(value);
    }
    let status = if rows.iter().any(|(_, value, _)| value.is_some()) {
        0
    } else {
        ABSENT
    };
    if out.json {
        let list = rows.iter().map(|(version, value, said)| {
            let name = value.and_then(|v| book.name(v.as_bytes()).map(str::to_string));
            let mut fields: Vec<(&'static str, Json)> = vec![
                ("version", (*version).into()),
                ("value", value.map(|v| v.to_string()).into()),
                ("value_name", name.into()),
            ];
            fields.extend(said_fields(*said));
            object(fields)
        });
        let list = Json::List(list.collect());
        return out.answer(status, list, "");
    }
    let full = args.has("--full");
    let mut answer = out.decided(status);
    for (version, value, said) in rows {
        let value = match value {
            Some(value) => {
                let name = book.name(value.as_bytes()).map(quoted).unwrap_or_default();
                format!("{} {name}", ends(value.as_ref(), full))
            }
            None => "absent".to_string(),
        };
        let line = format!(
            "{version:>10}  {:<16}  {:<24}  {}",
            when(said),
            value.trim_end(),
            remark(said)
        );
        answer.line(line.trim_end())?;
    }
    answer.end()
}
