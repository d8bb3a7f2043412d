//! The figures of a range of versions: a table, CSV, JSON, and a picture.

use crate::args::{number, Args};
use crate::asked::{on_day, read_kept, Kept};
use crate::book::{Book, Said};
use crate::json::object;

use crate::fail::Fail;
use crate::files;
use crate::json::Json;
use crate::out::Out;
use crate::picture;
use crate::plain::shown;
use grants::{dates, Error, Figures, RangeFigures, ShelfError, RANGE_VERSIONS};
use std::path::Path;

/// Versions of the range that read alike, with the date of their publishing where the book has it.
struct Row {
    first: u32,
    last: u32,
    date: Option<i64>,
    figures: Figures,
}

/// An end of the range: a version by its number, or by a day at whose end it was the latest.
fn end(args: &Args, name: &str, store: &Kept, path: &Path, else_: u32) -> Result<u32, Fail> {
    match args.said(name)? {
        None => Ok(else_),
        Some(text) if text.bytes().all(|b| b.is_ascii_digit()) => number(name, text.as_ref()),
        Some(day) => on_day(args, store, path, name, &day),
    }
}

fn rows(
    args: &Args,
    store: &Kept,
    path: &Path,
    range: &RangeFigures,
    last: u32,
) -> Result<Vec<Row>, Fail> {
    let refused = store.refused(path);
    let spans = store.publishings().map_err(&refused)?;
    let book = Book::of(args, Some(path))?;
    let mut rows = vec![];
    for span in spans {
        let (first, last) = (span.first.max(range.first), span.last.min(last));
        let Some(figures) = range.of(first).filter(|_| first <= last) else {
            continue;
        };
        let root = store.root(first).map_err(&refused)?;
        let date = match book.said(span.published.unwrap_or(first), root) {
            Said::This(entry) => Some(entry.time),
            _ => None,
        };
        rows.push(Row {
            first,
            last,
            date,
            figures,
        });
    }
    Ok(rows)
}

const HEADS: [&str; 7] = [
    "versions",
    "published",
    "grants",
    "inner nodes",
    "records",
    "longest path",
    "mean path",
];

fn in_columns(cells: [String; 7]) -> String {
    let [versions, published, rest @ ..] = cells;
    let mut line = format!("{versions:<16}  {published:<16}");
    for (cell, head) in rest.iter().zip(&HEADS[2..]) {
        line += &format!("  {cell:>width$}", width = head.len());
    }
    line.trim_end().to_string()
}

fn mean(figures: &Figures) -> String {
    match figures.leaves {
        0 => "-".to_string(),
        n => format!("{:.2}", f64::from(figures.path_sum) / f64::from(n)),
    }
}

impl Row {
    fn line(&self) -> String {
        let versions = match self.first == self.last {
            true => self.first.to_string(),
            false => format!("{} to {}", self.first, self.last),
        };
        let f = &self.figures;
        in_columns([
            versions,
            self.date.map_or(String::new(), dates::short),
            f.leaves.to_string(),
            f.inner_nodes.to_string(),
            f.records().to_string(),
            f.longest_path.to_string(),
            mean(f),
        ])
    }
}

fn json_of(version: u32, f: &Figures) -> Json {
    Json::Object(vec![
        ("version", version.into()),
        ("grants", f.leaves.into()),
        ("inner_nodes", f.inner_nodes.into()),
        ("longest_path", f.longest_path.into()),
        ("path_sum", f.path_sum.into()),
    ])
}

fn csv(range: &RangeFigures) -> String {
    let mut text = "version,grants,inner nodes,longest path,sum of path lengths\r\n".to_string();
    for (version, f) in range.iter() {
        text += &format!(
            "{version},{},{},{},{}\r\n",
            f.leaves, f.inner_nodes, f.longest_path, f.path_sum
        );
    }
    text
}

/// Grants and records as steps, by date where the book has a date for every publishing of the range, else by version.
fn drawn(rows: &[Row], last: u32) -> String {
    // What was there before the first publishing has no date.
    let rows = match rows {
        [fresh, rest @ ..] if fresh.first == 0 && fresh.date.is_none() && !rest.is_empty() => rest,
        rows => rows,
    };
    let dated: Option<Vec<i64>> = rows.iter().map(|row| row.date).collect();
    let dated = dated.filter(|dates| dates.windows(2).all(|two| two[0] < two[1]));
    let line = |value: fn(&Figures) -> u32| {
        let values = rows.iter().map(|row| f64::from(value(&row.figures)));
        let at: Vec<f64> = match &dated {
            Some(dates) => dates.iter().map(|date| *date as f64).collect(),
            None => rows.iter().map(|row| f64::from(row.first)).collect(),
        };
        at.into_iter().zip(values).collect::<Vec<_>>()
    };
    let until = match &dated {
        Some(dates) => dates.last().map_or(0.0, |date| *date as f64),
        None => f64::from(last),
    };
    picture::Picture {
        lines: [
            ("grants", line(|f| f.leaves)),
            ("records", line(Figures::records)),
        ],
        until,
        by_date: dated.is_some(),
    }
    .to_string()
}

pub fn report(args: &Args, out: &mut Out) -> Result<u8, Fail> {
    let path = args.path(0);
    let store = read_kept(path)?;
    let header = store.header().map_err(store.refused(path))?;
    let last = end(args, "--to", &store, path, header.latest)?;
    let most = last.saturating_sub(RANGE_VERSIONS - 1).max(header.oldest);
    let first = end(args, "--from", &store, path, most)?;
    let range = store.figures(first, last).map_err(|e| match e {
        ShelfError::Refused { error: error @ Error::VersionNotKept, part: None } => Fail::Refused(error, format!("The range was {first} to {last}; a range has 1 to {RANGE_VERSIONS} versions, and {} keeps versions {} to {}.", shown(path), header.oldest, header.latest)),
        e => store.refused(path)(e),
    })?;
    if let Some(to) = args.value("--svg").map(Path::new) {
        let text = drawn(&rows(args, &store, path, &range, last)?, last);
        files::write(args, to, text.as_bytes(), &[path])?;
        return out.answer(
            0,
            object(vec![("first", first.into()), ("last", last.into())]),
            format_args!("{}: versions {first} to {last}", shown(to)),
        );
    }
    if args.has("--csv") {
        if out.json {
            return Err(Fail::Usage(
                "--csv and --json are two forms of one answer: choose one".to_string(),
            ));
        }
        let mut answer = out.decided(0);
        answer.raw(csv(&range).as_bytes())?;
        return answer.end();
    }
    if out.json {
        let each = range.iter().map(|(version, f)| json_of(version, &f));
        let fields = vec![
            ("first", first.into()),
            ("last", last.into()),
            ("distinct_records", range.distinct.into()),
            ("records", range.records.into()),
            ("versions", Json::List(each.collect())),
        ];
        return out.answer(0, object(fields), "");
    }
    let rows = rows(args, &store, path, &range, last)?;
    let mut answer = out.decided(0);
    answer.line(in_columns(HEADS.map(str::to_string)))?;
    for row in &rows {
        answer.line(row.line())?;
    }
    answer.line(format_args!(
        "versions {first} to {last}: {} distinct records, {} over all versions",
        range.distinct, range.records
    ))?;
    answer.end()
}
