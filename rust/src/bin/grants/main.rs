//! The command line tool. What a store, a batch or a proof is worth is the library's word; here are files, hex and sentences.
#![deny(unsafe_code)]

mod args;
mod asked;
mod book;
mod commands;
mod counts;
mod diff;
mod effect;
mod fail;
mod faults;
mod files;
mod finding;
mod found;
mod grow;
mod guards;
mod held;
mod help;
mod json;
mod kept;
mod lines;
mod listing;
mod message;
mod missing;
mod moving;
mod names;
mod note;
mod out;
mod page;
mod palette;
mod picture;
mod plain;
mod progress;
mod proof;
mod publish;
mod report;
mod rescue;
mod room;
mod shelf_rescue;
mod shelves;
mod show;
mod signals;
mod sizing;
mod statement;
mod table;

use args::Args;
use fail::Fail;
use json::Json;
use out::Out;
use std::ffi::OsString;
use std::process::ExitCode;
use table::{Command, COMMANDS};

fn main() -> ExitCode {
    signals::outlive_file_limits();
    let given: Vec<OsString> = std::env::args_os().skip(1).collect();
    let json = args::everywhere(&given, "--json");
    let mut out = Out::new(json);
    let fail = match heard().and_then(|()| run(&given, &mut out)) {
        Ok(status) => return ExitCode::from(status),
        Err(fail) => fail,
    };
    let status = fail.status();
    let sentence = plain::escaped(&fail.to_string());
    out::beside(format_args!("{sentence}"));
    let (missing, wrong) = match &fail {
        Fail::Damaged(_, _, missing, wrong) => (missing.as_slice(), wrong.as_slice()),
        _ => (&[] as &[_], &[] as &[_]),
    };
    if json {
        let mut fields = vec![
            ("refused", fail.number().into()),
            ("status", u32::from(status).into()),
            ("message", sentence.into()),
        ];
        if let Fail::Damaged(..) = fail {
            fields.push((
                "missing",
                Json::List(missing.iter().map(missing::object).collect()),
            ));
        }
        if fail.lists() {
            let wrong = wrong.iter().map(missing::wrong_object);
            fields.push(("wrong", Json::List(wrong.collect())));
        }
        // The sentence is on standard error already.
        let _ = out.answer(status, Json::Object(fields), "");
    } else if fail.lists() {
        let mut answer = out.decided(status);
        // Where the list can't be written, the sentence and the status stand.
        let lines = missing.iter().map(missing::line);
        let _ = lines
            .chain(wrong.iter().map(missing::wrong_line))
            .try_for_each(|line| answer.line(line));
        let _ = answer.end();
    }
    ExitCode::from(status)
}

/// What no one could read is not done at all.
fn heard() -> Result<(), Fail> {
    match signals::was_closed(signals::OUTPUT) {
        true => Err(Fail::File(
            "standard output is closed, so no one would have the answer; nothing was done"
                .to_string(),
        )),
        false => Ok(()),
    }
}

fn run(given: &[OsString], out: &mut Out) -> Result<u8, Fail> {
    // --json may stand before the command too.
    let skipped = given.iter().take_while(|word| *word == "--json").count();
    let Some((first, rest)) = given[skipped..].split_first() else {
        return Err(Fail::Usage(
            "which command? `grants --help` lists them".to_string(),
        ));
    };
    let first = first.to_string_lossy();
    let words: Vec<&OsString> = rest.iter().filter(|word| *word != "--json").collect();
    match (&*first, &words[..]) {
        ("--help" | "-h", _) | ("help", []) => return told("help", help::overview(), out),
        ("--version", _) => return told("version", help::version(), out),
        ("help", [name]) if *name == "--man" => return told("man", help::man(), out),
        ("help", [name]) if *name == "--bash" => return told("bash", help::bash(), out),
        ("help", [name]) if *name == "--zsh" => return told("zsh", help::zsh(), out),
        ("help", [name, ..]) => {
            return told("help", help::of(named(&name.to_string_lossy())?), out)
        }
        _ => {}
    }
    let command = named(&first)?;
    match args::parse(command.form(), rest)? {
        Some(args) => {
            progress::begin(command.name, rest.iter().any(|word| word == "-"));
            let done = tried(command, &args, out);
            progress::end();
            done
        }
        None => told("help", help::of(command), out),
    }
}

/// How often what is written all the time is read.
const TRIES: usize = 10;

/// What was written while it was read is read again, as long as nothing was said, changed or taken from standard input by then.
fn tried(command: &Command, args: &Args, out: &mut Out) -> Result<u8, Fail> {
    for _ in 1..TRIES {
        match (command.run)(args, out) {
            Err(Fail::Meanwhile(_)) if !out.changed && !out::said() && !files::took_input() => {}
            done => return done,
        }
    }
    (command.run)(args, out)
}

fn told(what: &'static str, text: String, out: &mut Out) -> Result<u8, Fail> {
    out.answer(0, Json::Object(vec![(what, text.as_str().into())]), &text)
}

fn named(name: &str) -> Result<&'static Command, Fail> {
    let found = COMMANDS.iter().find(|command| command.name == name);
    found.ok_or_else(|| {
        Fail::Usage(format!(
            "there is no command {name:?}; `grants --help` lists them"
        ))
    })
}
