//! Help, the manual page and the completions: all from the one table.

use crate::table::{Command, COMMANDS};

const HEAD: &str = "grants: a versioned, authenticated key-value store in a file";

const COMMON: &str = "\
Keys, values and roots are 64 hex digits. A key may also be a name that the book has, or any name between double quotes,
which then stands for its SHA-256. Where a file is read, - is standard input; -- ends the options; --json answers in JSON.";

const STATUS: &str = "\
exit status: 0 accepted; 1 absent (get, verify, list, history); 2 the command line is wrong; 3 a file can't be read or
written; 4 the book can't tell, a store can't grow, a root is past its date or not the rescued one, or verify --against
finds an accepted proof false; 5 held back, and the sentence names the option that lets it through; 10 + N refused with
number N of docs/RULES.md.
A command that fails leaves the store as it was.";

const EXAMPLES: &str = "\
A grant, published, and its root to be signed:

  grants format market 100
  printf '+ \"chords sonata\" \"read\"\\n' >first
  grants apply market first --message 'Spring list' --dry-run
  grants apply market first --message 'Spring list'
  grants root market --out root.txt --not-after 2026-12-31

A list that a program makes, published at night; what looks wrong is held back:

  make-list >list && grants import market list --most-removed 20 || mail -s 'not published' desk <list

What an editor does with the proof of a key:

  grants prove market '\"chords sonata\"' --out proof
  grants verify root.txt '\"chords sonata\"' proof --least 7";

const FILES: &str = "\
STORE: the store; it is replaced as a whole and never written into.

STORE.book: names, dates and messages, a text for people. Nothing is trusted in it that the library doesn't say.

.STORE.grants-new: the new store while it is written; the next writer removes one that was left.

DIR: a shelf. It has the text shelf, the store list, its book list.book, and a store for each part, named by its numbers as
part-0a3-7-2-3906; those of a shelf of the old form are named old-0a3-7-2-3906.

STORE.old, DIR.old: what `grants move` replaced.";

const ENVIRONMENT: &str = "\
GRANTS_AUTHOR: by whom a version is published, where --author doesn't say it; else USER, LOGNAME, or the name that the
system has for the user.";

/// Whether the library's proofs were checked where it was built; rust/build.rs reads it beside the archive.
pub const PROOFS: &str = env!("GRANTS_PROOFS");

pub fn version() -> String {
    format!("grants {} (library: {PROOFS})", env!("CARGO_PKG_VERSION"))
}

pub fn overview() -> String {
    let mut text = format!("{HEAD}\n\nusage: grants COMMAND WORDS .. [OPTIONS]\n\n");
    for command in COMMANDS {
        let call = format!("{} {}", command.name, command.usage);
        text += &format!("  {call:<28}  {}\n", command.what);
    }
    text += &format!("\n`grants COMMAND --help` says more of each.\n\n{COMMON}\n\n{STATUS}");
    text
}

fn options(command: &Command) -> Vec<(String, &'static str)> {
    let with_value = |name: &str, value: Option<&str>| match value {
        Some(value) => format!("{name} {value}"),
        None => name.to_string(),
    };
    let choices = command.choices.iter();
    choices
        .map(|choice| (with_value(choice.name, choice.value), choice.help))
        .collect()
}

pub fn of(command: &Command) -> String {
    let mut text = format!(
        "{}\n\nusage: grants {} {}\n\n{}\n\noptions:\n",
        command.what, command.name, command.usage, command.help
    );
    for (call, help) in options(command) {
        text += &format!("  {call:<18}  {help}\n");
    }
    text += "\n";
    text += STATUS;
    text
}

/// The manual page, in the language of man(7).
pub fn man() -> String {
    let plain = |text: &str| {
        let lines = text.replace('\\', "\\\\").replace('-', "\\-");
        let lines = lines
            .lines()
            .map(|line| match line.starts_with(['.', '\'']) {
                true => format!("\\&{line}\n"),
                false => format!("{line}\n"),
            });
        lines.collect::<String>()
    };
    let mut text = format!(
        ".TH GRANTS 1 \"\" \"grants {}\"\n.SH NAME\ngrants \\- a versioned, authenticated key\\-value store in a file\n",
        env!("CARGO_PKG_VERSION")
    );
    text += ".SH SYNOPSIS\n.B grants\n.I COMMAND WORDS\n.RI .. \" [OPTIONS]\"\n.SH DESCRIPTION\n";
    text += &plain(COMMON);
    text += ".SH COMMANDS\n";
    for command in COMMANDS {
        text += &format!(".SS grants {} {}\n", command.name, command.usage);
        text += &plain(command.what);
        for paragraph in command.help.split("\n\n") {
            // What is indented stands as it is, the rest is filled.
            text += &match paragraph.starts_with(' ') {
                true => format!(".PP\n.nf\n{}.fi\n", plain(paragraph)),
                false => format!(".PP\n{}", plain(paragraph)),
            };
        }
        for (call, help) in options(command) {
            text += &format!(".TP\n.B {}{}", plain(&call), plain(help));
        }
    }
    for (head, section) in [
        ("EXAMPLES", EXAMPLES),
        ("FILES", FILES),
        ("ENVIRONMENT", ENVIRONMENT),
    ] {
        text += &format!(".SH {head}\n");
        for paragraph in section.split("\n\n") {
            text += &match paragraph.starts_with(' ') {
                true => format!(".PP\n.nf\n{}.fi\n", plain(paragraph)),
                false => format!(".PP\n{}", plain(paragraph)),
            };
        }
    }
    text += ".SH EXIT STATUS\n";
    text += &plain(STATUS.strip_prefix("exit status: ").unwrap_or(STATUS));
    text += ".SH SEE ALSO\ndocs/TOOL.md, docs/RULES.md and docs/SIGNING.md of the sources\n";
    text += ".SH LICENSE\n";
    text += &plain(env!("CARGO_PKG_LICENSE"));
    text.trim_end().to_string()
}

pub fn bash() -> String {
    let names: Vec<&str> = COMMANDS.iter().map(|command| command.name).collect();
    let mut text = format!(
        "_grants() {{\n  local word=${{COMP_WORDS[COMP_CWORD]}} options at=1\n  while [ \"$at\" -lt \"$COMP_CWORD\" ] && [ \"${{COMP_WORDS[at]}}\" = --json ]; do at=$((at + 1)); done\n  if [ \"$COMP_CWORD\" = \"$at\" ]; then\n    mapfile -t COMPREPLY < <(compgen -W '{} help --help --version' -- \"$word\")\n    return\n  fi\n  case ${{COMP_WORDS[at]}} in\n",
        names.join(" ")
    );
    for command in COMMANDS {
        let options: Vec<&str> = command.choices.iter().map(|choice| choice.name).collect();
        text += &format!(
            "    {}) options='{} --help' ;;\n",
            command.name,
            options.join(" ")
        );
    }
    text += &format!("    help) options='{}' ;;\n  esac\n", names.join(" "));
    text += "  case $word in\n    -*) mapfile -t COMPREPLY < <(compgen -W \"$options\" -- \"$word\") ;;\n    *)\n      if [ \"${COMP_WORDS[at]}\" = help ]; then\n        mapfile -t COMPREPLY < <(compgen -W \"$options\" -- \"$word\")\n      else\n        mapfile -t COMPREPLY < <(compgen -f -- \"$word\")\n      fi ;;\n  esac\n}\ncomplete -o filenames -F _grants grants";
    text
}

pub fn zsh() -> String {
    let quote = |text: &str| {
        text.replace('\'', "'\\''")
            .replace(['[', ']'], "")
            .replace(':', "\\:")
    };
    let mut text = String::from("#compdef grants\nlocal -a commands\ncommands=(\n");
    for command in COMMANDS {
        text += &format!("  '{}:{}'\n", command.name, quote(command.what));
    }
    text += ")\nwhile (( CURRENT > 2 )) && [[ $words[2] == --json ]]; do\n  shift words\n  (( CURRENT-- ))\ndone\nif (( CURRENT == 2 )); then\n  _describe command commands\n  return\nfi\ncase $words[2] in\n";
    for command in COMMANDS {
        text += &format!("  {}) _arguments", command.name);
        for choice in command.choices {
            let value = match choice.value {
                Some("FILE") => ":FILE:_files".to_string(),
                Some(value) => format!(":{value}:"),
                None => String::new(),
            };
            text += &format!(" '{}[{}]{value}'", choice.name, quote(choice.help));
        }
        text += " '*:file:_files' ;;\n";
    }
    text + "  help) _describe command commands ;;\nesac"
}
