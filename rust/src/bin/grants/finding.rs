//! `grants verify .. --against STORE --version VERSION`: whether a proof that is accepted tells the truth about that version, and what it would have cost if not.

use crate::args::{number, Args};
use crate::asked::read_kept;
use crate::json::object;
use crate::out::{both_to_output, ABSENT};
use crate::fail::Fail;
use crate::files;
use crate::out::Out;
use crate::plain::{counted, shown};
use grants::{to_hex, Finding, Value};
use std::path::Path;

/// The proof was accepted and is false: what was thought impossible.
const FOUND: u8 = 4;

/// What was asked with `--against`, of a proof that was accepted with this answer.
pub struct Accepted<'a> {
    pub root: &'a [u8],
    /// Those of the shelf that the proof is of; none for a store's.
    pub bits: Option<u32>,
    pub key: &'a [u8],
    pub proof: &'a [u8],
    pub value: Option<Value>,
}

pub fn against(args: &Args, store: &Path, of: &Accepted<'_>, out: &mut Out) -> Result<u8, Fail> {
    let Some(version) = args.value("--version") else {
        return Err(Fail::Usage("--against STORE goes with --version VERSION".to_string()));
    };
    let version = number("VERSION", version)?;
    let held = read_kept(store)?;
    let refusal = held.refused(store);
    let own_bits = held.shelf().map(|shelf| shelf.bits().get());
    if own_bits != of.bits {
        return Err(Fail::Usage(format!(
            "the proof is of {}, and {} is {}",
            kind(of.bits),
            shown(store),
            kind(own_bits)
        )));
    }
    let own = held.root(version).map_err(&refusal)?;
    if own.as_ref() != of.root {
        return Err(Fail::Usage(format!(
            "ROOT is not the root of version {version} of {}: {own}",
            shown(store)
        )));
    }
    let finding = held.finding(version, of.key, of.proof).map_err(&refusal)?;
    let text = report(&finding, version, of);
    let to = args.value("--out").map(Path::new);
    match to {
        Some(to) if to.as_os_str() == "-" => {
            if out.json {
                return Err(both_to_output());
            }
            let mut answer = out.decided(status(&finding, of));
            answer.raw(text.as_bytes())?;
            return answer.end();
        }
        Some(to) => files::write(args, to, text.as_bytes(), &[store])?,
        None => {}
    }
    let messages = messages(&finding);
    out.answer(
        status(&finding, of),
        object(vec![
            ("root", to_hex(of.root).into()),
            ("key", to_hex(of.key).into()),
            ("present", of.value.is_some().into()),
            ("value", of.value.map(|v| v.to_string()).into()),
            ("version", version.into()),
            ("truth", (finding == Finding::Truth).into()),
            ("message", messages.first().map(|m| to_hex(*m)).into()),
            ("other", messages.get(1).map(|m| to_hex(*m)).into()),
        ]),
        format_args!("{}\n{}", says(of), paragraph(&finding, version)),
    )
}

fn kind(bits: Option<u32>) -> String {
    bits.map_or("a store".to_string(), |bits| format!("a shelf of {}", counted(bits as usize, "bit")))
}

fn status(finding: &Finding, of: &Accepted<'_>) -> u8 {
    match (finding, of.value) {
        (Finding::Truth, Some(_)) => 0,
        (Finding::Truth, None) => ABSENT,
        _ => FOUND,
    }
}

fn says(of: &Accepted<'_>) -> String {
    of.value.map_or("absent".to_string(), |v| format!("present {v}"))
}

fn messages(finding: &Finding) -> Vec<&[u8]> {
    match finding {
        Finding::Truth => vec![],
        Finding::Two(m, n) => vec![m, n],
        Finding::Zero(m) => vec![m],
    }
}

/// One paragraph that a lawyer can read.
fn paragraph(finding: &Finding, version: u32) -> String {
    let what = match finding {
        Finding::Truth => {
            return format!(
                "The proof tells the truth about version {version}: it was held against every grant that it speaks of. Had it been accepted and said \
                 something false, two different messages of 65 bytes with the same SHA-256, or one whose SHA-256 is 32 zero bytes, would be named here: \
                 that is proved, whoever wrote the proof. No one knows such messages."
            )
        }
        Finding::Two(..) => "two different messages of 65 bytes that have the same SHA-256",
        Finding::Zero(_) => "a message of 65 bytes whose SHA-256 is 32 zero bytes",
    };
    format!(
        "The proof is accepted against the root of version {version}, and it says something false about that version. Whoever made it had {what}; it is \
         named below, comes from the nodes of that version and from what the check hashes, and anyone can check it with sha256sum. No one knew of such a \
         thing: keep this store and this proof, and trust no proof under any root until it is understood."
    )
}

/// The bytes for the shell's printf.
fn escaped(message: &[u8]) -> String {
    message.iter().map(|b| format!("\\{b:03o}")).collect()
}

/// The finding as a text that anyone rechecks with sha256sum alone.
fn report(finding: &Finding, version: u32, of: &Accepted<'_>) -> String {
    let mut text = format!(
        "# What is found of a proof (docs/FORGERY.md)\n# version {version}\n# root {}\n# key {}\n# the proof says: {}\n#\n# {}\n",
        to_hex(of.root),
        to_hex(of.key),
        says(of),
        paragraph(finding, version)
    );
    for message in messages(finding) {
        text += &format!("printf '{}' | sha256sum\n", escaped(message));
    }
    text
}

#[cfg(test)]
mod tests {
    use super::*;

    /// No finding can be made under SHA-256, so the text is looked at with messages that are none.
    #[test]
    fn a_finding_is_a_text_for_sha256sum() {
        let of = Accepted { root: &[1; 32], bits: None, key: &[2; 32], proof: &[], value: None };
        let two = Finding::Two([1; 65], [0; 65]);
        let text = report(&two, 7, &of);
        assert!(text.contains("# version 7\n") && text.contains("# the proof says: absent\n"));
        let lines: Vec<&str> = text.lines().filter(|line| !line.starts_with('#')).collect();
        assert_eq!(lines, [format!("printf '{}' | sha256sum", "\\001".repeat(65)), format!("printf '{}' | sha256sum", "\\000".repeat(65))]);
        assert_eq!(status(&two, &of), FOUND);
        assert_eq!(report(&Finding::Zero([255; 65]), 7, &of).lines().last().unwrap(), format!("printf '{}' | sha256sum", "\\377".repeat(65)));
        let truth = report(&Finding::Truth, 7, &of);
        assert!(truth.lines().all(|line| line.starts_with('#')));
        assert_eq!(status(&Finding::Truth, &of), ABSENT);
    }
}
