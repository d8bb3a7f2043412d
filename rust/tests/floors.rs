//! The tool's files stand on floors: each uses files below it, and no circle leads back. Read from the sources.

use std::collections::{BTreeMap, BTreeSet};
use std::fs;
use std::path::Path;

type Uses = BTreeMap<String, BTreeSet<String>>;

/// The files that a text names after `crate::`, alone or in braces.
fn named(text: &str) -> BTreeSet<String> {
    let word = |text: &str| -> String {
        text.chars().take_while(|c| c.is_ascii_lowercase() || *c == '_' || c.is_ascii_digit()).collect()
    };
    let code: Vec<&str> = text.lines().map(|line| line.split("//").next().unwrap_or_default()).collect();
    let code = code.join("\n");
    let mut names = BTreeSet::new();
    for after in code.split("crate::").skip(1) {
        match after.strip_prefix('{') {
            Some(list) => {
                let list = list.split('}').next().unwrap_or_default();
                names.extend(list.split(',').map(|name| word(name.trim())));
            }
            None => drop(names.insert(word(after))),
        }
    }
    names
}

fn uses() -> Uses {
    let folder = Path::new(env!("CARGO_MANIFEST_DIR")).join("src/bin/grants");
    let mut uses = Uses::new();
    for entry in fs::read_dir(folder).unwrap() {
        let path = entry.unwrap().path();
        let name = path.file_stem().unwrap().to_string_lossy().into_owned();
        uses.insert(name, named(&fs::read_to_string(path).unwrap()));
    }
    let files: BTreeSet<String> = uses.keys().cloned().collect();
    for (name, used) in &mut uses {
        used.retain(|other| files.contains(other) && other != name);
    }
    uses
}

#[test]
fn no_circle_leads_back() {
    let mut left = uses();
    assert!(left.len() > 40 && left["shelves"].contains("files"), "{left:?}");
    // Floor by floor from below: files whose uses are all on floors below.
    while !left.is_empty() {
        let floor: Vec<String> = left.iter().filter(|(_, used)| used.iter().all(|u| !left.contains_key(u))).map(|(name, _)| name.clone()).collect();
        assert!(!floor.is_empty(), "a circle of the tool's files: {:?}", left.keys());
        for name in floor {
            left.remove(&name);
        }
    }
}
