//! The tree of a version, as text and as a graph. The store was checked: the records whose lifetime has the version are its tree, and a record
//! stands below the one whose place is a bit shorter. Of a shelf, the tree of a part stands below the list's leaf that names its root.

use crate::args::{number, Args};
use crate::asked::{read_kept, version, Bytes, Kept};
use crate::fail::Fail;
use crate::files;
use crate::held;
use crate::json::Json;
use crate::listing::ends;
use crate::out::Out;
use crate::plain::{counted, shown};
use grants::{to_hex, Body, Child, Error, Key, Place, Record, Root, Shelf, ShelfError, Value};
use std::collections::{BTreeMap, BTreeSet, HashSet};
use std::fmt::Write as _;
use std::io::Write as _;
use std::path::Path;
use std::process::{Command, Stdio};

/// A record of one version, with the value that the library reads for a leaf's key.
struct Node {
    slot: usize,
    record: Record,
    grant: Option<(Key, Value)>,
    /// Of a leaf of a shelf's list, the part whose root it has.
    part: Option<u16>,
}

/// The records of one version by place, so a node comes before those below it and left before right.
struct Tree {
    version: u32,
    root: Root,
    /// How many grants it has, by the library.
    count: u64,
    nodes: BTreeMap<Place, Node>,
    /// The part that it is the tree of; none for a store and for a shelf's list.
    of: Option<u16>,
    /// Of a shelf, the trees of its parts.
    parts: BTreeMap<u16, Tree>,
}

impl Tree {
    /// The number under which it was published, where that is seen: a version between two publishings reads as the earlier one.
    fn published(&self) -> u32 {
        let root = self.nodes.get(&Place::EMPTY);
        root.map_or(self.version, |root| root.record.version)
    }

    /// Its own records and those of its parts, each with what tells it from all others.
    fn all(&self) -> impl Iterator<Item = (String, &Node)> + '_ {
        let parts = self.parts.values();
        let own = [self].into_iter().chain(parts);
        own.flat_map(|tree| tree.nodes.values().map(|node| (tree.id(node), node)))
    }

    /// What tells a record from all others of a graph.
    fn id(&self, node: &Node) -> String {
        match self.of {
            Some(part) => format!("p{part:03x}_{}", node.slot),
            None => format!("s{}", node.slot),
        }
    }
}

/// How many records `dot` draws within seconds; its time grows much faster than their number.
const MOST_DRAWN: usize = 1_000;

fn may_be_drawn(trees: &[Tree]) -> Result<(), Fail> {
    let drawn: HashSet<String> = trees.iter().flat_map(Tree::all).map(|(id, _)| id).collect();
    if drawn.len() <= MOST_DRAWN {
        return Ok(());
    }
    Err(Fail::Usage(format!(
        "a picture of {} records would take minutes, and no one could read it: {MOST_DRAWN} at most are drawn. --dot prints the graph, whatever its size",
        drawn.len()
    )))
}

pub fn show(args: &Args, out: &mut Out) -> Result<u8, Fail> {
    let path = args.path(0);
    let kept = read_kept(path)?;
    let refused = kept.refused(path);
    // Of a shelf each part's store is checked where its tree is read.
    let slots = kept.slots().map_err(&refused)?;
    let mut trees = vec![];
    for version in versions(args, &kept, path)? {
        let mut tree = tree(kept.first(), &slots, version).map_err(|e| refused(e.into()))?;
        if let Kept::Shelf(shelf) = &kept {
            with_parts(&mut tree, shelf).map_err(&refused)?;
        }
        trees.push(tree);
    }
    let full = args.has("--full");
    let picture = args.value("--svg").map(Path::new);
    if out.json && (picture.is_some() || args.has("--dot")) {
        return Err(Fail::Usage(
            "--json is one form of the tree, --dot and --svg are others: choose one".to_string(),
        ));
    }
    let text = match picture {
        Some(to) => {
            may_be_drawn(&trees)?;
            let picture = svg(&dot(&trees, full))?;
            if to.as_os_str() != "-" {
                files::write(args, to, &picture, &[path])?;
                format!("{}: {} bytes\n", shown(to), picture.len()).into_bytes()
            } else {
                picture
            }
        }
        None if args.has("--dot") => dot(&trees, full).into_bytes(),
        None if out.json => {
            let trees = Json::List(trees.iter().map(object).collect());
            format!("{trees}\n").into_bytes()
        }
        None => {
            let trees: String = trees.iter().map(|tree| text(tree, full)).collect();
            trees.into_bytes()
        }
    };
    let mut answer = out.decided(0);
    answer.raw(&text)?;
    answer.end()
}

/// The versions that are asked for, else the latest, or that of a day.
fn versions(args: &Args, store: &Kept, path: &Path) -> Result<Vec<u32>, Fail> {
    let mut versions = vec![];
    for word in args.rest(1) {
        let version = number("VERSION", word)?;
        if versions.contains(&version) {
            return Err(Fail::Usage(format!("version {version} is named twice")));
        }
        versions.push(version);
    }
    if versions.is_empty() || args.has("--at") {
        versions = vec![version(args, 1, store, path)?];
    }
    Ok(versions)
}

fn tree(store: &Bytes, slots: &[Option<Record>], version: u32) -> Result<Tree, Error> {
    let lookup = held::lookup();
    let root = store.root(version)?;
    let count = store.count(version)?;
    let mut nodes = BTreeMap::new();
    for (slot, record) in slots.iter().enumerate() {
        let Some(record) = record.filter(|r| r.stands_in(version)) else {
            continue;
        };
        let grant = match record.grant() {
            Some((key, _)) => lookup.get(store, version, key)?.map(|value| (key, value)),
            None => None,
        };
        nodes.insert(
            record.place,
            Node {
                slot,
                record,
                grant,
                part: None,
            },
        );
    }
    Ok(Tree {
        version,
        root,
        count,
        nodes,
        of: None,
        parts: BTreeMap::new(),
    })
}

/// Puts the trees of a shelf's parts below the leaves of its list.
fn with_parts(list: &mut Tree, shelf: &Shelf) -> Result<(), ShelfError> {
    for node in list.nodes.values_mut() {
        node.part = node.grant.map(|(key, _)| shelf.bits().part_of(key));
    }
    let trees = shelf.each_part(list.version, |at| {
        let mut part = tree(&at.store, &at.store.slots()?, at.version)?;
        part.of = Some(at.part);
        Ok((at.part, part))
    })?;
    list.parts = trees.into_iter().collect();
    list.count = list.parts.values().map(|part| part.count).sum();
    Ok(())
}

/// The nodes below a place, left then right, each with its bit.
fn below(tree: &Tree, place: Place) -> impl Iterator<Item = (u8, Place)> + '_ {
    let sides = [(0, place.longer(false)), (1, place.longer(true))];
    let places = sides.into_iter().filter_map(|(bit, p)| p.map(|p| (bit, p)));
    places.filter(|(_, p)| tree.nodes.contains_key(p))
}

fn text(tree: &Tree, full: bool) -> String {
    let mut text = format!(
        "version {}{}: {}, {}, root {}\n",
        tree.version,
        match tree.published() {
            own if own == tree.version => String::new(),
            earlier => format!(" (published as {earlier})"),
        },
        counted(tree.count, "grant"),
        match tree.parts.len() {
            0 => counted(tree.nodes.len(), "record"),
            parts => format!("{}, {}", counted(parts, "part"), counted(tree.all().count(), "record")),
        },
        tree.root
    );
    if tree.nodes.contains_key(&Place::EMPTY) {
        text.push_str("  ");
        draw(tree, Place::EMPTY, "  ", full, &mut text);
    }
    text
}

/// The node's own line after what stands before it, then its children's lines behind `margin`.
fn draw(tree: &Tree, place: Place, margin: &str, full: bool, text: &mut String) {
    let node = &tree.nodes[&place];
    let _ = match node.grant {
        Some((_, root)) if node.part.is_some() => write!(
            text,
            "part {:03x}, root {}",
            node.part.unwrap_or(0),
            ends(root.as_ref(), full)
        ),
        Some((key, value)) => write!(
            text,
            "leaf {} = {}",
            ends(key.as_ref(), full),
            ends(value.as_ref(), full)
        ),
        None => write!(text, "inner{}", below_it(&node.record)),
    };
    let (version, slot) = (node.record.version, node.slot);
    let _ = writeln!(text, "  (version {version}, slot {slot})");
    let mut children = below(tree, place).peekable();
    while let Some((bit, child)) = children.next() {
        let (branch, bar) = match children.peek() {
            Some(_) => ("├─", "│   "),
            None => ("└─", "    "),
        };
        let _ = write!(text, "{margin}{branch}{bit} ");
        draw(tree, child, &format!("{margin}{bar}"), full, text);
    }
    if let Some(part) = node.part.and_then(|part| tree.parts.get(&part)) {
        let _ = write!(text, "{margin}└─ ");
        draw(part, Place::EMPTY, &format!("{margin}   "), full, text);
    }
}

/// ' 2 + 1': how many grants are below the left and below the right child of an inner record.
fn below_it(record: &Record) -> String {
    match record.body {
        Body::Inner { counts, .. } => format!(" {} + {}", counts[0], counts[1]),
        Body::Leaf { .. } => String::new(),
    }
}

fn object(tree: &Tree) -> Json {
    let mut fields: Vec<(&'static str, Json)> = vec![
        ("version", tree.version.into()),
        ("root", tree.root.to_string().into()),
        ("grants", Json::Number(tree.count)),
        ("records", records(tree)),
    ];
    if let Some(part) = tree.of {
        fields.insert(0, ("part", u32::from(part).into()));
    } else if !tree.parts.is_empty() {
        fields.push(("parts", Json::List(tree.parts.values().map(object).collect())));
    }
    Json::Object(fields)
}

fn records(tree: &Tree) -> Json {
    let mut records = vec![];
    for (place, node) in &tree.nodes {
        let mut fields: Vec<(&'static str, Json)> = vec![
            ("slot", node.slot.into()),
            ("place", place.to_string().into()),
            ("version", node.record.version.into()),
            ("retired_since", node.record.retired_since.into()),
        ];
        if let Some((key, value)) = node.grant {
            fields.push(("key", key.to_string().into()));
            fields.push(("value", value.to_string().into()));
        }
        if let Body::Inner {
            left,
            right,
            counts,
        } = node.record.body
        {
            let hash = |child: Option<Child>| child.map(|c| to_hex(&c.hash)).into();
            fields.push(("left", hash(left)));
            fields.push(("right", hash(right)));
            fields.push(("left_count", counts[0].into()));
            fields.push(("right_count", counts[1].into()));
        }
        records.push(Json::Object(fields));
    }
    Json::List(records)
}

const HEAD: &str = r#"digraph grants {
  graph [ordering=out, ranksep=0.4, nodesep=0.3];
  node [fontname="Helvetica", fontsize=11, style=filled, fillcolor=white];
  edge [fontname="Helvetica", fontsize=10, arrowsize=0.6];
"#;

/// A graph in Graphviz's language: each record once, an arrow from each version to its root. Green is what the last version made, dashed what
/// it no longer has.
fn dot(trees: &[Tree], full: bool) -> String {
    let mut text = String::from(HEAD);
    let mut drawn = BTreeSet::new();
    for tree in trees {
        let _ = writeln!(
            text,
            "  v{} [shape=plaintext, style=\"\", label=\"version {}\\nroot {}\"];",
            tree.version,
            tree.version,
            ends(tree.root.as_ref(), full)
        );
        for one in [tree].into_iter().chain(tree.parts.values()) {
            graph(one, tree, trees, full, &mut drawn, &mut text);
        }
        if let Some(node) = tree.nodes.get(&Place::EMPTY) {
            let _ = writeln!(text, "  v{} -> {} [style=bold];", tree.version, tree.id(node));
        }
    }
    if trees.len() > 1 {
        // The versions stand side by side, in the order they were asked for.
        let versions: Vec<String> = trees.iter().map(|t| format!("v{}", t.version)).collect();
        let row = versions.join(" -> ");
        let _ = writeln!(text, "  {{ rank=same; {row} [style=invis]; }}");
    }
    text + "}\n"
}

/// The records of one tree that aren't there yet, and the arrows from each to those below it; from a list's leaf to the root of its part.
fn graph(
    one: &Tree,
    whole: &Tree,
    trees: &[Tree],
    full: bool,
    drawn: &mut BTreeSet<String>,
    text: &mut String,
) {
    for (place, node) in &one.nodes {
        let id = one.id(node);
        if drawn.insert(id.clone()) {
            let _ = writeln!(text, "  {}", shape(&id, node, one.of, trees, full));
        }
        let mut arrow = |to: String, label: String| {
            if drawn.insert(format!("{id}-{to}")) {
                let _ = writeln!(text, "  {id} -> {to}{label};");
            }
        };
        for (bit, child) in below(one, *place) {
            arrow(one.id(&one.nodes[&child]), format!(" [label=\" {bit}\"]"));
        }
        let part = node.part.and_then(|part| whole.parts.get(&part));
        if let Some((part, root)) = part.and_then(|p| Some((p, p.nodes.get(&Place::EMPTY)?))) {
            arrow(part.id(root), String::new());
        }
    }
}

/// The last of the trees that has a record of this part, or of the list: by its number, what it made is told.
fn last_of(trees: &[Tree], of: Option<u16>) -> Option<&Tree> {
    let last = trees.last()?;
    match of {
        Some(part) => last.parts.get(&part),
        None => Some(last),
    }
}

fn shape(id: &str, node: &Node, of: Option<u16>, trees: &[Tree], full: bool) -> String {
    let record = &node.record;
    let place = match record.place.count() {
        0 => "root".to_string(),
        count if count > 16 => format!("{count} bits"),
        _ => record.place.to_string(),
    };
    let since = match record.retired_since {
        Some(since) => format!(", retired since {since}"),
        None => String::new(),
    };
    let head = format!("{place}\\nversion {}{since}", record.version);
    let several = trees.len() > 1;
    let last = last_of(trees, of);
    let newest = trees.last().map_or(0, Tree::published);
    let look = if several && !last.is_some_and(|last| record.stands_in(last.version)) {
        "style=\"filled,dashed\", fillcolor=\"#f0f0f0\", fontcolor=\"#606060\""
    } else if several && newest == record.version {
        "fillcolor=\"#d8f0d8\""
    } else {
        "fillcolor=white"
    };
    match node.grant {
        Some((_, root)) if node.part.is_some() => format!(
            "{id} [shape=folder, label=\"{head}\\npart {:03x}\\nroot {}\", {look}];",
            node.part.unwrap_or(0),
            ends(root.as_ref(), full)
        ),
        Some((key, value)) => format!(
            "{id} [shape=box, label=\"{head}\\n{}\\n= {}\", {look}];",
            ends(key.as_ref(), full),
            ends(value.as_ref(), full)
        ),
        None => format!(
            "{id} [shape=ellipse, label=\"{head}\\n{} {}\", {look}];",
            below_it(record).trim(),
            if of.is_none() && trees.iter().any(|tree| !tree.parts.is_empty()) { "parts" } else { "grants" }
        ),
    }
}

fn svg(graph: &str) -> Result<Vec<u8>, Fail> {
    let failed = |e: std::io::Error| {
        match e.kind() {
        std::io::ErrorKind::NotFound => Fail::File(
            "cannot draw: `dot` is not installed (Debian's package graphviz has it); --dot prints the graph"
                .to_string(),
        ),
        _ => Fail::File(format!("cannot draw: dot: {e}")),
    }
    };
    let mut dot = Command::new("dot")
        .arg("-Tsvg")
        .stdin(Stdio::piped())
        .stdout(Stdio::piped())
        .spawn()
        .map_err(failed)?;
    // dot reads all of the graph before it writes, so this does not wait for that.
    if let Some(mut to) = dot.stdin.take() {
        to.write_all(graph.as_bytes()).map_err(failed)?;
    }
    let done = dot.wait_with_output().map_err(failed)?;
    if !done.status.success() {
        return Err(Fail::File(format!("cannot draw: dot: {}", done.status)));
    }
    Ok(done.stdout)
}
