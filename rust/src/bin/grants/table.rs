//! The commands, with what each takes and what its help says. A new command is one more row here; help, the manual page and the completions follow.

use crate::args::{Args, Choice, Form};
use crate::fail::Fail;
use crate::out::Out;
use crate::{
    commands, counts, diff, grow, listing, message, moving, names, note, publish, report, rescue,
    shelves, show, statement,
};

pub struct Command {
    pub name: &'static str,
    pub usage: &'static str,
    pub what: &'static str,
    pub help: &'static str,
    /// The least and the most words after the command's name.
    pub words: (usize, usize),
    pub choices: &'static [Choice],
    /// The exit status of an accepted command: 0, or 1 for absent.
    pub run: fn(&Args, &mut Out) -> Result<u8, Fail>,
}

impl Command {
    pub fn form(&self) -> Form {
        Form {
            name: self.name,
            usage: self.usage,
            words: self.words,
            choices: self.choices,
        }
    }
}

const fn flag(name: &'static str, help: &'static str) -> Choice {
    let value = None;
    Choice { name, value, help }
}

const fn valued(name: &'static str, value: &'static str, help: &'static str) -> Choice {
    let value = Some(value);
    Choice { name, value, help }
}

const JSON: Choice = flag("--json", "answer in JSON");
const WAIT: Choice = valued(
    "--wait",
    "SECONDS",
    "wait no longer than that for another writer (0: not at all)",
);
const BOOK: Choice = valued(
    "--book",
    "FILE",
    "the book with names and dates, where it is not STORE.book",
);
const NO_BOOK: Choice = flag("--no-book", "read and write no book");
const AT: Choice = valued(
    "--at",
    "DATE",
    "the version that was the latest at the end of that day (UTC), by the book",
);
const FULL: Choice = flag("--full", "hex digits in full");
const FORCE: Choice = flag("--force", "replace a file that is there");
const MESSAGE: Choice = valued("--message", "TEXT", "why, for the book");
const AUTHOR: Choice = valued(
    "--author",
    "NAME",
    "by whom, for the book; else GRANTS_AUTHOR, else the user's name",
);
const DATE: Choice = valued("--date", "DATE", "when, for the book; else now");
const DRY_RUN: Choice = flag(
    "--dry-run",
    "say what would be published and how much room is left, and change nothing",
);
const NUMBER: Choice = valued(
    "--number",
    "N",
    "the version's number, any above the latest; else the next one",
);
const MATCH: Choice = valued(
    "--match",
    "TEXT",
    "only grants whose key has a name with TEXT in it",
);

const BY_BOOK: Choice = valued(
    "--by-book",
    "NAME",
    "publish NAME as what the book gives it, which isn't its SHA-256; may be given again",
);

const MOST_REMOVED: Choice = valued(
    "--most-removed",
    "N",
    "hold it back where more than N grants would be removed; without it, where more than a tenth would",
);
const EXPECT_ROOT: Choice = valued(
    "--expect-root",
    "HEX",
    "hold it back where the list that it makes has another root",
);
const STRICT: Choice = flag(
    "--strict",
    "hold it back where a record changes nothing: a key to remove that isn't there, a value that is",
);

const KEYS: Choice = valued(
    "--keys",
    "FILE",
    "the keys are the lines of FILE: 64 hex digits, or a name in double quotes",
);

const BITS: Choice = valued(
    "--bits",
    "B",
    "a shelf: so many bits of a key name its part, 0 to 12",
);
const SLOTS: Choice = valued("--slots", "N", "of a shelf, the slots of each part; else 16384");
const LIST_SLOTS: Choice = valued("--list-slots", "N", "of a shelf, the slots of its list; else 16384");

pub const COMMANDS: &[Command] = &[
    Command {
        name: "format",
        usage: "STORE CAPACITY | STORE --for GRANTS | DIR --bits B",
        what: "a fresh, empty store with CAPACITY slots",
        help: "\
CAPACITY is 1 to 16,384. Each record takes a slot; a publishing makes about as many records as there are nodes above and
at what it changes. The file has 24 + 128 CAPACITY bytes. A file that is already there is left alone, unless --force.
With --for the capacity is estimated (docs/SIZING.md): about 2.4 slots a grant, and room for the versions that are kept.
Some 6,000 grants fit one store.

With --bits a shelf is made in the folder DIR, for more grants than that (docs/SCALE.md): grants whose keys begin with the same
B bits, 0 to 12, are in one store, their part, and the list of parts is a store too, whose root is the one that is signed. Every
command takes DIR where it takes STORE. A shelf that is there is made afresh with --force: all that it holds is lost.",
        words: (1, 2),
        choices: &[
            JSON,
            valued("--for", "GRANTS", "estimate the capacity for so many grants"),
            valued("--weekly", "CHANGES", "with so many changes in each week's publishing"),
            valued("--keep", "VERSIONS", "of which so many versions are kept; else 1"),
            BITS,
            SLOTS,
            LIST_SLOTS,
            flag("--force", "make a fresh store of a file that is there, or a fresh shelf; what it holds is lost"),
            WAIT,
            BOOK,
            NO_BOOK,
        ],
        run: commands::format,
    },
    Command {
        name: "check",
        usage: "STORE",
        what: "is the store sound?",
        help: "\
Sound: every kept version is a whole tree with every stored hash true, and every record stands in exactly the versions
of its lifetime. Of a store that isn't, every record that a kept version wants and that can't be found is listed, with its
version and place, and its slot where it is spoilt, not lost; where none is missing, what is wrong, by slots: for support,
not as a promise. STORE may be -.",
        words: (1, 1),
        choices: &[JSON],
        run: commands::check,
    },
    Command {
        name: "apply",
        usage: "STORE BATCH",
        what: "publish a version",
        help: "\
BATCH is text, a line for each key in any order:

  + KEY VALUE    the key gets this value
  - KEY          the key has no value from now on

A key or a value is 64 hex digits, or a name in double quotes: what the book gives that name, else its SHA-256; the book
gets the names that it doesn't have. Empty lines and what follows # are passed over. Or BATCH is binary records of 72 bytes
(docs/FORMAT.md), keys ascending; a file with a zero byte in it is taken as binary. An empty batch publishes a version with
the same grants. A batch has at most 1,024 records.

The version's number is the next one, or any above the latest with --number; a version between two publishings reads as the
earlier one. With --split the last part gets the number given, and those before it the numbers just below.

The store's file is replaced as a whole: it is written beside, synced and renamed, under a lock. Then STORE.book gets a line
with the version, its root, date, author and message. BATCH may be -.",
        words: (2, 2),
        choices: &[
            JSON,
            NUMBER,
            MESSAGE,
            AUTHOR,
            DATE,
            DRY_RUN,
            BY_BOOK,
            MOST_REMOVED,
            EXPECT_ROOT,
            STRICT,
            flag("--end", "hold it back where BATCH has no end line"),
            flag("--split", "publish more than 1,024 records as several versions: all of them or none"),
            flag("--binary", "BATCH is binary records, whatever it looks like"),
            WAIT,
            BOOK,
            NO_BOOK,
        ],
        run: publish::apply,
    },
    Command {
        name: "import",
        usage: "STORE BATCH",
        what: "publish what makes the store hold exactly the grants of BATCH",
        help: "\
BATCH is text with '+' lines alone, as `grants export` prints it: its grants are inserted, and those that it doesn't have
are deleted. Where that takes more than 1,024 records, several versions are published, all of them or none, the last of them
under the number given with --number; where it takes none, no version is. BATCH may be -.",
        words: (2, 2),
        choices: &[
            JSON,
            NUMBER,
            MESSAGE,
            AUTHOR,
            DATE,
            DRY_RUN,
            BY_BOOK,
            MOST_REMOVED,
            EXPECT_ROOT,
            flag("--allow-empty", "publish a list without a grant: every grant is removed"),
            flag("--no-end", "take a list without an end line"),
            WAIT,
            BOOK,
            NO_BOOK,
        ],
        run: publish::import,
    },
    Command {
        name: "prune",
        usage: "STORE VERSION",
        what: "keep no version older than VERSION",
        help: "\
Frees every record retired since VERSION or earlier; its slots are used again. Between two publishings it keeps the earlier
one, which is what VERSION reads as.",
        words: (2, 2),
        choices: &[JSON, WAIT],
        run: commands::prune,
    },
    Command {
        name: "grow",
        usage: "STORE CAPACITY",
        what: "the same versions in a store with CAPACITY slots",
        help: "\
Publishes every kept publishing again, under its own number, into a fresh store, compares each root with the old one, and
puts that store in STORE's place. Nothing is lost; slots and the versions of single records may be others. CAPACITY may be
smaller, if all of it fits.",
        words: (2, 2),
        choices: &[JSON, WAIT],
        run: grow::grow,
    },
    Command {
        name: "shelf",
        usage: "STORE DIR --bits B",
        what: "a shelf with the versions of a store, for more grants than one store holds",
        help: "\
Publishes every kept publishing of STORE again, under its own number, into a new shelf in the folder DIR; the grants of every
version are compared before DIR is there. STORE may be a shelf itself, to be given other bits or slots. Roots are others: the
shelf's is that of its list. STORE is only read; names, dates and messages come along in DIR/list.book.",
        words: (2, 2),
        choices: &[JSON, BITS, SLOTS, LIST_SLOTS, BOOK, NO_BOOK],
        run: shelves::shelf,
    },
    Command {
        name: "move",
        usage: "STORE [OUT]",
        what: "a store of the old form in that of today, or back",
        help: "\
Before inner records had counts, a store had slots of 120 bytes. This brings such a store over into the form of today, which
the other commands take, or back again: slots, versions, roots and proofs stay as they are, and there and back gives the same
bytes. Each publishing's root is compared before anything is written. STORE is replaced as a whole, and what it was is kept as
STORE.old; with OUT it is only read, and its book is copied beside OUT. Of a shelf every part and the list are moved, all of them or
none, and OUT is a folder that isn't there yet.",
        words: (1, 2),
        choices: &[
            JSON,
            valued("--to", "FORM", "new, the form of today, or old"),
            flag("--no-keep", "keep no STORE.old"),
            DRY_RUN,
            FORCE,
            BOOK,
            NO_BOOK,
            WAIT,
        ],
        run: moving::moved,
    },
    Command {
        name: "rescue",
        usage: "DAMAGED [OUT]",
        what: "the good versions of a damaged store, as a sound store in OUT",
        help: "\
Writes to OUT a sound store of the longest run of versions, none before --oldest, that ends at --latest and whose trees are
whole in DAMAGED. What DAMAGED says of itself in its first 24 bytes isn't looked at, so --latest is yours to say. It says which
versions came back, which slots were left out and why, and why the run begins no earlier.

Compare the root with the one that was signed, best by --root: OUT is not written where they differ. A root record whose
retired-since was damaged to 0 or upwards, with the newer root record lost, makes withdrawn grants seem in force in later
versions, and nothing in the store shows it.

Without --latest nothing is written: it lists the root records that are there, with version and root, and whether each can
be rescued.
DAMAGED is only read, and may be -; it must have its whole length.

With --with OTHER, another copy of the same store, older, newer or damaged too, what is lost here and whole there is taken from there: the
longest run that the library gives of either copy, or of one filled up from the other. It says what was taken from where. Every version
that DAMAGED has by itself keeps its root; where OTHER alone has a version's root record, compare its root with the signed one.

Of a shelf, DAMAGED and OUT are folders. Where its list is lost, another one is made of its parts, for the versions that all of them
have; without --latest the root that it had in each is listed. A part whose file is lost leaves no trace, so only a root that is the
signed one counts.",
        words: (1, 2),
        choices: &[
            JSON,
            valued("--latest", "N", "the version that the run must end at"),
            valued("--oldest", "N", "no version before this one; else 0"),
            valued("--root", "HEX", "the root that was signed for the latest version; where it differs nothing is written"),
            valued("--with", "OTHER", "another copy, from which is taken what is lost here and whole there"),
            flag("--parts-alone", "of a shelf: make another list of its parts, though there is one"),
            valued("--bits", "B", "of a shelf's parts: its bits, where the file that says them is lost"),
            FORCE,
        ],
        run: rescue::rescue,
    },
    Command {
        name: "root",
        usage: "STORE [VERSION]",
        what: "the root of a version",
        help: "\
64 zeros where the version holds no grant. Without VERSION, the latest. With --out the root is written to a file with its
version and dates, to be signed (docs/SIGNING.md); `grants verify` takes that file for ROOT. STORE may be -.",
        words: (1, 2),
        choices: &[
            JSON,
            AT,
            valued("--out", "FILE", "write a statement to be signed to FILE (- for standard output)"),
            valued("--not-after", "DATE", "until when the statement is good"),
            DATE,
            FORCE,
            BOOK,
            NO_BOOK,
        ],
        run: statement::root,
    },
    Command {
        name: "get",
        usage: "STORE KEY [VERSION]",
        what: "the value of a key in a version",
        help: "Prints the value, or 'absent' with exit status 1. Without VERSION, the latest. STORE may be -.",
        words: (2, 3),
        choices: &[JSON, AT, BOOK, NO_BOOK],
        run: commands::get,
    },
    Command {
        name: "count",
        usage: "STORE [VERSION]",
        what: "how many grants a version has",
        help: "\
By the counts in the version's root record; no other record is looked at. Without VERSION, the latest. STORE may be -.",
        words: (1, 2),
        choices: &[JSON, AT, BOOK, NO_BOOK],
        run: counts::count,
    },
    Command {
        name: "at",
        usage: "STORE POSITION [VERSION]",
        what: "the grant at a position of a version, 0 the least key",
        help: "\
Prints the key and the value, and their names where they are known. The way there goes by the counts in the records, so no
other grant is read. A position that isn't below the number of grants is refused with 20. Without VERSION, the latest. STORE
may be -.",
        words: (2, 3),
        choices: &[JSON, AT, BOOK, NO_BOOK],
        run: counts::at,
    },
    Command {
        name: "prove",
        usage: "STORE KEY [VERSION] | STORE KEY.. --version VERSION | STORE [VERSION] --keys FILE",
        what: "the proof that a key is in a version, or that it isn't; of several keys, one after the other",
        help: "\
Prints the proof in hex, or writes its bytes to a file with --out. Without VERSION, the latest. STORE may be -. In a version
without a grant there is no proof (refused with 14): its root, 32 zero bytes, itself shows that nothing is granted.
With --version or --keys, up to 256 keys: their proofs in the order asked, in one call; where one is refused, the first
refusal is the answer.

With --ics23 the proof of one key as the message of ICS 23 that partners' verifiers read (docs/PARTNERS.md). It holds raw keys and
values, those of the neighbours too: names of the book serve where their SHA-256 is the key or the value; --raw-key and --raw-value
give files, each whole, in any order.",
        words: (1, usize::MAX),
        choices: &[
            JSON,
            AT,
            valued("--version", "VERSION", "the version; every word after STORE is then a key"),
            flag("--pocket", "refuse with 19 a proof that shows a leaf with more than 32 steps"),
            flag("--ics23", "the message of ICS 23 for partners"),
            valued("--raw-key", "FILE", "a raw key, with --ics23; may be given again"),
            valued("--raw-value", "FILE", "a raw value, with --ics23; may be given again"),
            valued("--out", "FILE", "write the proof's bytes to FILE (- for standard output)"),
            KEYS,
            FORCE,
            BOOK,
            NO_BOOK,
        ],
        run: commands::prove,
    },
    Command {
        name: "verify",
        usage: "ROOT KEY.. PROOF | ROOT PROOF --keys FILE",
        what: "what a proof shows of a key against a root, or the proofs of several keys",
        help: "\
Prints 'present' and the value, or 'absent' with exit status 1. Of several keys, in the order in which their proofs were
asked for, a line each: exit status 0 only if all are present, 1 if all proofs are accepted and some key is absent, else 10
and the number of the first refusal, which names its key. ROOT is 64 hex digits, or a file that `grants root --out`
wrote and whose signature you have checked; one that is past its date is refused. PROOF is a file with the proof's bytes, or
with their hex digits; it may be -. No store is needed.

With --against STORE and --version VERSION, whose root ROOT then must be, the proof is also held against that version's grants:
it tells the truth, or the two different messages with equal SHA-256, or the one whose SHA-256 is zero, that it took to forge
it are named, with exit status 4. --out writes that as a text for sha256sum. docs/FORGERY.md says what it means.

With --ics23 the words are ROOT and the file of an ICS 23 message, or ROOT, KEY and that file: without KEY it is the key in the message
that is asked for, which the answer names.",
        words: (2, usize::MAX),
        choices: &[
            JSON,
            valued(
                "--least",
                "VERSION",
                "refuse a ROOT file of an older version than this, the highest that was seen",
            ),
            flag("--pocket", "refuse with 19 a proof that shows a leaf with more than 32 steps"),
            valued("--bits", "B", "the proof is of a shelf with so many bits, and ROOT is its list's; a ROOT file says it itself"),
            flag("--ics23", "the proof is a message of ICS 23"),
            valued("--against", "STORE", "hold the proof against a version's grants"),
            valued("--version", "VERSION", "the version, with --against"),
            valued("--out", "FILE", "write what is found to FILE (- for standard output)"),
            FORCE,
            KEYS,
            BOOK,
            NO_BOOK,
        ],
        run: commands::verify,
    },
    Command {
        name: "ics23",
        usage: "show FILE",
        what: "a message of ICS 23 as text",
        help: "\
What `grants prove --ics23` wrote, field by field: which leaves it shows, with raw keys and values, and the steps from each to the
root. Whether it holds is for `grants verify --ics23` to say. FILE has the message's bytes, or their hex digits; it may be -.",
        words: (2, 2),
        choices: &[JSON],
        run: message::ics23,
    },
    Command {
        name: "list",
        usage: "STORE [VERSION]",
        what: "all grants of a version, with names where they are known",
        help: "\
Exit status 1 where there is none. Without VERSION, the latest. The store is checked first. STORE may be -.

With --from or --most a page of the list, in key order: its grants are read by their positions, each line begins with the
position, the rest of the list isn't read and the store isn't checked. Exit status 1 where the page is empty.",
        words: (1, 2),
        choices: &[
            JSON,
            AT,
            valued("--from", "N", "the grants from position N on, 0 the least key; else 0"),
            valued("--most", "N", "at most N grants; else all that follow"),
            MATCH,
            FULL,
            flag("--csv", "a line 'key,value,key_name,value_name', then one for each grant"),
            BOOK,
            NO_BOOK,
        ],
        run: listing::list,
    },
    Command {
        name: "diff",
        usage: "STORE [FIRST [SECOND]]",
        what: "what changed from one version to another, else to the latest; of STORE alone, in the last publishing",
        help: "\
A line for each key added (+ KEY VALUE), removed (- KEY VALUE) or given another value (~ KEY OLD -> NEW), in key order, and a
line that counts them, with names, dates and messages where the book has them. --at DATE takes the version of that day for
FIRST. FIRST may be the later one: the list then undoes the other. --batch writes a batch that `grants apply`
takes and that makes the one version's grants of the other's; --records writes the library's own list (docs/FORMAT.md).",
        words: (1, 3),
        choices: &[
            JSON,
            AT,
            flag("--stat", "the counts alone"),
            flag("--csv", "a line 'change,key,old,new,key_name,old_name,new_name', then one for each change"),
            flag("--batch", "lines that apply takes: a delete without its value, a change as its insert"),
            valued("--records", "FILE", "write the records of 72 bytes to a file"),
            valued("--limit", "N", "refuse with 13 where more places would be visited; else 32769, which is always enough"),
            FORCE,
            BOOK,
            NO_BOOK,
        ],
        run: diff::diff,
    },
    Command {
        name: "report",
        usage: "STORE",
        what: "the figures of a range of versions: grants, inner nodes, paths, records",
        help: "\
A line for each publishing of the range, with the versions that read as it: its grants, inner nodes and records, its longest path and
its mean path (a path has as many steps as the grant's proof); then how many different records stand in the range, and the records of
each version added up. A range has at most 1024 versions, published or not; without --from it is the last 1024 that are kept. --from
and --to take a version, or a DATE: the version that was the latest at the end of that day (UTC), by the book. --csv and --json have
a row for each version. --svg draws grants and records, by date where the book has a date for each publishing, else by version.
The store is checked first. STORE may be -.",
        words: (1, 1),
        choices: &[
            JSON,
            valued("--from", "VERSION|DATE", "the first version of the range"),
            valued("--to", "VERSION|DATE", "the last version of the range; else the latest"),
            flag("--csv", "a row for each version, with commas"),
            valued("--svg", "FILE", "draw a picture to FILE"),
            FORCE,
            BOOK,
            NO_BOOK,
        ],
        run: report::report,
    },
    Command {
        name: "history",
        usage: "STORE KEY",
        what: "every kept publishing in which a key's value changed",
        help: "\
The oldest kept version first, whatever it holds. Exit status 1 where no kept version has the key. The store is checked
first. STORE may be -.",
        words: (2, 2),
        choices: &[JSON, FULL, BOOK, NO_BOOK],
        run: listing::history,
    },
    Command {
        name: "log",
        usage: "STORE",
        what: "each kept publishing: its versions, when, by whom and why, what it changed, its root",
        help: "\
Numbers may have gaps: '5 to 8' is what was published as 5 and read until the next publishing, 9. 'new' are the records that the publishing made and that are still kept. What the oldest kept version changed is not known
any more. An empty publishing after an empty one leaves nothing in the store, and is listed where the book has it. Date, author and message are the book's; where its line has another root than the store, the book
disagrees and isn't used. The store is checked first. STORE may be -.",
        words: (1, 1),
        choices: &[JSON, valued("--last", "N", "the last N publishings only"), FULL, BOOK, NO_BOOK],
        run: listing::log,
    },
    Command {
        name: "export",
        usage: "STORE [VERSION]",
        what: "the grants of a version as a batch in text",
        help: "\
`grants import` takes it, and makes a version with the same root. Names stand for themselves where SHA-256 gives their
bytes. Without VERSION, the latest. The store is checked first. STORE may be -.",
        words: (1, 2),
        choices: &[JSON, AT, BOOK, NO_BOOK],
        run: listing::export,
    },
    Command {
        name: "name",
        usage: "STORE [NAME [KEY]]",
        what: "the names in the book, or one more",
        help: "\
NAME stands for KEY, else for its SHA-256. A name that is there already keeps what it stands for: lines are only ever added.",
        words: (1, 3),
        choices: &[JSON, WAIT, BOOK],
        run: names::name,
    },
    Command {
        name: "note",
        usage: "STORE VERSION",
        what: "a line of the book for a version that has none",
        help: "\
Adds what a publishing would have added: the version with its root, date, author and message. A writer that was stopped
between the store and the book leaves a version without its line, and the next one says so. Where a line agrees already,
--again adds one that counts in its place.",
        words: (2, 2),
        choices: &[
            JSON,
            DATE,
            MESSAGE,
            AUTHOR,
            flag("--again", "add a line though there is one that agrees; the last one counts"),
            WAIT,
            BOOK,
        ],
        run: note::note,
    },
    Command {
        name: "show",
        usage: "STORE [VERSION ..]",
        what: "the tree of a version, or of several in one picture",
        help: "\
The tree as text; with --dot as a Graphviz graph, with --svg as a picture drawn by `dot`. A graph of several versions has
each record once, so that it shows what they share. Without VERSION, the latest. The store is checked first. STORE may be -.",
        words: (1, usize::MAX),
        choices: &[
            JSON,
            AT,
            FULL,
            flag("--dot", "print a Graphviz graph"),
            valued("--svg", "FILE", "write a picture to FILE (- for standard output); `dot` must be installed"),
            FORCE,
            BOOK,
            NO_BOOK,
        ],
        run: show::show,
    },
    Command {
        name: "stat",
        usage: "STORE",
        what: "capacity, free slots, kept versions, grants, bytes, publishings left",
        help: "\
Tests the header, not soundness. How many more publishings there is room for is a guess: free slots over the records that
the middle one of the last ten made; none is made of a store that isn't sound. STORE may be -.",
        words: (1, 1),
        choices: &[JSON],
        run: commands::stat,
    },
];
