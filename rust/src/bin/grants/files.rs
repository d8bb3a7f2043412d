//! Files: read whole, and replaced so that a crash at any moment leaves the old or the new one.

use crate::args::{number, Args};
use crate::fail::{file, why, Fail};
use crate::out::beside;
use crate::plain::shown;
use crate::signals;
use std::ffi::{OsStr, OsString};
use std::fs::{self, File, FileType, Metadata, OpenOptions, TryLockError};
use std::io::{self, Read, Write};
use std::os::unix::ffi::OsStrExt;
use std::os::unix::fs::{fchown, FileTypeExt, MetadataExt, OpenOptionsExt};
use std::path::{Path, PathBuf};
use std::rc::Rc;
use std::sync::atomic::{AtomicBool, Ordering};
use std::time::{Duration, Instant};

/// One byte more than the largest store, so that a longer file is seen to be too long and is not read to its end.
pub const STORE_LIMIT: u64 = grants::store_bytes(grants::MOST_SLOTS) as u64 + 1;
pub const BATCH_LIMIT: u64 = 64 << 20;
/// Of a shelf: some 27 million grants, as text.
pub const SHELF_BATCH_LIMIT: u64 = 4 << 30;
pub const PROOF_LIMIT: u64 = 1 << 20;

/// Linux's flags: a link at the end of the path is not followed, and opening a fifo doesn't wait.
const NOFOLLOW: i32 = if cfg!(any(
    target_arch = "aarch64",
    target_arch = "arm",
    target_arch = "powerpc64"
)) {
    0o100000
} else {
    0o400000
};
const NONBLOCK: i32 = 0o4000;

static TOOK_INPUT: AtomicBool = AtomicBool::new(false);

/// Whether something was read that can't be read again: standard input, a fifo.
pub fn took_input() -> bool {
    TOOK_INPUT.load(Ordering::Relaxed)
}

/// The bytes of a file, or of standard input for '-'.
pub fn read(path: &Path, limit: u64) -> Result<Vec<u8>, Fail> {
    let mut bytes = Vec::new();
    if path.as_os_str() == "-" && signals::was_closed(signals::INPUT) {
        return Err(Fail::File(
            "cannot read standard input: it is closed".to_string(),
        ));
    }
    let read = if path.as_os_str() == "-" {
        TOOK_INPUT.store(true, Ordering::Relaxed);
        io::stdin().lock().take(limit).read_to_end(&mut bytes)
    } else {
        File::open(path).and_then(|f| {
            TOOK_INPUT.fetch_or(!f.metadata()?.is_file(), Ordering::Relaxed);
            f.take(limit).read_to_end(&mut bytes)
        })
    };
    read.map_err(|e| file("read", path, &e))?;
    Ok(bytes)
}

/// 'a directory', 'a fifo': what is not written.
fn kind(kind: FileType) -> &'static str {
    match kind {
        k if k.is_dir() => "a directory",
        k if k.is_symlink() => "a symbolic link",
        k if k.is_fifo() => "a fifo",
        k if k.is_socket() => "a socket",
        k if k.is_block_device() || k.is_char_device() => "a device",
        _ => "no regular file",
    }
}

fn no_file(verb: &str, path: &Path, about: &Metadata, more: &str) -> Fail {
    let kind = kind(about.file_type());
    Fail::File(format!("cannot {verb} {}: it is {kind}{more}", shown(path)))
}

fn same(a: &Metadata, b: &Metadata) -> bool {
    (a.dev(), a.ino()) == (b.dev(), b.ino())
}

/// The right to write a store, held by one process at a time.
///
/// The lock is on the store's own file. Whoever waits for it may then hold that of a file that has meanwhile been replaced, and tries again;
/// the file that comes in its place is locked before it gets the name, so that there is no gap. The system drops a lock when its holder ends,
/// however it ends.
pub struct Locked {
    given: PathBuf,
    store: PathBuf,
    held: Rc<File>,
}

/// Whether a path is that of a shelf: a folder that has something of one.
pub fn is_shelf(path: &Path) -> bool {
    let has = |name: &str| already_there(&path.join(name));
    path.is_dir() && (has(grants::SHELF_FILE) || has(grants::LIST_FILE))
}

/// The file that is replaced when something is published: the store, or the list of a shelf. Its lock keeps other writers away, and the book is beside it.
pub fn main_file(path: &Path) -> PathBuf {
    match is_shelf(path) {
        true => path.join(grants::LIST_FILE),
        false => path.to_path_buf(),
    }
}

impl Locked {
    /// Waits until no other process writes this store, or this shelf.
    pub fn take(args: &Args, given: &Path) -> Result<Locked, Fail> {
        let given = &main_file(given);
        let store = resolved(given)?;
        let since = Instant::now();
        let most = wait(args)?;
        let mut told = false;
        let mut pause = Duration::from_millis(2);
        loop {
            let held = open_to_write(given, &store)?;
            match held.try_lock() {
                Ok(()) => {}
                Err(TryLockError::Error(e)) => return Err(file("lock", given, &e)),
                Err(TryLockError::WouldBlock) => {
                    if most.is_some_and(|most| since.elapsed() >= most) {
                        return Err(Fail::File(format!(
                            "{} is being written by {}, and the wait is over: try again when that has ended; nothing was changed",
                            shown(given), holder(&held)
                        )));
                    }
                    if !told && since.elapsed() >= Duration::from_secs(1) {
                        told = true;
                        beside(format_args!(
                            "waiting for {}, which writes {} (--wait SECONDS bounds this)",
                            holder(&held),
                            shown(given)
                        ));
                    }
                    std::thread::sleep(pause);
                    pause = (pause * 2).min(Duration::from_millis(40));
                    continue;
                }
            }
            let about = held.metadata().map_err(|e| file("lock", given, &e))?;
            if fs::symlink_metadata(&store).is_ok_and(|there| same(&there, &about)) {
                return Ok(Locked {
                    given: given.to_path_buf(),
                    store,
                    held: Rc::new(held),
                });
            }
        }
    }

    /// The store's bytes.
    pub fn read(&self) -> Result<Vec<u8>, Fail> {
        let mut bytes = vec![];
        let read = (&*self.held).take(STORE_LIMIT).read_to_end(&mut bytes);
        read.map_err(|e| file("read", &self.given, &e))?;
        Ok(bytes)
    }

    /// What was written in the store's folder is on the disk.
    pub fn sync(&self) -> Result<(), Fail> {
        synced(&self.given, &self.store)
    }

    /// Whether the file under the store's name has these bytes.
    pub fn still_holds(&self, bytes: &[u8]) -> bool {
        fs::read(&self.store).is_ok_and(|there| there == bytes)
    }

    /// Puts these bytes in the store's place: all of them, or none. The lock goes on to the new file.
    pub fn replace(&mut self, bytes: &[u8]) -> Result<(), Fail> {
        let failed = |e: io::Error| {
            Fail::File(format!(
                "cannot write {}: {}; it is as it was",
                shown(&self.given),
                why(&e)
            ))
        };
        let old = self.held.metadata().map_err(failed)?;
        let mut beside = Beside::make(&self.given, &self.store, 0o600)?;
        beside.fill(bytes, Some(&old)).map_err(failed)?;
        fs::rename(&beside.path, &self.store).map_err(failed)?;
        self.held = beside.done();
        synced(&self.given, &self.store)
    }
}

/// A fresh store, where nothing stands yet.
pub fn create(given: &Path, bytes: &[u8]) -> Result<(), Fail> {
    let store = resolved(given)?;
    put_new(given, &store, bytes)?;
    synced(given, &store)
}

pub fn already_there(path: &Path) -> bool {
    fs::symlink_metadata(path).is_ok()
}

/// The seconds of `--wait`; without it, as long as it takes.
fn wait(args: &Args) -> Result<Option<Duration>, Fail> {
    let seconds = args.value("--wait").map(|word| number("SECONDS", word));
    Ok(seconds.transpose()?.map(|n| Duration::from_secs(n.into())))
}

/// The store's file, if it is one that may be written.
fn open_to_write(given: &Path, store: &Path) -> Result<File, Fail> {
    let stays = |why: &str| {
        Fail::File(format!(
            "cannot write {}: {why}; it is as it was",
            shown(given)
        ))
    };
    let about = fs::symlink_metadata(store).map_err(|e| match e.kind() {
        io::ErrorKind::NotFound => Fail::File(format!(
            "cannot read {}: there is no such file; `grants format` makes a store",
            shown(given)
        )),
        _ => file("read", given, &e),
    })?;
    if !about.is_file() {
        return Err(no_file("write", given, &about, "; it is as it was"));
    }
    if about.permissions().readonly() {
        return Err(stays("it is read-only (chmod u+w allows it)"));
    }
    let open = OpenOptions::new()
        .read(true)
        .write(true)
        .custom_flags(NOFOLLOW | NONBLOCK)
        .open(store);
    open.map_err(|e| stays(&why(&e)))
}

/// A user's name, else the number.
fn user(id: u32) -> String {
    let id = id.to_string();
    let users = fs::read_to_string("/etc/passwd").unwrap_or_default();
    let mut lines = users.lines().map(|l| l.split(':').collect::<Vec<_>>());
    let name = lines.find(|l| l.get(2) == Some(&id.as_str()));
    name.map_or(id.clone(), |l| l[0].to_string())
}

/// The user that runs this.
pub fn own_user() -> String {
    let own = fs::metadata("/proc/self").ok();
    own.map(|about| user(about.uid())).unwrap_or_default()
}

/// Whether two paths lead to one file.
pub fn one_file(a: &Path, b: &Path) -> bool {
    match (fs::metadata(a), fs::metadata(b)) {
        (Ok(a), Ok(b)) => same(&a, &b),
        _ => false,
    }
}

/// Who holds the lock of a file, as far as the system tells.
fn holder(file: &File) -> String {
    let process = file.metadata().ok().and_then(|about| {
        let locks = fs::read_to_string("/proc/locks").ok()?;
        let locks: Vec<Vec<&str>> = locks.lines().map(|l| l.split_whitespace().collect()).collect();
        let held = |at: &dyn Fn(&str) -> bool| {
            let mut lines = locks.iter().filter(|l| l.get(1) == Some(&"FLOCK"));
            lines.find(|l| l.get(5).is_some_and(|l| at(l))).cloned()
        };
        let (dev, inode) = (about.dev(), format!(":{}", about.ino()));
        let [major, minor] = [dev >> 8 & 0xfff, dev & 0xff | dev >> 12 & 0xf_ff00];
        let exact = format!("{major:02x}:{minor:02x}{inode}");
        // Some file systems have another device there than they tell of a file.
        let line = held(&|at| at == exact).or_else(|| held(&|at| at.ends_with(&inode)))?;
        line.get(4)?.parse::<u32>().ok()
    });
    let Some(process) = process.filter(|n| *n != 0) else {
        return "another process".to_string();
    };
    let owner = fs::metadata(format!("/proc/{process}")).ok();
    match owner.map(|about| user(about.uid())) {
        Some(owner) => format!("process {process} of user {owner}"),
        None => format!("process {process}"),
    }
}

/// A new file beside another one, which is to get its name. It is locked while its process lives, so that who finds it knows whether it was
/// left behind; nothing but a new file of our own is ever written.
struct Beside {
    path: PathBuf,
    file: Rc<File>,
    done: bool,
}

impl Beside {
    fn make(given: &Path, place: &Path, mode: u32) -> Result<Beside, Fail> {
        let failed = |e: &io::Error| {
            Fail::File(format!(
                "cannot write {}: cannot make a file beside it: {}",
                shown(given),
                why(e)
            ))
        };
        for n in 1..100 {
            let path = place.with_file_name(beside_name(place, n));
            let made = OpenOptions::new()
                .read(true)
                .write(true)
                .create_new(true)
                .mode(mode)
                .custom_flags(NOFOLLOW)
                .open(&path);
            let file = match made {
                Ok(file) => file,
                Err(e) if e.kind() == io::ErrorKind::AlreadyExists => {
                    left_behind(&path, place);
                    // Where that was removed the same name will do, else the next.
                    match fs::symlink_metadata(&path) {
                        Err(_) => return Beside::make(given, place, mode),
                        Ok(_) => continue,
                    }
                }
                Err(e) => return Err(failed(&e)),
            };
            match file.try_lock() {
                Ok(()) => {}
                Err(TryLockError::Error(e)) => {
                    let _ = fs::remove_file(&path);
                    return Err(failed(&e));
                }
                // Someone took it for left behind just now.
                Err(TryLockError::WouldBlock) => continue,
            }
            let ours = file.metadata().map_err(|e| failed(&e))?;
            if fs::symlink_metadata(&path).is_ok_and(|there| same(&there, &ours)) {
                return Ok(Beside {
                    path,
                    file: Rc::new(file),
                    done: false,
                });
            }
        }
        Err(Fail::File(format!(
            "cannot write {}: a hundred files that other writers left behind are in the way",
            shown(given)
        )))
    }

    /// Its content, then mode and owner as those of the file whose place it takes.
    fn fill(&mut self, bytes: &[u8], old: Option<&Metadata>) -> io::Result<()> {
        (&*self.file).write_all(bytes)?;
        if let Some(old) = old {
            // Who may give files away keeps the owner; others keep the group where they are of it.
            let kept = fchown(&*self.file, Some(old.uid()), Some(old.gid()));
            let _ = kept.or_else(|_| fchown(&*self.file, None, Some(old.gid())));
            self.file.set_permissions(old.permissions())?;
        }
        self.file.sync_all()
    }

    /// It has its name now.
    fn done(mut self) -> Rc<File> {
        self.done = true;
        Rc::clone(&self.file)
    }
}

impl Drop for Beside {
    fn drop(&mut self) {
        if !self.done {
            let _ = fs::remove_file(&self.path);
        }
    }
}

/// '.STORE.grants-new', or by the name's hash where that would be too long.
fn beside_name(place: &Path, n: usize) -> OsString {
    let name = place.file_name().unwrap_or_default();
    let mut beside = OsString::from(".");
    if name.len() <= 230 {
        beside.push(name);
    } else {
        let digest = grants::sha256(name.as_bytes());
        beside.push(grants::to_hex(&digest[..16]));
    }
    beside.push(".grants-new");
    if n > 1 {
        beside.push(format!(".{n}"));
    }
    beside
}

/// Removes what a writer left that is no more. What is held, may not be removed, or is no file, stays and is stepped around: in a folder that
/// others may write too, a link that one of them put there hinders no one.
fn left_behind(path: &Path, place: &Path) {
    let Ok(about) = fs::symlink_metadata(path) else {
        return;
    };
    if !about.is_file() {
        return;
    }
    // A second name of the file itself: it got its own, and the first was to go.
    if fs::symlink_metadata(place).is_ok_and(|there| same(&there, &about)) {
        let _ = fs::remove_file(path);
        return;
    }
    let open = OpenOptions::new()
        .read(true)
        .custom_flags(NOFOLLOW | NONBLOCK)
        .open(path);
    if let Ok(open) = open {
        if open.try_lock().is_ok() {
            let _ = fs::remove_file(path);
        }
    }
}

/// The file that a path leads to, through symbolic links; where there is none yet, its place in the folder that will have it.
fn resolved(path: &Path) -> Result<PathBuf, Fail> {
    if path.as_os_str().as_bytes().ends_with(b"/") {
        return Err(Fail::File(format!(
            "cannot write {}: a name that ends in / is a directory's",
            shown(path)
        )));
    }
    match fs::canonicalize(path) {
        Ok(path) => Ok(path),
        Err(e) if e.kind() == io::ErrorKind::NotFound && !path.is_symlink() => {
            let folder = match path.parent() {
                Some(p) if !p.as_os_str().is_empty() => p,
                _ => Path::new("."),
            };
            let name = path.file_name().ok_or_else(|| file("write", path, &e))?;
            let folder = fs::canonicalize(folder).map_err(|e| file("write", path, &e))?;
            Ok(folder.join(name))
        }
        Err(e) => Err(file("write", path, &e)),
    }
}

/// A new file under a name that nothing has.
fn put_new(given: &Path, place: &Path, bytes: &[u8]) -> Result<(), Fail> {
    let failed = |e: io::Error| {
        Fail::File(format!(
            "cannot write {}: {}; it was not made",
            shown(given),
            why(&e)
        ))
    };
    let mut beside = Beside::make(given, place, 0o666)?;
    beside.fill(bytes, None).map_err(failed)?;
    match fs::hard_link(&beside.path, place) {
        Ok(()) => Ok(()),
        Err(e) if e.kind() == io::ErrorKind::AlreadyExists => Err(Fail::File(format!(
            "{} is there already and was left alone",
            shown(given)
        ))),
        // A file system without links: then no one else may make the file at this very moment.
        Err(_) if !already_there(place) => {
            fs::rename(&beside.path, place).map_err(failed)?;
            beside.done();
            Ok(())
        }
        Err(e) => Err(failed(e)),
    }
}

fn synced(given: &Path, place: &Path) -> Result<(), Fail> {
    // A name alone is one in the folder where the command runs.
    let folder = place.parent().unwrap_or(Path::new("/"));
    let folder = match folder.as_os_str().is_empty() {
        true => Path::new("."),
        false => folder,
    };
    File::open(folder).and_then(|f| f.sync_all()).map_err(|e| {
        Fail::File(format!(
            "cannot sync the folder of {}: {}; the new file is there all the same, but may not outlast a loss of power",
            shown(given), why(&e)
        ))
    })
}

/// Refuses what can't be replaced: a link, a directory, a fifo, a device.
pub fn regular_or_nothing(verb: &str, given: &Path, place: &Path) -> Result<(), Fail> {
    match fs::symlink_metadata(place) {
        Ok(about) if !about.is_file() => Err(no_file(verb, given, &about, "; nothing was changed")),
        _ => Ok(()),
    }
}

/// Refuses besides what is read-only: the folder would allow to replace it, and who made it so did not want that.
pub fn may_replace(given: &Path, place: &Path) -> Result<(), Fail> {
    regular_or_nothing("write", given, place)?;
    match fs::symlink_metadata(place) {
        Ok(about) if about.permissions().readonly() => Err(Fail::File(format!(
            "cannot write {}: it is read-only (chmod u+w allows it); nothing was changed",
            shown(given)
        ))),
        _ => Ok(()),
    }
}

/// Replaces a file beside the store, whose lock keeps other writers away, or makes it.
pub fn replace(given: &Path, place: &Path, bytes: &[u8]) -> Result<(), Fail> {
    let failed = |e: io::Error| file("write", given, &e);
    may_replace(given, place)?;
    let old = fs::symlink_metadata(place).ok();
    let mode = if old.is_some() { 0o600 } else { 0o666 };
    let mut beside = Beside::make(given, place, mode)?;
    beside.fill(bytes, old.as_ref()).map_err(failed)?;
    fs::rename(&beside.path, place).map_err(failed)?;
    beside.done();
    synced(given, place)
}

/// Writes an output file, whole or not at all: over nothing that is there but with `--force`, and never over a file that the command reads.
pub fn write(args: &Args, path: &Path, bytes: &[u8], inputs: &[&Path]) -> Result<(), Fail> {
    if path.as_os_str().as_bytes().ends_with(b"/") {
        resolved(path)?;
    }
    let folder = |p: &Path| fs::canonicalize(p.parent().filter(|p| !p.as_os_str().is_empty()).unwrap_or(Path::new("."))).ok();
    let mut shelves = inputs.iter().filter(|input| is_shelf(input));
    if shelves.any(|shelf| fs::canonicalize(shelf).ok() == folder(path)) {
        return Err(Fail::Usage(format!(
            "{} would be among the files of a shelf: name another file to write",
            shown(path)
        )));
    }
    let place = |p: &Path| fs::metadata(p).ok().map(|m| (m.dev(), m.ino()));
    if let Some(there) = place(path) {
        let books = inputs
            .iter()
            .filter_map(|store| beside_store(&main_file(store), ".book"));
        let books = books.chain(args.value("--book").map(PathBuf::from));
        let mut read = inputs.iter().map(|input| input.to_path_buf()).chain(books);
        if read.any(|input| place(&input) == Some(there)) {
            return Err(Fail::Usage(format!(
                "{} is read by this command and would be lost: name another file to write",
                shown(path)
            )));
        }
    }
    let folder = path.parent().filter(|p| !p.as_os_str().is_empty());
    let name = path.file_name().unwrap_or(OsStr::new(""));
    let at = folder.unwrap_or(Path::new(".")).join(name);
    match fs::symlink_metadata(path) {
        Ok(about) if !about.is_file() && !about.is_symlink() => Err(no_file(
            "write",
            path,
            &about,
            "; - writes to standard output",
        )),
        Ok(_) if !args.has("--force") => Err(Fail::File(format!(
            "{} is there already and was left alone; --force replaces it",
            shown(path)
        ))),
        Ok(about) => {
            let failed = |e: io::Error| file("write", path, &e);
            let mut beside = Beside::make(path, &at, 0o666)?;
            // A link itself is replaced, not what it leads to.
            let old = Some(&about).filter(|about| about.is_file());
            beside.fill(bytes, old).map_err(failed)?;
            fs::rename(&beside.path, &at).map_err(failed)?;
            beside.done();
            synced(path, &at)
        }
        Err(_) => {
            put_new(path, &at, bytes)?;
            synced(path, &at)
        }
    }
}

/// The book's place: beside the file that the store's path leads to. A name that would be too long is none.
pub fn beside_store(store: &Path, ending: &str) -> Option<PathBuf> {
    let place = resolved(store).ok()?;
    let mut name = place.file_name()?.to_os_string();
    name.push(ending);
    (name.len() <= 255).then(|| place.with_file_name(name))
}
