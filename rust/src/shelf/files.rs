//! The folder of a shelf: 'shelf', a text with its bits and slots; 'list', a store; and for each part a file named by the numbers that it holds. A part is written as a
//! new file and the list is replaced last, so that readers have the old shelf or the new one, whatever happens to the writer. The parts of a shelf whose stores are of the
//! old form have other names, so the list's form says which files count.

use super::{Bits, Bytes, Shelf, ShelfError};
use crate::form::store_bytes;
use crate::{Header, Lookup, Store, MOST_SLOTS};
use std::collections::BTreeMap;
use std::fmt;
use std::fs::{self, File, OpenOptions};
use std::io::{self, Read, Write};
use std::os::unix::fs::MetadataExt;
use std::path::{Path, PathBuf};

/// The store whose root is signed, in a shelf's folder.
pub const LIST_FILE: &str = "list";
/// The text that says how many bits name a part, and how many slots a new part gets.
pub const SHELF_FILE: &str = "shelf";

const HEAD: &str = "# A shelf of grant stores: how many bits of a key name its part, and how many slots a new part gets. Neither is changed by hand.\n";
const NEW_LIST: &str = ".list.grants-new";
const NEW_SETTINGS: &str = ".shelf.grants-new";
/// How the names of files that are to get another's name end.
const NEW: &str = ".grants-new";

/// The file of a part, which its name tells apart: `part-0a3-7-2-3906` is part 0a3 with versions 2 to 7, and 3,906 grants in version 7.
#[derive(Clone, Copy, Debug, PartialEq, Eq, PartialOrd, Ord)]
pub struct PartFile {
    pub part: u16,
    pub latest: u32,
    pub oldest: u32,
    pub grants: u64,
}

impl fmt::Display for PartFile {
    fn fmt(&self, f: &mut fmt::Formatter<'_>) -> fmt::Result {
        let PartFile {
            part,
            latest,
            oldest,
            grants,
        } = self;
        write!(f, "part-{part:03x}-{latest}-{oldest}-{grants}")
    }
}

impl PartFile {
    /// The very names that `Display` writes, of no more grants than a store has slots.
    pub fn of(name: &str) -> Option<PartFile> {
        let mut words = name.strip_prefix("part-")?.split('-');
        let file = PartFile {
            part: u16::from_str_radix(words.next()?, 16).ok()?,
            latest: words.next()?.parse().ok()?,
            oldest: words.next()?.parse().ok()?,
            grants: words.next()?.parse().ok()?,
        };
        (file.grants <= MOST_SLOTS.into() && file.to_string() == name).then_some(file)
    }

    /// Its name in a shelf of the old form: `old-0a3-7-2-3906`.
    pub(super) fn old_name(&self) -> String {
        self.to_string().replacen("part", "old", 1)
    }

    fn of_old(name: &str) -> Option<PartFile> {
        PartFile::of(&format!("part-{}", name.strip_prefix("old-")?))
    }

    /// Its name by the form of the shelf's stores.
    pub(super) fn name(&self, old: bool) -> String {
        match old {
            true => self.old_name(),
            false => self.to_string(),
        }
    }

    /// Whether readers of this list may use it.
    fn within(&self, list: Header) -> bool {
        self.latest <= list.latest && self.oldest <= list.oldest
    }
}

pub(super) fn file(path: &Path) -> impl FnOnce(io::Error) -> ShelfError + '_ {
    move |error| ShelfError::File {
        path: path.to_path_buf(),
        error,
    }
}

/// A store's bytes; of a longer file one more than a store may have.
pub(super) fn read(path: &Path) -> io::Result<Bytes> {
    contents(&File::open(path)?)
}

fn contents(open: &File) -> io::Result<Bytes> {
    let mut bytes = vec![];
    let most = store_bytes(MOST_SLOTS) as u64 + 1;
    open.take(most).read_to_end(&mut bytes)?;
    Ok(Store::over(bytes))
}

/// The list, and the names and the settings that were there while it was the list.
fn at_one_moment(
    folder: &Path,
    old: bool,
) -> Result<(Bytes, Vec<PartFile>, Settings), ShelfError> {
    let path = folder.join(LIST_FILE);
    loop {
        let open = match File::open(&path) {
            Ok(open) => open,
            Err(e) if e.kind() == io::ErrorKind::NotFound => {
                let (folder, why) = (folder.to_path_buf(), "it has no file 'list'");
                return Err(ShelfError::NoShelf { folder, why });
            }
            Err(e) => return Err(file(&path)(e)),
        };
        let list = contents(&open).map_err(file(&path))?;
        let (names, settings) = (names(folder, old)?, settings(folder)?);
        if is_at(&open, &path) {
            return Ok((list, names, settings));
        }
    }
}

/// Whether an open file is still the one under a name.
fn is_at(open: &File, path: &Path) -> bool {
    match (open.metadata(), fs::metadata(path)) {
        (Ok(ours), Ok(there)) => (ours.dev(), ours.ino()) == (there.dev(), there.ino()),
        _ => false,
    }
}

pub(super) fn synced(folder: &Path) -> Result<(), ShelfError> {
    File::open(folder)
        .and_then(|f| f.sync_all())
        .map_err(file(folder))
}

pub(super) fn put(path: &Path, bytes: &[u8]) -> Result<File, ShelfError> {
    let new = OpenOptions::new().write(true).create_new(true).open(path);
    let mut new = new.map_err(file(path))?;
    new.write_all(bytes)
        .and_then(|()| new.sync_all())
        .map_err(file(path))?;
    Ok(new)
}

/// What the file 'shelf' says. Where a shelf is being made afresh, it also has the bits and slots that hold as soon as its list is the fresh one, in which nothing was published.
#[derive(Clone, Copy)]
pub(super) struct Settings {
    own: (Bits, u32),
    fresh: Option<(Bits, u32)>,
}

impl Settings {
    pub fn of_list(self, list: Header) -> (Bits, u32) {
        match self.fresh {
            Some(fresh) if list.latest == 0 => fresh,
            _ => self.own,
        }
    }

    /// Those of a shelf in which something was published.
    pub fn own(self) -> (Bits, u32) {
        self.own
    }
}

/// Bits and slots, by the lines that `create` writes.
pub(super) fn settings(folder: &Path) -> Result<Settings, ShelfError> {
    let no_shelf = |why| ShelfError::NoShelf {
        folder: folder.to_path_buf(),
        why,
    };
    let path = folder.join(SHELF_FILE);
    let text = match fs::read(&path) {
        Ok(bytes) => String::from_utf8(bytes).unwrap_or_default(),
        Err(e) if e.kind() == io::ErrorKind::NotFound => {
            return Err(no_shelf("it has no file 'shelf'"))
        }
        Err(e) => return Err(file(&path)(e)),
    };
    let said = |name: &str| {
        let mut lines = text.lines().filter_map(|line| line.strip_prefix(name)?.strip_prefix(' '));
        lines.next().map(str::to_string)
    };
    let both = |bits: &str, slots: &str| {
        let bits = bits.parse().ok().and_then(|bits| Bits::new(bits).ok())?;
        Some((bits, slots.parse().ok()?))
    };
    let own = said("bits").zip(said("slots")).and_then(|(bits, slots)| both(&bits, &slots));
    let fresh = said("fresh");
    let fresh = fresh.as_deref().and_then(|words| words.split_once(' ')).and_then(|(bits, slots)| both(bits, slots));
    match own {
        Some(own) => Ok(Settings { own, fresh }),
        None => Err(no_shelf(
            "its file 'shelf' has no bits from 0 to 12, or no slots",
        )),
    }
}

/// Every part's file of a folder, of one form.
pub(super) fn names(folder: &Path, old: bool) -> Result<Vec<PartFile>, ShelfError> {
    let of = match old {
        true => PartFile::of_old,
        false => PartFile::of,
    };
    let mut names: Vec<PartFile> = all_names(folder)?.iter().filter_map(|name| of(name)).collect();
    names.sort();
    Ok(names)
}

fn all_names(folder: &Path) -> Result<Vec<String>, ShelfError> {
    let mut names = vec![];
    for entry in fs::read_dir(folder).map_err(file(folder))? {
        let name = entry.map_err(file(folder))?.file_name();
        names.extend(name.to_str().map(str::to_string));
    }
    Ok(names)
}

pub(super) fn settings_text(bits: Bits, slots: u32) -> String {
    format!("{HEAD}bits {}\nslots {slots}\n", bits.get())
}

/// Puts a text in the place of the file 'shelf'.
fn put_settings(folder: &Path, text: &str) -> Result<(), ShelfError> {
    let new = folder.join(NEW_SETTINGS);
    let _ = fs::remove_file(&new);
    put(&new, text.as_bytes())?;
    let path = folder.join(SHELF_FILE);
    fs::rename(&new, &path).map_err(file(&path))?;
    synced(folder)
}

impl Shelf {
    /// An empty shelf in a new folder, all of it or nothing: its bits, the slots of each part and those of the list. Refused: 21, 1.
    pub fn create(
        folder: &Path,
        bits: u32,
        slots: u32,
        list_slots: u32,
    ) -> Result<Shelf, ShelfError> {
        let mut shelf = Shelf::begin(folder, bits, slots, list_slots)?;
        match shelf.rename(folder) {
            Ok(()) => Ok(shelf),
            Err(error) => {
                shelf.give_up();
                Err(error)
            }
        }
    }

    /// The same under a name of its own, to be filled before it gets the one that is given ([`Shelf::rename`]). Refused: 21, 1.
    pub fn begin(
        folder: &Path,
        bits: u32,
        slots: u32,
        list_slots: u32,
    ) -> Result<Shelf, ShelfError> {
        let bits = Bits::new(bits)?;
        Store::with_capacity(slots)?;
        let list = Store::with_capacity(list_slots)?;
        let new = beside(folder);
        fs::create_dir(&new).map_err(file(&new))?;
        let made = put(&new.join(SHELF_FILE), settings_text(bits, slots).as_bytes())
            .and_then(|_| put(&new.join(LIST_FILE), list.as_bytes()));
        match made.and_then(|_| Shelf::open(&new)) {
            Ok(shelf) => Ok(shelf),
            Err(error) => {
                let _ = fs::remove_dir_all(&new);
                Err(error)
            }
        }
    }

    /// Removes the folder, of a shelf that was begun and is not to be.
    pub fn give_up(&self) {
        let _ = fs::remove_dir_all(&self.folder);
    }

    /// Gives the shelf's folder another name, if nothing but an empty folder has it.
    pub fn rename(&mut self, folder: &Path) -> Result<(), ShelfError> {
        named(&self.folder, folder)?;
        self.folder = folder.to_path_buf();
        Ok(())
    }

    /// Puts a list in the old one's place: from then on the shelf is the new one. For who made the folder, so that no one else writes it.
    pub fn take(&mut self, list: &Store<Vec<u8>>) -> Result<(), ShelfError> {
        Lock::take(&self.folder)?.replace(&self.folder, list)?;
        self.again()?;
        self.clean()
    }

    /// The shelf of a folder, as it is now. The list and its header are read, and the names of the parts' files. Refused: 1, 2 (the list; [`ShelfError::OldForm`] where it is of
    /// the old form).
    pub fn open(folder: &Path) -> Result<Shelf, ShelfError> {
        Shelf::opened(folder, false)
    }

    /// A shelf whose stores are of the old form, as it would be moved over: each store is brought over where it is read, and what the folder has isn't changed. Refused: 1,
    /// 2, 3 (the list, by the old form).
    pub fn open_old(folder: &Path) -> Result<Shelf, ShelfError> {
        Shelf::opened(folder, true)
    }

    fn opened(folder: &Path, old: bool) -> Result<Shelf, ShelfError> {
        let (mut list, names, settings) = at_one_moment(folder, old)?;
        if old {
            list = list.move_over()?;
        }
        let header = match list.header() {
            Err(error) if list.is_old_form() => return Err(ShelfError::OldForm { error }),
            header => header?,
        };
        let (bits, slots) = settings.of_list(header);
        let mut files = BTreeMap::new();
        let ours = |name: &PartFile| u32::from(name.part) < bits.parts() && name.within(header);
        // The newest of each part comes last.
        for name in names.into_iter().filter(ours) {
            files.insert(name.part, name);
        }
        let (folder, progress) = (folder.to_path_buf(), (|_, _| {}) as fn(usize, usize));
        Ok(Shelf {
            folder,
            bits,
            slots,
            list,
            header,
            files,
            progress,
            old,
            lookup: Lookup::new(),
        })
    }

    /// Begins to make a shelf afresh in its folder, with other bits and slots, which hold from when an empty list takes the place of the one that is there; that is the caller's to
    /// do, who holds the lock, and [`Shelf::clean`] ends it. Refused: 21, 1; and a folder that is no shelf.
    pub fn begin_afresh(folder: &Path, bits: u32, slots: u32) -> Result<(), ShelfError> {
        let (bits, (own, own_slots)) = (Bits::new(bits)?, settings(folder)?.own());
        Store::with_capacity(slots)?;
        let fresh = format!("fresh {} {slots}\n", bits.get());
        put_settings(folder, &(settings_text(own, own_slots) + &fresh))
    }

    /// Removes what is of no use to this list: what a writer left that is no more, and parts that newer ones replaced. Only for who may write the shelf.
    pub fn clean(&self) -> Result<(), ShelfError> {
        let mut removed = false;
        for name in all_names(&self.folder)? {
            if self.is_left(&name) {
                let path = self.folder.join(name);
                fs::remove_file(&path).map_err(file(&path))?;
                removed = true;
            }
        }
        if settings(&self.folder)?.fresh.is_some() {
            return put_settings(&self.folder, &settings_text(self.bits, self.slots));
        }
        match removed {
            true => synced(&self.folder),
            false => Ok(()),
        }
    }

    /// Whether a file is a part's that this list has no use for, or was to get a part's name or that of the file 'shelf'.
    fn is_left(&self, name: &str) -> bool {
        let (own, other) = match self.old {
            true => (PartFile::of_old(name), PartFile::of(name)),
            false => (PartFile::of(name), PartFile::of_old(name)),
        };
        let used = own.is_some_and(|own| self.files.get(&own.part) == Some(&own));
        let named = name.strip_prefix('.').and_then(|name| name.strip_suffix(NEW));
        let to_be = named.is_some_and(|name| PartFile::of(name).is_some());
        to_be || name == NEW_SETTINGS || other.is_some() || own.is_some() && !used
    }

    /// The bytes of a part's file, none where it has none. Where it was replaced since the shelf was opened, the one that is in use now.
    pub fn part(&self, part: u16) -> Result<Option<Store<Vec<u8>>>, ShelfError> {
        let Some(name) = self.files.get(&part) else {
            return Ok(None);
        };
        let mut name = *name;
        loop {
            let path = self.folder.join(name.name(self.old));
            match read(&path) {
                Ok(store) => return self.brought_over(part, store).map(Some),
                Err(e) if e.kind() == io::ErrorKind::NotFound => {}
                Err(e) => return Err(file(&path)(e)),
            }
            match self.in_use(part)? {
                Some(now) if now != name => name = now,
                _ => {
                    let version = self.header.latest;
                    return Err(ShelfError::LostPart { part, version });
                }
            }
        }
    }

    /// The file of a part that the folder's list uses now. One that is newer than that list may be half written.
    fn in_use(&self, part: u16) -> Result<Option<PartFile>, ShelfError> {
        let (list, names, _) = at_one_moment(&self.folder, self.old)?;
        let list = match self.old {
            true => list.move_over(),
            false => Ok(list),
        };
        let header = list.and_then(|list| list.header()).ok();
        let ours = |name: &PartFile| name.part == part && header.is_some_and(|h| name.within(h));
        Ok(names.into_iter().rfind(ours))
    }

    /// A part as it is read, in the form of today.
    fn brought_over(&self, part: u16, store: Bytes) -> Result<Bytes, ShelfError> {
        match self.old {
            true => store.move_over().map_err(ShelfError::of(part)),
            false => Ok(store),
        }
    }

    /// A part's new file, written and synced; no reader uses it before the list is replaced.
    pub(super) fn put_part(&self, part: u16, store: &Bytes) -> Result<PartFile, ShelfError> {
        let of = ShelfError::of(part);
        let header = store.header().map_err(&of)?;
        let (latest, oldest) = (header.latest, header.oldest);
        let grants = store.count(latest).map_err(&of)?;
        let name = PartFile {
            part,
            latest,
            oldest,
            grants,
        };
        put(&self.folder.join(name.to_string()), store.as_bytes())?;
        Ok(name)
    }

    /// Puts a store of the same versions in the place of a part's, which is as good as it was at every moment. Only for who may write the shelf.
    pub fn replace_part(&self, part: u16, store: &Store<Vec<u8>>) -> Result<(), ShelfError> {
        let Some(name) = self.files.get(&part) else {
            return Ok(());
        };
        let path = self.folder.join(name.to_string());
        let new = self.folder.join(format!(".{name}.grants-new"));
        let _ = fs::remove_file(&new);
        put(&new, store.as_bytes())?;
        fs::rename(&new, &path).map_err(file(&path))
    }

    /// How many slots a new part gets from now on.
    pub fn set_slots(&mut self, slots: u32) -> Result<(), ShelfError> {
        Store::with_capacity(slots)?;
        put_settings(&self.folder, &settings_text(self.bits, slots))?;
        self.slots = slots;
        Ok(())
    }
}

/// The name of this process's folder that is to get another's name. Those that other processes left, which are no more, go.
fn beside(folder: &Path) -> PathBuf {
    let name = folder.file_name().unwrap_or_default().to_string_lossy();
    let begins = format!(".{name}.grants-new.");
    let above = folder.parent().filter(|p| !p.as_os_str().is_empty());
    let there = fs::read_dir(above.unwrap_or(Path::new(".")));
    for entry in there.into_iter().flatten().flatten() {
        let process = entry
            .file_name()
            .to_str()
            .and_then(|name| name.strip_prefix(&begins)?.parse::<u32>().ok());
        if process.is_some_and(|process| process == std::process::id() || is_no_more(process)) {
            let _ = fs::remove_dir_all(entry.path());
        }
    }
    folder.with_file_name(format!("{begins}{}", std::process::id()))
}

/// Whether a process has ended, as far as the system tells.
fn is_no_more(process: u32) -> bool {
    Path::new("/proc/self").exists() && !Path::new(&format!("/proc/{process}")).exists()
}

/// Gives a new folder its name, if nothing but an empty folder has it.
fn named(new: &Path, folder: &Path) -> Result<(), ShelfError> {
    synced(new)?;
    fs::rename(new, folder).map_err(file(folder))?;
    let above = folder.parent().filter(|p| !p.as_os_str().is_empty());
    synced(above.unwrap_or(Path::new(".")))
}

/// A folder that is filled under a name of its own before it gets the one that it is to have. Given up, it goes.
#[derive(Debug)]
pub struct NewFolder {
    path: PathBuf,
    named: bool,
}

impl NewFolder {
    /// A new folder beside the place of another.
    pub fn beside(folder: &Path) -> Result<NewFolder, ShelfError> {
        let path = beside(folder);
        fs::create_dir(&path).map_err(file(&path))?;
        let named = false;
        Ok(NewFolder { path, named })
    }

    pub fn path(&self) -> &Path {
        &self.path
    }

    /// A file of it, written and synced.
    pub fn put(&self, name: &str, bytes: &[u8]) -> Result<(), ShelfError> {
        put(&self.path.join(name), bytes).map(drop)
    }

    /// A second name for a file that is never written into, or a copy where there can be no second name.
    pub fn link(&self, from: &Path) -> Result<(), ShelfError> {
        let to = self.path.join(from.file_name().unwrap_or_default());
        match fs::hard_link(from, &to) {
            Ok(()) => Ok(()),
            Err(_) => {
                let bytes = fs::read(from).map_err(file(from))?;
                put(&to, &bytes).map(drop)
            }
        }
    }

    /// Gives it its name, if nothing but an empty folder has it.
    pub fn rename(mut self, folder: &Path) -> Result<(), ShelfError> {
        named(&self.path, folder)?;
        self.named = true;
        Ok(())
    }
}

impl Drop for NewFolder {
    fn drop(&mut self) {
        if !self.named {
            let _ = fs::remove_dir_all(&self.path);
        }
    }
}

/// The right to write a shelf, held by one process at a time: the lock is on the list, and goes on to the one that comes in its place.
pub(super) struct Lock {
    held: File,
}

impl Lock {
    /// Waits until no other process writes this shelf.
    pub fn take(folder: &Path) -> Result<Lock, ShelfError> {
        let path = folder.join(LIST_FILE);
        loop {
            let open = OpenOptions::new().read(true).write(true).open(&path);
            let held = open.map_err(file(&path))?;
            held.lock().map_err(file(&path))?;
            // Whoever waited may hold the lock of a list that was replaced meanwhile.
            if is_at(&held, &path) {
                return Ok(Lock { held });
            }
        }
    }

    /// Puts a list in the old one's place: from now on the shelf is the new one. What came before is on the disk by then.
    pub fn replace(&mut self, folder: &Path, list: &Bytes) -> Result<(), ShelfError> {
        synced(folder)?;
        let (new, path) = (folder.join(NEW_LIST), folder.join(LIST_FILE));
        let _ = fs::remove_file(&new);
        let held = put(&new, list.as_bytes())?;
        held.try_lock().map_err(|e| file(&new)(e.into()))?;
        fs::rename(&new, &path).map_err(file(&path))?;
        self.held = held;
        synced(folder)
    }
}

impl Shelf {
    /// Opened again under the lock, and rid of what a writer left.
    pub(super) fn locked(&mut self) -> Result<Lock, ShelfError> {
        let lock = Lock::take(&self.folder)?;
        self.again()?;
        self.clean()?;
        Ok(lock)
    }

    /// What the folder has now.
    pub fn again(&mut self) -> Result<(), ShelfError> {
        let progress = self.progress;
        *self = Shelf::opened(&self.folder, self.old)?;
        self.progress = progress;
        Ok(())
    }
}

#[cfg(test)]
mod tests {
    use super::*;

    #[test]
    fn a_name_is_read_as_it_is_written() {
        let file = PartFile {
            part: 0xa3,
            latest: u32::MAX,
            oldest: 2,
            grants: 3_906,
        };
        assert_eq!(file.to_string(), "part-0a3-4294967295-2-3906");
        assert_eq!(PartFile::of("part-0a3-4294967295-2-3906"), Some(file));
        assert_eq!(file.old_name(), "old-0a3-4294967295-2-3906");
        assert_eq!(PartFile::of_old("old-0a3-4294967295-2-3906"), Some(file));
        assert_eq!(PartFile::of_old("part-0a3-4294967295-2-3906"), None);
        for wrong in [
            "part-a3-7-2-1",
            "part-0A3-7-2-1",
            "part-0a3-07-2-1",
            "part-0a3-7-2-1-1",
            "part-0a3-7-2",
            "part-0a3-+7-2-1",
            "part-0a3-7-2-16385",
            "list",
        ] {
            assert_eq!(PartFile::of(wrong), None, "{wrong}");
        }
    }
}
