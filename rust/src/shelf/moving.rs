//! A shelf whose stores are of the old form moved over into that of today, and back: every part and the list. The parts in the other form are written beside those that are
//! there, under names of their own; from when the list is replaced by one of that form, they are the shelf.

use super::files::{self, PartFile};
use super::work::each;
use super::{Bytes, NewFolder, Shelf, ShelfError, LIST_FILE, SHELF_FILE};
use crate::Store;
use std::path::PathBuf;

impl Shelf {
    /// A store of the shelf, as it is read, in the old form.
    fn old_bytes(&self, path: &PathBuf, store: &Bytes) -> Result<Vec<u8>, ShelfError> {
        match self.old {
            // The very bytes of the file, not those that moving back would give.
            true => Ok(files::read(path).map_err(files::file(path))?.into_bytes()),
            false => Ok(store.move_back()?),
        }
    }

    /// The list in the old form; in that of today it is [`Shelf::list`]. Refused: 3.
    pub fn old_list(&self) -> Result<Vec<u8>, ShelfError> {
        self.old_bytes(&self.folder.join(LIST_FILE), &self.list)
    }

    /// What the work gives for each part that has a file, in the order of keys: it is handed the part's file, its store in the form of today, and the bytes of the old form. Refused: 3.
    pub fn each_both<T: Send>(
        &self,
        work: impl Fn(&PartFile, &Store<Vec<u8>>, &[u8]) -> Result<T, ShelfError> + Sync,
    ) -> Result<Vec<T>, ShelfError> {
        let files: Vec<PartFile> = self.files.values().copied().collect();
        let version = self.header.latest;
        each(&files, self.progress, |file| {
            let part = file.part;
            let at = self.newest(part)?.ok_or(ShelfError::LostPart { part, version })?;
            let path = self.folder.join(file.name(self.old));
            let old = self.old_bytes(&path, &at.store)?;
            work(file, &at.store, &old)
        })
    }

    /// Writes every part in the other form into the shelf's own folder, where no one uses it before the list is replaced, or into a new one; the answer is how many bytes. Refused: 3.
    pub fn put_moved(&self, to: Option<&NewFolder>) -> Result<u64, ShelfError> {
        let folder = to.map_or(self.folder(), NewFolder::path);
        let bytes = self.each_both(|file, new, old| {
            let bytes = if self.old { new.as_bytes() } else { old };
            files::put(&folder.join(file.name(!self.old)), bytes)?;
            Ok(bytes.len() as u64)
        })?;
        Ok(bytes.iter().sum())
    }

    /// The file 'shelf' of this shelf, for a new folder that is to hold the same.
    pub fn put_settings(&self, to: &NewFolder) -> Result<(), ShelfError> {
        to.put(SHELF_FILE, files::settings_text(self.bits, self.slots).as_bytes())
    }

    /// A new folder beside a place, with the files of this shelf as they are.
    pub fn copied(&self, folder: &std::path::Path) -> Result<NewFolder, ShelfError> {
        let new = NewFolder::beside(folder)?;
        self.put_settings(&new)?;
        let parts = self.files.values().map(|file| file.name(self.old));
        for name in parts.chain([LIST_FILE.to_string()]) {
            new.link(&self.folder.join(name))?;
        }
        Ok(new)
    }
}
