//! Logbooks in files: read, made, and changed.
//!
//! A file that is changed is replaced: the new bytes go to a new file in the same folder, which is
//! brought to the disk and then takes the old one's name. So a crash at any moment leaves the old
//! file or the new one, whole, and who reads meanwhile needs no lock: an opened file never changes.
//!
//! Two changes of one file take turns by an advisory lock on it (flock). Who gets the lock may hold
//! a file that has been replaced while it waited; it then takes up the one that stands there now.
//! The lock also makes the new file's name safe to use again: one that a killed run has left is
//! removed by the next change.

use crate::trouble::Trouble;
use logbook::{raw, Logbook, Refusal};
use std::fs::{self, File, Metadata, OpenOptions};
use std::io::{self, ErrorKind, Read, Write};
use std::os::unix::fs::{fchown, MetadataExt, OpenOptionsExt};
use std::path::{Path, PathBuf};
use std::process;

/// More than the two records of an append take.
const ROOM: usize = 1 << 17;

/// Reads a file, and of one longer than `limit` only so much that the library sees it is.
pub fn read(path: &Path, limit: usize) -> Result<Vec<u8>, Trouble> {
    let bytes = File::open(path).and_then(|file| read_up_to(&file, limit));
    bytes.map_err(|error| Trouble::file(path, error))
}

/// At most `limit` bytes and one more.
pub fn read_up_to(source: impl Read, limit: usize) -> io::Result<Vec<u8>> {
    let mut bytes = Vec::new();
    source.take(limit as u64 + 1).read_to_end(&mut bytes)?;
    Ok(bytes)
}

/// Makes a file with these bytes, whole or not at all. The name must be free.
pub fn create(path: &Path, bytes: &[u8]) -> Result<(), Trouble> {
    create_whole(path, bytes).map_err(|error| match error.kind() {
        ErrorKind::AlreadyExists => Trouble::file(path, io::Error::other("it is there already")),
        _ => Trouble::file(path, error),
    })
}

fn create_whole(path: &Path, bytes: &[u8]) -> io::Result<()> {
    if path.symlink_metadata().is_ok() {
        return Err(ErrorKind::AlreadyExists.into());
    }
    let folder = folder_of(path);
    let name = format!(".logbook-start-{}", process::id());
    let mut temporary = Temporary::create(folder.join(name), 0o666)?;
    temporary.file.write_all(bytes)?;
    temporary.file.sync_all()?;
    match fs::hard_link(&temporary.path, path) {
        Err(error) if is_without_links(&error) => claim(temporary, path)?,
        linked => linked?,
    }
    File::open(folder)?.sync_all()
}

/// Whether the file system knows no second name for a file, as those of memory cards don't.
fn is_without_links(error: &io::Error) -> bool {
    matches!(
        error.kind(),
        ErrorKind::PermissionDenied | ErrorKind::Unsupported
    )
}

/// Takes a free name with an empty file, and puts the whole one there.
fn claim(temporary: Temporary, path: &Path) -> io::Result<()> {
    File::create_new(path)?;
    temporary.rename(path)
}

/// Makes a call on the logbook in a file, and replaces the file by what the call leaves. A refused
/// call leaves the file alone.
pub fn change<T>(
    path: &Path,
    call: impl FnOnce(&mut Logbook<'_>) -> Result<T, Refusal>,
) -> Result<T, Trouble> {
    let trouble = |error| Trouble::file(path, error);
    let locked = Locked::take(path).map_err(trouble)?;
    let mut buffer = read_up_to(&locked.file, raw::USED_LIMIT).map_err(trouble)?;
    let used = buffer.len();
    buffer.resize(used + ROOM, 0);
    let mut log = Logbook::open(&mut buffer, used)?;
    let answer = call(&mut log)?;
    locked.replace(log.bytes()).map_err(trouble)?;
    Ok(answer)
}

/// A file that is locked until this value goes. Its path has no links in it.
struct Locked {
    file: File,
    path: PathBuf,
}

impl Locked {
    /// Waits for the lock of the file that stands at a path, or that a link there leads to.
    fn take(path: &Path) -> io::Result<Locked> {
        loop {
            let path = path.canonicalize()?;
            // Open for writing: who may not write the file shall not replace it either.
            let file = OpenOptions::new().read(true).write(true).open(&path)?;
            if !file.metadata()?.is_file() {
                return Err(io::Error::other("not a regular file"));
            }
            file.lock()?;
            if stands_at(&file, &path)? {
                return Ok(Locked { file, path });
            }
        }
    }

    /// Replaces the file by one with these bytes, the same permissions and, as far as this user
    /// may, the same owner.
    fn replace(&self, bytes: &[u8]) -> io::Result<()> {
        let old = self.file.metadata()?;
        let folder = folder_of(&self.path);
        let name = format!(".logbook-new-{}", old.ino());
        let mut temporary = Temporary::create(folder.join(name), 0o600)?;
        temporary.file.write_all(bytes)?;
        keep_owner(&temporary.file, &old)?;
        temporary.file.set_permissions(old.permissions())?;
        temporary.file.sync_all()?;
        temporary.rename(&self.path)?;
        File::open(folder)?.sync_all()
    }
}

/// Whether an opened file is the one at a path; not so where it has been replaced or removed.
fn stands_at(file: &File, path: &Path) -> io::Result<bool> {
    let opened = file.metadata()?;
    match path.metadata() {
        Ok(there) => Ok((opened.dev(), opened.ino()) == (there.dev(), there.ino())),
        Err(error) if error.kind() == ErrorKind::NotFound => Ok(false),
        Err(error) => Err(error),
    }
}

/// Gives a file the owner and group of another. The group's permissions must not go to another
/// group; the owner changes where a group's member changes another's file.
fn keep_owner(file: &File, old: &Metadata) -> io::Result<()> {
    let new = file.metadata()?;
    if (new.uid(), new.gid()) == (old.uid(), old.gid()) {
        return Ok(());
    }
    fchown(file, Some(old.uid()), Some(old.gid())).or_else(|_| fchown(file, None, Some(old.gid())))
}

fn folder_of(path: &Path) -> &Path {
    match path.parent() {
        Some(folder) if !folder.as_os_str().is_empty() => folder,
        _ => Path::new("."),
    }
}

/// A file that is being written. It is removed unless it gets its name.
struct Temporary {
    file: File,
    path: PathBuf,
    is_renamed: bool,
}

impl Temporary {
    fn create(path: PathBuf, mode: u32) -> io::Result<Temporary> {
        match fs::remove_file(&path) {
            Err(error) if error.kind() != ErrorKind::NotFound => return Err(error),
            _ => {}
        }
        let mut options = OpenOptions::new();
        let file = options
            .write(true)
            .create_new(true)
            .mode(mode)
            .open(&path)?;
        Ok(Temporary {
            file,
            path,
            is_renamed: false,
        })
    }

    fn rename(mut self, path: &Path) -> io::Result<()> {
        fs::rename(&self.path, path)?;
        self.is_renamed = true;
        Ok(())
    }
}

impl Drop for Temporary {
    fn drop(&mut self) {
        if !self.is_renamed {
            // Where it can't be removed, the next change tries again.
            let _ = fs::remove_file(&self.path);
        }
    }
}
