//! A file is replaced whole or not at all: a new file is written beside it and synced, takes the old one's name, and the folder is
//! synced. A record or a window that is to be replaced is locked, so that of two runs at once each sees what the other left. Where one
//! is to be made its folder is locked, so that no other run makes it meanwhile.

use std::ffi::{OsStr, OsString};
use std::fs::{self, File, Metadata, OpenOptions, TryLockError};
use std::io::{self, ErrorKind, Write};
use std::os::unix::fs::{MetadataExt, OpenOptionsExt, fchown};
use std::path::{Path, PathBuf};
use std::thread::sleep;
use std::time::{Duration, Instant};

use crate::html::START;
use crate::input::{called, read_from, trouble};
use crate::no_answer::{Answered, NoAnswer, no_answer};
use crate::stop::{REPLACED, Steps, stop_for_test};

/// How long another run's lock is waited for, and the pause between two tries. The pause is short beside the time for which a run has the
/// lock, so that a run comes to its turn also where many others follow each other.
const WAIT: Duration = Duration::from_secs(20);
const PAUSE: Duration = Duration::from_millis(2);

/// A file that is to be replaced or made, locked until this value goes.
pub struct Locked {
    given: OsString,
    target: PathBuf,
    /// The file; where it is to be made, its folder.
    open: File,
    is_new: bool,
}

impl Locked {
    /// Opens and locks the file that a path, or the link that it is, leads to.
    pub fn open(path: &OsStr) -> Answered<Locked> {
        until_locked(path, || Locked::try_file(path))
    }

    /// The same, or where there is no such file locks the folder that it is to be made in.
    pub fn open_or_new(path: &OsStr) -> Answered<Locked> {
        until_locked(path, || {
            if is_missing(path)? {
                Locked::try_new(path)
            } else {
                Locked::try_file(path)
            }
        })
    }

    /// Opens a file and tries its lock once; none where another run has it, or put another file in its place.
    fn try_file(path: &OsStr) -> Answered<Option<Locked>> {
        let pipe = || {
            let what = called(path);
            NoAnswer(format!(
                "{what} is no file that can be replaced; with --dry it can be read"
            ))
        };
        if path == "-" {
            return Err(pipe());
        }
        let failed = |error: io::Error| trouble(path, "opened to be replaced", &error);
        let target = fs::canonicalize(path).map_err(failed)?;
        let before = fs::metadata(&target).map_err(failed)?;
        if !before.is_file() && !before.is_dir() {
            return Err(pipe());
        }
        let open = OpenOptions::new().read(true).write(true).open(&target);
        let open = open.map_err(failed)?;
        let free = try_lock(&open).map_err(failed)?;
        let locked = free && same_file(&open, &target).map_err(failed)?;
        Ok(locked.then(|| Locked {
            given: path.to_os_string(),
            target,
            open,
            is_new: false,
        }))
    }

    /// Opens the folder of a file that is to be made and tries its lock once; none where another run has it, or made the file.
    fn try_new(path: &OsStr) -> Answered<Option<Locked>> {
        let failed = |error: io::Error| not_made(path, &error);
        let (folder, name) = folder_of(path)?;
        let open = File::open(&folder).map_err(failed)?;
        let locked = try_lock(&open).map_err(failed)? && is_missing(path)?;
        Ok(locked.then(|| Locked {
            given: path.to_os_string(),
            target: folder.join(name),
            open,
            is_new: true,
        }))
    }

    /// Locks the folder of a file that is not there yet, which a command of this name makes.
    pub fn to_make(path: &OsStr, command: &str) -> Answered<Locked> {
        let file = called(path);
        until_locked(path, || match fs::symlink_metadata(path) {
            Ok(_) => no_answer(format!(
                "{file} is there already, and {command} writes over nothing"
            )),
            Err(error) if error.kind() == ErrorKind::NotFound => Locked::try_new(path),
            Err(error) => Err(trouble(path, "made", &error)),
        })
    }

    /// Whether the file is to be made.
    pub fn is_new(&self) -> bool {
        self.is_new
    }

    /// The file, or where it is to be made its place.
    pub fn target(&self) -> &Path {
        &self.target
    }

    /// The permissions and the owner of the file that is there; none where it is to be made.
    pub fn old(&self) -> io::Result<Option<Metadata>> {
        if self.is_new {
            return Ok(None);
        }
        self.open.metadata().map(Some)
    }

    /// The file's bytes, `most` and one more at most.
    pub fn read(&self, most: usize) -> Answered<Vec<u8>> {
        read_from(&self.open, most).map_err(|error| trouble(&self.given, "read", &error))
    }

    /// Writes the new file, which is not in its place yet. The permissions and the owner of the old one stay.
    pub fn prepare(&self, bytes: &[u8]) -> Answered<Fresh> {
        let old = self.old();
        let fresh = old.and_then(|old| Fresh::write(&self.target, bytes, old.as_ref(), REPLACED));
        fresh.map_err(|error| self.failed(&error))
    }

    /// Puts the new file in its place. It stays locked as the old one was.
    pub fn put(&mut self, fresh: Fresh) -> Answered<()> {
        let put = if self.is_new {
            fresh.put_new()
        } else {
            let locked = fresh.locked.try_clone();
            locked.and_then(|locked| {
                fresh.put()?;
                self.open = locked;
                Ok(())
            })
        };
        put.map_err(|error| self.failed(&error))
    }

    fn failed(&self, error: &io::Error) -> NoAnswer {
        if self.is_new {
            return not_made(&self.given, error);
        }
        let file = called(&self.given);
        NoAnswer(format!(
            "{file} can't be replaced and is left as it is: {error}"
        ))
    }
}

/// Tries a lock until it is there.
fn until_locked(path: &OsStr, attempt: impl Fn() -> Answered<Option<Locked>>) -> Answered<Locked> {
    let begun = Instant::now();
    while begun.elapsed() < WAIT {
        if let Some(locked) = attempt()? {
            return Ok(locked);
        }
    }
    let what = called(path);
    no_answer(format!("another run is at work on {what} and does not end"))
}

/// Whether a file or folder is locked now. Where another run has the lock, there is a pause.
fn try_lock(file: &File) -> io::Result<bool> {
    match file.try_lock() {
        Ok(()) => Ok(true),
        Err(TryLockError::WouldBlock) => {
            sleep(PAUSE);
            Ok(false)
        }
        Err(TryLockError::Error(error)) => Err(error),
    }
}

/// Whether a path still leads to an open file, and not to one that took its place before it was locked.
fn same_file(file: &File, path: &Path) -> io::Result<bool> {
    let (held, there) = (file.metadata()?, fs::metadata(path)?);
    Ok((held.dev(), held.ino()) == (there.dev(), there.ino()))
}

/// Whether two paths lead to one file.
pub fn is_one_file(path: impl AsRef<Path>, other: impl AsRef<Path>) -> bool {
    match (fs::metadata(path), fs::metadata(other)) {
        (Ok(one), Ok(other)) => (one.dev(), one.ino()) == (other.dev(), other.ino()),
        _ => false,
    }
}

/// Whether there is nothing at a path. A link to nothing is turned down, since a file in its place would end the link.
pub fn is_missing(path: &OsStr) -> Answered<bool> {
    let not_found =
        |found: io::Result<Metadata>| found.is_err_and(|error| error.kind() == ErrorKind::NotFound);
    let missing = not_found(fs::symlink_metadata(path));
    if !missing && not_found(fs::metadata(path)) {
        let file = called(path);
        return no_answer(format!("{file} is a link to a file that is not there"));
    }
    Ok(missing)
}

/// The folder that a file is to be made in, and the file's name there.
pub fn folder_of(path: &OsStr) -> Answered<(PathBuf, &OsStr)> {
    let whole = Path::new(path);
    // A path that ends with / or /. is a folder's, and its last name is that of no file.
    let ends = |name: &&OsStr| path.as_encoded_bytes().ends_with(name.as_encoded_bytes());
    let name = whole.file_name().filter(ends);
    let (Some(folder), Some(name)) = (whole.parent(), name) else {
        return no_answer(format!("{} is no name for a file", called(path)));
    };
    let folder = fs::canonicalize(or_here(folder));
    Ok((folder.map_err(|error| not_made(path, &error))?, name))
}

/// A folder, which is the present one where a path has none.
fn or_here(folder: &Path) -> &Path {
    if folder.as_os_str().is_empty() {
        Path::new(".")
    } else {
        folder
    }
}

/// Why a file can't be made.
fn not_made(path: &OsStr, error: &io::Error) -> NoAnswer {
    let file = called(path);
    NoAnswer(match error.kind() {
        ErrorKind::NotFound => format!("there is no folder for {file}"),
        _ => format!("{file} can't be made: {error}"),
    })
}

/// A new file beside its target. Until it is put in its place the target is as it was; where it never is, it goes with this value. It is locked
/// until then, so that no other run takes its first name for its own while that is still to go.
pub struct Fresh {
    fresh: PathBuf,
    target: PathBuf,
    is_put: bool,
    locked: File,
    steps: Steps,
}

impl Fresh {
    /// Writes the new file, with the permissions and the owner of an old one where one is given.
    pub fn write(
        target: &Path,
        bytes: &[u8],
        old: Option<&Metadata>,
        steps: Steps,
    ) -> io::Result<Fresh> {
        let name = target.file_name().ok_or(ErrorKind::InvalidInput)?;
        let mut fresh_name = OsString::from(".");
        fresh_name.push(name);
        fresh_name.push(".new");
        let path = target.with_file_name(fresh_name);
        let fresh = Fresh {
            locked: new_file(&path, old.is_none())?,
            fresh: path,
            target: target.to_path_buf(),
            is_put: false,
            steps,
        };
        fill(&fresh.locked, bytes, old, steps)?;
        Ok(fresh)
    }

    /// Gives it the target's name.
    pub fn put(mut self) -> io::Result<()> {
        fs::rename(&self.fresh, &self.target)?;
        self.is_put = true;
        self.sync_folder();
        Ok(())
    }

    /// Gives it the target's name if no file has that, not even one that another program made meanwhile. Its first name goes with this
    /// value. Where the file system has no second names it is renamed.
    pub fn put_new(self) -> io::Result<()> {
        match fs::hard_link(&self.fresh, &self.target) {
            Ok(()) => self.sync_folder(),
            Err(error) if error.kind() == ErrorKind::AlreadyExists => return Err(error),
            Err(_) => self.put()?,
        }
        Ok(())
    }

    /// Syncs the folder once the target is there. That this fails is no reason to say that the target isn't.
    fn sync_folder(&self) {
        stop_for_test(self.steps[2]);
        sync_folder_of(&self.target);
    }
}

/// Syncs the folder of a file, as far as it can be.
pub fn sync_folder_of(file: &Path) {
    let folder = or_here(file.parent().unwrap_or(Path::new("")));
    let _ = File::open(folder).and_then(|folder| folder.sync_all());
}

impl Drop for Fresh {
    fn drop(&mut self) {
        if !self.is_put {
            let _ = fs::remove_file(&self.fresh);
        }
    }
}

/// A new and empty file, locked, in place of one that a run left there which was cut off. It is for everybody where nothing is to be replaced.
fn new_file(path: &Path, for_all: bool) -> io::Result<File> {
    match fs::remove_file(path) {
        Err(error) if error.kind() != ErrorKind::NotFound => return Err(error),
        _ => {}
    }
    let mode = if for_all { 0o666 } else { 0o600 };
    let file = OpenOptions::new()
        .write(true)
        .create_new(true)
        .mode(mode)
        .open(path)?;
    // Where the file system has no locks no file that is to be replaced can be locked, and that is told elsewhere.
    let _ = file.try_lock();
    Ok(file)
}

/// Fills a new file with the bytes, gives it the permissions and the owner of the old one, and syncs it.
fn fill(mut file: &File, bytes: &[u8], old: Option<&Metadata>, steps: Steps) -> io::Result<()> {
    let (first, second) = bytes.split_at(bytes.len() / 2);
    file.write_all(first)?;
    stop_for_test(steps[0]);
    file.write_all(second)?;
    if let Some(old) = old {
        let new = file.metadata()?;
        if (new.uid(), new.gid()) != (old.uid(), old.gid()) {
            fchown(file, Some(old.uid()), Some(old.gid()))?;
        }
        file.set_permissions(old.permissions())?;
    }
    file.sync_all()?;
    stop_for_test(steps[1]);
    Ok(())
}

/// Writes a page to a file that is new, or is a page already. What is no file, as a terminal or a pipe, is written to.
pub fn write_page(path: &OsStr, page: &str) -> Answered<()> {
    let failed = |error: io::Error| trouble(path, "written", &error);
    let old = match fs::metadata(path) {
        Ok(old) => Some(old),
        Err(error) if error.kind() == ErrorKind::NotFound => None,
        Err(error) => return Err(failed(error)),
    };
    let target = match &old {
        None => PathBuf::from(path),
        Some(old) if old.is_file() => fs::canonicalize(path).map_err(failed)?,
        Some(_) => {
            let opened = OpenOptions::new().write(true).open(path);
            return opened
                .and_then(|mut file| file.write_all(page.as_bytes()))
                .map_err(failed);
        }
    };
    if old.is_some() {
        let there = File::open(&target).and_then(|file| read_from(file, START.len()));
        if !there.map_err(failed)?.starts_with(START.as_bytes()) {
            let file = called(path);
            return no_answer(format!(
                "{file} is there already and is no page, so it is left as it is"
            ));
        }
    }
    let fresh = Fresh::write(&target, page.as_bytes(), old.as_ref(), REPLACED);
    fresh
        .and_then(Fresh::put)
        .map_err(|error| match error.kind() {
            ErrorKind::NotFound => NoAnswer(format!("there is no folder for {}", called(path))),
            _ => failed(error),
        })
}
