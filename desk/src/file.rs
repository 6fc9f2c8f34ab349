//! Books as files. A book on disk is never written to: a change is a new file beside it, synced and then renamed over
//! it, so that at every moment the book is the one before or the one after.
//!
//! The new file is the lock, too. For the book `loans` it is `.loans.new`; who holds its lock, and finds it still under
//! that name, is the only writer. A writer that was killed leaves it behind without a lock, and the next one takes it
//! over.

use std::ffi::OsString;
use std::fmt;
use std::fs::{self, File, Metadata, OpenOptions, TryLockError};
use std::io::{self, Read, Write};
use std::os::unix::fs::{fchown, MetadataExt};
use std::path::{Path, PathBuf};

/// The bytes of the largest book: 65,536 slots, keys and values of 255 bytes.
pub const LARGEST: u64 = 33_488_944;

/// How often a writer that came just when another one ended tries again.
const TRIES: usize = 64;

/// Why a file could not be read or changed.
#[derive(Debug)]
#[non_exhaustive]
pub enum FileError {
    /// There is no such file.
    Missing,
    /// It is a folder, a device or the like.
    NotAFile,
    /// It is longer than any book.
    TooLong(u64),
    /// There is a file already where a new one was to be made.
    Exists,
    /// Another writer is at work on it.
    Busy,
    /// Its permissions say that nobody may write to it.
    WriteProtected,
    /// Something that is no draft of ours has the draft's name.
    InTheWay(PathBuf),
    /// The system refused: while doing what, and why.
    System(&'static str, io::Error),
}

impl FileError {
    /// Whether the file was refused for what it is, and not out of reach.
    pub fn is_refusal(&self) -> bool {
        matches!(self, FileError::TooLong(_) | FileError::Exists | FileError::Busy)
    }
}

impl fmt::Display for FileError {
    fn fmt(&self, f: &mut fmt::Formatter<'_>) -> fmt::Result {
        match self {
            FileError::Missing => write!(f, "there is no such file"),
            FileError::NotAFile => write!(f, "it is a folder or a device, and no file"),
            FileError::TooLong(length) => {
                write!(f, "it has {length} bytes and the largest book {LARGEST}, so it is no loan book")
            }
            FileError::Exists => write!(f, "there is such a file already; it was left as it is"),
            FileError::Busy => write!(f, "another program is changing the book just now; try again when it has ended"),
            FileError::WriteProtected => write!(f, "the file is write-protected; nothing was changed"),
            FileError::InTheWay(path) => write!(f, "{path:?} is in the way of the new file; move it elsewhere"),
            FileError::System(doing, error) => write!(f, "{doing}: {error}"),
        }
    }
}

impl std::error::Error for FileError {}

/// Reads a whole file that may be a book. A book that is being changed is read as it was before.
pub fn read(path: &Path) -> Result<Vec<u8>, FileError> {
    // Asked first, since opening a pipe would wait for its other end.
    acceptable(&fs::metadata(path).map_err(while_reading)?)?;
    contents(&File::open(path).map_err(while_reading)?)
}

/// The only writer of a book, for as long as it lives.
#[derive(Debug)]
pub struct Writer {
    book: PathBuf,
    draft: PathBuf,
    file: File,
    renamed: bool,
}

impl Writer {
    /// Takes an existing book for a change, and reads it. Where the path is a link, the book is what it leads to.
    pub fn change(path: &Path) -> Result<(Writer, Vec<u8>), FileError> {
        acceptable(&fs::metadata(path).map_err(while_reading)?)?;
        let writer = Writer::lock(fs::canonicalize(path).map_err(while_reading)?)?;
        // Opened for writing only to ask whether we may: it is never written to.
        let book = OpenOptions::new().read(true).write(true).open(&writer.book).map_err(while_taking)?;
        let metadata = book.metadata().map_err(while_reading)?;
        if metadata.permissions().readonly() {
            return Err(FileError::WriteProtected);
        }
        writer.take_after(&metadata)?;
        let bytes = contents(&book)?;
        Ok((writer, bytes))
    }

    /// Takes a name for a new book, if nothing has that name.
    pub fn create(path: &Path) -> Result<Writer, FileError> {
        let name = path.file_name().ok_or(FileError::NotAFile)?;
        let folder = fs::canonicalize(folder_of(path)).map_err(while_making)?;
        let writer = Writer::lock(folder.join(name))?;
        match fs::symlink_metadata(&writer.book) {
            Err(error) if error.kind() == io::ErrorKind::NotFound => Ok(writer),
            Err(error) => Err(while_making(error)),
            Ok(_) => Err(FileError::Exists),
        }
    }

    /// Puts these bytes in the book's place. When it returns, they are on disk.
    pub fn replace(mut self, bytes: &[u8]) -> Result<(), FileError> {
        self.file.set_len(0).and_then(|()| self.file.write_all(bytes)).map_err(while_writing)?;
        self.file.sync_all().map_err(while_writing)?;
        fs::rename(&self.draft, &self.book).map_err(while_writing)?;
        self.renamed = true;
        let folder = File::open(folder_of(&self.book));
        folder.and_then(|folder| folder.sync_all()).map_err(|error| {
            FileError::System("the change is in place, but its folder could not be synced to the disk", error)
        })
    }

    /// Takes the draft of this book, made or left over, and its lock.
    fn lock(book: PathBuf) -> Result<Writer, FileError> {
        let draft = draft_of(&book)?;
        for _ in 0..TRIES {
            if fs::symlink_metadata(&draft).is_ok_and(|found| !is_draft(&found)) {
                return Err(FileError::InTheWay(draft));
            }
            let mut options = OpenOptions::new();
            options.read(true).write(true).create(true).truncate(false);
            let file = options.open(&draft).map_err(while_making)?;
            match file.try_lock() {
                Ok(()) => {}
                Err(TryLockError::WouldBlock) => return Err(FileError::Busy),
                Err(TryLockError::Error(error)) => return Err(while_making(error)),
            }
            if still_named(&file, &draft) {
                return Ok(Writer { book, draft, file, renamed: false });
            }
        }
        Err(FileError::Busy)
    }

    /// Gives the draft the book's permissions and, where the system lets us, its owner.
    fn take_after(&self, book: &Metadata) -> Result<(), FileError> {
        let draft = self.file.metadata().map_err(while_making)?;
        if (draft.uid(), draft.gid()) != (book.uid(), book.gid()) {
            let _ = fchown(&self.file, Some(book.uid()), Some(book.gid()));
        }
        self.file.set_permissions(book.permissions()).map_err(while_making)
    }
}

impl Drop for Writer {
    /// Without a change the draft goes, while its lock is still held.
    fn drop(&mut self) {
        if !self.renamed {
            let _ = fs::remove_file(&self.draft);
        }
    }
}

/// Whether this may be a draft: a file, with no second name under which it is somebody's book.
fn is_draft(found: &Metadata) -> bool {
    found.is_file() && found.nlink() == 1
}

/// Whether a file that was opened under a name still has it: between the opening and the lock, its writer before may
/// have renamed or removed it.
fn still_named(file: &File, path: &Path) -> bool {
    match (file.metadata(), fs::symlink_metadata(path)) {
        (Ok(ours), Ok(named)) => is_draft(&named) && (ours.dev(), ours.ino()) == (named.dev(), named.ino()),
        _ => false,
    }
}

/// Where the draft of a book stands.
fn draft_of(book: &Path) -> Result<PathBuf, FileError> {
    let mut name = OsString::from(".");
    name.push(book.file_name().ok_or(FileError::NotAFile)?);
    name.push(".new");
    Ok(book.with_file_name(name))
}

/// The folder in which a path is.
fn folder_of(path: &Path) -> &Path {
    match path.parent() {
        Some(folder) if !folder.as_os_str().is_empty() => folder,
        _ => Path::new("."),
    }
}

/// Refuses what can't be a book, before it is read.
fn acceptable(metadata: &Metadata) -> Result<(), FileError> {
    match metadata.len() {
        _ if !metadata.is_file() => Err(FileError::NotAFile),
        length if length > LARGEST => Err(FileError::TooLong(length)),
        _ => Ok(()),
    }
}

/// All bytes of an open file, if it may be a book.
fn contents(file: &File) -> Result<Vec<u8>, FileError> {
    acceptable(&file.metadata().map_err(while_reading)?)?;
    let mut bytes = Vec::new();
    file.take(LARGEST + 1).read_to_end(&mut bytes).map_err(while_reading)?;
    match bytes.len() as u64 {
        length if length > LARGEST => Err(FileError::TooLong(length)),
        _ => Ok(bytes),
    }
}

fn while_reading(error: io::Error) -> FileError {
    match error.kind() {
        io::ErrorKind::NotFound => FileError::Missing,
        _ => FileError::System("it can't be read", error),
    }
}

fn while_taking(error: io::Error) -> FileError {
    match error.kind() {
        io::ErrorKind::NotFound => FileError::Missing,
        _ => FileError::System("it can't be opened for a change", error),
    }
}

fn while_making(error: io::Error) -> FileError {
    FileError::System("no new file can be made beside it", error)
}

fn while_writing(error: io::Error) -> FileError {
    FileError::System("the new file can't be written, so the old one stands as it was", error)
}
