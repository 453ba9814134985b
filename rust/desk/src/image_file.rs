//! Files that hold an image.

use crate::{
    failure::{numbered, About, Failure},
    whole_file,
};
use hilugsaban::{Kind, Notch, Status};
use std::{
    fmt::{self, Display},
    fs::{self, File, OpenOptions, TryLockError},
    io::{self, Read},
    os::unix::fs::MetadataExt,
    path::{Path, PathBuf},
};

/// Whether a file of so many bytes is read.
type Length = fn(usize) -> bool;

/// The lengths of images.
const IMAGE: Length = |bytes| Kind::of_length(bytes).is_some();

/// The lengths of a file that the shell serves: there the library refuses a wrong one, call by call.
const ANY: Length = |bytes| bytes <= 1 << 20;

/// The image in a file, to look at it.
pub fn read(path: &Path) -> Result<Vec<u8>, Failure> {
    read_unlocked(path, IMAGE).about(path.display())
}

/// Writes a new image file, which must not exist yet.
pub fn create(path: &Path, image: &[u8]) -> Result<(), Failure> {
    whole_file::create(path, image).about(path.display())
}

/// Why an image file is never written, and its image is served with the notch closed.
#[derive(Clone, Copy)]
pub enum Protection {
    /// It was asked for.
    Asked,
    /// The user may not write the file.
    Unwritable,
}

impl Display for Protection {
    fn fmt(&self, f: &mut fmt::Formatter<'_>) -> fmt::Result {
        f.write_str(match self {
            Protection::Asked => "--protect was given",
            Protection::Unwritable => "the file may not be written",
        })
    }
}

/// An image file that is to be written back, or one that is protected. No other desk can hold the first at the same time.
pub struct ImageFile {
    path: PathBuf,
    /// Open, and locked, as long as the image is held. What is never written back needs no lock.
    file: Result<File, Protection>,
}

impl ImageFile {
    /// Opens the file, locks it unless it is protected, and reads its image.
    pub fn open(path: &Path, protect: bool) -> Result<(ImageFile, Vec<u8>), Failure> {
        ImageFile::open_with(path, protect, IMAGE).about(path.display())
    }

    /// Opens a file for the shell: of another length too.
    pub fn open_any(path: &Path, protect: bool) -> Result<(ImageFile, Vec<u8>), Failure> {
        ImageFile::open_with(path, protect, ANY).about(path.display())
    }

    fn open_with(path: &Path, protect: bool, is_read: Length) -> io::Result<(ImageFile, Vec<u8>)> {
        let path = fs::canonicalize(path)?;
        let file = if protect {
            Err(Protection::Asked)
        } else {
            open_to_write(&path)?.ok_or(Protection::Unwritable)
        };
        let image = match &file {
            Ok(file) => read_locked(&path, file, is_read)?,
            Err(_) => read_unlocked(&path, is_read)?,
        };
        Ok((ImageFile { path, file }, image))
    }

    /// Why the file is never written, if so.
    pub fn protection(&self) -> Option<Protection> {
        self.file.as_ref().err().copied()
    }

    /// The notch that the image is served with.
    pub fn notch(&self) -> Notch {
        match self.file {
            Ok(_) => Notch::Open,
            Err(_) => Notch::Closed,
        }
    }

    /// Replaces the image in the file. Whether the user may write the file is asked once more: since it was opened that may
    /// have changed, and the file would be replaced all the same.
    pub fn write_back(&mut self, image: &[u8]) -> Result<(), Failure> {
        let path = self.path.display();
        let left_alone = |protection| Failure::new(format!("{path}: left alone: {protection}"));
        let old = self
            .file
            .as_ref()
            .map_err(|&protection| left_alone(protection))?;
        if !may_still_write(&self.path).about(&path)? {
            return Err(left_alone(Protection::Unwritable));
        }
        self.file = Ok(whole_file::replace(&self.path, image, old).about(path)?);
        Ok(())
    }

    pub fn path(&self) -> &Path {
        &self.path
    }
}

/// Opens a file for writing; none where the user may not write it.
///
/// That is asked of the system, which knows about access lists and file systems mounted for reading. It would let root write
/// a file that nobody has the permission to write: such a file was marked by its owner, and is left alone for root too.
fn open_to_write(path: &Path) -> io::Result<Option<File>> {
    use io::ErrorKind::{PermissionDenied, ReadOnlyFilesystem};
    match open_regular(path, OpenOptions::new().read(true).write(true)) {
        Ok(file) if file.metadata()?.permissions().readonly() => Ok(None),
        Err(error) if [PermissionDenied, ReadOnlyFilesystem].contains(&error.kind()) => Ok(None),
        opened => opened.map(Some),
    }
}

/// Whether the user may write the file that has this path now. One that is gone is made anew.
fn may_still_write(path: &Path) -> io::Result<bool> {
    match open_to_write(path) {
        Err(error) if error.kind() == io::ErrorKind::NotFound => Ok(true),
        opened => Ok(opened?.is_some()),
    }
}

/// Locks a file that was opened by this path, and reads it.
fn read_locked(path: &Path, file: &File, is_read: Length) -> io::Result<Vec<u8>> {
    lock(file)?;
    // Another desk may have replaced the file between the opening and the locking.
    if fs::metadata(path)?.ino() != file.metadata()?.ino() {
        return Err(in_use());
    }
    read_all(file, is_read)
}

fn read_unlocked(path: &Path, is_read: Length) -> io::Result<Vec<u8>> {
    let file = open_regular(path, OpenOptions::new().read(true))?;
    read_all(&file, is_read)
}

/// Opens a file that is no folder, device or pipe.
fn open_regular(path: &Path, options: &OpenOptions) -> io::Result<File> {
    if !fs::metadata(path)?.is_file() {
        return Err(io::Error::other("not a regular file"));
    }
    options.open(path)
}

/// The bytes of a file, if it has a length that is read. The length is looked at first, so that a file of any length can be
/// named without harm.
fn read_all(mut file: &File, is_read: Length) -> io::Result<Vec<u8>> {
    let length = file.metadata()?.len();
    if !usize::try_from(length).is_ok_and(is_read) {
        let refusal = numbered(Status::BadImage);
        return Err(io::Error::other(format!("{refusal} ({length})")));
    }
    let mut bytes = Vec::new();
    file.read_to_end(&mut bytes)?;
    Ok(bytes)
}

fn lock(file: &File) -> io::Result<()> {
    file.try_lock().map_err(|error| match error {
        TryLockError::WouldBlock => in_use(),
        TryLockError::Error(error) => error,
    })
}

fn in_use() -> io::Error {
    io::Error::other("in use by another desk")
}
