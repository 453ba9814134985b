//! Files written whole: the bytes go to a temporary file in the same folder and are brought to the disk there; then the file
//! takes its name in one step. A crash leaves either what was there before or the new file whole.

use std::{
    fs::{self, File, OpenOptions},
    io::{self, Write},
    os::unix::fs::{fchown, MetadataExt},
    path::Path,
    process,
};

/// Puts a file with these bytes in the place of the old one, with its owner and permissions. Returns the new file, locked.
pub fn replace(path: &Path, bytes: &[u8], old: &File) -> io::Result<File> {
    through_temporary(path, bytes, Some(old), |temporary| {
        fs::rename(temporary, path)
    })
}

/// Writes a new file, which must not exist yet.
pub fn create(path: &Path, bytes: &[u8]) -> io::Result<()> {
    through_temporary(path, bytes, None, |temporary| {
        name_new(temporary, path, bytes)?;
        // The new file is there; the name that it no longer needs must not make that a failure.
        let _ = fs::remove_file(temporary);
        Ok(())
    })?;
    Ok(())
}

/// Writes a file: a new one, or one in the place of an old one. What is no regular file, such as a device or a pipe, is
/// written to as it is.
pub fn write(path: &Path, bytes: &[u8]) -> io::Result<()> {
    let old = match fs::metadata(path) {
        Err(error) if error.kind() == io::ErrorKind::NotFound => return create(path, bytes),
        old => old?,
    };
    // Opened also where it is replaced, so that a file without the permission to write is refused.
    let mut file = OpenOptions::new().write(true).open(path)?;
    if !old.is_file() {
        return file.write_all(bytes);
    }
    replace(&fs::canonicalize(path)?, bytes, &file)?;
    Ok(())
}

/// Whether two paths lead to the same file.
pub fn same(one: &Path, other: &Path) -> bool {
    match (fs::metadata(one), fs::metadata(other)) {
        (Ok(one), Ok(other)) => (one.dev(), one.ino()) == (other.dev(), other.ino()),
        _ => false,
    }
}

/// Writes a temporary file beside `path` and lets `take_place` bring it there. Returns the file, locked.
fn through_temporary(
    path: &Path,
    bytes: &[u8],
    old: Option<&File>,
    take_place: impl FnOnce(&Path) -> io::Result<()>,
) -> io::Result<File> {
    let folder = match path.parent() {
        Some(folder) if folder != Path::new("") => folder,
        _ => Path::new("."),
    };
    let name = path
        .file_name()
        .ok_or_else(|| io::Error::other("not a file name"))?;
    let mut temporary = name.to_os_string();
    temporary.push(format!(".{}.tmp", process::id()));
    let temporary = folder.join(temporary);
    // A folder may allow to write files in it and not to be read; then it cannot be synced.
    let readable_folder = File::open(folder).ok();
    let file = File::create_new(&temporary).map_err(no_temporary)?;
    let placed = fill(&file, bytes, old).and_then(|()| take_place(&temporary));
    if let Err(error) = placed {
        let _ = fs::remove_file(&temporary);
        return Err(error);
    }
    // The file has its place now, so an error here must not be reported as if it had not; some file systems sync no folder.
    if let Some(folder) = readable_folder {
        let _ = folder.sync_all();
    }
    Ok(file)
}

fn no_temporary(error: io::Error) -> io::Error {
    let message = format!("no temporary file can be made beside it: {error}");
    io::Error::new(error.kind(), message)
}

/// Fills the temporary file. It is locked first, so that it is so from the moment that it has its name.
fn fill(mut file: &File, bytes: &[u8], old: Option<&File>) -> io::Result<()> {
    file.try_lock()?;
    if let Some(old) = old {
        copy_owner_and_permissions(file, old)?;
    }
    file.write_all(bytes)?;
    file.sync_all()
}

/// To give a file to another owner or group may need a privilege; without it the file is its writer's.
fn copy_owner_and_permissions(file: &File, old: &File) -> io::Result<()> {
    let old = old.metadata()?;
    let _ = fchown(file, None, Some(old.gid()));
    let _ = fchown(file, Some(old.uid()), None);
    file.set_permissions(old.permissions())
}

/// Gives the temporary file a second name, which must be free. A rename would take the name from another file.
fn name_new(temporary: &Path, path: &Path, bytes: &[u8]) -> io::Result<()> {
    match fs::hard_link(temporary, path) {
        Err(error) if error.kind() != io::ErrorKind::AlreadyExists => write_new(path, bytes),
        linked => linked.map_err(already_exists),
    }
}

/// Writes a new file under its own name, for a file system without hard links.
fn write_new(path: &Path, bytes: &[u8]) -> io::Result<()> {
    let file = File::create_new(path).map_err(already_exists)?;
    let written = fill(&file, bytes, None);
    if written.is_err() {
        let _ = fs::remove_file(path);
    }
    written
}

fn already_exists(error: io::Error) -> io::Error {
    match error.kind() {
        io::ErrorKind::AlreadyExists => io::Error::other("already exists"),
        _ => error,
    }
}

#[cfg(test)]
mod tests {
    use super::*;

    #[test]
    fn without_hard_links_no_file_is_overwritten_either() {
        let path = std::env::temp_dir().join(format!("desk-write-new-{}", process::id()));
        write_new(&path, b"first").unwrap();
        let refused = write_new(&path, b"second").unwrap_err();
        assert_eq!(refused.to_string(), "already exists");
        assert_eq!(fs::read(&path).unwrap(), b"first");
        fs::remove_file(&path).unwrap();
    }
}
