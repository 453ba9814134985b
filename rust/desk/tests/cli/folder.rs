//! A temporary folder with images in it, in which the program is run.

use hilugsaban::{Direction, Disk};
use std::{
    fs,
    io::{self, Write},
    os::unix::{
        fs::{chown, MetadataExt, PermissionsExt},
        process::CommandExt,
    },
    path::{Path, PathBuf},
    process::{Child, Command, Output, Stdio},
    sync::atomic::{AtomicU32, Ordering},
};

/// A folder of its own for a test, removed at the end.
pub struct Folder(pub PathBuf);

impl Folder {
    pub fn new() -> Folder {
        static NEXT: AtomicU32 = AtomicU32::new(0);
        let number = NEXT.fetch_add(1, Ordering::Relaxed);
        let path = PathBuf::from(env!("CARGO_TARGET_TMPDIR"))
            .join(format!("{}-{number}", std::process::id()));
        fs::create_dir_all(&path).unwrap();
        Folder(path)
    }

    /// A folder with the image `disk` on it, changed by some calls.
    pub fn with_disk(calls: impl FnOnce(&mut Disk<Vec<u8>>)) -> Folder {
        let folder = Folder::new();
        let mut disk = Disk::fresh();
        calls(&mut disk);
        folder.write("disk", disk.image());
        folder
    }

    pub fn write(&self, name: &str, bytes: &[u8]) {
        fs::write(self.0.join(name), bytes).unwrap();
    }

    /// Sets the permissions of a file or folder.
    pub fn permit(&self, name: &str, mode: u32) {
        fs::set_permissions(self.0.join(name), PermissionsExt::from_mode(mode)).unwrap();
    }

    pub fn read(&self, name: &str) -> Vec<u8> {
        fs::read(self.0.join(name)).unwrap()
    }

    /// The names of all files in the folder.
    pub fn names(&self) -> Vec<String> {
        let entries = fs::read_dir(&self.0).unwrap();
        let mut names: Vec<String> = entries
            .map(|entry| entry.unwrap().file_name().into_string().unwrap())
            .collect();
        names.sort();
        names
    }

    /// The program, to be run in the folder.
    pub fn command(&self, arguments: &[&str]) -> Command {
        let mut command = Command::new(env!("CARGO_BIN_EXE_desk"));
        command
            .args(arguments)
            .current_dir(&self.0)
            .stdin(Stdio::piped())
            .stdout(Stdio::piped())
            .stderr(Stdio::piped());
        command
    }

    /// Runs the program in the folder with this standard input.
    pub fn run_with(&self, arguments: &[&str], input: &[u8]) -> Output {
        finish(self.command(arguments).spawn().unwrap(), input)
    }

    /// Runs the program as a user whom permissions bind: where root runs the tests, as another one, to whom the folder and
    /// all in it are given. None, with a line that says so, where that cannot be done.
    pub fn run_bound(&self, arguments: &[&str], input: &[u8]) -> Option<Output> {
        let mut command = self.command(arguments);
        let given = if is_root() {
            command.uid(NOBODY).gid(NOBODY);
            give(&self.0, NOBODY)
        } else {
            Ok(())
        };
        match given.and_then(|()| command.spawn()) {
            Ok(child) => Some(finish(child, input)),
            Err(error) => {
                println!("skipped: the program cannot be run as user {NOBODY}: {error}");
                None
            }
        }
    }

    /// What a command that succeeds prints.
    pub fn run(&self, arguments: &[&str]) -> String {
        let output = self.run_with(arguments, b"");
        assert_eq!(String::from_utf8_lossy(&output.stderr), "", "{arguments:?}");
        assert_eq!(output.status.code(), Some(0), "{arguments:?}");
        String::from_utf8(output.stdout).unwrap()
    }

    /// The message of a command that fails; it leaves every file as it was and adds none.
    pub fn refuse(&self, arguments: &[&str]) -> String {
        let before = self.states();
        let output = self.run_with(arguments, b"");
        let after = self.states();
        assert!(before == after, "{arguments:?} changed a file");
        assert_eq!(output.status.code(), Some(1), "{arguments:?}");
        assert_eq!(String::from_utf8_lossy(&output.stdout), "", "{arguments:?}");
        String::from_utf8(output.stderr).unwrap()
    }

    /// What `shell` prints for a script, and its exit status.
    pub fn shell(&self, arguments: &[&str], script: &str) -> (String, Option<i32>) {
        let output = self.run_with(&[&["shell"], arguments].concat(), script.as_bytes());
        (
            String::from_utf8(output.stdout).unwrap(),
            output.status.code(),
        )
    }

    /// A file, a link or the folder itself, `.`, as it stands.
    pub fn state(&self, name: &str) -> State {
        let path = self.0.join(name);
        let file = fs::symlink_metadata(&path).unwrap();
        State {
            bytes: fs::read(&path).ok(),
            inode: file.ino(),
            written: (file.mtime(), file.mtime_nsec()),
            changed: (file.ctime(), file.ctime_nsec()),
        }
    }

    /// Every file of the folder as it stands.
    fn states(&self) -> Vec<(String, State)> {
        let state = |name: String| (name.clone(), self.state(&name));
        self.names().into_iter().map(state).collect()
    }
}

/// What can be seen of a file: its bytes, where it has some that can be read, and whether it was written or replaced.
#[derive(PartialEq, Debug)]
pub struct State {
    bytes: Option<Vec<u8>>,
    inode: u64,
    /// When its bytes were last written: seconds and nanoseconds.
    written: (i64, i64),
    /// When anything of it was last changed.
    changed: (i64, i64),
}

impl State {
    /// Whether it is the same file and was not written between; it may have got another owner or other permissions.
    pub fn was_not_written(&self, now: &State) -> bool {
        (&self.bytes, self.inode, self.written) == (&now.bytes, now.inode, now.written)
    }
}

impl Drop for Folder {
    fn drop(&mut self) {
        let _ = fs::remove_dir_all(&self.0);
    }
}

/// A user without privileges.
pub const NOBODY: u32 = 65534;

/// Whether the tests are run by root, whom no permission binds.
fn is_root() -> bool {
    fs::metadata("/proc/self").unwrap().uid() == 0
}

/// Gives a file, or a folder and all in it, to a user.
pub fn give(path: &Path, user: u32) -> io::Result<()> {
    chown(path, Some(user), Some(user))?;
    if path.is_dir() {
        for entry in fs::read_dir(path)? {
            give(&entry?.path(), user)?;
        }
    }
    Ok(())
}

/// Waits for a program that gets this standard input.
fn finish(mut child: Child, input: &[u8]) -> Output {
    // A program that refuses its arguments ends without reading.
    let _ = child.stdin.take().unwrap().write_all(input);
    child.wait_with_output().unwrap()
}

/// Makes a file of `length` bytes on a disk.
pub fn make(disk: &mut Disk<Vec<u8>>, name: &str, length: usize) {
    disk.open(0, Direction::Write, name).unwrap();
    assert_eq!(disk.put(0, &vec![b'x'; length]), Ok(length));
    disk.close(0).unwrap();
}

/// Two files: A.DAT of one byte, B of 126.
pub fn two_files(disk: &mut Disk<Vec<u8>>) {
    make(disk, "A.DAT", 1);
    make(disk, "B", 126);
}
