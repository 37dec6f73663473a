//! Files written whole or not at all.

use std::fs::{self, File, Permissions};
use std::io::{self, ErrorKind, Write};
use std::path::{Path, PathBuf};
use std::process;

/// How many temporary names are tried.
const TRIES: u32 = 100;

/// Writes a file, whole or not at all: its bytes go to a temporary file in the same folder, which then gets the name. A
/// file that has the name stays unless it is forced; then it is replaced if it is a regular file.
pub fn write(path: &Path, bytes: &[u8], force: bool) -> io::Result<()> {
    let modes = match force {
        true => replaceable(path)?,
        false => None,
    };
    let (temporary, file) = temporary(path)?;
    let written = fill(file, bytes, modes).and_then(|()| match force {
        true => fs::rename(&temporary, path),
        false => name(&temporary, path),
    });
    if written.is_err() {
        // What is said is why the file was not written.
        let _ = fs::remove_file(&temporary);
    }
    written
}

/// Fails where `write` would, for what has the name already: for anything, or where it is forced, for what is no regular
/// file.
pub fn may_be_written(path: &Path, force: bool) -> io::Result<()> {
    match force {
        true => replaceable(path).map(|_| ()),
        false if fs::symlink_metadata(path).is_ok() => Err(taken(path)),
        false => Ok(()),
    }
}

/// The modes of the regular file that has a name, if there is one. A folder, a pipe, a device or a link is not replaced, not even a
/// link to a regular file: /dev/stdout is one where standard output goes to a file.
fn replaceable(path: &Path) -> io::Result<Option<Permissions>> {
    match fs::symlink_metadata(path) {
        Ok(found) if found.is_file() => Ok(Some(found.permissions())),
        Ok(_) => Err(io::Error::other("it is no regular file")),
        Err(error) if error.kind() == ErrorKind::NotFound => Ok(None),
        Err(error) => Err(error),
    }
}

/// A new file of another name in the folder of a path.
fn temporary(path: &Path) -> io::Result<(PathBuf, File)> {
    let mut made = Err(ErrorKind::AlreadyExists.into());
    for number in 0..TRIES {
        let temporary = path.with_file_name(format!(".morgana-{}-{number}", process::id()));
        made = File::create_new(&temporary).map(|file| (temporary, file));
        if !matches!(&made, Err(error) if error.kind() == ErrorKind::AlreadyExists) {
            break;
        }
    }
    made
}

/// Writes bytes to a new file, gives it these modes, and waits until the disk has it.
fn fill(mut file: File, bytes: &[u8], modes: Option<Permissions>) -> io::Result<()> {
    file.write_all(bytes)?;
    match modes {
        Some(modes) if file.metadata()?.permissions() != modes => file.set_permissions(modes)?,
        _ => {}
    }
    file.sync_all()
}

/// Gives a temporary file a name that no file has, in one step: whoever takes the name first keeps it.
fn name(temporary: &Path, path: &Path) -> io::Result<()> {
    let named = match fs::hard_link(temporary, path) {
        Ok(()) => {
            // The file has its name; where the other one stays, nothing is lost.
            let _ = fs::remove_file(temporary);
            Ok(())
        }
        Err(error) if error.kind() == ErrorKind::AlreadyExists => Err(error),
        Err(_) => name_in_two_steps(temporary, path),
    };
    named.map_err(|error| match error.kind() {
        ErrorKind::AlreadyExists => taken(path),
        _ => error,
    })
}

/// Why a name that is taken is not written over.
fn taken(path: &Path) -> io::Error {
    match replaceable(path) {
        Ok(_) => io::Error::other("it exists, and --force is not given"),
        Err(_) => io::Error::other("it exists, and is no regular file"),
    }
}

/// The same where the folder has no hard links: the name is taken by an empty file first, which is then replaced.
fn name_in_two_steps(temporary: &Path, path: &Path) -> io::Result<()> {
    File::create_new(path)?;
    let named = fs::rename(temporary, path);
    if named.is_err() {
        // What is said is why the file was not written.
        let _ = fs::remove_file(path);
    }
    named
}

#[cfg(test)]
mod tests {
    use super::*;
    use std::env;

    /// A folder that is removed with its value.
    struct Folder(PathBuf);

    impl Folder {
        fn new(name: &str) -> Folder {
            let path = env::temp_dir().join(format!("morgana-{name}-{}", process::id()));
            fs::create_dir_all(&path).expect("the folder is made");
            Folder(path)
        }

        /// The files in the folder with their bytes.
        fn files(&self) -> Vec<(String, Vec<u8>)> {
            let entries = fs::read_dir(&self.0).expect("the folder is read");
            let mut files: Vec<_> = entries
                .map(|entry| {
                    let path = entry.expect("the folder is read").path();
                    let name = path.file_name().expect("a name").to_string_lossy();
                    (name.into_owned(), fs::read(&path).expect("a file"))
                })
                .collect();
            files.sort();
            files
        }
    }

    impl Drop for Folder {
        fn drop(&mut self) {
            let _ = fs::remove_dir_all(&self.0);
        }
    }

    #[test]
    fn a_file_is_written_over_only_where_that_is_forced() {
        let folder = Folder::new("whole");
        let path = folder.0.join("f");
        let holds = |bytes: &[u8]| assert_eq!(folder.files(), [("f".to_owned(), bytes.to_vec())]);
        for force in [false, true] {
            may_be_written(&path, force).expect("no file is there");
        }
        write(&path, b"one", false).expect("it is written");
        holds(b"one");
        let error = write(&path, b"two", false).expect_err("it is there");
        assert_eq!(error.to_string(), "it exists, and --force is not given");
        let before = may_be_written(&path, false).expect_err("it is there");
        assert_eq!(before.to_string(), error.to_string());
        may_be_written(&path, true).expect("it is replaced");
        holds(b"one");
        write(&path, b"three", true).expect("it is replaced");
        holds(b"three");
        write(&path, b"", true).expect("it is replaced");
        holds(b"");
    }

    #[test]
    fn two_steps_do_the_same() {
        let folder = Folder::new("two-steps");
        let (first, path) = (folder.0.join("first"), folder.0.join("f"));
        let file = |name: &str, bytes: &[u8]| (name.to_owned(), bytes.to_vec());
        fs::write(&first, b"one").expect("it is written");
        name_in_two_steps(&first, &path).expect("it gets the name");
        assert_eq!(folder.files(), [file("f", b"one")]);
        fs::write(&first, b"two").expect("it is written");
        let error = name_in_two_steps(&first, &path).expect_err("the name is taken");
        assert_eq!(error.kind(), ErrorKind::AlreadyExists);
        assert_eq!(folder.files(), [file("f", b"one"), file("first", b"two")]);
        let (absent, other) = (folder.0.join("absent"), folder.0.join("g"));
        name_in_two_steps(&absent, &other).expect_err("there is no file");
        assert_eq!(folder.files(), [file("f", b"one"), file("first", b"two")]);
    }
}
