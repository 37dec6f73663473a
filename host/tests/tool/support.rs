//! A folder for a test's files, and runs of the program in it.

use std::ffi::OsStr;
use std::fs;
use std::io::{self, Write};
use std::os::unix::fs::symlink;
use std::path::{Path, PathBuf};
use std::process::{self, Command, Output, Stdio};

/// A folder that is removed with its value; the program runs in it.
pub struct Folder(PathBuf);

/// What a run of the program left: its exit status, standard output and standard error.
#[derive(Debug, PartialEq, Eq)]
pub struct Ran {
    pub status: Option<i32>,
    pub out: String,
    pub errors: String,
}

impl Folder {
    /// A new folder with these files; each test gives it a name of its own.
    pub fn new(name: &str, files: &[(&str, &[u8])]) -> Folder {
        let name = format!("tool-{name}-{}", process::id());
        let path = Path::new(env!("CARGO_TARGET_TMPDIR")).join(name);
        fs::create_dir_all(&path).expect("the folder is made");
        let folder = Folder(path);
        for (name, bytes) in files {
            folder.write(name, bytes);
        }
        folder
    }

    /// Writes a file.
    pub fn write(&self, name: impl AsRef<Path>, bytes: &[u8]) {
        fs::write(self.0.join(name), bytes).expect("the file is written");
    }

    /// The bytes of a file.
    pub fn read(&self, name: impl AsRef<Path>) -> Vec<u8> {
        fs::read(self.0.join(name)).expect("the file is read")
    }

    /// The names of what stands in the folder, in order.
    pub fn names(&self) -> Vec<String> {
        let entries = fs::read_dir(&self.0).expect("the folder is read");
        let name = |entry: io::Result<fs::DirEntry>| entry.expect("the folder is read").file_name();
        let mut names: Vec<_> = entries
            .map(|entry| name(entry).to_string_lossy().into_owned())
            .collect();
        names.sort();
        names
    }

    /// Makes a folder in this one.
    pub fn folder(&self, name: &str) {
        fs::create_dir(self.0.join(name)).expect("the folder is made");
    }

    /// The path of what stands in this folder.
    pub fn path(&self, name: &str) -> PathBuf {
        self.0.join(name)
    }

    /// Makes a link in this folder.
    pub fn link(&self, to: &str, name: &str) {
        symlink(to, self.0.join(name)).expect("the link is made");
    }

    /// The program with these arguments, to be run in the folder.
    pub fn program<S: AsRef<OsStr>>(&self, arguments: &[S]) -> Command {
        let mut program = Command::new(env!("CARGO_BIN_EXE_morgana"));
        program.args(arguments).current_dir(&self.0);
        program
    }

    /// Runs the program with these arguments and this standard input.
    pub fn run_on<S: AsRef<OsStr>>(&self, arguments: &[S], input: &[u8]) -> Ran {
        let mut program = self.program(arguments);
        let piped = program
            .stdin(Stdio::piped())
            .stdout(Stdio::piped())
            .stderr(Stdio::piped());
        let mut child = piped.spawn().expect("morgana runs");
        let mut given = child.stdin.take().expect("standard input is a pipe");
        given.write_all(input).expect("standard input is read");
        drop(given);
        Ran::of(child.wait_with_output().expect("morgana ends"))
    }

    /// Runs the program with these arguments.
    pub fn run<S: AsRef<OsStr>>(&self, arguments: &[S]) -> Ran {
        Ran::of(self.program(arguments).output().expect("morgana runs"))
    }

    /// Runs the program in a shell, with these arguments and redirections, behind a command of the shell's.
    pub fn in_shell(&self, before: &str, line: &str) -> Ran {
        let program = self.program::<&str>(&[]);
        let mut shell = Command::new("sh");
        shell.args(["-c", &format!("{before}; exec \"$0\" {line}")]);
        shell.arg(program.get_program());
        Ran::of(shell.current_dir(&self.0).output().expect("sh runs"))
    }
}

impl Drop for Folder {
    fn drop(&mut self) {
        // A folder that stays is no fault of the program.
        let _ = fs::remove_dir_all(&self.0);
    }
}

impl Ran {
    /// What a finished run left.
    pub fn of(output: Output) -> Ran {
        let text = |bytes| String::from_utf8(bytes).expect("the output is text");
        Ran {
            status: output.status.code(),
            out: text(output.stdout),
            errors: text(output.stderr),
        }
    }

    /// Wants this status and this standard output, and nothing on standard error.
    #[track_caller]
    pub fn answers(&self, status: i32, out: &str) {
        assert_eq!(self.errors, "");
        assert_eq!(self.out, out);
        assert_eq!(self.status, Some(status));
    }

    /// Wants this status.
    #[track_caller]
    pub fn status(&self, status: i32) {
        assert_eq!(self.status, Some(status), "{}{}", self.out, self.errors);
    }

    /// Wants status 3, no standard output, and these words in what is said on standard error.
    #[track_caller]
    pub fn fails(&self, words: &[&str]) {
        assert_eq!(self.out, "");
        assert!(self.errors.starts_with("morgana: "), "{}", self.errors);
        for word in words {
            assert!(self.errors.contains(word), "{word:?} in {}", self.errors);
        }
        assert_eq!(self.status, Some(3));
    }
}
