//! Commands of a shell that finds the two programs, in a folder of their own.

use std::ffi::OsStr;
use std::fs;
use std::io;
use std::path::{Path, PathBuf};
use std::process::{self, Command, Output, Stdio};
use std::sync::atomic::{AtomicUsize, Ordering};

/// What a command came to.
#[derive(Debug, PartialEq, Eq)]
pub struct Ran {
    pub status: i32,
    pub output: Vec<u8>,
    pub error: String,
}

impl Ran {
    pub fn new(status: i32, output: impl AsRef<[u8]>, error: &str) -> Ran {
        Ran {
            status,
            output: output.as_ref().to_vec(),
            error: error.to_string(),
        }
    }

    fn of(output: Output) -> Ran {
        let error = String::from_utf8_lossy(&output.stderr);
        // A program that was ended by a signal has no status.
        Ran::new(output.status.code().unwrap_or(-1), output.stdout, &error)
    }
}

/// A folder that is removed in the end.
pub struct Folder(PathBuf);

impl Folder {
    pub fn new() -> Folder {
        static COUNT: AtomicUsize = AtomicUsize::new(0);
        let number = COUNT.fetch_add(1, Ordering::Relaxed);
        let name = format!("programs-{}-{number}", process::id());
        let path = Path::new(env!("CARGO_TARGET_TMPDIR")).join(name);
        fs::create_dir_all(&path).expect("a folder for the test");
        Folder(path)
    }

    pub fn path(&self, name: impl AsRef<OsStr>) -> PathBuf {
        self.0.join(name.as_ref())
    }

    pub fn put(&self, name: &str, bytes: impl AsRef<[u8]>) {
        fs::write(self.path(name), bytes).expect("a file for the test");
    }

    /// The names of all files, hidden ones too.
    pub fn names(&self) -> Vec<PathBuf> {
        let files = fs::read_dir(&self.0).expect("the folder of the test");
        let mut names: Vec<PathBuf> = files.map(|file| file.unwrap().path()).collect();
        names.sort();
        names
    }

    pub fn run(&self, command: &str) -> Ran {
        Ran::of(self.shell(command).output().expect("a shell"))
    }

    /// Its standard output is a pipe that nobody reads any more.
    pub fn run_into_a_closed_pipe(&self, command: &str) -> Ran {
        let (reader, writer) = io::pipe().expect("a pipe");
        drop(reader);
        let mut shell = self.shell(command);
        Ran::of(shell.stdout(writer).output().expect("a shell"))
    }

    fn shell(&self, command: &str) -> Command {
        let programs = Path::new(env!("CARGO_BIN_EXE_assemble")).parent().unwrap();
        let path = std::env::var("PATH").unwrap_or_default();
        let mut shell = Command::new("sh");
        shell
            .args(["-c", command])
            .current_dir(&self.0)
            .env("PATH", format!("{}:{path}", programs.display()))
            .env("LC_ALL", "C")
            .stdin(Stdio::null())
            .stderr(Stdio::piped());
        shell
    }
}

impl Drop for Folder {
    fn drop(&mut self) {
        // What is left over lies below the target folder.
        let _ = fs::remove_dir_all(&self.0);
    }
}
