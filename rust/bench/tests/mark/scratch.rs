//! A folder for a test's files, and the program run in it.

use std::ffi::OsStr;
use std::fs;
use std::path::{Path, PathBuf};
use std::process::{self, Command, Output};

/// Removed at its end.
pub struct Folder(PathBuf);

impl Folder {
    pub fn new(name: &str) -> Folder {
        let path =
            Path::new(env!("CARGO_TARGET_TMPDIR")).join(format!("mark-{name}-{}", process::id()));
        fs::create_dir_all(&path).expect("a folder can be made");
        Folder(path)
    }

    pub fn path(&self) -> &Path {
        &self.0
    }

    pub fn write(&self, name: impl AsRef<Path>, bytes: impl AsRef<[u8]>) {
        fs::write(self.0.join(name), bytes).expect("a file can be written");
    }

    /// `bench mark` in this folder.
    pub fn command(&self, arguments: &[impl AsRef<OsStr>]) -> Command {
        let mut command = Command::new(env!("CARGO_BIN_EXE_bench"));
        command.current_dir(&self.0).arg("mark").args(arguments);
        command
    }

    /// Runs it; one that does not end is a failure in the end.
    pub fn mark(&self, arguments: &[impl AsRef<OsStr>]) -> Ran {
        let bench = self.command(arguments);
        let mut limited = Command::new("timeout");
        limited.arg("120").arg(bench.get_program());
        limited.args(bench.get_args()).current_dir(&self.0);
        Ran::of(limited.output().expect("bench runs"))
    }
}

impl Drop for Folder {
    fn drop(&mut self) {
        let _ = fs::remove_dir_all(&self.0);
    }
}

/// How a run ended.
#[derive(Debug, PartialEq)]
pub struct Ran {
    pub status: i32,
    pub out: String,
    pub err: String,
}

impl Ran {
    pub fn of(output: Output) -> Ran {
        Ran {
            status: output.status.code().expect("ended by no signal"),
            out: String::from_utf8(output.stdout).expect("prints text"),
            err: String::from_utf8(output.stderr).expect("prints text"),
        }
    }

    /// Nothing on standard error.
    pub fn quiet(status: i32, out: impl Into<String>) -> Ran {
        Ran {
            status,
            out: out.into(),
            err: String::new(),
        }
    }

    /// Bad input.
    pub fn fault(line: &str) -> Ran {
        Ran {
            status: 2,
            out: String::new(),
            err: format!("bench: {line}\n"),
        }
    }
}

/// The folder of the course exercises.
pub fn examples() -> PathBuf {
    Path::new(env!("CARGO_MANIFEST_DIR")).join("../../examples")
}

/// An exercise by its name.
pub fn example(name: &str) -> crank::Machine {
    load(&examples().join(name).with_extension("img"))
}

/// Every exercise.
pub fn all_examples() -> Vec<crank::Machine> {
    let mut paths: Vec<PathBuf> = fs::read_dir(examples())
        .expect("the examples are there")
        .map(|entry| entry.expect("the folder can be read").path())
        .filter(|path| path.extension() == Some(OsStr::new("img")))
        .collect();
    paths.sort();
    assert!(!paths.is_empty(), "no example");
    paths.iter().map(|path| load(path)).collect()
}

fn load(path: &Path) -> crank::Machine {
    let bytes = fs::read(path).expect("the example can be read");
    crank::Machine::load(&bytes).expect("the example is an image")
}
