//! What both programs do alike: arguments, input, output, and every fault as one line on standard
//! error.

use crate::files;
use std::env;
use std::ffi::OsString;
use std::fs;
use std::io::{self, Write};
use std::os::fd::AsFd;
use std::path::PathBuf;
use std::process::ExitCode;

/// The status where the work failed: a refused source, a file that can't be read or written.
const FAILED: u8 = 1;
/// The status of arguments that are not understood.
const BAD_ARGUMENTS: u8 = 2;

/// A program of this package.
pub struct Program {
    pub name: &'static str,
    /// What `--help` prints.
    pub usage: &'static str,
    /// Whether it takes `--listing`.
    pub lists: bool,
}

/// What the program was called with.
#[derive(Debug, Default, PartialEq, Eq)]
pub struct Arguments {
    /// None for standard input.
    pub input: Option<PathBuf>,
    /// None for standard output.
    pub output: Option<PathBuf>,
    pub listing: bool,
}

impl Program {
    /// Runs the work on what the program was called with.
    pub fn run(&self, work: fn(&Program, &Arguments) -> Result<(), String>) -> ExitCode {
        let done = match self.arguments(env::args_os().skip(1)) {
            Ok(Some(arguments)) => work(self, &arguments).map_err(|line| (FAILED, line)),
            Ok(None) => print(self.usage.as_bytes()).map_err(|line| (FAILED, line)),
            Err(line) => Err((BAD_ARGUMENTS, line)),
        };
        match done {
            Ok(()) => ExitCode::SUCCESS,
            Err((status, line)) => {
                self.tell(&line);
                ExitCode::from(status)
            }
        }
    }

    /// A line on standard error.
    pub fn tell(&self, line: &str) {
        // Nothing is left to be done where even this can't be written.
        let _ = writeln!(io::stderr(), "{}: {line}", self.name);
    }

    /// The arguments, none where help is asked for.
    fn arguments(
        &self,
        mut given: impl Iterator<Item = OsString>,
    ) -> Result<Option<Arguments>, String> {
        let mut arguments = Arguments::default();
        let mut names = Vec::new();
        let mut output = None;
        let mut options = true;
        while let Some(argument) = given.next() {
            match argument.to_str() {
                Some("--") if options => options = false,
                Some("-h" | "--help") if options => return Ok(None),
                Some("--listing") if options && self.lists => arguments.listing = true,
                Some("-o") if options && output.is_some() => {
                    return Err("-o is written twice".into())
                }
                Some("-o") if options => {
                    output = Some(given.next().ok_or("-o takes the name of a file")?);
                }
                _ if options && is_option(&argument) => {
                    return Err(self.refused("unknown option", &argument))
                }
                _ => names.push(argument),
            }
        }
        if let Some(second) = names.get(1) {
            return Err(self.refused("one file is taken, not also", second));
        }
        arguments.input = names.pop().and_then(named);
        arguments.output = output.and_then(named);
        apart(&arguments)?;
        Ok(Some(arguments))
    }

    fn refused(&self, why: &str, argument: &OsString) -> String {
        let argument = files::shown(argument.as_ref());
        format!("{why} {argument}; see {} --help", self.name)
    }
}

fn is_option(argument: &OsString) -> bool {
    argument.len() > 1 && argument.as_encoded_bytes().starts_with(b"-")
}

/// `-` stands for standard input or output.
fn named(argument: OsString) -> Option<PathBuf> {
    (argument != "-").then(|| PathBuf::from(argument))
}

/// The output must not take the place of the input.
fn apart(arguments: &Arguments) -> Result<(), String> {
    let Some(output) = &arguments.output else {
        return Ok(());
    };
    let read = match &arguments.input {
        Some(input) => fs::metadata(input).ok(),
        None => files::about(io::stdin().as_fd()),
    };
    match (read, fs::metadata(output)) {
        (Some(read), Ok(written)) if files::is_same(&read, &written) => Err(format!(
            "{}: is read, and so it is not written",
            files::shown(output)
        )),
        _ => Ok(()),
    }
}

impl Arguments {
    /// The bytes of the input.
    ///
    /// # Errors
    ///
    /// A line that says why they can't be read.
    pub fn read(&self) -> Result<Vec<u8>, String> {
        match &self.input {
            Some(path) => files::read(path),
            None => files::read_from(io::stdin().lock())
                .map_err(|reason| format!("standard input: {reason}")),
        }
    }

    /// A line about the input: behind its name, if it has one.
    pub fn about(&self, line: impl std::fmt::Display) -> String {
        match &self.input {
            Some(path) => format!("{}: {line}", files::shown(path)),
            None => line.to_string(),
        }
    }

    /// Writes the output.
    ///
    /// # Errors
    ///
    /// A line that says why it can't be written.
    pub fn write(&self, bytes: &[u8]) -> Result<(), String> {
        match &self.output {
            Some(path) => files::write(path, bytes),
            None => print(bytes),
        }
    }
}

/// Writes to standard output, and sees that it arrives.
///
/// # Errors
///
/// A line that says why it can't be written.
pub fn print(bytes: &[u8]) -> Result<(), String> {
    let mut output = io::stdout().lock();
    output
        .write_all(bytes)
        .and_then(|()| output.flush())
        .map_err(|e| files::output_fault(&e))
}
