//! Lines in, and what goes to standard error: faults and the progress of a long run.

use crate::interrupt;
use std::fs::{File, Metadata};
use std::io::{self, BufRead, BufReader, IsTerminal, StdinLock, Write};
use std::os::fd::AsFd;
use std::os::unix::fs::MetadataExt;
use std::sync::atomic::{AtomicBool, Ordering};
use std::time::{Duration, Instant};

/// The most bytes of a line, so that an endless one ends.
const MAX_LINE: usize = 1 << 20;
/// The bytes of a line that a terminal keeps; it drops the others without a word.
const KEPT: usize = 4095;
/// A run is long from here on.
const PATIENCE: Duration = Duration::from_millis(400);
/// Between two looks at the progress.
const PAUSE: Duration = Duration::from_millis(100);

/// Says what is wrong, in one line.
pub fn complain(line: &str) {
    // Nothing is left to be done where even this can't be written.
    let _ = writeln!(io::stderr(), "bench: {line}");
}

/// What came from the input.
pub enum Line {
    Text(String),
    /// It is no command, for the reason given.
    Bad(String),
    /// Ctrl-C came first; what was typed is dropped.
    Interrupted,
    End,
}

/// Standard input, with what is read of it and not yet used.
pub type Input = BufReader<StdinLock<'static>>;

/// Whether commands are read from it.
static COMMANDS: AtomicBool = AtomicBool::new(false);

/// It is read by one hand alone.
pub fn input() -> Input {
    COMMANDS.store(true, Ordering::Relaxed);
    BufReader::new(io::stdin().lock())
}

/// Whether the commands come from this pipe, so that what else is read from it would be a matter of
/// time. A regular file can be read twice.
pub fn brings_commands(file: &Metadata) -> bool {
    let same = |input: Metadata| (input.dev(), input.ino()) == (file.dev(), file.ino());
    let input = io::stdin().as_fd().try_clone_to_owned().map(File::from);
    let read = COMMANDS.load(Ordering::Relaxed);
    read && !file.is_file() && input.and_then(|input| input.metadata()).is_ok_and(same)
}

/// The next line, without its end.
///
/// # Errors
///
/// A fault of the input.
pub fn read_line(input: &mut Input) -> io::Result<Line> {
    let mut line = Vec::new();
    loop {
        let found = match more(input) {
            Err(e) if e.kind() == io::ErrorKind::Interrupted => {
                input.consume(input.buffer().len());
                return Ok(Line::Interrupted);
            }
            found => found?,
        };
        // Half a line is a command in a pipe, and none at a terminal.
        let ended = found.is_empty();
        if ended && (line.is_empty() || interrupt::installed()) {
            return Ok(Line::End);
        }
        let end = found.iter().position(|byte| *byte == b'\n');
        line.extend(&found[..end.unwrap_or(found.len())]);
        let used = end.map_or(found.len(), |end| end + 1);
        input.consume(used);
        if line.len() > MAX_LINE {
            return Ok(Line::Bad(format!("a line of over {MAX_LINE} bytes")));
        }
        if ended || end.is_some() {
            return Ok(text_of(line));
        }
    }
}

/// A whole line, if it came whole and is text.
fn text_of(line: Vec<u8>) -> Line {
    if line.len() >= KEPT && interrupt::installed() {
        return Line::Bad(format!(
            "a terminal cuts a line of {KEPT} bytes or more; a file may have more samples"
        ));
    }
    match String::from_utf8(line) {
        Ok(text) => Line::Text(text),
        Err(_) => Line::Bad("the line is no text in UTF-8".to_string()),
    }
}

/// What there is, waited for where commands are typed, so that Ctrl-C shows.
fn more(input: &mut Input) -> io::Result<&[u8]> {
    if input.buffer().is_empty() && interrupt::installed() {
        interrupt::wait_for_input()?;
    }
    input.fill_buf()
}

/// How far a long piece of work is: a line on standard error that is written over, on a terminal
/// only; erased when dropped.
pub struct Progress {
    next: Instant,
    shown: bool,
}

impl Progress {
    pub fn new() -> Progress {
        Progress {
            next: Instant::now() + PATIENCE,
            shown: false,
        }
    }

    pub fn show(&mut self, text: impl FnOnce() -> String) {
        let now = Instant::now();
        if now >= self.next && io::stderr().is_terminal() {
            self.next = now + PAUSE;
            self.shown = true;
            // The work goes on where this can't be written.
            let _ = write!(io::stderr(), "\r{}", text());
        }
    }

    /// Makes room for a line of the output.
    pub fn erase(&mut self) {
        // The terminal itself writes ^C.
        if self.shown || interrupt::raised() && io::stderr().is_terminal() {
            let _ = write!(io::stderr(), "\r\x1b[K");
            self.shown = false;
        }
    }
}

impl Drop for Progress {
    fn drop(&mut self) {
        self.erase();
    }
}
