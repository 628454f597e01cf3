//! Files as the programs read and write them: every fault is one line that names the file.

use std::fs::{self, File};
use std::io::{self, Read, Write};
use std::os::fd::{AsFd, BorrowedFd};
use std::os::unix::fs::MetadataExt;
use std::path::{Path, PathBuf};
use std::process;

/// The most bytes of a source that are read; any image is far shorter.
pub const MAX_SOURCE: usize = 4 << 20;

/// The whole file.
///
/// # Errors
///
/// A line that says why it can't be read: it is missing, a folder, too long.
pub fn read(path: &Path) -> Result<Vec<u8>, String> {
    File::open(path)
        .map_err(|e| reason(&e))
        .and_then(read_from)
        .map_err(|reason| format!("{}: {reason}", shown(path)))
}

/// All that can be read.
///
/// # Errors
///
/// The reason why it can't be, without a name.
pub fn read_from(input: impl Read) -> Result<Vec<u8>, String> {
    let mut bytes = Vec::new();
    // One byte more than is taken, so that a longer file shows, even an endless one.
    input
        .take(MAX_SOURCE as u64 + 1)
        .read_to_end(&mut bytes)
        .map_err(|e| reason(&e))?;
    match bytes.len() > MAX_SOURCE {
        true => Err(format!("longer than {MAX_SOURCE} bytes")),
        false => Ok(bytes),
    }
}

/// The text of a source.
///
/// # Errors
///
/// The reason why it is none, without a name.
pub fn text(bytes: Vec<u8>) -> Result<String, String> {
    // An image can be taken for UTF-8; no text has a byte 0.
    if bytes.contains(&0) {
        return Err("is no source text: it has a byte 0".to_string());
    }
    String::from_utf8(bytes).map_err(|e| {
        let good = &e.as_bytes()[..e.utf8_error().valid_up_to()];
        let line = 1 + good.iter().filter(|byte| **byte == b'\n').count();
        format!("line {line}: is no UTF-8 text")
    })
}

/// Writes the whole file or leaves what was there: into a new file beside it, which then takes its
/// name.
///
/// # Errors
///
/// A line that says why it can't be written.
pub fn write(path: &Path, bytes: &[u8]) -> Result<(), String> {
    let fault = |e: io::Error| format!("{}: {}", shown(path), reason(&e));
    let (target, old) = replaced(path)?;
    let (beside, file) = create_beside(&target).map_err(fault)?;
    let written = fill(file, bytes, old).and_then(|()| fs::rename(&beside, &target));
    written.map_err(|e| {
        // The fault to tell is the first one.
        let _ = fs::remove_file(&beside);
        fault(e)
    })
}

/// Writes a new file, with the permissions of the one that it replaces.
fn fill(mut file: File, bytes: &[u8], old: Option<fs::Metadata>) -> io::Result<()> {
    if let Some(old) = old {
        file.set_permissions(old.permissions())?;
    }
    file.write_all(bytes)?;
    file.sync_all()
}

/// A new file in the same folder, under a name that is not taken.
fn create_beside(target: &Path) -> io::Result<(PathBuf, File)> {
    for attempt in 0.. {
        let beside = target.with_file_name(format!(".write-{}-{attempt}", process::id()));
        match File::create_new(&beside) {
            Err(e) if e.kind() == io::ErrorKind::AlreadyExists => {}
            created => return Ok((beside, created?)),
        }
    }
    unreachable!("some name is free")
}

/// The file to be replaced, and what is known of it if it is there. What a link names is replaced,
/// not the link; devices, folders, files that may not be written and the one that standard output
/// goes to are left alone.
fn replaced(path: &Path) -> Result<(PathBuf, Option<fs::Metadata>), String> {
    let no = |why: &str| Err(format!("{}: {why}", shown(path)));
    let old = match fs::metadata(path) {
        Ok(old) if !old.is_file() => return no("is no regular file"),
        // The new file would take its place all the same.
        Ok(old) if old.permissions().readonly() => return no("is read-only"),
        Ok(old) if output().is_some_and(|output| is_same(&output, &old)) => {
            return no("is where standard output goes")
        }
        Ok(old) => old,
        Err(_) if path.is_symlink() => return no("is a link to nothing"),
        Err(_) => return Ok((path.to_path_buf(), None)),
    };
    match (
        fs::canonicalize(path),
        File::options().write(true).open(path),
    ) {
        (Ok(target), Ok(_)) => Ok((target, Some(old))),
        (Err(e), _) | (_, Err(e)) => no(&reason(&e)),
    }
}

/// Whether both are one file.
pub fn is_same(one: &fs::Metadata, other: &fs::Metadata) -> bool {
    (one.dev(), one.ino()) == (other.dev(), other.ino())
}

/// What standard output goes to, where that can be told.
fn output() -> Option<fs::Metadata> {
    about(io::stdout().as_fd())
}

/// What a stream is.
pub fn about(stream: BorrowedFd<'_>) -> Option<fs::Metadata> {
    File::from(stream.try_clone_to_owned().ok()?)
        .metadata()
        .ok()
}

/// Whether a file is a source, by its name or by that of the file that a link leads to.
pub fn is_source(path: &Path) -> bool {
    let source = |path: &Path| {
        path.extension()
            .is_some_and(|extension| extension.eq_ignore_ascii_case("qasm"))
    };
    source(path) || fs::canonicalize(path).is_ok_and(|target| source(&target))
}

/// A name on one line, whatever it holds.
pub fn shown(path: &Path) -> String {
    let escaped = |c: char| match c.is_control() {
        true => c.escape_default().to_string(),
        false => c.to_string(),
    };
    path.to_string_lossy().chars().map(escaped).collect()
}

/// The system's words for a fault, without its number.
pub fn reason(e: &io::Error) -> String {
    let text = e.to_string();
    match text.find(" (os error") {
        Some(end) => text[..end].to_string(),
        None => text,
    }
}

/// The line for a fault of standard output: a closed pipe, a full disk.
pub fn output_fault(e: &io::Error) -> String {
    format!("standard output: {}", reason(e))
}
