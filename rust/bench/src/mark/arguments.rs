//! What the command line asks for.

use super::counts::{count, Net};
use crank_assembler::files;
use std::ffi::OsString;
use std::path::Path;

/// What is to be done; paths are those of the arguments.
#[derive(Debug, PartialEq)]
pub enum Asked<'a> {
    Help,
    One {
        hand_in: &'a Path,
        /// None where its position is to say how far it was turned.
        counts: Option<Net>,
        from: Option<&'a Path>,
    },
    List {
        list: &'a Path,
        from: Option<&'a Path>,
    },
}

/// Reads the arguments; options may stand anywhere before `--`.
///
/// # Errors
///
/// One line on the first that is wrong.
pub fn read(arguments: &[OsString]) -> Result<Asked<'_>, String> {
    let (mut list, mut from, mut rest) = (None, None, Vec::new());
    let mut given = arguments.iter();
    while let Some(argument) = given.next() {
        match argument.to_str() {
            Some("--help" | "-h") => return Ok(Asked::Help),
            Some("--from") => set(&mut from, "--from BEGINNING", given.next())?,
            Some("--list") => set(&mut list, "--list LIST", given.next())?,
            Some("--") => rest.extend(given.by_ref()),
            _ if argument.as_encoded_bytes().starts_with(b"-") => {
                return Err(advised(&format!(
                    "no option {}",
                    files::shown(argument.as_ref())
                )));
            }
            _ => rest.push(argument),
        }
    }
    match (list, &rest[..]) {
        (Some(list), []) => Ok(Asked::List { list, from }),
        (Some(_), [first, ..]) => Err(advised(&format!(
            "--list LIST has its hand-ins in LIST, not {}",
            files::shown(first.as_ref())
        ))),
        (None, [hand_in, counts @ ..]) => Ok(Asked::One {
            hand_in: Path::new(*hand_in),
            counts: net(counts)?,
            from,
        }),
        (None, []) => Err(needed()),
    }
}

/// Both counts, or none.
fn net(counts: &[&OsString]) -> Result<Option<Net>, String> {
    match counts {
        [] => Ok(None),
        [forward, back] => Ok(Some(Net::new(number(forward)?, number(back)?))),
        _ => Err(needed()),
    }
}

fn needed() -> String {
    advised("HAND-IN, HAND-IN FORWARD BACK or --list LIST is needed")
}

/// Keeps the value of an option that may be given once.
fn set<'a>(
    kept: &mut Option<&'a Path>,
    option: &str,
    value: Option<&'a OsString>,
) -> Result<(), String> {
    let value = value.ok_or_else(|| advised(&format!("{option} lacks its name")))?;
    match kept.replace(Path::new(value)) {
        Some(_) => Err(advised(&format!("{option} is given twice"))),
        None => Ok(()),
    }
}

fn number(argument: &OsString) -> Result<u64, String> {
    count(&argument.to_string_lossy())
}

fn advised(fault: &str) -> String {
    format!("{fault}; see bench mark --help")
}
