//! The list file: in each line a name and two counts, or the name alone.

use super::counts::{count, Net};
use crate::typed;
use crank_assembler::files;
use std::path::{Path, PathBuf};

/// A hand-in of the list.
pub struct HandIn {
    /// As the list has it.
    pub name: String,
    pub path: PathBuf,
    /// None where its position is to say how far it was turned.
    pub counts: Option<Net>,
}

/// A line of the list that is no hand-in.
pub struct NoHandIn {
    /// Counted from 1, empty ones too.
    pub line: usize,
    pub fault: String,
}

/// What a line comes to.
pub type Entry = Result<HandIn, NoHandIn>;

/// Every line that should be a hand-in.
///
/// # Errors
///
/// One line, where the list can't be read or has none.
pub fn read(list: &Path) -> Result<Vec<Entry>, String> {
    let bytes = files::read(list)?;
    let bytes = bytes.strip_prefix("\u{feff}".as_bytes()).unwrap_or(&bytes);
    let folder = list.parent().unwrap_or(Path::new(""));
    let mut entries = Vec::new();
    for (index, line) in bytes.split(|&byte| byte == b'\n').enumerate() {
        let line = line.trim_ascii();
        let heading = entries.is_empty() && is_heading(line);
        if !line.is_empty() && !line.starts_with(b"#") && !heading {
            entries.push(hand_in(folder, line).map_err(|fault| NoHandIn {
                line: index + 1,
                fault,
            }));
        }
    }
    if entries.is_empty() {
        return Err(format!("{}: has no hand-in", files::shown(list)));
    }
    Ok(entries)
}

/// Reads a line from its end: the name may hold what separates the counts. Where neither of the last
/// two fields is a number, the line is a name alone.
fn hand_in(folder: &Path, line: &[u8]) -> Result<HandIn, String> {
    let line = str::from_utf8(line).map_err(|_| "is no text".to_string())?;
    let line = without_empty(line);
    let (before, back) = last_field(line);
    let (name, forward) = last_field(before);
    let fields = [forward, back].map(unquoted);
    let counted = fields.iter().any(|field| typed::is_number(field));
    let name = unquoted(if counted { name } else { line });
    if name.is_empty() {
        return Err("a name and two counts are needed".to_string());
    }
    let counts = match counted {
        true => Some(Net::new(count(fields[0])?, count(fields[1])?)),
        false => None,
    };
    Ok(HandIn {
        name: name.to_string(),
        // Joining keeps an absolute name as it is.
        path: folder.join(name),
        counts,
    })
}

/// The line up to its last field that is not empty: a spreadsheet writes those for counts too.
fn without_empty(line: &str) -> &str {
    let mut line = line;
    loop {
        let (before, field) = last_field(line);
        if before.is_empty() || !unquoted(field).is_empty() {
            return line.trim_end_matches(separates);
        }
        line = before;
    }
}

/// A spreadsheet may put what it exports between quotation marks.
fn unquoted(field: &str) -> &str {
    let inner = field.strip_prefix('"');
    inner
        .and_then(|rest| rest.strip_suffix('"'))
        .unwrap_or(field)
}

/// Whether a line names the columns.
fn is_heading(line: &[u8]) -> bool {
    let Ok(line) = str::from_utf8(line) else {
        return false;
    };
    let line = without_empty(line);
    let (before, back) = last_field(line);
    let (_, forward) = last_field(before);
    let named = |field: &str, name: &str| unquoted(field).eq_ignore_ascii_case(name);
    named(line, "name") || named(forward, "forward") && named(back, "back")
}

/// What stands between fields.
fn separates(c: char) -> bool {
    c.is_whitespace() || c == ',' || c == ';'
}

/// What stands before the last field, and the field.
fn last_field(text: &str) -> (&str, &str) {
    let text = text.trim_end_matches(separates);
    match text.rfind(separates) {
        Some(at) => {
            let (before, field) = text.split_at(at);
            (
                before.trim_end_matches(separates),
                field.trim_start_matches(separates),
            )
        }
        None => ("", text),
    }
}
