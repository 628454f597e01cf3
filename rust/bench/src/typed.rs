//! What is typed: commands cut into words, and numbers.

use crate::exercise::Exercise;
use std::path::Path;

/// The most characters of what was typed that a fault repeats.
const REPEATED: usize = 40;

/// The digits of a decimal number, or of a hexadecimal one with 0x, and the radix; none where it is
/// no number.
fn digits(text: &str) -> Option<(&str, u32)> {
    let hexadecimal = text.strip_prefix("0x").or(text.strip_prefix("0X"));
    let (digits, radix) = match hexadecimal {
        Some(digits) => (digits, 16),
        None => (text, 10),
    };
    let good = !digits.is_empty() && digits.chars().all(|c| c.is_digit(radix));
    good.then_some((digits, radix))
}

/// Whether it is a number, of any size.
pub fn is_number(text: &str) -> bool {
    digits(text).is_some()
}

/// A number.
///
/// # Errors
///
/// A line that says what is wrong with it.
pub fn number(text: &str, most: u64) -> Result<u64, String> {
    let Some((digits, radix)) = digits(text) else {
        return Err(format!("{} is no number", quoted(text)));
    };
    // Digits alone fail only where they are too many.
    match u64::from_str_radix(digits, radix) {
        Ok(value) if value <= most => Ok(value),
        _ => Err(format!("{} is over {most}", quoted(text))),
    }
}

/// A sample: any byte, since the call itself says which it takes.
///
/// # Errors
///
/// A line that says what is wrong with it.
pub fn sample(text: &str) -> Result<u8, String> {
    Ok(number(text, u64::from(u8::MAX))? as u8)
}

/// A file's name, which may stand in quotation marks.
pub fn file_name(text: &str) -> &Path {
    let name = text.trim();
    let inside = name
        .strip_prefix('"')
        .and_then(|name| name.strip_suffix('"'));
    Path::new(inside.unwrap_or(name))
}

/// An address: a number or a label of the source.
///
/// # Errors
///
/// A line that says what is wrong with it.
pub fn address(text: &str, exercise: &Exercise) -> Result<u32, String> {
    // A label may have no sign in it, but the number behind one has.
    let (label, more) = text.split_at(text.find(['+', '-']).unwrap_or(text.len()));
    if let Some(address) = exercise.address_of(label) {
        return beyond(address, more);
    }
    word(text, exercise, "label", "; only a source has labels")
}

/// A node: a number, any word, since the call itself says which it takes, or a name of the source.
///
/// # Errors
///
/// A line that says what is wrong with it.
pub fn node(text: &str, exercise: &Exercise) -> Result<u32, String> {
    match exercise.node_of(text) {
        Some(node) => Ok(node),
        None => word(text, exercise, "node", "; only a source names nodes"),
    }
}

/// A number of 32 bits, where what was typed is no known name of `what`; the hint is for an image.
fn word(text: &str, exercise: &Exercise, what: &str, hint: &str) -> Result<u32, String> {
    if text.starts_with(|c: char| c.is_ascii_digit()) {
        return Ok(number(text, u64::from(u32::MAX))? as u32);
    }
    let hint = if exercise.is_source { "" } else { hint };
    Err(format!("there is no {what} {}{hint}", quoted(text)))
}

/// An address so many words behind another, or before it: `+2`, `-1`, or nothing.
fn beyond(address: u32, more: &str) -> Result<u32, String> {
    let (sign, digits) = more.split_at(more.len().min(1));
    let address = match sign {
        "" => Some(address),
        "+" => address.checked_add(number(digits, u64::from(u32::MAX))? as u32),
        _ => address.checked_sub(number(digits, u64::from(u32::MAX))? as u32),
    };
    address.ok_or_else(|| format!("there is no address {more} from there"))
}

/// What was typed, in a fault: its beginning, on one line.
pub fn quoted(text: &str) -> String {
    match text.char_indices().nth(REPEATED) {
        Some((end, _)) => format!("{:?}...", &text[..end]),
        None => format!("{text:?}"),
    }
}
