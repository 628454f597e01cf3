//! Lines, names, operands and numbers of a source text.

use crate::Checked;

/// What stands before the label of a jump at its landing.
pub const FROM: &str = "from";

/// The lines of a source, without the mark that some editors put in front.
pub fn lines(source: &str) -> std::str::Lines<'_> {
    source.strip_prefix('\u{FEFF}').unwrap_or(source).lines()
}

/// A piece of the source for a message, shortened so that the message stays a line.
pub fn quoted(text: &str) -> String {
    const MOST: usize = 40;
    if text.chars().count() <= MOST {
        return format!("{text:?}");
    }
    let front: String = text.chars().take(MOST).collect();
    format!("{:?}", front + "...")
}

/// The line up to the first `;` outside quotation marks.
pub fn without_comment(text: &str) -> Checked<&str> {
    let mut quoted = false;
    let mut escaped = false;
    for (place, c) in text.char_indices() {
        match c {
            '"' if !escaped => quoted = !quoted,
            _ if quoted => {}
            ';' => return Ok(&text[..place]),
            '#' => return Err("# has no meaning here; a comment begins with ;".into()),
            '/' if text[place..].starts_with("//") => {
                return Err("// has no meaning here; a comment begins with ;".into())
            }
            _ => {}
        }
        escaped = quoted && c == '\\' && !escaped;
    }
    if quoted {
        return Err("a quotation mark is missing".into());
    }
    Ok(text)
}

/// A leading `NAME:`, and what stands behind it. Whether it is a name is for the caller to check.
pub fn leading_label(text: &str) -> Option<(&str, &str)> {
    let (name, rest) = text.split_once(':')?;
    let name = name.trim_end();
    let one_word = !name.contains(|c: char| c.is_whitespace() || c == '"');
    one_word.then(|| (name, rest.trim_start()))
}

pub fn starts_name(text: &str) -> bool {
    text.starts_with(|c: char| c.is_ascii_alphabetic() || matches!(c, '_' | '@' | '&'))
}

/// A letter or `_`, then letters, digits, `_` and `.`; one `@` or `&` may stand in front.
pub fn is_name(text: &str) -> bool {
    let in_name = |c: char| c.is_ascii_alphanumeric() || c == '_' || c == '.';
    let rest = text.strip_prefix(['@', '&']).unwrap_or(text);
    rest.starts_with(|c: char| c.is_ascii_alphabetic() || c == '_') && rest.chars().all(in_name)
}

/// The text up to the first blank, and the rest without blanks around it.
pub fn split_word(text: &str) -> (&str, &str) {
    match text.split_once(char::is_whitespace) {
        Some((first, rest)) => (first, rest.trim()),
        None => (text, ""),
    }
}

/// The text up to the first blank or comma, and the rest without these around it.
pub fn split_item(text: &str) -> (&str, &str) {
    let end = text
        .find(|c: char| c.is_whitespace() || c == ',')
        .unwrap_or(text.len());
    let rest = text[end..].trim_start();
    let rest = rest.strip_prefix(',').unwrap_or(rest);
    (&text[..end], rest.trim())
}

/// `(a, b)` is read as `a, b`, the form of document 003.
pub fn without_parentheses(text: &str) -> Checked<&str> {
    match (text.strip_prefix('('), text.ends_with(')')) {
        (Some(inner), true) => Ok(inner[..inner.len() - 1].trim()),
        (None, false) => Ok(text),
        _ => Err("a parenthesis is missing".into()),
    }
}

/// The parts between commas.
pub fn operands(text: &str) -> Checked<Vec<&str>> {
    if text.is_empty() {
        return Ok(Vec::new());
    }
    let parts: Vec<&str> = text.split(',').map(str::trim).collect();
    if parts.iter().any(|part| part.is_empty()) {
        return Err("an operand is missing beside a comma".into());
    }
    Ok(parts)
}

/// The digits of a number, behind its sign and 0x, and their radix.
fn digits(text: &str) -> Checked<(&str, u32)> {
    let unsigned = text.strip_prefix('-').unwrap_or(text);
    let (digits, radix) = match unsigned.get(..2) {
        Some("0x" | "0X") => (&unsigned[2..], 16),
        _ => (unsigned, 10),
    };
    if digits.is_empty() || !digits.chars().all(|c| c.is_digit(radix)) {
        let what = format!("{} is not a number", quoted(text));
        return Err(match text.contains([' ', '\t']) {
            true => format!("{what}; commas stand between values"),
            false => what,
        });
    }
    Ok((digits, radix))
}

/// A number, which a word of 32 bits or its negative can hold.
pub fn number(text: &str) -> Checked<i64> {
    let (digits, radix) = digits(text)?;
    let value = u32::from_str_radix(digits, radix)
        .map(i64::from)
        .map_err(|_| format!("{} is out of range: a word has 32 bits", quoted(text)))?;
    Ok(if text.starts_with('-') { -value } else { value })
}

/// A position, a number of 64 bits with its sign.
pub fn position(text: &str) -> Checked<i64> {
    let (digits, radix) = digits(text)?;
    let sign = if text.starts_with('-') { "-" } else { "" };
    // With its sign, since the smallest has no counterpart.
    i64::from_str_radix(&format!("{sign}{digits}"), radix).map_err(|_| {
        let (low, high) = (i64::MIN, i64::MAX);
        format!("{} is out of range: {low} to {high}", quoted(text))
    })
}

pub fn in_range(value: i64, low: i64, high: i64) -> Checked<i64> {
    if (low..=high).contains(&value) {
        return Ok(value);
    }
    Err(format!("{value} is out of range: {low} to {high}"))
}

/// A word of 32 bits; a negative number is taken modulo 4,294,967,296.
pub fn as_word(value: i64) -> Checked<u32> {
    Ok(in_range(value, i64::from(i32::MIN), i64::from(u32::MAX))? as u32)
}

/// A word that counts or names something, so that a negative number has no meaning.
pub fn as_count(value: i64) -> Checked<u32> {
    Ok(in_range(value, 0, i64::from(u32::MAX))? as u32)
}
