//! The text of a preface: any bytes, of which those that can't be seen are escaped.

use crate::Checked;

/// The bytes that a text between quotation marks stands for.
pub fn read(text: &str) -> Checked<Vec<u8>> {
    let inner = text
        .strip_prefix('"')
        .and_then(|rest| rest.strip_suffix('"'))
        .ok_or("the preface text stands between two quotation marks \"")?;
    let mut bytes = Vec::with_capacity(inner.len());
    let mut rest = inner.chars();
    while let Some(c) = rest.next() {
        match c {
            '\\' => bytes.push(escaped(&mut rest)?),
            '"' => return Err("a quotation mark in the text is written \\\"".into()),
            _ => bytes.extend(c.encode_utf8(&mut [0; 4]).bytes()),
        }
    }
    Ok(bytes)
}

/// The byte that the characters behind a `\` stand for.
fn escaped(rest: &mut std::str::Chars<'_>) -> Checked<u8> {
    match rest.next() {
        Some('n') => Ok(b'\n'),
        Some('\\') => Ok(b'\\'),
        Some('"') => Ok(b'"'),
        Some('x') => {
            let mut digit = || rest.next().and_then(|c| c.to_digit(16));
            match (digit(), digit()) {
                (Some(high), Some(low)) => Ok((16 * high + low) as u8),
                _ => Err("after \\x two hexadecimal digits stand".into()),
            }
        }
        _ => Err("after \\ only n, \\, \" or x with two digits may stand".into()),
    }
}

/// Texts between quotation marks that together stand for the bytes: one for each line, and more
/// where a line is long.
pub fn write(bytes: &[u8]) -> Vec<String> {
    const LONG: usize = 64;
    let mut texts = Vec::new();
    let mut text = String::new();
    for piece in pieces(bytes) {
        text += &piece;
        if piece == "\\n" || text.len() >= LONG {
            texts.push(format!("\"{text}\""));
            text.clear();
        }
    }
    if !text.is_empty() {
        texts.push(format!("\"{text}\""));
    }
    texts
}

/// Each character or byte as it is written.
fn pieces(bytes: &[u8]) -> impl Iterator<Item = String> + '_ {
    let byte = |byte: &u8| format!("\\x{byte:02X}");
    bytes.utf8_chunks().flat_map(move |chunk| {
        let seen = chunk.valid().chars().map(move |c| match c {
            '\n' => "\\n".to_string(),
            '\\' | '"' => format!("\\{c}"),
            _ if c == '\'' || c.escape_debug().eq([c]) => c.to_string(),
            _ => c
                .encode_utf8(&mut [0; 4])
                .as_bytes()
                .iter()
                .map(byte)
                .collect(),
        });
        seen.chain(chunk.invalid().iter().map(byte))
    })
}
