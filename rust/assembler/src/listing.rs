//! The listing: the source with the addresses and words that its lines wrote.

use crate::text::lines;
use crate::{Assembled, Written};
use std::collections::HashMap;
use std::fmt::Write;

/// Every line of the source in its order; a line of several words has a row for each.
pub fn listing(source: &str, assembled: &Assembled) -> String {
    let mut rows: HashMap<usize, Vec<(usize, u32)>> = HashMap::new();
    for (address, Written { word, line }) in assembled.words.iter().enumerate() {
        rows.entry(*line).or_default().push((address, *word));
    }
    let mut text = String::from("addr  word       line\n");
    for (index, source_line) in lines(source).enumerate() {
        let line = index + 1;
        let mut source_line = source_line.trim_end();
        for (address, word) in rows.remove(&line).unwrap_or_default() {
            row(
                &mut text,
                &format!("{address:4}  {word:08X}"),
                line,
                source_line,
            );
            // Further words of the line are told by its number alone.
            source_line = "";
        }
        if !source_line.is_empty() {
            row(&mut text, "", line, source_line);
        }
    }
    text
}

fn row(text: &mut String, word: &str, line: usize, source_line: &str) {
    let row = format!("{word:14}  {line:5}  {source_line}");
    writeln!(text, "{}", row.trim_end()).expect("a string takes all");
}
