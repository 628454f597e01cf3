//! The proved calls, answering in the model's types.
#![allow(dead_code)] // each test uses some of them

pub mod bench;
mod records;

use crank::calls;
use crank_model::image::{self, CheckCall, CheckNodeCall, LoadCall, SaveCall};
use crank_model::machine::{self, Batch, Record};
use crank_model::maker::{self, Made, MakeCall};
use crank_model::preview::{self, Preview, PreviewCall};
use crank_model::state::{BatchCall, Turn};
use crank_model::wheel::{self, SampleCall, Wheeled};
use records::{given, got};

/// Single turns forward and back, by who makes them; the last two as the
/// previews show them.
pub const TURNS: [(&str, [Turn; 2]); 5] = [
    ("model", [machine::forward, machine::back]),
    ("library", [forward, back]),
    ("bench", [bench::forward, bench::back]),
    AS_SHOWN[0],
    AS_SHOWN[1],
];

/// Turns made as the previews show them.
pub const AS_SHOWN: [(&str, [Turn; 2]); 2] = [
    ("previews", [forward_as_shown, back_as_shown]),
    (
        "bench previews",
        [bench::forward_as_shown, bench::back_as_shown],
    ),
];

/// Batches, likewise.
pub const BATCHES: [(&str, [BatchCall; 2]); 3] = [
    ("model", [machine::forward_batch, machine::back_batch]),
    ("library", [forward_batch, back_batch]),
    ("bench", [bench::forward_batch, bench::back_batch]),
];

/// Sample calls, likewise.
pub const SAMPLES: [(&str, SampleCall); 3] = [
    ("model", wheel::samples),
    ("library", samples),
    ("bench", bench::samples),
];

/// Previews, forward and back.
pub const PREVIEWS: [(&str, [PreviewCall; 2]); 3] = [
    ("model", [preview::forward, preview::back]),
    ("library", [preview_forward, preview_back]),
    ("bench", [bench::preview_forward, bench::preview_back]),
];

/// Loads of an image, and saves.
pub const IMAGES: [(&str, LoadCall, SaveCall); 3] = [
    ("model", image::load, image::save),
    ("library", load, save),
    ("bench", bench::load, bench::save),
];

/// The whole check, and that of one node.
pub const CHECKS: [(&str, CheckCall, CheckNodeCall); 3] = [
    ("model", image::check, image::check_node),
    ("library", check, check_node),
    ("bench", bench::check, bench::check_node),
];

/// The makers of a qif table.
pub const MAKERS: [(&str, MakeCall); 3] = [
    ("model", maker::make_table),
    ("library", make_table),
    ("bench", bench::make_table),
];

/// The title of a summary, with the callers that are compared with the model.
pub fn by_callers(title: &str) -> String {
    let names: Vec<&str> = MAKERS[1..].iter().map(|(name, _)| *name).collect();
    format!("{title}, by {}", names.join(" and "))
}

pub fn is_instruction(word: u32) -> bool {
    calls::is_instruction(word)
}

pub fn forward(r: Record, mem: &mut [u32], table: &[u32]) -> (u32, Record) {
    let turned = calls::forward(given(r), mem, table);
    (turned.refusal, got(turned.state))
}

pub fn back(r: Record, mem: &mut [u32], table: &[u32]) -> (u32, Record) {
    let turned = calls::back(given(r), mem, table);
    (turned.refusal, got(turned.state))
}

fn preview(shown: calls::Preview) -> Preview {
    Preview {
        refusal: shown.refusal,
        changes: shown.changes,
        address: shown.address,
        value: shown.value,
        record: got(shown.state),
    }
}

pub fn preview_forward(r: Record, mem: &[u32], table: &[u32]) -> Preview {
    preview(calls::preview_forward(given(r), mem, table))
}

pub fn preview_back(r: Record, mem: &[u32], table: &[u32]) -> Preview {
    preview(calls::preview_back(given(r), mem, table))
}

/// A turn made as its preview shows it.
pub fn forward_as_shown(r: Record, mem: &mut [u32], table: &[u32]) -> (u32, Record) {
    preview_forward(r, mem, table).make(mem)
}

/// The turn back, likewise.
pub fn back_as_shown(r: Record, mem: &mut [u32], table: &[u32]) -> (u32, Record) {
    preview_back(r, mem, table).make(mem)
}

fn batch(made: calls::Batch) -> Batch {
    Batch {
        turns: made.turns,
        refusal: made.refusal,
        record: got(made.state),
    }
}

pub fn forward_batch(r: Record, n: u32, mem: &mut [u32], table: &[u32]) -> Batch {
    batch(calls::forward_batch(given(r), n, mem, table))
}

pub fn back_batch(r: Record, n: u32, mem: &mut [u32], table: &[u32]) -> Batch {
    batch(calls::back_batch(given(r), n, mem, table))
}

pub fn samples(r: Record, before: u8, list: &[u8], mem: &mut [u32], table: &[u32]) -> Wheeled {
    let wheeled = calls::samples(given(r), before, list, mem, table);
    Wheeled {
        forward: wheeled.forward,
        back: wheeled.back,
        refused: wheeled.refused,
        last: wheeled.last,
        refusal: wheeled.refusal,
        record: got(wheeled.state),
    }
}

pub fn load(file: &[u8], mem: &mut [u32], table: &mut [u32]) -> (u32, Record) {
    let loaded = calls::load(file, mem, table);
    (loaded.refusal, got(loaded.state))
}

pub fn preface_length(file: &[u8]) -> usize {
    calls::preface(file).len()
}

pub fn save(r: Record, mem: &[u32], table: &[u32], out: &mut [u8]) -> u32 {
    calls::save(given(r), mem, table, out)
}

pub fn check(r: Record, mem: &[u32], table: &[u32]) -> (u32, u32) {
    let checked = calls::check(given(r), mem, table);
    (checked.refusal, checked.place)
}

pub fn check_node(r: Record, node: u32, mem: &[u32], table: &[u32]) -> u32 {
    calls::check_node(given(r), node, mem, table)
}

pub fn make_table(
    r: Record,
    limit: u32,
    mem: &mut [u32],
    table: &mut [u32],
    scratch: &mut [u32],
) -> Made {
    let made = calls::make_table(given(r), limit, mem, table, scratch);
    Made {
        refusal: made.refusal,
        cycles: made.cycles,
        record: got(made.state),
    }
}
