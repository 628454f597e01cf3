//! Load, preface and save, of both kinds of image: library, lesson bench and
//! model agree.

#[path = "../proved/mod.rs"]
mod proved;

mod held;
mod kinds;
mod largest;
mod lengths;
mod papers;
mod random;
mod saves;
mod sizes;

use crank_model::cover::Cover;
use crank_model::generate::valid;
use crank_model::image::{self, Kind, KINDS};
use crank_model::machine::{Record, NODE};
use crank_model::positions::any;
use crank_model::rng::Rng;
use crank_model::state::Machine;
use crank_model::structured;
use proved::{by_callers, IMAGES};

/// What a file ends in: the last four bytes of kind 1, of kind 2, or neither.
const ENDINGS: [&str; 3] = ["kind 1", "kind 2", "wrong end"];

fn ending(file: &[u8]) -> &'static str {
    let kind = KINDS.iter().position(|kind| file.ends_with(&kind.mark));
    ENDINGS[kind.unwrap_or(2)]
}

/// The name of a load, by the file's ending and the refusal.
fn load_case(ending: &str, refusal: u32) -> String {
    format!("{ending}: load {refusal}")
}

/// Fails if one of the refusals was not met with the ending.
fn demand_loads(cover: &Cover, ending: &str, refusals: &[u32]) {
    for refusal in refusals {
        cover.demand(&[&load_case(ending, *refusal)]);
    }
}

/// Loads with every caller into equal buffers and compares everything. Gives the
/// refusal and the record.
fn same_load(file: &[u8], mem: &[u32], table: &[u32], cover: &mut Cover) -> (u32, Record) {
    let (mut model_mem, mut model_table) = (mem.to_vec(), table.to_vec());
    let expected = image::load(file, &mut model_mem, &mut model_table);
    if expected.0 != 0 {
        assert_eq!(expected.1, Record::default());
        assert!(model_mem == mem && model_table == table);
    }
    let ending = ending(file);
    let lent = (mem.len(), table.len());
    let about = format!("{ending}, {} bytes, {lent:?} words", file.len());
    for (caller, load, _) in &IMAGES[1..] {
        let (mut own_mem, mut own_table) = (mem.to_vec(), table.to_vec());
        let found = load(file, &mut own_mem, &mut own_table);
        assert_eq!(found, expected, "{caller}: {about}");
        let same = own_mem == model_mem && own_table == model_table;
        assert!(same, "{caller}: words of {about}");
    }
    cover.count(&load_case(ending, expected.0));
    let preface = proved::preface_length(file);
    assert_eq!(preface, image::preface(file).len(), "{about}");
    expected
}

/// Saves with every caller into equal buffers and compares everything.
fn same_save(m: &Machine, out: &[u8], cover: &mut Cover) -> u32 {
    let mut model_out = out.to_vec();
    let expected = image::save(m.record, &m.mem, &m.table, &mut model_out);
    for (caller, _, save) in &IMAGES[1..] {
        let mut own_out = out.to_vec();
        let found = save(m.record, &m.mem, &m.table, &mut own_out);
        let about = format!("{caller}, {} bytes for {:?}", out.len(), m.record);
        assert_eq!(found, expected, "{about}");
        assert!(own_out == model_out, "bytes of {about}");
    }
    cover.count(match expected {
        0 => "save 0",
        9 => "save 9",
        _ => "save 10",
    });
    expected
}

/// The image of a machine whose sizes fit, after a preface.
fn image_of(kind: Kind, m: &Machine, preface: &[u8]) -> Vec<u8> {
    let image = kind.image(&m.record, &m.mem, &m.table);
    let back = kind.back_length(m.record.m, m.record.n);
    assert_eq!(image.len() as u64, back);
    [preface, &image].concat()
}

/// A machine of noise words with given sizes.
fn sized(rng: &mut Rng, m: u32, k: u32, n: u32) -> Machine {
    let record = Record {
        regs: std::array::from_fn(|_| rng.word()),
        qifv: rng.word(),
        qifw: rng.word(),
        k,
        m,
        n,
        position: any(rng),
    };
    Machine {
        record,
        mem: rng.words(m as usize),
        table: rng.words(NODE * n as usize),
    }
}

fn random_machine(rng: &mut Rng) -> Machine {
    match rng.below(4) {
        0 => valid(rng),
        1 => structured::running(rng, 50),
        2 => sized(rng, 1, 1, 0),
        _ => {
            let m = rng.between(1, 60);
            let (k, n) = (rng.between(1, m), rng.below(8));
            sized(rng, m, k, n)
        }
    }
}

/// A buffer length around what is needed: exact, short by one, or longer.
fn around(rng: &mut Rng, needed: usize) -> usize {
    let more = needed + rng.index(20);
    rng.pick(&[needed, needed, more, needed.saturating_sub(1), 0])
}
