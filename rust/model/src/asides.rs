//! The calls beside the turns: previews, saves, checks, loads and the making of a
//! qif table. Random ones for lists, which leave a machine as it is.

use crate::image::{self, CheckCall, CheckNodeCall, Kind, LoadCall, SaveCall, KINDS, SAVED};
use crate::machine::{sizes_fit, Record, NODE};
use crate::maker::{self, Made, MakeCall, SCRATCH, TABLE};
use crate::preview::{self, Preview, PreviewCall};
use crate::rng::Rng;
use crate::state::{Machine, Way, WAYS};

/// A call, with what is lent to it beside memory and table.
#[derive(Clone, Debug, PartialEq, Eq)]
pub enum Aside {
    Preview(Way),
    /// The output as it is before.
    Save(Vec<u8>),
    Check,
    CheckNode(u32),
    Load(Vec<u8>),
    /// The limit, and scratch as it is before.
    Make(u32, Vec<u32>),
}

/// All that a call gives: also the output, and of scratch what is not free.
#[derive(Clone, Debug, PartialEq, Eq)]
pub enum Told {
    Preview(Preview),
    Save(u32, Vec<u8>),
    Check(u32, u32),
    CheckNode(u32),
    Load(u32, Record),
    Make(Made, Vec<u32>),
}

impl Told {
    /// What a making gives. After 10 and 22 nothing of scratch is free.
    pub fn made(made: Made, mut scratch: Vec<u32>) -> Told {
        if ![10, 22].contains(&made.refusal) {
            scratch.drain(..SCRATCH * made.record.m as usize);
        }
        Told::Make(made, scratch)
    }

    pub fn refusal(&self) -> u32 {
        match self {
            Told::Preview(shown) => shown.refusal,
            Told::Make(made, _) => made.refusal,
            Told::Save(refusal, _) | Told::Check(refusal, _) => *refusal,
            Told::CheckNode(refusal) | Told::Load(refusal, _) => *refusal,
        }
    }

    /// The call and its refusal.
    pub fn name(&self) -> String {
        let call = match self {
            Told::Preview(_) => "preview",
            Told::Save(..) => "save",
            Told::Check(..) => "check",
            Told::CheckNode(_) => "check of a node",
            Told::Load(..) => "load",
            Told::Make(..) => "make",
        };
        format!("{call} {}", self.refusal())
    }
}

/// The calls by value, of the model or of the library.
pub struct Asides {
    pub previews: [PreviewCall; 2],
    pub load: LoadCall,
    pub save: SaveCall,
    pub check: CheckCall,
    pub check_node: CheckNodeCall,
    pub make: MakeCall,
}

pub const MODEL: Asides = Asides {
    previews: [preview::forward, preview::back],
    load: image::load,
    save: image::save,
    check: image::check,
    check_node: image::check_node,
    make: maker::make_table,
};

impl Aside {
    /// Makes the call by value. An accepted load or make gives the machine its
    /// record.
    pub fn by_value(&self, machine: &mut Machine, calls: &Asides) -> Told {
        let (r, mem, table) = (machine.record, &mut machine.mem, &mut machine.table);
        match self {
            Aside::Preview(way) => Told::Preview(calls.previews[*way as usize](r, mem, table)),
            Aside::Save(out) => {
                let mut out = out.clone();
                let refusal = (calls.save)(r, mem, table, &mut out);
                Told::Save(refusal, out)
            }
            Aside::Check => {
                let (refusal, place) = (calls.check)(r, mem, table);
                Told::Check(refusal, place)
            }
            Aside::CheckNode(node) => Told::CheckNode((calls.check_node)(r, *node, mem, table)),
            Aside::Load(file) => {
                let (refusal, record) = (calls.load)(file, mem, table);
                machine.record = if refusal == 0 { record } else { r };
                Told::Load(refusal, record)
            }
            Aside::Make(limit, scratch) => {
                let mut scratch = scratch.clone();
                let made = (calls.make)(r, *limit, mem, table, &mut scratch);
                machine.record = made.record;
                Told::made(made, scratch)
            }
        }
    }
}

/// An output as long as is needed, or nearly.
fn output(rng: &mut Rng, machine: &Machine) -> Vec<u8> {
    let r = &machine.record;
    let needed = match sizes_fit(r, &machine.mem, &machine.table) {
        true => SAVED.back_length(r.m, r.n) as usize,
        false => 200,
    };
    let len = rng.pick(&[needed, needed, needed + 7, needed - 1, 0]);
    rng.bytes(len)
}

/// Nodes that there are, and numbers beside and above them.
fn node(rng: &mut Rng, r: &Record) -> u32 {
    let some = rng.below(r.n).saturating_add(1);
    rng.pick(&[some, some, r.n, r.qifv, 0, r.n.wrapping_add(1), u32::MAX])
}

/// A small image of noise; 6 refuses it where so many memory words are lent.
fn small_image(rng: &mut Rng, kind: Kind, m: u32) -> Vec<u8> {
    let n = rng.below(3);
    let record = Record {
        regs: std::array::from_fn(|_| rng.word()),
        qifv: rng.word(),
        qifw: rng.word(),
        k: rng.between(1, m),
        m,
        n,
        position: rng.next_u64() as i64,
    };
    let (mem, table) = (rng.words(m as usize), rng.words(NODE * n as usize));
    kind.image(&record, &mem, &table)
}

/// A file that is refused, by 1 to 6 alike, whatever is lent.
fn refused_file(rng: &mut Rng, machine: &Machine) -> Vec<u8> {
    let kind = rng.pick(&KINDS);
    let refusal = rng.between(1, 6);
    let lent = machine.mem.len() as u32;
    let m = if refusal == 6 { lent + 1 } else { 3 };
    let mut file = small_image(rng, kind, m);
    let at = file.len() - kind.trailer();
    match refusal {
        1 => file.truncate(91),
        2 => *file.last_mut().expect("a byte") ^= 0x80,
        // M is 0.
        3 => file[at + 4..at + 8].fill(0),
        4 => file[at] ^= 1,
        5 => drop(file.remove(0)),
        _ => {}
    }
    file
}

/// A making that is refused by 10 or 22: scratch is too short by one, or nodes or
/// a short table stand against it.
fn refused_make(rng: &mut Rng, machine: &Machine) -> Aside {
    let limit = rng.pick(&[0, 9, u32::MAX]);
    // As many words as the memory has, if its size fits.
    let m = machine.mem.len().min(machine.record.m as usize);
    let stands = machine.record.n > 0 || machine.table.len() < TABLE;
    let most = SCRATCH * m + 1;
    let short = (SCRATCH * m).saturating_sub(1);
    let len = rng.pick(&[if stands { most } else { short }, short, 0]);
    Aside::Make(limit, vec![rng.word(); len])
}

/// A call that leaves this machine as it is: one that only looks at it, or one
/// that is refused before it writes.
pub fn random_aside(rng: &mut Rng, machine: &Machine) -> Aside {
    match rng.below(8) {
        0..=2 => Aside::Preview(rng.pick(&WAYS)),
        3 => Aside::Save(output(rng, machine)),
        4 => Aside::Check,
        5 => Aside::CheckNode(node(rng, &machine.record)),
        6 => Aside::Load(refused_file(rng, machine)),
        _ => refused_make(rng, machine),
    }
}

/// What random ones must have come to.
pub const ASIDE_CASES: [&str; 30] = [
    "preview 0",
    "preview 10",
    "preview 11",
    "preview 12",
    "preview 13",
    "preview 14",
    "preview 15",
    "preview 16",
    "preview 17",
    "preview 18",
    "preview 21",
    "save 0",
    "save 9",
    "save 10",
    "check 0",
    "check 7",
    "check 8",
    "check 10",
    "check of a node 0",
    "check of a node 8",
    "check of a node 10",
    "check of a node 17",
    "load 1",
    "load 2",
    "load 3",
    "load 4",
    "load 5",
    "load 6",
    "make 10",
    "make 22",
];
