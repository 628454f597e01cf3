//! Lists of calls: Left makes any calls, Right the single turns that remain.

use std::hint::black_box;

use crate::asides::{self, random_aside, Aside, Told};
use crate::compare::{adds_up, batch_size, follow, one_way, turn_by_turn};
use crate::cover::Cover;
use crate::machine::{sizes_fit, Batch, NODE};
use crate::rng::Rng;
use crate::state::{Machine, Turn, Way, WAYS};
use crate::walks::random_samples;
use crate::wheel;

/// One call of a list; samples with the one before them.
#[derive(Clone, Debug, PartialEq, Eq)]
pub enum Call {
    Single(Way),
    Batch(Way, u32),
    Samples(u8, Vec<u8>),
    Aside(Aside),
}

/// What a call of a list gave: the accepted turns and the refusal; and if it is
/// one beside the turns, all.
#[derive(Clone, Debug, PartialEq, Eq)]
pub struct Gave {
    pub forward: u64,
    pub back: u64,
    pub refusal: u32,
    pub told: Option<Told>,
}

impl Gave {
    /// What a batch gave.
    pub fn batch(way: Way, batch: Batch) -> Gave {
        Gave::one_way(way, batch.turns, batch.refusal)
    }

    /// What a single turn or a batch gave.
    pub fn one_way(way: Way, turns: u32, refusal: u32) -> Gave {
        Gave::turned(one_way(way, turns), refusal)
    }

    /// What samples gave: the accepted turns forward and back.
    pub fn turned([forward, back]: [u64; 2], refusal: u32) -> Gave {
        Gave {
            forward,
            back,
            refusal,
            told: None,
        }
    }

    /// What a call beside the turns gave.
    pub fn told(told: Told) -> Gave {
        Gave {
            forward: 0,
            back: 0,
            refusal: told.refusal(),
            told: Some(told),
        }
    }
}

fn random_call(rng: &mut Rng, machine: &Machine) -> Call {
    let way = if rng.chance(1, 2) {
        Way::Forward
    } else {
        Way::Back
    };
    match rng.below(6) {
        0 => Call::Single(way),
        1 | 2 => Call::Aside(random_aside(rng, machine)),
        3 => {
            let (given, samples) = random_samples(rng, 200);
            Call::Samples(given, samples)
        }
        _ => Call::Batch(way, batch_size(rng, way, machine)),
    }
}

/// Makes the turns of a call with the model, and checks what the call gave.
fn follow_call(call: &Call, model: &mut Machine, gave: &Gave, cover: &mut Cover) {
    // A single turn gives what a batch of 1 gives.
    let (way, n) = match call {
        Call::Single(way) => (*way, 1),
        Call::Batch(way, n) => (*way, *n),
        Call::Samples(given, samples) => {
            return follow_samples(*given, samples, model, gave, cover)
        }
        Call::Aside(aside) => return follow_aside(aside, model, gave, cover),
    };
    let batch = model.clone().batch(n, way.model_batch());
    assert_eq!(*gave, Gave::batch(way, batch), "{call:?}: {model:?}");
    follow(way, model, n, batch, cover);
}

fn follow_samples(given: u8, samples: &[u8], model: &mut Machine, gave: &Gave, cover: &mut Cover) {
    let expected = model.clone().samples(given, samples, wheel::samples);
    let turns = WAYS.map(|way| way.model());
    let [forward, back, refused] = turn_by_turn(model, given, samples, turns, cover);
    let counted = Gave::turned([forward, back], expected.refusal);
    assert_eq!(*gave, counted, "{samples:?} after {given}: {model:?}");
    if forward > 0 && back > 0 {
        cover.count("samples both ways");
    }
    if refused > 0 {
        cover.count("samples with a refused turn");
    }
}

/// Makes a call beside the turns with the model, and checks all that it gave. The
/// model stays where it is but for an accepted load and a make.
pub fn follow_aside(aside: &Aside, model: &mut Machine, gave: &Gave, cover: &mut Cover) {
    let told = aside.by_value(model, &asides::MODEL);
    cover.count(&told.name());
    if matches!(&told, Told::Preview(shown) if shown.changes > 0) {
        cover.count("preview of a changed word");
    }
    assert_eq!(*gave, Gave::told(told), "{aside:?}: {model:?}");
}

/// Makes a random list of calls with `left`, following each with the model.
/// Gives the calls with what they gave.
pub fn run_left(
    rng: &mut Rng,
    machine: &mut Machine,
    mut left: impl FnMut(&mut Machine, &Call) -> Gave,
    cover: &mut Cover,
) -> Vec<(Call, Gave)> {
    let mut model = machine.clone();
    let mut list = Vec::new();
    for _ in 0..rng.below(13) {
        let call = random_call(rng, machine);
        let gave = left(machine, &call);
        let before = matches!(call, Call::Aside(_)).then(|| model.clone());
        follow_call(&call, &mut model, &gave, cover);
        // The compiler may else take words lent for reading as unchanged.
        assert_eq!(*black_box(&*machine), model, "{call:?} gave {gave:?}");
        assert!(before.is_none_or(|before| model == before), "{call:?}");
        count_call(cover, &call, &gave);
        list.push((call, gave));
    }
    if list.is_empty() {
        cover.count("empty list");
    }
    list
}

/// The accepted turns of a list, forward and back.
fn accepted(list: &[(Call, Gave)]) -> [u64; 2] {
    let forward = list.iter().map(|(_, gave)| gave.forward).sum();
    let back = list.iter().map(|(_, gave)| gave.back).sum();
    [forward, back]
}

/// The accepted forward turns less the accepted back turns.
pub fn net(list: &[(Call, Gave)]) -> i64 {
    let [forward, back] = accepted(list);
    forward as i64 - back as i64
}

/// Checks that the position is the one at the beginning and the net turns.
pub fn position_adds_up(list: &[(Call, Gave)], start: &Machine, end: &Machine) {
    adds_up(&start.record, &end.record, accepted(list));
}

/// Makes a list again, without the calls beside the turns: the others give the
/// same, and their end is the same.
pub fn without_asides(
    list: &[(Call, Gave)],
    mut machine: Machine,
    end: &Machine,
    mut left: impl FnMut(&mut Machine, &Call) -> Gave,
) {
    for (call, gave) in list {
        if !matches!(call, Call::Aside(_)) {
            assert_eq!(left(&mut machine, call), *gave, "{call:?} of {list:?}");
        }
    }
    assert_eq!(machine, *end, "without the calls beside in {list:?}");
}

fn count_call(cover: &mut Cover, call: &Call, gave: &Gave) {
    match call {
        Call::Batch(_, 0) => cover.count("batch of 0"),
        Call::Batch(_, u32::MAX) => cover.count("batch of 4294967295"),
        Call::Batch(..) => cover.count("batch"),
        Call::Single(_) => cover.count("single"),
        Call::Samples(_, list) if list.is_empty() => cover.count("no samples"),
        Call::Samples(..) => cover.count("samples"),
        Call::Aside(_) => return,
    }
    match gave.refusal {
        0 => {}
        19 => cover.count("samples refused by 19"),
        20 => cover.count("samples refused by 20"),
        21 => cover.count("call refused by 21"),
        _ => cover.count("refused call"),
    }
}

/// The same start with other words beyond M and 9N, and other lengths.
pub fn other_excess(rng: &mut Rng, start: &Machine) -> Machine {
    let mut right = start.clone();
    if sizes_fit(&start.record, &start.mem, &start.table) {
        right.mem.truncate(start.record.m as usize);
        right.table.truncate(NODE * start.record.n as usize);
        let (more_mem, more_table) = (rng.index(20), rng.index(20));
        right.mem.extend(rng.words(more_mem));
        right.table.extend(rng.words(more_table));
    }
    right
}

/// Makes `net` single turns from `right`, and compares with Left's end.
pub fn run_right(net: i64, mut right: Machine, end: &Machine, turns: [Turn; 2]) {
    let way = if net < 0 { Way::Back } else { Way::Forward };
    let start = right.clone();
    for i in 0..net.unsigned_abs() {
        let refusal = right.turn(turns[way as usize]);
        assert_eq!(refusal, 0, "{way:?} turn {i} of {net}: {start:?}");
    }
    assert_eq!(right.record, end.record, "{net} turns from {start:?}");
    assert_eq!(right.counted(), end.counted(), "{net} turns from {start:?}");
    let (mem, table) = right.counted();
    assert_eq!(right.mem[mem.len()..], start.mem[mem.len()..]);
    assert_eq!(right.table[table.len()..], start.table[table.len()..]);
}

pub fn count_net(cover: &mut Cover, net: i64) {
    cover.count(match net {
        0 => "net 0",
        1.. => "net forward",
        _ => "net back",
    });
}

/// What every list test must have met, beside the asides.
pub const LIST_CASES: [&str; 18] = [
    "empty list",
    "batch of 0",
    "batch of 4294967295",
    "batch",
    "single",
    "refused call",
    "call refused by 21",
    "no samples",
    "samples",
    "samples both ways",
    "samples with a refused turn",
    "accepted after a 21",
    "samples refused by 19",
    "samples refused by 20",
    "preview of a changed word",
    "net 0",
    "net forward",
    "net back",
];
