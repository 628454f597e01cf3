//! Saves of fitting and broken machines; a saved one loads as it was.

use crank_model::cover::Cover;
use crank_model::damage::damage;
use crank_model::generate::noise;
use crank_model::image::SAVED;
use crank_model::machine::sizes_fit;
use crank_model::rng::{rounds, Rng};
use crank_model::state::Machine;

use super::proved::{self, IMAGES};
use super::{around, by_callers, random_machine, same_save};

/// The length of what save writes; any where it is refused by 10.
fn needed(m: &Machine) -> usize {
    match sizes_fit(&m.record, &m.mem, &m.table) {
        true => SAVED.back_length(m.record.m, m.record.n) as usize,
        false => 200,
    }
}

/// By every caller, which loads what it saved.
fn round_trip(rng: &mut Rng, machine: &Machine, back: usize) {
    for (name, load, save) in &IMAGES[1..] {
        let mut out = rng.bytes(back);
        let refusal = save(machine.record, &machine.mem, &machine.table, &mut out);
        assert_eq!(refusal, 0, "{name}");
        let (mut mem, mut table) = (rng.words(machine.mem.len()), rng.words(machine.table.len()));
        let (refusal, record) = load(&out, &mut mem, &mut table);
        assert_eq!((refusal, record), (0, machine.record), "{name}");
        let loaded = Machine { record, mem, table };
        assert_eq!(loaded.counted(), machine.counted(), "{name}");
        assert_eq!(proved::preface_length(&out), 0);
    }
}

#[test]
fn round_trips() {
    let mut rng = Rng::new(64);
    let mut cover = Cover::default();
    for _ in 0..rounds(40_000) {
        let mut machine = if rng.chance(1, 10) {
            noise(&mut rng)
        } else {
            random_machine(&mut rng)
        };
        if rng.chance(1, 4) {
            damage(&mut rng, &mut machine);
        }
        let needed = needed(&machine);
        let len = around(&mut rng, needed);
        let out = rng.bytes(len);
        if same_save(&machine, &out, &mut cover) == 0 {
            round_trip(&mut rng, &machine, needed);
            cover.count(match machine.record.position {
                0 => "position 0",
                1.. => "position above 0",
                _ => "position below 0",
            });
        }
    }
    cover.summary(&by_callers("saves"));
    cover.demand(&["save 0", "save 9", "save 10"]);
    cover.demand(&["position 0", "position above 0", "position below 0"]);
}

/// The output one byte short of back, as long as kind 1 would need, and exact.
#[test]
fn output_lengths() {
    let mut rng = Rng::new(76);
    let mut cover = Cover::default();
    for _ in 0..rounds(2_000) {
        let machine = random_machine(&mut rng);
        let r = machine.record;
        let back = 4 * r.m as usize + 36 * r.n as usize + 100;
        for (len, expected) in [
            (0, 9),
            (back - 8, 9),
            (back - 1, 9),
            (back, 0),
            (back + 1, 0),
        ] {
            let refusal = same_save(&machine, &rng.bytes(len), &mut cover);
            assert_eq!(refusal, expected, "{len} bytes, back {back}");
        }
    }
    cover.summary(&by_callers("lengths of the output"));
    cover.demand(&["save 0", "save 9"]);
}
