//! Loads on a lesson bench, whatever record it has: an accepted one puts the
//! file's in its place, and a refused one leaves it.

use crank_model::cover::Cover;
use crank_model::image::{self, KINDS};
use crank_model::machine::{Record, NODE};
use crank_model::rng::{rounds, Rng};
use crank_model::state::Machine;

use super::proved::bench;
use super::{image_of, sized};

/// The records that a bench has, by name; `loaded` is the file's machine.
fn records(rng: &mut Rng, loaded: &Machine) -> [(&'static str, Record); 6] {
    let noise = Record {
        k: rng.word(),
        m: rng.word(),
        n: rng.word(),
        ..sized(rng, 1, 1, 0).record
    };
    let r = loaded.record;
    let other_position = Record {
        position: !r.position,
        ..r
    };
    [
        ("zeros", Record::default()),
        ("small", sized(rng, 1, 1, 0).record),
        ("largest", sized(rng, 8192, 8192, 511).record),
        ("noise", noise),
        ("the file's", r),
        ("the file's, elsewhere", other_position),
    ]
}

/// The refusals of a load.
const REFUSALS: [u32; 7] = [0, 1, 2, 3, 4, 5, 6];

/// An image, changed so that its load is refused by 1 to 5; 0 and 6 leave it.
fn refused_by(refusal: u32, mut file: Vec<u8>, trailer: usize) -> Vec<u8> {
    let at = file.len() - trailer;
    match refusal {
        1 => file.truncate(91),
        2 => *file.last_mut().expect("a byte") ^= 0x80,
        // M becomes 0.
        3 => file[at + 4..at + 8].fill(0),
        // back is off by one.
        4 => file[at] ^= 1,
        5 => drop(file.remove(0)),
        _ => {}
    }
    file
}

/// One load on a bench with each of the records.
fn over_each(rng: &mut Rng, file: &[u8], loaded: &Machine, fewer: usize, cover: &mut Cover) {
    let mem = rng.words(loaded.mem.len() - fewer);
    let table = rng.words(loaded.table.len());
    let (mut model_mem, mut model_table) = (mem.clone(), table.clone());
    let expected = image::load(file, &mut model_mem, &mut model_table);
    for (name, before) in records(rng, loaded) {
        let (mut own_mem, mut own_table) = (mem.clone(), table.clone());
        let found = bench::load_over(before, file, &mut own_mem, &mut own_table);
        assert_eq!(found, expected, "over {name}: {before:?}");
        let same = own_mem == model_mem && own_table == model_table;
        assert!(same, "words of a load over {name}: {before:?}");
        cover.count(&case(name, expected.0));
    }
}

fn case(name: &str, refusal: u32) -> String {
    format!("over {name}: load {refusal}")
}

#[test]
fn any_record() {
    let mut rng = Rng::new(151);
    let mut cover = Cover::default();
    for round in 0..rounds(300) {
        let (m, n) = (rng.between(1, 40), rng.below(4));
        let loaded = sized(&mut rng, m, 1, n);
        assert_eq!(loaded.table.len(), NODE * n as usize);
        let kind = KINDS[round as usize % 2];
        for refusal in REFUSALS {
            let file = image_of(kind, &loaded, &[]);
            let file = refused_by(refusal, file, kind.trailer());
            let fewer = usize::from(refusal == 6);
            over_each(&mut rng, &file, &loaded, fewer, &mut cover);
        }
    }
    cover.summary("loads over any record");
    let names = records(&mut rng, &sized(&mut Rng::new(1), 1, 1, 0)).map(|(name, _)| name);
    for name in names {
        for refusal in REFUSALS {
            let times = cover.times(&case(name, refusal));
            assert_eq!(times, u64::from(rounds(300)), "{name}, {refusal}");
        }
    }
}
