//! Random files, half of them damaged.

use crank_model::cover::Cover;
use crank_model::image::{Kind, KINDS};
use crank_model::machine::NODE;
use crank_model::rng::{rounds, Rng};

use super::{
    around, by_callers, demand_loads, ending, image_of, random_machine, same_load, ENDINGS,
};

/// Changes one bit of a stretch that ends so many bytes before the file's end.
fn flip(rng: &mut Rng, file: &mut [u8], from_end: usize, len: usize) {
    let start = file.len().saturating_sub(from_end);
    let place = start + rng.index(len);
    file[place] ^= 1 << rng.below(8);
}

/// Changes one thing of an image file of a kind.
fn damage_file(rng: &mut Rng, kind: Kind, file: &mut Vec<u8>) {
    let len = file.len();
    let trailer = kind.trailer();
    match rng.below(10) {
        0 => {
            file.drain(..rng.index(len + 1));
        }
        1 => file.truncate(rng.index(len + 1)),
        2 => flip(rng, file, 4, 4),
        // A field of the trailer: back, M, K, N or a register.
        3 | 4 => flip(rng, file, trailer, 20),
        5 => {
            let field = len - trailer;
            file[field] = file[field].wrapping_add(rng.pick(&[1, 255, 4, 8, 248]));
        }
        6 => {
            let more = rng.index(100);
            file.extend(rng.bytes(more));
        }
        // The last four bytes of the other kind, where they do not belong.
        7 => {
            let other = rng.pick(&KINDS);
            file[len - 4..].copy_from_slice(&other.mark);
        }
        // What stands before the last four bytes: wait and node, or position.
        8 => flip(rng, file, 12, 8),
        _ => {
            let place = rng.index(len);
            file[place] ^= 0xFF;
        }
    }
}

/// What a load says beside the refusal.
fn count_record(cover: &mut Cover, file: &[u8], refusal: u32, position: i64) {
    if refusal == 0 {
        let sign = match position {
            0 => "position 0",
            1.. => "position above 0",
            _ => "position below 0",
        };
        cover.count(&format!("{}: {sign}", ending(file)));
    }
}

#[test]
fn files() {
    let mut rng = Rng::new(61);
    let mut cover = Cover::default();
    for round in 0..rounds(100_000) {
        let machine = random_machine(&mut rng);
        let preface_len = rng.pick(&[0, 0, 1, 3, 4, 50]);
        let kind = KINDS[round as usize % 2];
        let mut file = image_of(kind, &machine, &rng.bytes(preface_len));
        let whole = rng.chance(1, 2);
        if !whole {
            damage_file(&mut rng, kind, &mut file);
        }
        let mem_len = around(&mut rng, machine.record.m as usize);
        let table_len = around(&mut rng, NODE * machine.record.n as usize);
        let (mem, table) = (rng.words(mem_len), rng.words(table_len));
        let (refusal, record) = same_load(&file, &mem, &table, &mut cover);
        count_record(&mut cover, &file, refusal, record.position);
        if whole && refusal == 0 {
            let mut expected = machine.record;
            if kind == KINDS[0] {
                expected.position = 0;
            }
            assert_eq!(record, expected);
        }
    }
    cover.summary(&by_callers("random files"));
    demand_loads(&cover, ENDINGS[0], &[0, 1, 3, 4, 5, 6]);
    demand_loads(&cover, ENDINGS[1], &[0, 1, 3, 4, 5, 6]);
    demand_loads(&cover, ENDINGS[2], &[1, 2]);
    cover.demand(&["kind 1: position 0", "kind 2: position 0"]);
    cover.demand(&["kind 2: position above 0", "kind 2: position below 0"]);
    assert_eq!(cover.times("kind 1: position above 0"), 0);
    assert_eq!(cover.times("kind 1: position below 0"), 0);
}
