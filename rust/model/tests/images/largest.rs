//! The largest images, with buffers exact, short and long.

use crank_model::cover::Cover;
use crank_model::image::KINDS;
use crank_model::rng::Rng;

use super::{by_callers, demand_loads, image_of, same_load, same_save, sized, ENDINGS};

/// The bytes of the largest image of each kind.
const LENGTHS: [usize; 2] = [51_256, 51_264];

#[test]
fn load() {
    let mut rng = Rng::new(63);
    let mut cover = Cover::default();
    let machine = sized(&mut rng, 8192, 8192, 511);
    for (kind, length) in KINDS.into_iter().zip(LENGTHS) {
        let longest = vec![1; 65_536 - length];
        for preface in [&[][..], &longest] {
            let file = image_of(kind, &machine, preface);
            for (mem_len, table_len, expected) in [
                (8192, 4599, 0),
                (8193, 4600, 0),
                (8191, 4599, 6),
                (8192, 4598, 6),
            ] {
                let (mem, table) = (vec![3; mem_len], vec![4; table_len]);
                let (refusal, _) = same_load(&file, &mem, &table, &mut cover);
                assert_eq!(refusal, expected);
            }
            let cut = same_load(&file[preface.len() + 1..], &[], &[], &mut cover);
            assert_eq!(cut.0, 5);
        }
        let too_long = image_of(kind, &machine, &[&longest[..], &[0]].concat());
        assert_eq!(same_load(&too_long, &[], &[], &mut cover).0, 1);
    }
    cover.summary(&by_callers("largest images"));
    for ending in &ENDINGS[..2] {
        demand_loads(&cover, ending, &[0, 1, 5, 6]);
    }
}

#[test]
fn save() {
    let mut rng = Rng::new(68);
    let mut cover = Cover::default();
    let machine = sized(&mut rng, 8192, 8192, 511);
    for (len, expected) in [
        (51_255, 9),
        (51_256, 9),
        (51_263, 9),
        (51_264, 0),
        (51_265, 0),
    ] {
        let refusal = same_save(&machine, &vec![0x55; len], &mut cover);
        assert_eq!(refusal, expected, "{len} bytes");
    }
    cover.summary(&by_callers("largest saves"));
    cover.demand(&["save 0", "save 9"]);
}
