//! Samples at the end of the position: a turn refused by 21 is counted, and the
//! wheel goes on.

use crank_model::cover::Cover;
use crank_model::positions::near_end;
use crank_model::rng::{rounds, Rng};
use crank_model::state::Way;
use crank_model::walks::random_samples;
use crank_model::wheel::{steps, Wheeled};

use super::{endless, endless_after, SAMPLES};

const LARGEST: i64 = i64::MAX;
const SMALLEST: i64 = i64::MIN;

/// The position, the given sample and the list; the turns accepted forward,
/// accepted back and refused, the last sample, the refusal and the position.
type Example = (i64, u8, &'static [u8], [u64; 3], [u32; 2], i64);

const EXAMPLES: [Example; 14] = [
    // Not near an end.
    (0, 0, &[1, 3, 2], [3, 0, 0], [2, 0], 3),
    (0, 0, &[2, 3, 1, 3], [1, 3, 0], [3, 0], -2),
    // At the largest: forward is refused each time, back goes on.
    (LARGEST, 0, &[1], [0, 0, 1], [1, 0], LARGEST),
    (LARGEST, 0, &[1, 3, 2, 0], [0, 0, 4], [0, 0], LARGEST),
    (LARGEST, 0, &[1, 0], [0, 1, 1], [0, 0], LARGEST - 1),
    (LARGEST, 0, &[2, 0, 1, 0], [1, 2, 1], [0, 0], LARGEST - 1),
    (LARGEST - 1, 3, &[2, 0, 1], [1, 0, 2], [1, 0], LARGEST),
    // At the smallest, likewise.
    (SMALLEST, 0, &[2], [0, 0, 1], [2, 0], SMALLEST),
    (SMALLEST, 0, &[2, 3, 1, 0], [0, 0, 4], [0, 0], SMALLEST),
    (SMALLEST, 0, &[2, 0], [1, 0, 1], [0, 0], SMALLEST + 1),
    (SMALLEST, 0, &[1, 0, 2, 0], [2, 1, 1], [0, 0], SMALLEST + 1),
    (SMALLEST + 1, 3, &[1, 0, 2], [0, 1, 2], [2, 0], SMALLEST),
    // 19 and 20 end the samples, 21 does not.
    (LARGEST, 0, &[1, 0, 3, 1], [0, 1, 1], [0, 19], LARGEST - 1),
    (SMALLEST, 0, &[2, 0, 4, 1], [1, 0, 1], [0, 20], SMALLEST + 1),
];

#[test]
fn by_hand() {
    for (name, call) in SAMPLES {
        for (position, given, samples, counts, ends, after) in EXAMPLES {
            let mut machine = endless(position);
            let answer = machine.samples(given, samples, call);
            let expected = endless_after(counts[0] + counts[1], after);
            let wheeled = Wheeled {
                forward: counts[0],
                back: counts[1],
                refused: counts[2],
                last: ends[0],
                refusal: ends[1],
                record: expected.record,
            };
            assert_eq!(answer, wheeled, "{name} {samples:?} at {position}");
            assert_eq!(machine, expected, "{name} {samples:?} at {position}");
        }
    }
    println!("by hand: {} lists", EXAMPLES.len());
}

/// What a plain counter says of the steps: the turns accepted forward, accepted
/// back and refused, and the position.
fn counter(position: i64, steps: &[Option<Way>]) -> ([u64; 3], i64) {
    let mut counts = [0; 3];
    let mut at = i128::from(position);
    for way in steps.iter().flatten() {
        let next = if *way == Way::Forward { at + 1 } else { at - 1 };
        let fits = (i128::from(i64::MIN)..=i128::from(i64::MAX)).contains(&next);
        counts[if fits { *way as usize } else { 2 }] += 1;
        at = if fits { next } else { at };
    }
    (counts, at as i64)
}

/// Random wheels on a machine that only the position ends.
#[test]
fn around_the_ends() {
    let mut rng = Rng::new(92);
    let mut cover = Cover::default();
    for _ in 0..rounds(4_000) {
        let position = near_end(&mut rng, 40);
        let (given, samples) = random_samples(&mut rng, 300);
        let (counts, after) = counter(position, &steps(given, &samples));
        for (name, call) in SAMPLES {
            let mut machine = endless(position);
            let answer = machine.samples(given, &samples, call);
            let found = [answer.forward, answer.back, answer.refused];
            assert_eq!(found, counts, "{name} {samples:?} at {position}");
            let expected = endless_after(counts[0] + counts[1], after);
            assert_eq!(machine, expected, "{name} {samples:?} at {position}");
        }
        let end = if position > 0 { "largest" } else { "smallest" };
        let kind = match counts {
            [0, 0, 0] => "no turn",
            [0, 0, _] => "all refused",
            [_, _, 0] => "all accepted",
            _ => "some refused",
        };
        cover.count(&format!("{kind} near the {end}"));
    }
    cover.summary("wheels around the ends of the position");
    for end in ["largest", "smallest"] {
        for kind in ["all refused", "all accepted", "some refused"] {
            cover.demand(&[&format!("{kind} near the {end}")]);
        }
    }
}
