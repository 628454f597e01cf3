//! Random pairs of words, of all and of those near the extremes.

use super::callers::there_and_back;
use super::signs::Signs;
use super::straight::{states, WORDS};
use super::EXTREMES;
use crank_model::rng::{rounds, Rng};

/// At most this far from an extreme.
const NEAR: u32 = 3;

fn near(rng: &mut Rng) -> u32 {
    let extreme = rng.pick(&EXTREMES);
    extreme
        .wrapping_sub(NEAR)
        .wrapping_add(rng.below(2 * NEAR + 1))
}

/// The word itself, the one before or behind it, or that with another top bit.
fn beside(rng: &mut Rng, word: u32) -> u32 {
    let (before, behind) = (word.wrapping_sub(1), word.wrapping_add(1));
    rng.pick(&[word, before, behind, word ^ (1 << 31)])
}

type Kind = fn(&mut Rng) -> [u32; 2];

const KINDS: [(&str, Kind); 4] = [
    ("any", |rng| [rng.word(), rng.word()]),
    ("near extremes", |rng| [near(rng), near(rng)]),
    ("any and near", |rng| {
        let pair = [rng.word(), near(rng)];
        let swapped = [pair[1], pair[0]];
        rng.pick(&[pair, swapped])
    }),
    ("beside each other", |rng| {
        let (any, near) = (rng.word(), near(rng));
        let word = rng.pick(&[any, near]);
        [word, beside(rng, word)]
    }),
];

#[test]
fn by_every_caller() {
    let mut rng = Rng::new(101);
    for (kind, pair) in KINDS {
        let (mut signs, mut answers) = (Signs::default(), 0);
        for _ in 0..rounds(10_000) {
            let [reg2, reg3] = pair(&mut rng);
            signs.count(reg2, reg3);
            let old: [u32; WORDS] = std::array::from_fn(|_| rng.word());
            answers += there_and_back(&states(reg2, reg3, old));
        }
        println!(
            "{kind}: {signs:?}, {} apart, {answers} answers",
            signs.apart()
        );
        signs.demand();
        assert_eq!(answers, rounds(10_000) as usize * 204);
    }
}
