//! Random wheels on machines of every kind, whole and damaged.

use crank_model::cover::Cover;
use crank_model::damage::{wrong_sizes, DAMAGES};
use crank_model::generate::{for_run, for_turn, noise};
use crank_model::machine::sizes_fit;
use crank_model::rng::{rounds, Rng};
use crank_model::state::WAYS;
use crank_model::structured::running;
use crank_model::walks::{random_samples, walk};

use super::{one_wheel, CASES};

/// The accepted turns that a long wheel makes.
const MANY: u64 = 500;

#[test]
fn long() {
    let mut rng = Rng::new(61);
    let mut cover = Cover::default();
    for _ in 0..rounds(6_000) {
        let way = rng.pick(&WAYS);
        let mut machine = for_run(&mut rng, way);
        let (given, samples) = random_samples(&mut rng, 1_000);
        let answer = one_wheel(&mut machine, given, &samples, &mut cover);
        if answer.forward + answer.back >= MANY {
            cover.count("many turns in one call");
        }
    }
    cover.summary("long wheels");
    cover.demand_turns();
    cover.demand(&CASES);
    cover.demand(&["many turns in one call"]);
}

/// Machines for one turn, half of them damaged, and noise.
#[test]
fn short() {
    let mut rng = Rng::new(62);
    let mut cover = Cover::default();
    for round in 0..rounds(100_000) {
        let mut machine = match round % 16 {
            0 => noise(&mut rng),
            _ => for_turn(&mut rng, WAYS[round as usize % 2]),
        };
        let (given, samples) = random_samples(&mut rng, 8);
        one_wheel(&mut machine, given, &samples, &mut cover);
    }
    cover.summary("short wheels");
    cover.demand_turns();
    cover.demand(&CASES);
}

/// Each kind of damage to a program in its run.
#[test]
fn damaged() {
    let mut rng = Rng::new(63);
    let mut cover = Cover::default();
    for _ in 0..rounds(1_500) {
        for (name, damage, _) in DAMAGES {
            let start = running(&mut rng, 500);
            let mut machine = start.clone();
            damage(&mut rng, &mut machine);
            if machine != start {
                cover.count(name);
            }
            let (given, samples) = random_samples(&mut rng, 150);
            one_wheel(&mut machine, given, &samples, &mut cover);
        }
    }
    cover.summary("damaged machines");
    cover.demand(&DAMAGES.map(|(name, ..)| name));
    cover.demand(&CASES);
}

/// With wrong sizes each sample that moves counts one refused turn, and an
/// equal one none; the call itself isn't refused.
#[test]
fn sizes() {
    let mut rng = Rng::new(64);
    let mut cover = Cover::default();
    for _ in 0..rounds(100) {
        let good = running(&mut rng, 100);
        let given = rng.below(4) as u8;
        let samples = walk(&mut rng, given, 60);
        let before = [&[given][..], &samples].concat();
        let moving = before.windows(2).filter(|two| two[0] != two[1]).count();
        for start in wrong_sizes(&good) {
            assert!(!sizes_fit(&start.record, &start.mem, &start.table));
            let mut machine = start.clone();
            let answer = one_wheel(&mut machine, given, &samples, &mut cover);
            assert_eq!((answer.forward, answer.back), (0, 0));
            assert_eq!(answer.refused, moving as u64);
            assert_eq!(
                (answer.last, answer.refusal),
                (before[samples.len()].into(), 0)
            );
            assert_eq!(machine, start);
        }
    }
    cover.summary("wrong sizes");
    cover.demand(&["equal sample", "bounce", "refused turn"]);
}
