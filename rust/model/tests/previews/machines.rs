//! Previews of machines of every kind, whole and damaged.

use crank_model::cover::Cover;
use crank_model::damage::{wrong_sizes, DAMAGES};
use crank_model::generate::{for_turn, noise};
use crank_model::rng::{rounds, Rng};
use crank_model::state::WAYS;
use crank_model::structured::running;

use super::proved::by_callers;
use super::{demand_all, demand_cases, level, one_preview, refused};

/// Machines for one turn, half of them damaged, and noise; both previews.
#[test]
fn for_one_turn() {
    let mut rng = Rng::new(71);
    let mut cover = Cover::default();
    for round in 0..rounds(200_000) {
        let mut machine = match round % 16 {
            0 => noise(&mut rng),
            _ => for_turn(&mut rng, WAYS[round as usize % 2]),
        };
        for way in WAYS {
            level(&mut rng, way, &mut machine);
            one_preview(way, &machine, &mut cover);
        }
    }
    cover.summary(&by_callers("previews of machines for one turn"));
    demand_all(&cover);
}

/// Each kind of damage to a program in its run.
#[test]
fn damaged() {
    let mut rng = Rng::new(72);
    let mut cover = Cover::default();
    for _ in 0..rounds(3_000) {
        for (name, damage, _) in DAMAGES {
            let start = running(&mut rng, 500);
            let mut machine = start.clone();
            damage(&mut rng, &mut machine);
            if machine != start {
                cover.count(name);
            }
            for way in WAYS {
                level(&mut rng, way, &mut machine);
                one_preview(way, &machine, &mut cover);
            }
        }
    }
    cover.summary(&by_callers("previews of damaged machines"));
    cover.demand(&DAMAGES.map(|(name, ..)| name));
    demand_cases(&cover, |_| true);
}

/// With wrong sizes a preview gives 10, the record as given and no change.
#[test]
fn sizes() {
    let mut rng = Rng::new(73);
    let mut cover = Cover::default();
    for _ in 0..rounds(2_000) {
        let good = running(&mut rng, 100);
        for machine in wrong_sizes(&good) {
            for way in WAYS {
                let (shown, _) = one_preview(way, &machine, &mut cover);
                assert_eq!(shown, refused(10, &machine.record));
            }
        }
    }
    cover.summary(&by_callers("previews with wrong sizes"));
    demand_cases(&cover, |case| case.ends_with(" refused"));
}
