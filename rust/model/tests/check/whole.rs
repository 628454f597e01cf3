//! The whole check: each caller on small cases, and library and lesson bench
//! against the model.

use crank_model::cover::Cover;
use crank_model::machine::{FC, NODE, W};
use crank_model::rng::{rounds, Rng};
use crank_model::state::Machine;

use super::machines::{any, every_link, sound};
use super::proved::by_callers;
use super::{Calls, CALLS, LINKS, MODEL, PROVED};

/// Damages one link of one node; nothing before it may be blamed but nodes
/// whose own links it unpairs.
fn one_link(calls: &Calls, rng: &mut Rng) {
    let start = sound(rng);
    assert_eq!(calls.whole(&start), (0, 0));
    let n = start.record.n;
    let node = rng.between(1, n);
    let at = NODE * (node as usize - 1);
    for field in 0..LINKS.len() {
        for value in [n + 1, u32::MAX] {
            let mut m = start.clone();
            m.table[at + field] = value;
            let (refusal, place) = calls.whole(&m);
            assert_eq!(refusal, 8);
            assert!(place >= 1 && place <= node);
        }
    }
    // The wait count is no link.
    let mut m = start.clone();
    m.table[at + W] = u32::MAX;
    assert_eq!(calls.whole(&m), (0, 0));
    // The lowest code address is named, and before any node.
    let address = rng.below(m.record.k);
    m.mem[address as usize] = 0;
    m.table[FC] = n + 1;
    assert_eq!(calls.whole(&m), (7, address));
    m.record.k = 0;
    assert_eq!(calls.whole(&m), (10, 0));
}

#[test]
fn small_cases() {
    for (calls, seed) in CALLS.into_iter().zip(152..) {
        let mut rng = Rng::new(seed);
        for _ in 0..500 {
            one_link(&calls, &mut rng);
        }
    }
    println!("one link: 500 machines, {} callers", CALLS.len());
}

fn compare(m: &Machine, cover: &mut Cover) {
    let expected = MODEL.whole(m);
    for calls in &PROVED {
        assert_eq!(calls.whole(m), expected, "{}: {m:?}", calls.name);
    }
    match expected {
        (0, _) => cover.count("check 0"),
        (7, 0) => cover.count("check 7 at 0"),
        (7, _) => cover.count("check 7 later"),
        (8, 1) => cover.count("check 8 at 1"),
        (8, _) => cover.count("check 8 later"),
        _ => cover.count("check 10"),
    }
}

#[test]
fn random_machines() {
    let mut rng = Rng::new(73);
    let mut cover = Cover::default();
    for _ in 0..rounds(60_000) {
        compare(&any(&mut rng), &mut cover);
    }
    cover.summary(&by_callers("check"));
    cover.demand(&[
        "check 0",
        "check 7 at 0",
        "check 7 later",
        "check 8 at 1",
        "check 8 later",
        "check 10",
    ]);
}

#[test]
fn changed_links() {
    let mut cover = Cover::default();
    every_link(74, 40, |m, _, _| compare(m, &mut cover));
    cover.summary(&by_callers("every link"));
    cover.demand(&["check 0", "check 8 at 1", "check 8 later"]);
}
