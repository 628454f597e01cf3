//! Previews all along runs of turns.

use crank_model::cover::Cover;
use crank_model::generate::for_run;
use crank_model::rng::{rounds, Rng};
use crank_model::state::{Machine, Way, WAYS};

use super::proved::by_callers;
use super::{demand_all, level, one_preview};

/// Shows and makes one turn. Where it is accepted, the preview of its reverse
/// shows the state before it, and the word that it changed as it was.
fn there_and_back(way: Way, machine: &Machine, cover: &mut Cover) -> Option<Machine> {
    let (shown, after) = one_preview(way, machine, cover);
    if shown.refusal != 0 {
        return None;
    }
    let (undoing, before) = one_preview(way.reverse(), &after, cover);
    assert_eq!((undoing.refusal, &before), (0, machine), "{way:?}");
    assert_eq!(
        (undoing.changes, undoing.address),
        (shown.changes, shown.address)
    );
    if shown.changes == 1 {
        assert_eq!(undoing.value, machine.mem[shown.address as usize]);
        cover.count("changed word shown as it was");
    }
    Some(after)
}

/// Runs past refusals too, with changes of direction.
#[test]
fn both_ways() {
    let mut rng = Rng::new(74);
    let mut cover = Cover::default();
    for _ in 0..rounds(1_500) {
        let mut way = rng.pick(&WAYS);
        let mut machine = for_run(&mut rng, way);
        for _ in 0..rng.below(200) {
            level(&mut rng, way, &mut machine);
            let next = there_and_back(way, &machine, &mut cover);
            if next.is_none() || rng.chance(1, 40) {
                way = rng.pick(&WAYS);
            }
            machine = next.unwrap_or(machine);
        }
    }
    cover.summary(&by_callers("previews along runs"));
    demand_all(&cover);
    cover.demand(&["changed word shown as it was"]);
}
