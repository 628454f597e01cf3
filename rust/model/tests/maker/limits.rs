//! Every limit, with programs of every nesting: those below the cycles walked are
//! refused by 23, all others give the same table, which is walked over.

use super::followed::{all_walks, Most};
use super::Case;
use crank_model::forks::{program, Plan};
use crank_model::maker::walk;
use crank_model::rng::{rounds, Rng};

#[test]
fn all_of_them() {
    let mut rng = Rng::new(142);
    let (mut programs, mut limits) = (0, 0);
    for round in 0..rounds(40) {
        let plan = Plan {
            nesting: round % 9,
            parts: 6,
            rounds: 2,
        };
        let machine = program(&mut rng, plan);
        let (end, walk) = walk(machine.record, 600, &machine.mem);
        if end.is_err() {
            continue;
        }
        programs += 1;
        let case = Case::new(machine, u32::MAX);
        let left = case.same();
        all_walks(&case, &left, &Most::FEW, &mut rng);
        for limit in 0..walk.walked + 2 {
            limits += 1;
            let limited = case.limited(limit);
            if limit < walk.walked {
                limited.refused(23);
                continue;
            }
            let found = limited.same();
            assert_eq!(found.made, left.made, "limit {limit}");
            assert_eq!(found.machine, left.machine, "limit {limit}");
        }
    }
    println!("limits: {limits} of {programs} programs");
    assert!(programs >= rounds(30), "only {programs} programs");
}
