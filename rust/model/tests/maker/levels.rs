//! Memory at each level of qifs in each other: every branch begins with that of its
//! qif, and the two are compared with what they have at their own fiq.

use super::followed::{all_walks, Most};
use super::{machine, Case, FINISH, FIQ, GATE, QIF, START};
use crank_model::instruction::word_i;
use crank_model::maker::walk;
use crank_model::rng::Rng;

/// A nest on r1: each level exchanges r2 with a data word of its own and back, and
/// has the next one between, for one coin alone.
struct Nest {
    levels: u32,
    /// bez (6) if coin 1 has the next level, bnz (7) if coin 0.
    skip: u32,
    /// The level at which this branch alone sets the last data word to 1.
    uneven: Option<u32>,
}

impl Nest {
    fn case(&self) -> Case {
        let more = 2 * u32::from(self.uneven.is_some());
        let k = 3 + 6 * self.levels + more;
        let mut code = vec![GATE];
        for level in (0..self.levels).rev() {
            if self.uneven == Some(level) {
                // addi r4,1 and ld of the word, both of which were 0.
                code.extend([word_i(3, 7, 1), word_i(1, 7, k + self.levels)]);
            }
            let (skip, exchange) = (
                word_i(self.skip, 4, code.len() as u32 + 1),
                word_i(1, 5, k + level),
            );
            code = [&[QIF, exchange, skip], &code[..], &[skip, exchange, FIQ]].concat();
        }
        let code = [&[START], &code[..], &[FINISH]].concat();
        assert_eq!(code.len() as u32, k);
        let mut data: Vec<u32> = (0..self.levels).map(|level| 100 + level).collect();
        data.push(0);
        let mut at_start = machine(&code, &data);
        at_start.record.regs[5] = 99;
        Case::new(at_start, u32::MAX)
    }
}

/// A level has its qif, five words in the branch that goes over the next one and
/// five more in the other. A walk goes over the next one at some level, or at none.
#[test]
fn every_level() {
    let mut rng = Rng::new(149);
    let mut walks = 0;
    for levels in 0..=8 {
        for skip in [6, 7] {
            let uneven = None;
            let case = Nest {
                levels,
                skip,
                uneven,
            }
            .case();
            let left = case.limited(2 + 11 * levels).same();
            let made = (left.made.refusal, left.made.cycles, left.made.record.n);
            assert_eq!(made, (0, 2 + 6 * levels, 1 + 3 * levels));
            case.limited(1 + 11 * levels).refused(23);
            let walked = all_walks(&case, &left, &Most::default(), &mut rng);
            walked.all_of(levels as usize + 1);
            walks += walked.walks;
        }
    }
    println!("levels: 18 programs, {walks} walks");
}

#[test]
fn apart_at_one_level() {
    for level in 0..8 {
        for skip in [6, 7] {
            let case = Nest {
                levels: 8,
                skip,
                uneven: Some(level),
            }
            .case();
            let (end, _) = walk(case.machine.record, u32::MAX, &case.machine.mem);
            let name = end.expect_err("it is refused").name();
            assert_eq!(name, "24 memory at fiq 1");
            case.refused(24);
        }
    }
    println!("levels apart: 16 programs");
}
