//! Document 003's multiplexor, its Figure 18, with one, two and three coins. The
//! cycles are counted by hand along the lines of the figure:
//!
//! - the program without Pmain 26, Pmain without P 72;
//! - P(k, x) with k not 0, without what the branches call: 199 outside the branches,
//!   the qif among them, and in each branch 59, the fiq among them;
//! - P(0, x) with Q[x] 106, and 5 for each of its gates.

use super::Case;
use crank_model::machine::NODE;
use crank_model::multiplexor::multiplexor;

/// The gates of each Q[x], the cycles that the limit counts, those of each walk,
/// and the nodes.
type Worked = (&'static [u32], u32, u32, &'static [[u32; NODE]]);

#[rustfmt::skip] // one node a line
const PROGRAMS: [Worked; 4] = [
    // 98 + 317 + 106 + 111, and 98 + 258 + 111.
    (&[0, 1], 632, 467, &[
        [2, 3, 2, 3, 0, 0, 4, 0, 0],
        [0, 0, 0, 0, 1, 1, 0, 0, 5],
        [0, 0, 0, 0, 1, 1, 0, 0, 0],
        [0, 0, 0, 0, 0, 0, 0, 1, 0],
    ]),
    // The exercise mux: 98 + 3 * 317 + 4 * 106 + 4 * 5, and 98 + 2 * 258 + 116, which
    // is 6 less than there, where six words more show the result.
    (&[0, 1, 1, 2], 1_493, 730, &[
        [2, 3, 6, 9, 0, 0, 10, 0, 0],
        [4, 5, 4, 5, 1, 0, 6, 0, 5],
        [7, 8, 7, 8, 1, 0, 9, 0, 0],
        [0, 0, 0, 0, 2, 2, 0, 0, 5],
        [0, 0, 0, 0, 2, 2, 0, 0, 0],
        [0, 0, 0, 0, 0, 1, 0, 2, 0],
        [0, 0, 0, 0, 3, 3, 0, 0, 5],
        [0, 0, 0, 0, 3, 3, 0, 0, 0],
        [0, 0, 0, 0, 0, 1, 0, 3, 0],
        [0, 0, 0, 0, 0, 0, 0, 1, 0],
    ]),
    // Figure 19. 98 + 7 * 317 + 8 * 106 + 12 * 5, and 98 + 3 * 258 + 121.
    (&[0, 1, 1, 2, 1, 2, 2, 3], 3_225, 993, &[
        [2, 3, 12, 21, 0, 0, 22, 0, 0],
        [4, 5, 8, 11, 1, 0, 12, 0, 5],
        [13, 14, 17, 20, 1, 0, 21, 0, 0],
        [6, 7, 6, 7, 2, 0, 8, 0, 5],
        [9, 10, 9, 10, 2, 0, 11, 0, 0],
        [0, 0, 0, 0, 4, 4, 0, 0, 5],
        [0, 0, 0, 0, 4, 4, 0, 0, 0],
        [0, 0, 0, 0, 0, 2, 0, 4, 0],
        [0, 0, 0, 0, 5, 5, 0, 0, 5],
        [0, 0, 0, 0, 5, 5, 0, 0, 0],
        [0, 0, 0, 0, 0, 2, 0, 5, 0],
        [0, 0, 0, 0, 0, 1, 0, 2, 0],
        [15, 16, 15, 16, 3, 0, 17, 0, 5],
        [18, 19, 18, 19, 3, 0, 20, 0, 0],
        [0, 0, 0, 0, 13, 13, 0, 0, 5],
        [0, 0, 0, 0, 13, 13, 0, 0, 0],
        [0, 0, 0, 0, 0, 3, 0, 13, 0],
        [0, 0, 0, 0, 14, 14, 0, 0, 5],
        [0, 0, 0, 0, 14, 14, 0, 0, 0],
        [0, 0, 0, 0, 0, 3, 0, 14, 0],
        [0, 0, 0, 0, 0, 1, 0, 3, 0],
        [0, 0, 0, 0, 0, 0, 0, 1, 0],
    ]),
    // Gates 7, 0, 2, 2: branch 0 takes 35, with waits, and branch 1 10. The limit
    // counts 98 + 3 * 317 + 4 * 106 + 11 * 5, a walk takes 98 + 2 * 258 + 106 + 35.
    (&[7, 0, 2, 2], 1_528, 755, &[
        [2, 3, 6, 9, 0, 0, 10, 0, 0],
        [4, 5, 4, 5, 1, 0, 6, 0, 0],
        [7, 8, 7, 8, 1, 0, 9, 0, 25],
        [0, 0, 0, 0, 2, 2, 0, 0, 0],
        [0, 0, 0, 0, 2, 2, 0, 0, 35],
        [0, 0, 0, 0, 0, 1, 0, 2, 0],
        [0, 0, 0, 0, 3, 3, 0, 0, 0],
        [0, 0, 0, 0, 3, 3, 0, 0, 0],
        [0, 0, 0, 0, 0, 1, 0, 3, 0],
        [0, 0, 0, 0, 0, 0, 0, 1, 0],
    ]),
];

/// q[0] to q[n], whatever they hold.
const COINS: [[u32; 4]; 3] = [[0; 4], [1, 0, 1, 1], [7, u32::MAX, 2, 0x8000_0000]];

fn case(gates: &[u32], coins: &[u32; 4]) -> Case {
    let n = gates.len().trailing_zeros() as usize;
    Case::new(multiplexor(gates, &coins[..=n]), u32::MAX)
}

/// As many walks as there are Q[x], all of these cycles.
#[test]
fn by_hand() {
    for (gates, walked, cycles, nodes) in PROGRAMS {
        for coins in COINS {
            let case = case(gates, &coins);
            for limit in [walked, walked + 1, u32::MAX] {
                case.limited(limit).gives(cycles, nodes).all_of(gates.len());
            }
            for limit in [0, 1, 98, cycles, walked - 1] {
                case.limited(limit).refused(23);
            }
        }
        println!("multiplexor {gates:?}: {walked} walked, {cycles} cycles");
    }
}
