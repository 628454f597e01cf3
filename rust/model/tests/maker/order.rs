//! Several reasons to refuse at one word: a turn's own, then 23, and 24 last.

use super::{bnz, machine, Case, FINISH, FIQ, FIQ2, GATE, NONE, QIF, QIF2, START};
use crank_model::machine::NODE;

/// The code, and for each limit from 0 on what it gives; the last is for all others.
type Row = (&'static [u32], &'static [u32]);

#[rustfmt::skip] // one program a line
const ROWS: [Row; 17] = [
    // At start: 18, 23.
    (&[START, START, FINISH], &[18]),
    (&[START, FINISH], &[23, 0]),
    // At a word: its own refusal, 23.
    (&[START, NONE, FINISH], &[23, 13]),
    (&[START, GATE, START], &[23, 18]),
    // Outside: 17, 18, 23.
    (&[START, FIQ, START], &[23, 17]),
    // At a qif: 18, 23.
    (&[START, QIF, START], &[23, 18]),
    (&[START, QIF, FINISH], &[23, 23, 12]),
    // At the fiq of branch 0: 18, 23, 24 for the name, or for the coin by xori r1,1.
    (&[START, QIF, FIQ2, START], &[23, 23, 18]),
    (&[START, QIF, FIQ2, FINISH], &[23, 23, 23, 24]),
    (&[START, QIF, 0x0240_0001, FIQ, START], &[23, 23, 23, 18]),
    (&[START, QIF, 0x0240_0001, FIQ, FINISH], &[23, 23, 23, 23, 24]),
    // And before anything of branch 1, which would be refused by 13.
    (&[START, QIF, bnz(3), FIQ2, START, NONE], &[23, 23, 23, 18]),
    (&[START, QIF, bnz(3), FIQ2, GATE, NONE], &[23, 23, 23, 23, 24]),
    // At the fiq of branch 1, to which br 3 leads: 18, 23, 24 for the name, and for
    // pc and br.
    (&[START, QIF, bnz(3), FIQ, FINISH, FIQ2, GATE, GATE, START], &[23, 23, 23, 23, 23, 18]),
    (&[START, QIF, bnz(3), FIQ, FINISH, FIQ2, GATE, GATE, GATE], &[23, 23, 23, 23, 23, 23, 24]),
    (&[START, QIF, bnz(3), FIQ, FINISH, FIQ, GATE, GATE, START], &[23, 23, 23, 23, 23, 18]),
    // Both branches of the inner qif are alike; its fiq is not that of the outer.
    (&[START, QIF, QIF2, FIQ2, FIQ2, FINISH], &[23, 23, 23, 23, 23, 23, 24]),
];

#[test]
fn at_one_word() {
    let mut answers = 0;
    for (code, refusals) in ROWS {
        let case = Case::new(machine(code, &[]), 0);
        let last = refusals[refusals.len() - 1];
        for limit in (0..20).chain([u32::MAX]) {
            let refusal = refusals.get(limit as usize).unwrap_or(&last);
            let limited = case.limited(limit);
            match refusal {
                0 => limited.gives(1, &[[0; NODE]]).all_of(1),
                _ => limited.refused(*refusal),
            }
            answers += 1;
        }
    }
    println!("order: {answers} answers");
    assert_eq!(answers, ROWS.len() * 21);
}
