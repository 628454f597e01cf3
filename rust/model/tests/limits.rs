//! Sizes at and past their limits, with lent slices exact, short and long:
//! turns, previews, save, and the check, whole and of one node.

mod proved;

use crank_model::cover::Cover;
use crank_model::image::{self, SAVED};
use crank_model::instruction::{word_i, word_r};
use crank_model::machine::{Record, CF, FC, NODE};
use crank_model::state::{Machine, Turn, WAYS};
use proved::{by_callers, AS_SHOWN, CHECKS, IMAGES, PREVIEWS};

const R1: usize = 4;
const R2: usize = 5;

/// Code of one repeated word, with pc at the last code word or behind it.
fn machine_of(sizes: [u32; 3], lent: [usize; 2], word: u32, pc: u32) -> Machine {
    let [m, k, n] = sizes;
    let mut record = Record {
        k,
        m,
        n,
        ..Record::default()
    };
    record.regs[0] = pc;
    Machine {
        record,
        mem: vec![word; lent[0]],
        table: vec![0; lent[1]],
    }
}

/// Links node 1 to the last node by fc0 and cf, if the table has both.
fn link_last(machine: &mut Machine) {
    let n = machine.record.n as usize;
    if n >= 2 && machine.table.len() >= NODE * n {
        machine.table[FC] = n as u32;
        machine.table[NODE * (n - 1) + CF] = 1;
    }
}

/// Every machine of the test.
fn each(mut visit: impl FnMut(Machine)) {
    for m in [0u32, 1, 2, 8191, 8192, 8193, u32::MAX] {
        for k in [0, 1, m.wrapping_sub(1), m, m.wrapping_add(1)] {
            for n in [0u32, 2, 510, 511, 512, u32::MAX] {
                let table = NODE * n.min(512) as usize;
                for (less_mem, less_table) in [(0, 0), (1, 0), (0, 1)] {
                    let mem_len = (m.min(8193) as usize).saturating_sub(less_mem);
                    let lent = [mem_len, table.saturating_sub(less_table)];
                    visit_words([m, k, n], lent, &mut visit);
                }
            }
        }
    }
}

fn visit_words(sizes: [u32; 3], lent: [usize; 2], visit: &mut impl FnMut(Machine)) {
    let [m, k, n] = sizes;
    for pc in [k.wrapping_sub(1), k] {
        let last_data = word_i(1, R1, m.wrapping_sub(1));
        for word in [word_i(2, R1, 5), last_data] {
            visit(machine_of(sizes, lent, word, pc));
        }
        // A copy of the last word, and of one behind it.
        for address in [m.wrapping_sub(1), m] {
            let mut machine = machine_of(sizes, lent, word_r(17, R1, R2), pc);
            machine.record.regs[R2] = address;
            visit(machine);
        }
        // At both ends of the position, too.
        for position in WAYS.map(|way| way.last_position()) {
            let mut machine = machine_of(sizes, lent, word_i(2, R1, 5), pc);
            machine.record.position = position;
            visit(machine);
        }
        // A qif to the last node, and the undoing of it.
        for node in [1, n] {
            let mut machine = machine_of(sizes, lent, word_r(24, R1, 0), pc);
            link_last(&mut machine);
            machine.record.qifv = node;
            visit(machine);
        }
    }
}

/// The nodes at the limits of those that there are.
fn asked(n: u32) -> [u32; 4] {
    [0, 1, n, n.wrapping_add(1)]
}

/// Refusals seen over all machines, forward and back.
fn seen(turns: [Turn; 2]) -> [[u32; 22]; 2] {
    let mut seen = [[0; 22]; 2];
    each(|start| {
        for way in WAYS {
            let mut machine = start.clone();
            let refusal = machine.turn(turns[way as usize]);
            seen[way as usize][refusal as usize] += 1;
            if refusal == 0 {
                let undone = machine.turn(turns[way.reverse() as usize]);
                assert_eq!(undone, 0);
            }
            assert!(machine == start, "{way:?} {refusal} {:?}", start.record);
        }
    });
    seen
}

#[test]
fn model() {
    let seen = seen(WAYS.map(|way| way.model()));
    for way in seen {
        let numbers = [0, 10, 11, 15, 17, 21];
        assert!(numbers.iter().all(|number| way[*number] > 0));
    }
    let (mut good, mut bad) = (0, 0);
    each(|machine| {
        let r = machine.record;
        let (refusal, _) = image::check(r, &machine.mem, &machine.table);
        let in_range = r.m >= 1 && r.m <= 8192 && r.k >= 1 && r.k <= r.m && r.n <= 511;
        let lent = machine.mem.len() >= r.m as usize && machine.table.len() >= 9 * r.n as usize;
        assert_eq!(refusal == 10, !(in_range && lent), "{r:?}");
        for node in asked(r.n) {
            let expected = match node {
                _ if !(in_range && lent) => 10,
                _ if node == 0 || node > r.n => 17,
                _ => 0,
            };
            let found = image::check_node(r, node, &machine.mem, &machine.table);
            assert_eq!(found, expected, "{node} of {r:?}");
        }
        good += u32::from(refusal != 10);
        bad += u32::from(refusal == 10);
    });
    assert!(good > 0 && bad > 0);
    println!("limits: sizes fit {good}, not {bad}");
}

#[test]
fn turns() {
    use crank_model::compare::same_turn;
    let turns: [Turn; 2] = [proved::forward, proved::back];
    let mut cover = Cover::default();
    each(|start| {
        for way in WAYS {
            let mut machine = start.clone();
            let refusal = same_turn(way, &mut machine, turns[way as usize], &mut cover);
            if start.mem.first() == Some(&word_r(17, R1, R2)) {
                cover.count(&format!("{way:?} fetr {refusal}"));
            }
        }
    });
    cover.summary("limits");
    for way in WAYS {
        for refusal in [0, 10, 11, 15] {
            cover.demand(&[&format!("{way:?} fetr {refusal}")]);
        }
    }
    assert_eq!(seen(turns), seen(WAYS.map(|way| way.model())));
}

#[test]
fn previews() {
    use crank_model::compare::same_preview;
    let model = WAYS.map(|way| way.model());
    for ((_, calls), (name, turns)) in PREVIEWS.into_iter().skip(1).zip(AS_SHOWN) {
        let mut changes = [0; 2];
        each(|start| {
            for way in WAYS {
                let shown = same_preview(way, &start, calls[way as usize]);
                changes[way as usize] += shown.changes;
            }
        });
        assert_eq!(seen(turns), seen(model), "{name}");
        assert!(changes.iter().all(|count| *count > 0), "{name}");
        println!("limits: {name} with a changed word, forward and back {changes:?}");
    }
}

/// The checks of a machine, whole and of its nodes, by every caller.
fn same_checks(m: &Machine, cover: &mut Cover) {
    let expected = image::check(m.record, &m.mem, &m.table);
    for (name, check, _) in &CHECKS[1..] {
        let found = check(m.record, &m.mem, &m.table);
        assert_eq!(found, expected, "{name}: {:?}", m.record);
    }
    for node in asked(m.record.n) {
        let expected = image::check_node(m.record, node, &m.mem, &m.table);
        for (name, _, check_node) in &CHECKS[1..] {
            let found = check_node(m.record, node, &m.mem, &m.table);
            assert_eq!(found, expected, "{name}: {node} of {:?}", m.record);
        }
        cover.count(&format!("answer {expected}"));
    }
}

/// Saves into as many bytes as are needed and into one fewer, by every caller.
fn same_saves(m: &Machine, cover: &mut Cover) {
    let fits = SAVED.back_length(m.record.m, m.record.n).min(52_000) as usize;
    for len in [fits, fits - 1] {
        let mut model_out = vec![7; len];
        let expected = image::save(m.record, &m.mem, &m.table, &mut model_out);
        for (name, _, save) in &IMAGES[1..] {
            let mut out = vec![7; len];
            let found = save(m.record, &m.mem, &m.table, &mut out);
            assert_eq!(found, expected, "{name}: {:?}", m.record);
            assert!(out == model_out, "{name}: {:?}", m.record);
        }
        cover.count(&format!("save {expected}"));
    }
}

#[test]
fn check_and_save() {
    let mut cover = Cover::default();
    each(|m| {
        same_checks(&m, &mut cover);
        same_saves(&m, &mut cover);
    });
    cover.summary(&by_callers("limits, check of one node and save"));
    cover.demand(&["answer 0", "answer 10", "answer 17"]);
    cover.demand(&["save 0", "save 9", "save 10"]);
}
