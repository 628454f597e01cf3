//! The check of code and table, whole and of one node: library, lesson bench and
//! model on small cases and against each other, and the two calls against each
//! other.

#[path = "../proved/mod.rs"]
mod proved;

mod links;
mod machines;
mod nodes;
mod papers;
mod sizes;
mod ties;
mod whole;

use crank_model::image::{CheckCall, CheckNodeCall};
use crank_model::state::Machine;
use proved::CHECKS;

/// The whole check and that of one node, by who makes them.
struct Calls {
    name: &'static str,
    check: CheckCall,
    check_node: CheckNodeCall,
}

const fn calls((name, check, check_node): (&'static str, CheckCall, CheckNodeCall)) -> Calls {
    Calls {
        name,
        check,
        check_node,
    }
}

const MODEL: Calls = calls(CHECKS[0]);
const LIBRARY: Calls = calls(CHECKS[1]);
const BENCH: Calls = calls(CHECKS[2]);

/// All callers, and those beside the model.
const CALLS: [Calls; 3] = [MODEL, LIBRARY, BENCH];
const PROVED: [Calls; 2] = [LIBRARY, BENCH];

impl Calls {
    fn whole(&self, m: &Machine) -> (u32, u32) {
        (self.check)(m.record, &m.mem, &m.table)
    }

    fn node(&self, m: &Machine, node: u32) -> u32 {
        (self.check_node)(m.record, node, &m.mem, &m.table)
    }
}

/// The links of a node in the order of its words; the ninth word, w, is none.
const LINKS: [&str; 8] = ["fc0", "fc1", "lc0", "lc1", "cf", "cl", "nx", "pr"];
