//! Runs by single turns by value.

use crank::{calls, Direction, Machine};

/// Every state of a run, the first one too, and the refusal that ends it.
pub fn run(machine: &Machine, direction: Direction) -> (Vec<Machine>, u32) {
    let mut states = vec![machine.clone()];
    loop {
        let mut next = states.last().expect("a state").clone();
        let call = match direction {
            Direction::Forward => calls::forward,
            Direction::Back => calls::back,
        };
        let turned = call(next.record, &mut next.mem, &next.table);
        if turned.refusal != 0 {
            return (states, turned.refusal);
        }
        next.record = turned.state;
        states.push(next);
        assert!(states.len() < 100_000, "it does not end");
    }
}
