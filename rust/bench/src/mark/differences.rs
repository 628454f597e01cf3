//! Where two states differ.

use crank::{Machine, NODE_FIELDS, NODE_WORDS, PC, REGISTERS};
use std::fmt;

/// A place of a state that holds a word, or the position.
#[derive(Clone, Copy, Debug, PartialEq)]
pub enum Place {
    /// K, M or N.
    Size(char),
    /// By its number.
    Register(usize),
    /// The current node, qifv.
    Node,
    /// The cycles still to wait, qifw.
    Wait,
    Position,
    /// By its address.
    Code(usize),
    /// By its address.
    Data(usize),
    /// By its index in the qif table.
    Table(usize),
}

impl fmt::Display for Place {
    fn fmt(&self, f: &mut fmt::Formatter<'_>) -> fmt::Result {
        match *self {
            Place::Size(name) => write!(f, "{name}"),
            Place::Register(number) => f.write_str(REGISTERS[number]),
            Place::Node => f.write_str("node"),
            Place::Wait => f.write_str("wait"),
            Place::Position => f.write_str("position"),
            Place::Code(address) => write!(f, "code word {address}"),
            Place::Data(address) => write!(f, "data word {address}"),
            Place::Table(index) => {
                let (node, field) = (index / NODE_WORDS + 1, NODE_FIELDS[index % NODE_WORDS]);
                write!(f, "node {node} {field}")
            }
        }
    }
}

/// A place with the number that should be there and the one that is; none beyond a state's size. A
/// word is a number that is not negative.
#[derive(Clone, Copy, Debug, PartialEq)]
pub struct Difference {
    pub place: Place,
    pub expected: Option<i64>,
    pub found: Option<i64>,
}

/// Every place where the states differ: sizes, registers, node, wait and position, memory, table.
pub fn differences(expected: &Machine, found: &Machine) -> Vec<Difference> {
    let (e, f) = (&expected.record, &found.record);
    let mut list = Vec::new();
    let size = |i| Place::Size(['K', 'M', 'N'][i]);
    compare(&mut list, size, &[e.k, e.m, e.n], &[f.k, f.m, f.n]);
    compare(&mut list, Place::Register, &e.regs, &f.regs);
    compare(&mut list, |_| Place::Node, &[e.qifv], &[f.qifv]);
    compare(&mut list, |_| Place::Wait, &[e.qifw], &[f.qifw]);
    compare(&mut list, |_| Place::Position, &[e.position], &[f.position]);
    let memory = |address| memory_place(expected, found, address);
    compare(&mut list, memory, &expected.mem, &found.mem);
    compare(&mut list, Place::Table, &expected.table, &found.table);
    list
}

/// Code or data by the expected sizes; beyond these, by the found ones.
fn memory_place(expected: &Machine, found: &Machine, address: usize) -> Place {
    let of = if address < expected.mem.len() {
        expected
    } else {
        found
    };
    if address < of.record.k as usize {
        Place::Code(address)
    } else {
        Place::Data(address)
    }
}

fn compare<T: Copy + Into<i64>>(
    list: &mut Vec<Difference>,
    place: impl Fn(usize) -> Place,
    expected: &[T],
    found: &[T],
) {
    let number = |list: &[T], index: usize| list.get(index).map(|number| (*number).into());
    for index in 0..expected.len().max(found.len()) {
        let (expected, found) = (number(expected, index), number(found, index));
        if expected != found {
            let place = place(index);
            list.push(Difference {
                place,
                expected,
                found,
            });
        }
    }
}

/// What a run from start to finish left changed: registers but pc, which it must move, and data.
pub fn left_changed(start: &Machine, finish: &Machine) -> Vec<Difference> {
    let mut list = differences(start, finish);
    list.retain(|d| match d.place {
        Place::Register(number) => number != PC,
        Place::Data(_) => true,
        _ => false,
    });
    list
}

/// The registers, node, wait and data words that are not 0, as differences from 0.
pub fn not_zero(machine: &Machine) -> Vec<Difference> {
    let zeros = Machine::new(
        machine.record.k,
        vec![0; machine.mem.len()],
        vec![0; machine.table.len()],
    );
    let mut list = differences(&zeros, machine);
    let left_out = |place| matches!(place, Place::Position | Place::Code(_) | Place::Table(_));
    list.retain(|d| !left_out(d.place));
    list
}
