//! The proved calls of the crank bench, for Rust: QINS, the instruction set of the quantum register
//! machine, on classical basis states, forward and back.
//!
//! [`calls`] has every call of `include/crank.h`, safe to use and otherwise as it is there: the
//! record by value, memory and table lent as slices, the answer with the refusal's number, 0 for
//! none. Every call takes every argument. [`calls::Bench`] is the lesson bench, which holds the record
//! from call to call; [`Machine`] keeps record, memory and table together. [`meaning`] says a refusal in
//! words. The machine itself is in `docs/MANUAL.md`.
//!
//! A turn forward executes a word, a turn back undoes it, and neither loses anything:
//!
//! ```
//! use crank::{Direction, Machine};
//!
//! // start; xori r1, 5; finish
//! let mut machine = Machine::new(3, vec![0x1A00_0000, 0x0240_0005, 0x1B00_0000], Vec::new());
//! let beginning = machine.clone();
//!
//! // Until finish, which is never executed: refusal 12.
//! let made = machine.turns(Direction::Forward, 100);
//! assert_eq!((made.turns, made.refusal), (2, 12));
//! assert_eq!(machine.record.regs[4], 5);
//!
//! // An image of the state, as a student hands it in.
//! let image = machine.save().expect("its sizes are in order");
//!
//! // The marker loads it and turns it back by its position: the turns forward less those back.
//! let mut marked = Machine::load(&image).expect("it is an image");
//! let undone = marked.turns(Direction::Back, marked.record.position.unsigned_abs());
//! assert_eq!((undone.turns, undone.refusal), (2, 0));
//! assert_eq!(marked, beginning);
//! ```
//!
//! The build needs the static libraries of the proved code; where they are missing it says what to
//! run. The code behind these calls is proved for all arguments; the declarations in this package
//! are not, so tests check the calls: those of `rust/model` compare each with an independent model, by
//! value and on the lesson bench.

pub mod calls;
mod kind;
mod machine;
mod meaning;

pub use kind::Kind;
pub use machine::{Direction, Machine, Made};
pub use meaning::{meaning, Call};

/// The most memory words, M.
pub const MAX_WORDS: usize = 8192;
/// The most nodes of the qif table, N.
pub const MAX_NODES: usize = 511;
/// The words of a node.
pub const NODE_WORDS: usize = 9;
/// The words of a node by name.
pub const NODE_FIELDS: [&str; NODE_WORDS] =
    ["fc0", "fc1", "lc0", "lc1", "cf", "cl", "nx", "pr", "w"];
/// Places in a node: the first child for coin 0, followed by that for coin 1.
pub const FC: usize = 0;
/// The last child for coin 0, followed by that for coin 1.
pub const LC: usize = 2;
/// The next node.
pub const NX: usize = 6;
/// The cycles to wait.
pub const W: usize = 8;
/// The cycles that the programs walk to make a table where they are given no limit: the turns of the
/// crank program.
pub const MAKE_LIMIT: u32 = 1_000_000;
/// The registers by name.
pub const REGISTERS: [&str; 16] = [
    "pc", "br", "ro", "sp", "r1", "r2", "r3", "r4", "r5", "r6", "r7", "r8", "r9", "r10", "r11",
    "r12",
];
/// The place of pc among the registers.
pub const PC: usize = 0;
/// The place of br among the registers.
pub const BR: usize = 1;
/// The most bytes of a file that can be loaded, preface and image.
pub const MAX_FILE: usize = 65_536;
/// The bytes that are enough for any save.
pub const MAX_IMAGE: usize = image_length(MAX_WORDS, MAX_NODES);

/// The bytes of a saved image with so many memory words and nodes.
pub const fn image_length(words: usize, nodes: usize) -> usize {
    4 * words + 4 * NODE_WORDS * nodes + Kind::SAVED.trailer()
}

/// The registers, the place in the qif table, the sizes of the memory and table lent with it, and the
/// position: how far it was turned.
#[repr(C)]
#[derive(Clone, Copy, Debug, Default, PartialEq, Eq, Hash)]
pub struct Record {
    /// In the order of [`REGISTERS`].
    pub regs: [u32; 16],
    /// The current node, 0 for none.
    pub qifv: u32,
    /// Cycles still to wait.
    pub qifw: u32,
    /// K, the code words: addresses 0 to K-1; K to M-1 are data.
    pub k: u32,
    /// M, the memory words.
    pub m: u32,
    /// N, the nodes of the qif table.
    pub n: u32,
    /// One more for each accepted turn forward, one less for each back.
    pub position: i64,
}
