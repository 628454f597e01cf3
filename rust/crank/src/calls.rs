//! The calls of `include/crank.h`: those of the lesson bench are methods of [`Bench`], the others are
//! functions.
//!
//! A slice is lent by its own pointer and length for the duration of the call, and no call keeps one.
//! Every bit pattern is a value of the structs that come back.

use crate::Record;
use std::mem::offset_of;

mod bench;

pub use bench::{Bench, Cranked, Sampled, Tabled};

/// What a turn answers.
#[repr(C)]
#[derive(Clone, Copy, Debug, PartialEq, Eq)]
pub struct Turned {
    /// The record after the turn; refused, the record given.
    pub state: Record,
    pub refusal: u32,
}

/// What a preview answers: what the turn would do.
#[repr(C)]
#[derive(Clone, Copy, Debug, PartialEq, Eq)]
pub struct Preview {
    /// The turn's refusal.
    pub refusal: u32,
    /// 1 where the turn would change a memory word, else 0.
    pub changes: u32,
    /// The address of that word; 0 where none would change.
    pub address: u32,
    /// Its new value, which is not the present one; 0 where none would change.
    pub value: u32,
    /// The record after the turn; refused, the record given.
    pub state: Record,
}

/// What a batch answers.
#[repr(C)]
#[derive(Clone, Copy, Debug, PartialEq, Eq)]
pub struct Batch {
    /// The turns made.
    pub turns: u32,
    /// The refusal of the next turn where fewer were made than asked for, else 0.
    pub refusal: u32,
    /// The record after these turns.
    pub state: Record,
}

/// What encoder samples come to.
#[repr(C)]
#[derive(Clone, Copy, Debug, PartialEq, Eq)]
pub struct Wheeled {
    /// The turns accepted forward.
    pub forward: u64,
    /// The turns accepted back.
    pub back: u64,
    /// The turns that the machine refused.
    pub refused: u64,
    /// The last sample before a 19 or 20; the given one if there is none.
    pub last: u32,
    /// 19 or 20, or 0 where all samples were taken.
    pub refusal: u32,
    /// The record after the accepted turns, with a refusal too.
    pub state: Record,
}

/// What a load answers.
#[repr(C)]
#[derive(Clone, Copy, Debug, PartialEq, Eq)]
pub struct Loaded {
    pub refusal: u32,
    /// Refused, all zeros.
    pub state: Record,
}

/// What a check answers.
#[repr(C)]
#[derive(Clone, Copy, Debug, PartialEq, Eq)]
pub struct Checked {
    pub refusal: u32,
    /// 7: the code address; 8: the node; else 0.
    pub place: u32,
}

/// What the making of a qif table answers.
#[repr(C)]
#[derive(Clone, Copy, Debug, PartialEq, Eq)]
pub struct Made {
    pub refusal: u32,
    /// The cycles of a walk over the table from start to finish, with its waits; the same for every
    /// choice of coins. Refused, 0.
    pub cycles: u32,
    /// The record given, with the new N and at node 1; refused, the record given.
    pub state: Record,
}

// As the header has them.
const _: () = assert!(size_of::<Record>() == 96 && offset_of!(Record, position) == 88);
const _: () = assert!(size_of::<Turned>() == 104 && offset_of!(Turned, refusal) == 96);
const _: () = assert!(size_of::<Loaded>() == 104 && offset_of!(Loaded, state) == 8);
const _: () = assert!(size_of::<Preview>() == 112);
const _: () = assert!(size_of::<Batch>() == 104);
const _: () = assert!(size_of::<Checked>() == 8);
const _: () = assert!(size_of::<Made>() == 104 && offset_of!(Made, state) == 8);
const _: () = assert!(size_of::<Wheeled>() == 128);

extern "C" {
    fn qins_is_instruction(word: u32) -> u32;
    fn crank_forward(
        r: Record,
        mem: *mut u32,
        mem_len: usize,
        table: *const u32,
        table_len: usize,
    ) -> Turned;
    fn crank_back(
        r: Record,
        mem: *mut u32,
        mem_len: usize,
        table: *const u32,
        table_len: usize,
    ) -> Turned;
    fn crank_preview_forward(
        r: Record,
        mem: *const u32,
        mem_len: usize,
        table: *const u32,
        table_len: usize,
    ) -> Preview;
    fn crank_preview_back(
        r: Record,
        mem: *const u32,
        mem_len: usize,
        table: *const u32,
        table_len: usize,
    ) -> Preview;
    fn crank_forward_batch(
        r: Record,
        n: u32,
        mem: *mut u32,
        mem_len: usize,
        table: *const u32,
        table_len: usize,
    ) -> Batch;
    fn crank_back_batch(
        r: Record,
        n: u32,
        mem: *mut u32,
        mem_len: usize,
        table: *const u32,
        table_len: usize,
    ) -> Batch;
    fn crank_samples(
        r: Record,
        given: u8,
        samples: *const u8,
        samples_len: usize,
        mem: *mut u32,
        mem_len: usize,
        table: *const u32,
        table_len: usize,
    ) -> Wheeled;
    fn crank_load(
        file: *const u8,
        file_len: usize,
        mem: *mut u32,
        mem_len: usize,
        table: *mut u32,
        table_len: usize,
    ) -> Loaded;
    fn crank_preface_length(file: *const u8, file_len: usize) -> usize;
    fn crank_save(
        r: Record,
        mem: *const u32,
        mem_len: usize,
        table: *const u32,
        table_len: usize,
        out: *mut u8,
        out_len: usize,
    ) -> u32;
    fn crank_check(
        r: Record,
        mem: *const u32,
        mem_len: usize,
        table: *const u32,
        table_len: usize,
    ) -> Checked;
    fn crank_check_node(
        r: Record,
        node: u32,
        mem: *const u32,
        mem_len: usize,
        table: *const u32,
        table_len: usize,
    ) -> u32;
    fn crank_make_table(
        r: Record,
        limit: u32,
        mem: *mut u32,
        mem_len: usize,
        table: *mut u32,
        table_len: usize,
        scratch: *mut u32,
        scratch_len: usize,
    ) -> Made;
}

/// Whether the word is an instruction.
pub fn is_instruction(word: u32) -> bool {
    // SAFETY: takes and returns plain words.
    unsafe { qins_is_instruction(word) == 1 }
}

/// One turn forward: executes the word at pc, or waits there. Refusals 10 to 18 and 21.
pub fn forward(r: Record, mem: &mut [u32], table: &[u32]) -> Turned {
    // SAFETY: pointers and lengths come from live slices.
    unsafe { crank_forward(r, mem.as_mut_ptr(), mem.len(), table.as_ptr(), table.len()) }
}

/// One turn back: undoes the forward turn that leads here. It is refused exactly where there is none,
/// as at the smallest position.
pub fn back(r: Record, mem: &mut [u32], table: &[u32]) -> Turned {
    // SAFETY: pointers and lengths come from live slices.
    unsafe { crank_back(r, mem.as_mut_ptr(), mem.len(), table.as_ptr(), table.len()) }
}

/// The turn forward, shown and not made: what [`forward`] would answer, and the memory word that it
/// would change, if any. A word exchanged with an equal one does not change.
pub fn preview_forward(r: Record, mem: &[u32], table: &[u32]) -> Preview {
    // SAFETY: pointers and lengths come from live slices.
    unsafe { crank_preview_forward(r, mem.as_ptr(), mem.len(), table.as_ptr(), table.len()) }
}

/// The turn back, likewise.
pub fn preview_back(r: Record, mem: &[u32], table: &[u32]) -> Preview {
    // SAFETY: pointers and lengths come from live slices.
    unsafe { crank_preview_back(r, mem.as_ptr(), mem.len(), table.as_ptr(), table.len()) }
}

/// `n` turns forward, or those before the first refusal, which is then in the answer.
pub fn forward_batch(r: Record, n: u32, mem: &mut [u32], table: &[u32]) -> Batch {
    // SAFETY: pointers and lengths come from live slices.
    unsafe {
        crank_forward_batch(
            r,
            n,
            mem.as_mut_ptr(),
            mem.len(),
            table.as_ptr(),
            table.len(),
        )
    }
}

/// `n` turns back, likewise.
pub fn back_batch(r: Record, n: u32, mem: &mut [u32], table: &[u32]) -> Batch {
    // SAFETY: pointers and lengths come from live slices.
    unsafe {
        crank_back_batch(
            r,
            n,
            mem.as_mut_ptr(),
            mem.len(),
            table.as_ptr(),
            table.len(),
        )
    }
}

/// Turns as encoder samples say, `given` being the one before them. Each is 0 to 3, in the forward
/// cycle 0, 1, 3, 2: an equal sample turns nothing, a step along the cycle turns forward, one
/// against it back. A turn that the machine refuses is counted, and the samples go on. They end
/// with refusal 20 where `given` or a sample is above 3, and with 19 where a sample is two steps from
/// the one before; the turns made until then stand.
pub fn samples(r: Record, given: u8, samples: &[u8], mem: &mut [u32], table: &[u32]) -> Wheeled {
    // SAFETY: pointers and lengths come from live slices.
    unsafe {
        crank_samples(
            r,
            given,
            samples.as_ptr(),
            samples.len(),
            mem.as_mut_ptr(),
            mem.len(),
            table.as_ptr(),
            table.len(),
        )
    }
}

/// Reads the image at the end of the file, of either kind; without a position in it, that is 0. Fills
/// the first M words of `mem` and the first 9N of `table`, and no more. Refusals 1 to 6; refused,
/// nothing is written.
pub fn load(file: &[u8], mem: &mut [u32], table: &mut [u32]) -> Loaded {
    // SAFETY: pointers and lengths come from live slices.
    unsafe {
        crank_load(
            file.as_ptr(),
            file.len(),
            mem.as_mut_ptr(),
            mem.len(),
            table.as_mut_ptr(),
            table.len(),
        )
    }
}

/// The bytes before the image; none where [`load`] would refuse by 1 to 5.
pub fn preface(file: &[u8]) -> &[u8] {
    // SAFETY: pointer and length come from a live slice.
    &file[..unsafe { crank_preface_length(file.as_ptr(), file.len()) }]
}

/// Writes the image, with the position and without a preface, to the front of `out`. Gives the
/// refusal, 10 or 9; refused, nothing is written.
pub fn save(r: Record, mem: &[u32], table: &[u32], out: &mut [u8]) -> u32 {
    // SAFETY: pointers and lengths come from live slices.
    unsafe {
        crank_save(
            r,
            mem.as_ptr(),
            mem.len(),
            table.as_ptr(),
            table.len(),
            out.as_mut_ptr(),
            out.len(),
        )
    }
}

/// Checks the code words and the links of the table. Refusals 10, 7 and 8.
pub fn check(r: Record, mem: &[u32], table: &[u32]) -> Checked {
    // SAFETY: pointers and lengths come from live slices.
    unsafe { crank_check(r, mem.as_ptr(), mem.len(), table.as_ptr(), table.len()) }
}

/// Checks the links of one node, whatever the code words are. Gives the refusal: 10, 17 or 8.
pub fn check_node(r: Record, node: u32, mem: &[u32], table: &[u32]) -> u32 {
    // SAFETY: pointers and lengths come from live slices.
    unsafe {
        crank_check_node(
            r,
            node,
            mem.as_ptr(),
            mem.len(),
            table.as_ptr(),
            table.len(),
        )
    }
}

/// Makes the qif table of the code: walks it from start to finish through both branches of every qif,
/// with uni and unib idle, in at most `limit` cycles, and writes the table to the first 4,599 words of
/// `table`, with zeros after its nodes. `mem` ends as it began. `scratch` has 16M words or more, which
/// may then hold anything. Refusals: 10 and 22, after which nothing is written; those of a turn, 23 and
/// 24, after which the 4,599 words are zeros.
pub fn make_table(
    r: Record,
    limit: u32,
    mem: &mut [u32],
    table: &mut [u32],
    scratch: &mut [u32],
) -> Made {
    // SAFETY: pointers and lengths come from live slices.
    unsafe {
        crank_make_table(
            r,
            limit,
            mem.as_mut_ptr(),
            mem.len(),
            table.as_mut_ptr(),
            table.len(),
            scratch.as_mut_ptr(),
            scratch.len(),
        )
    }
}
