//! The lesson bench: a record that stays in one place, with every call that takes one.

use super::{Checked, Loaded, Preview};
use crate::Record;
use std::mem::offset_of;

/// The lesson bench: it holds the record from call to call. Memory and table are lent to each call.
///
/// Each method answers as the function of the same name in [`calls`](super) does, given the record
/// `state`. Those that take `&mut self` leave there the record that the function would have answered,
/// except a refused [`load`](Bench::load), which leaves the bench as it was.
///
/// ```
/// use crank::calls::Bench;
/// use crank::{image_length, Record};
///
/// // start; xori r1, 5; finish
/// let mut mem = [0x1A00_0000, 0x0240_0005, 0x1B00_0000];
/// let mut table = [];
/// let state = Record { k: 3, m: 3, ..Record::default() };
/// let mut bench = Bench { state };
/// let mut image = vec![0; image_length(3, 0)];
/// assert_eq!(bench.save(&mem, &table, &mut image), 0);
///
/// // A turn comes to what its preview shows.
/// let shown = bench.preview_forward(&mem, &table);
/// assert_eq!(bench.forward(&mut mem, &table), shown.refusal);
/// assert_eq!(bench.state, shown.state);
///
/// // What is no image leaves the bench as it was; an image begins anew.
/// assert_eq!(bench.load(b"no image", &mut mem, &mut table).refusal, 1);
/// assert_eq!(bench.state, shown.state);
/// assert_eq!(bench.load(&image, &mut mem, &mut table).refusal, 0);
/// assert_eq!(bench.state, state);
/// ```
#[repr(C)]
#[derive(Clone, Copy, Debug, PartialEq, Eq)]
pub struct Bench {
    pub state: Record,
}

/// What a batch on the lesson bench answers.
#[repr(C)]
#[derive(Clone, Copy, Debug, PartialEq, Eq)]
pub struct Cranked {
    /// The turns made.
    pub turns: u32,
    /// As in [`Batch`](super::Batch).
    pub refusal: u32,
}

/// What the making of a qif table on the lesson bench answers: [`Made`](super::Made) without the
/// record.
#[repr(C)]
#[derive(Clone, Copy, Debug, PartialEq, Eq)]
pub struct Tabled {
    pub refusal: u32,
    /// As in [`Made`](super::Made).
    pub cycles: u32,
}

/// What encoder samples come to on the lesson bench: [`Wheeled`](super::Wheeled) without the record.
#[repr(C)]
#[derive(Clone, Copy, Debug, PartialEq, Eq)]
pub struct Sampled {
    pub forward: u64,
    pub back: u64,
    pub refused: u64,
    pub last: u32,
    pub refusal: u32,
}

// As the header has them.
const _: () = assert!(size_of::<Bench>() == 96 && size_of::<Cranked>() == 8);
const _: () = assert!(size_of::<Sampled>() == 32);
const _: () = assert!(size_of::<Tabled>() == 8 && offset_of!(Tabled, cycles) == 4);

extern "C" {
    fn bench_forward(
        b: *mut Bench,
        mem: *mut u32,
        mem_len: usize,
        table: *const u32,
        table_len: usize,
    ) -> u32;
    fn bench_back(
        b: *mut Bench,
        mem: *mut u32,
        mem_len: usize,
        table: *const u32,
        table_len: usize,
    ) -> u32;
    fn bench_forward_batch(
        b: *mut Bench,
        n: u32,
        mem: *mut u32,
        mem_len: usize,
        table: *const u32,
        table_len: usize,
    ) -> Cranked;
    fn bench_back_batch(
        b: *mut Bench,
        n: u32,
        mem: *mut u32,
        mem_len: usize,
        table: *const u32,
        table_len: usize,
    ) -> Cranked;
    fn bench_samples(
        b: *mut Bench,
        given: u8,
        samples: *const u8,
        samples_len: usize,
        mem: *mut u32,
        mem_len: usize,
        table: *const u32,
        table_len: usize,
    ) -> Sampled;
    fn bench_load(
        b: *mut Bench,
        file: *const u8,
        file_len: usize,
        mem: *mut u32,
        mem_len: usize,
        table: *mut u32,
        table_len: usize,
    ) -> Loaded;
    fn bench_make_table(
        b: *mut Bench,
        limit: u32,
        mem: *mut u32,
        mem_len: usize,
        table: *mut u32,
        table_len: usize,
        scratch: *mut u32,
        scratch_len: usize,
    ) -> Tabled;
    fn bench_preview_forward(
        b: *const Bench,
        mem: *const u32,
        mem_len: usize,
        table: *const u32,
        table_len: usize,
    ) -> Preview;
    fn bench_preview_back(
        b: *const Bench,
        mem: *const u32,
        mem_len: usize,
        table: *const u32,
        table_len: usize,
    ) -> Preview;
    fn bench_save(
        b: *const Bench,
        mem: *const u32,
        mem_len: usize,
        table: *const u32,
        table_len: usize,
        out: *mut u8,
        out_len: usize,
    ) -> u32;
    fn bench_check(
        b: *const Bench,
        mem: *const u32,
        mem_len: usize,
        table: *const u32,
        table_len: usize,
    ) -> Checked;
    fn bench_check_node(
        b: *const Bench,
        node: u32,
        mem: *const u32,
        mem_len: usize,
        table: *const u32,
        table_len: usize,
    ) -> u32;
}

impl Bench {
    /// One turn forward; gives its refusal. Refused, nothing changes.
    pub fn forward(&mut self, mem: &mut [u32], table: &[u32]) -> u32 {
        // SAFETY: self and the slices are live and not aliased.
        unsafe {
            bench_forward(
                self,
                mem.as_mut_ptr(),
                mem.len(),
                table.as_ptr(),
                table.len(),
            )
        }
    }

    /// One turn back, likewise.
    pub fn back(&mut self, mem: &mut [u32], table: &[u32]) -> u32 {
        // SAFETY: self and the slices are live and not aliased.
        unsafe {
            bench_back(
                self,
                mem.as_mut_ptr(),
                mem.len(),
                table.as_ptr(),
                table.len(),
            )
        }
    }

    /// `n` turns forward, by the rules of [`forward_batch`](super::forward_batch).
    pub fn forward_batch(&mut self, n: u32, mem: &mut [u32], table: &[u32]) -> Cranked {
        // SAFETY: self and the slices are live and not aliased.
        unsafe {
            bench_forward_batch(
                self,
                n,
                mem.as_mut_ptr(),
                mem.len(),
                table.as_ptr(),
                table.len(),
            )
        }
    }

    /// `n` turns back, likewise.
    pub fn back_batch(&mut self, n: u32, mem: &mut [u32], table: &[u32]) -> Cranked {
        // SAFETY: self and the slices are live and not aliased.
        unsafe {
            bench_back_batch(
                self,
                n,
                mem.as_mut_ptr(),
                mem.len(),
                table.as_ptr(),
                table.len(),
            )
        }
    }

    /// Turns as encoder samples say, by the rules of [`samples`](super::samples).
    pub fn samples(
        &mut self,
        given: u8,
        samples: &[u8],
        mem: &mut [u32],
        table: &[u32],
    ) -> Sampled {
        // SAFETY: self and the slices are live and not aliased.
        unsafe {
            bench_samples(
                self,
                given,
                samples.as_ptr(),
                samples.len(),
                mem.as_mut_ptr(),
                mem.len(),
                table.as_ptr(),
                table.len(),
            )
        }
    }

    /// Reads the image at the end of the file, by the rules of [`load`](super::load); the bench then
    /// holds its record. Refused, the bench and the slices are as they were, and only the answer has the
    /// record of zeros.
    pub fn load(&mut self, file: &[u8], mem: &mut [u32], table: &mut [u32]) -> Loaded {
        // SAFETY: self and the slices are live and not aliased.
        unsafe {
            bench_load(
                self,
                file.as_ptr(),
                file.len(),
                mem.as_mut_ptr(),
                mem.len(),
                table.as_mut_ptr(),
                table.len(),
            )
        }
    }

    /// Makes the qif table of the code, by the rules of [`make_table`](super::make_table); the record then
    /// has the new N and stands at node 1. Refused, it is as it was.
    pub fn make_table(
        &mut self,
        limit: u32,
        mem: &mut [u32],
        table: &mut [u32],
        scratch: &mut [u32],
    ) -> Tabled {
        // SAFETY: self and the slices are live and not aliased.
        unsafe {
            bench_make_table(
                self,
                limit,
                mem.as_mut_ptr(),
                mem.len(),
                table.as_mut_ptr(),
                table.len(),
                scratch.as_mut_ptr(),
                scratch.len(),
            )
        }
    }

    /// The turn forward, shown and not made, as by [`preview_forward`](super::preview_forward).
    pub fn preview_forward(&self, mem: &[u32], table: &[u32]) -> Preview {
        // SAFETY: self and the slices are live.
        unsafe { bench_preview_forward(self, mem.as_ptr(), mem.len(), table.as_ptr(), table.len()) }
    }

    /// The turn back, likewise.
    pub fn preview_back(&self, mem: &[u32], table: &[u32]) -> Preview {
        // SAFETY: self and the slices are live.
        unsafe { bench_preview_back(self, mem.as_ptr(), mem.len(), table.as_ptr(), table.len()) }
    }

    /// Writes the image to the front of `out`, as [`save`](super::save) does. Gives the refusal.
    pub fn save(&self, mem: &[u32], table: &[u32], out: &mut [u8]) -> u32 {
        // SAFETY: self and the slices are live, and `out` is not aliased.
        unsafe {
            bench_save(
                self,
                mem.as_ptr(),
                mem.len(),
                table.as_ptr(),
                table.len(),
                out.as_mut_ptr(),
                out.len(),
            )
        }
    }

    /// Checks the code words and the links of the table, as [`check`](super::check) does.
    pub fn check(&self, mem: &[u32], table: &[u32]) -> Checked {
        // SAFETY: self and the slices are live.
        unsafe { bench_check(self, mem.as_ptr(), mem.len(), table.as_ptr(), table.len()) }
    }

    /// Checks the links of one node, as [`check_node`](super::check_node) does. Gives the refusal.
    pub fn check_node(&self, node: u32, mem: &[u32], table: &[u32]) -> u32 {
        // SAFETY: self and the slices are live.
        unsafe {
            bench_check_node(
                self,
                node,
                mem.as_ptr(),
                mem.len(),
                table.as_ptr(),
                table.len(),
            )
        }
    }
}
