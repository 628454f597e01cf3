//! Images: load, preface, save and the check of code and table.

use crate::instruction::decode;
use crate::machine::{link, sizes_fit, sizes_in_range, Record, CF, CL, FC, LC, NODE, NX, PR};

/// The calls, of the model or of the library; a load and a whole check give the
/// refusal first.
pub type LoadCall = fn(&[u8], &mut [u32], &mut [u32]) -> (u32, Record);
pub type SaveCall = fn(Record, &[u32], &[u32], &mut [u8]) -> u32;
pub type CheckCall = fn(Record, &[u32], &[u32]) -> (u32, u32);
pub type CheckNodeCall = fn(Record, u32, &[u32], &[u32]) -> u32;

/// The bytes of the shortest trailer.
pub const TRAILER: usize = 92;
pub const MAX_FILE: usize = 65_536;

/// The words of a trailer that every kind begins with: back, M, K, N,
/// registers 0 to 15, qifv and qifw.
const COMMON: usize = 22;

/// A kind of image: its last four bytes, and how many words stand between them
/// and what every kind begins with.
#[derive(Clone, Copy, Debug, PartialEq, Eq)]
pub struct Kind {
    pub mark: [u8; 4],
    pub more: usize,
}

/// The kinds that load takes. The second has the position, low word first.
pub const KINDS: [Kind; 2] = [
    Kind {
        mark: [0x51, 0x52, 0x4D, 0x31],
        more: 0,
    },
    Kind {
        mark: [0x51, 0x52, 0x4D, 0x32],
        more: 2,
    },
];

/// The kind that save writes.
pub const SAVED: Kind = KINDS[1];

impl Kind {
    /// The bytes of its trailer.
    pub fn trailer(self) -> usize {
        4 * (COMMON + self.more + 1)
    }

    /// The bytes from the first memory byte to the end of the file.
    pub fn back_length(self, m: u32, n: u32) -> u64 {
        4 * u64::from(m) + 36 * u64::from(n) + self.trailer() as u64
    }

    /// The image of a state whose sizes fit, without preface.
    pub fn image(self, r: &Record, mem: &[u32], table: &[u32]) -> Vec<u8> {
        let mut words = mem[..r.m as usize].to_vec();
        words.extend(&table[..NODE * r.n as usize]);
        words.extend([self.back_length(r.m, r.n) as u32, r.m, r.k, r.n]);
        words.extend(r.regs);
        words.extend([r.qifv, r.qifw]);
        words.extend(&position_words(r.position)[..self.more]);
        let mut bytes: Vec<u8> = words.iter().flat_map(|word| word.to_le_bytes()).collect();
        bytes.extend(self.mark);
        bytes
    }
}

/// A position as two words, low first.
fn position_words(position: i64) -> [u32; 2] {
    [position as u32, (position >> 32) as u32]
}

/// Every two words are a position.
fn position_of([low, high]: [u32; 2]) -> i64 {
    ((u64::from(high) << 32) | u64::from(low)) as i64
}

/// Word `index` of a stretch of little-endian bytes.
fn word_at(bytes: &[u8], index: usize) -> u32 {
    let at = 4 * index;
    u32::from_le_bytes([bytes[at], bytes[at + 1], bytes[at + 2], bytes[at + 3]])
}

/// The kind and the trailer of a file, or the refusal 1 or 2. The kind is known
/// only by the end, so a file too short for its kind is refused behind 2.
fn find_trailer(file: &[u8]) -> Result<(Kind, &[u8]), u32> {
    if file.len() < TRAILER || file.len() > MAX_FILE {
        return Err(1);
    }
    let ends_so = |kind: &&Kind| file.ends_with(&kind.mark);
    let kind = *KINDS.iter().find(ends_so).ok_or(2u32)?;
    let start = file.len().checked_sub(kind.trailer()).ok_or(1u32)?;
    Ok((kind, &file[start..]))
}

/// The record in the trailer and the place of the first memory byte, or the
/// refusal 1 to 5.
fn read_trailer(file: &[u8]) -> Result<(Record, usize), u32> {
    let (kind, trailer) = find_trailer(file)?;
    let word = |index| word_at(trailer, index);
    let (back, m, k, n) = (word(0), word(1), word(2), word(3));
    if !sizes_in_range(k, m, n) {
        return Err(3);
    }
    if u64::from(back) != kind.back_length(m, n) {
        return Err(4);
    }
    if back as usize > file.len() {
        return Err(5);
    }
    // What a kind does not have is 0.
    let mut position = [0; 2];
    for (i, found) in position.iter_mut().enumerate().take(kind.more) {
        *found = word(COMMON + i);
    }
    let record = Record {
        regs: std::array::from_fn(|i| word(4 + i)),
        qifv: word(20),
        qifw: word(21),
        k,
        m,
        n,
        position: position_of(position),
    };
    Ok((record, file.len() - back as usize))
}

/// Reads an image into the lent words; a refused one gives the record of
/// zeros and writes nothing.
pub fn load(file: &[u8], mem: &mut [u32], table: &mut [u32]) -> (u32, Record) {
    let (record, first) = match read_trailer(file) {
        Ok(found) => found,
        Err(refusal) => return (refusal, Record::default()),
    };
    let m = record.m as usize;
    let words = NODE * record.n as usize;
    if mem.len() < m || table.len() < words {
        return (6, Record::default());
    }
    let body = &file[first..];
    for (i, word) in mem[..m].iter_mut().enumerate() {
        *word = word_at(body, i);
    }
    for (i, word) in table[..words].iter_mut().enumerate() {
        *word = word_at(body, m + i);
    }
    (0, record)
}

/// The bytes before the first memory byte; empty where load refuses 1 to 5.
pub fn preface(file: &[u8]) -> &[u8] {
    match read_trailer(file) {
        Ok((_, first)) => &file[..first],
        Err(_) => &[],
    }
}

/// Writes the image without preface to the front of `out`.
pub fn save(r: Record, mem: &[u32], table: &[u32], out: &mut [u8]) -> u32 {
    if !sizes_fit(&r, mem, table) {
        return 10;
    }
    let image = SAVED.image(&r, mem, table);
    if out.len() < image.len() {
        return 9;
    }
    out[..image.len()].copy_from_slice(&image);
    0
}

/// Whether `node`'s link in `field` is 0 or one of `inverse` of its target
/// returns to `node`.
fn paired(table: &[u32], n: u32, node: u32, field: usize, inverse: &[usize]) -> bool {
    let target = link(table, n, node, field).unwrap_or(0);
    target == 0
        || inverse
            .iter()
            .any(|back| link(table, n, target, *back) == Some(node))
}

/// Whether every link of a node is paired.
fn node_paired(table: &[u32], n: u32, node: u32) -> bool {
    paired(table, n, node, FC, &[CF])
        && paired(table, n, node, FC + 1, &[CF])
        && paired(table, n, node, LC, &[CL])
        && paired(table, n, node, LC + 1, &[CL])
        && paired(table, n, node, NX, &[PR])
        && paired(table, n, node, PR, &[NX])
        && paired(table, n, node, CF, &[FC, FC + 1])
        && paired(table, n, node, CL, &[LC, LC + 1])
}

/// Checks code and table: the refusal and its place.
pub fn check(r: Record, mem: &[u32], table: &[u32]) -> (u32, u32) {
    if !sizes_fit(&r, mem, table) {
        return (10, 0);
    }
    if let Some(place) = (0..r.k).find(|a| decode(mem[*a as usize]).is_none()) {
        return (7, place);
    }
    if let Some(node) = (1..=r.n).find(|node| !node_paired(table, r.n, *node)) {
        return (8, node);
    }
    (0, 0)
}

/// Checks the links of one node alone, whatever the code words are (document
/// 02, #105): the refusal.
pub fn check_node(r: Record, node: u32, mem: &[u32], table: &[u32]) -> u32 {
    if !sizes_fit(&r, mem, table) {
        return 10;
    }
    if !(1..=r.n).contains(&node) {
        return 17;
    }
    if !node_paired(table, r.n, node) {
        return 8;
    }
    0
}
