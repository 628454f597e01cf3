//! The machine: its state, single turns both ways, and batches.

use crate::instruction::Instruction::{self, *};
use crate::instruction::{decode, Access, BR, FINISH, PC, START};

pub const MAX_M: u32 = 8192;
pub const MAX_N: u32 = 511;

/// Words of one node, and the place of each in it; FC and LC are followed by
/// the same link for coin 1.
pub const NODE: usize = 9;
pub const FC: usize = 0;
pub const LC: usize = 2;
pub const CF: usize = 4;
pub const CL: usize = 5;
pub const NX: usize = 6;
pub const PR: usize = 7;
pub const W: usize = 8;

/// Registers, node, wait count, sizes and position.
#[repr(C)]
#[derive(Clone, Copy, Debug, Default, PartialEq, Eq, Hash)]
pub struct Record {
    pub regs: [u32; 16],
    pub qifv: u32,
    pub qifw: u32,
    pub k: u32,
    pub m: u32,
    pub n: u32,
    /// The accepted forward turns less the back turns, from any number
    /// (document 02, #104).
    pub position: i64,
}

/// Whether K, M and N are in range.
pub fn sizes_in_range(k: u32, m: u32, n: u32) -> bool {
    (1..=MAX_M).contains(&m) && (1..=m).contains(&k) && n <= MAX_N
}

/// Whether the sizes are in range and the lent slices hold them.
pub fn sizes_fit(r: &Record, mem: &[u32], table: &[u32]) -> bool {
    sizes_in_range(r.k, r.m, r.n) && mem.len() >= r.m as usize && table.len() >= NODE * r.n as usize
}

/// One word of a node, if the node is 1 to N.
pub fn link(table: &[u32], n: u32, node: u32, field: usize) -> Option<u32> {
    if node < 1 || node > n {
        return None;
    }
    Some(table[NODE * (node as usize - 1) + field])
}

/// How far pc moves in a turn that ends with this br.
pub fn step(br: u32) -> u32 {
    if br == 0 {
        1
    } else {
        br
    }
}

/// The effect of an instruction on the registers and on the word that it
/// exchanges; other instructions leave `cell` alone.
fn effect(ins: Instruction, g: &mut [u32; 16], cell: &mut u32) {
    match ins {
        Ld { a, .. } | Ldr { a, .. } => std::mem::swap(&mut g[a as usize], cell),
        Fetr { a, .. } => g[a as usize] ^= *cell,
        Xori { a, imm } => g[a as usize] ^= imm,
        Addi { a, imm } => g[a as usize] = g[a as usize].wrapping_add(imm),
        Subi { a, imm } => g[a as usize] = g[a as usize].wrapping_sub(imm),
        Bra { imm } => g[BR] ^= imm,
        Bez { a, imm } => g[BR] ^= if g[a as usize] == 0 { imm } else { 0 },
        Bnz { a, imm } => g[BR] ^= if g[a as usize] != 0 { imm } else { 0 },
        Swap { a, b } => g.swap(a as usize, b as usize),
        Xor { a, b } => g[a as usize] ^= g[b as usize],
        Add { a, b } => g[a as usize] = g[a as usize].wrapping_add(g[b as usize]),
        Sub { a, b } => g[a as usize] = g[a as usize].wrapping_sub(g[b as usize]),
        Neg { a } => g[a as usize] = g[a as usize].wrapping_neg(),
        Swbr { a } => g.swap(a as usize, BR),
        Qif { .. } | Fiq { .. } | Start | Finish => {}
        UniFlip { a } => g[a as usize] ^= 1,
        UnibFlip { a, b } => g[b as usize] ^= g[a as usize] & 1,
        UnibExchange { a, b } => {
            let differ = (g[a as usize] ^ g[b as usize]) & 1;
            g[a as usize] ^= differ;
            g[b as usize] ^= differ;
        }
        AriNegation { a, b } => g[a as usize] ^= g[b as usize].wrapping_neg(),
        AriComplement { a, b } => g[a as usize] ^= !g[b as usize],
        AribSum { a, b, c } => g[a as usize] ^= g[b as usize].wrapping_add(g[c as usize]),
        AribProduct { a, b, c } => g[a as usize] ^= g[b as usize].wrapping_mul(g[c as usize]),
        AribQuotient { a, b, c } => {
            g[a as usize] ^= g[b as usize].checked_div(g[c as usize]).unwrap_or(0)
        }
        AribEqual { a, b, c } => g[a as usize] ^= u32::from(g[b as usize] == g[c as usize]),
        // Signed, two's complement (document 02, #108); quotient and equal are unsigned.
        AribLess { a, b, c } => {
            g[a as usize] ^= u32::from((g[b as usize] as i32) < g[c as usize] as i32)
        }
    }
}

/// qif with coin x: the first child of qifv and its wait count.
fn qif_down(r: &Record, table: &[u32], x: u32) -> Option<(u32, u32)> {
    let v = r.qifv;
    let u = link(table, r.n, v, FC + x as usize)?;
    if link(table, r.n, u, CF)? != v {
        return None;
    }
    Some((u, link(table, r.n, u, W)?))
}

/// The node v that a qif with coin x came from to qifv = u, and u.w.
fn qif_up(r: &Record, table: &[u32], x: u32) -> Option<(u32, u32)> {
    let u = r.qifv;
    let v = link(table, r.n, u, CF)?;
    if link(table, r.n, v, FC + x as usize)? != u {
        return None;
    }
    Some((v, link(table, r.n, u, W)?))
}

/// fiq with coin x: the node after the parent of qifv.
fn fiq_on(r: &Record, table: &[u32], x: u32) -> Option<u32> {
    let v = r.qifv;
    let p = link(table, r.n, v, CL)?;
    if link(table, r.n, p, LC + x as usize)? != v {
        return None;
    }
    let n = link(table, r.n, p, NX)?;
    (link(table, r.n, n, PR)? == p).then_some(n)
}

/// Undoing fiq with coin x: the last child of the node before qifv.
fn fiq_undo(r: &Record, table: &[u32], x: u32) -> Option<u32> {
    let n = r.qifv;
    let p = link(table, r.n, n, PR)?;
    if link(table, r.n, p, NX)? != n {
        return None;
    }
    let v = link(table, r.n, p, LC + x as usize)?;
    (link(table, r.n, v, CL)? == p).then_some(v)
}

/// Where a turn takes qifv and qifw, and the largest qifw it allows.
struct Walk {
    qifv: u32,
    qifw: u32,
    most: u32,
}

/// The walk of a forward turn, if its nodes and links hold.
fn walk_forward(ins: Instruction, r: &Record, table: &[u32]) -> Option<Walk> {
    let x = ins.coin(&r.regs).unwrap_or(0);
    let (qifv, qifw, most) = match ins {
        Qif { .. } if r.qifw > 0 => {
            let (_, w) = qif_up(r, table, x)?;
            (r.qifv, r.qifw - 1, w)
        }
        Qif { .. } => {
            let (u, w) = qif_down(r, table, x)?;
            (u, w, w)
        }
        Fiq { .. } => (fiq_on(r, table, x)?, 0, 0),
        _ => (r.qifv, 0, 0),
    };
    Some(Walk { qifv, qifw, most })
}

/// The walk of a back turn, if its nodes and links hold.
fn walk_back(ins: Instruction, r: &Record, table: &[u32]) -> Option<Walk> {
    let x = ins.coin(&r.regs).unwrap_or(0);
    let (qifv, qifw, most) = match ins {
        Qif { .. } => {
            let (v, w) = qif_up(r, table, x)?;
            // From qifw 0 and w above 0 this puts qifw at 1.
            if r.qifw < w {
                (r.qifv, r.qifw + 1, w)
            } else {
                (v, 0, w)
            }
        }
        Fiq { .. } => (fiq_undo(r, table, x)?, 0, 0),
        _ => (r.qifv, 0, 0),
    };
    Some(Walk { qifv, qifw, most })
}

fn require(holds: bool, refusal: u32) -> Result<(), u32> {
    if holds {
        Ok(())
    } else {
        Err(refusal)
    }
}

/// Whether the address is good for the kind of access (document 02, #106): a
/// copy alters nothing, so it may read code, too.
fn address_holds(access: Access, r: &Record) -> bool {
    match access {
        Access::Copy(address) => address < r.m,
        Access::Exchange(address) => (r.k..r.m).contains(&address),
    }
}

/// Whether the coin, if there is one, is 0 or 1.
fn coin_holds(ins: Instruction, r: &Record) -> bool {
    ins.coin(&r.regs).is_none_or(|x| x <= 1)
}

/// Whether an address is below K and holds `word`.
fn code_holds(r: &Record, mem: &[u32], address: u32, word: u32) -> bool {
    address < r.k && mem[address as usize] == word
}

/// The word that is copied or exchanged; 0 without an access.
fn read_cell(access: Option<Access>, mem: &[u32]) -> u32 {
    access.map_or(0, |access| mem[access.address() as usize])
}

/// Writes the word of an exchange.
fn write_cell(access: Option<Access>, mem: &mut [u32], cell: u32) {
    if let Some(Access::Exchange(address)) = access {
        mem[address as usize] = cell;
    }
}

/// The instruction at pc and its access to memory, by refusals 13 to 16, which
/// are the same for executing and for undoing it.
fn fetch(r: &Record, mem: &[u32]) -> Result<(Instruction, Option<Access>), u32> {
    let ins = decode(mem[r.regs[PC] as usize]).ok_or(13u32)?;
    require(r.qifw == 0 || ins.is_qif(), 14)?;
    let access = ins.access(&r.regs);
    require(access.is_none_or(|access| address_holds(access, r)), 15)?;
    require(coin_holds(ins, r), 16)?;
    Ok((ins, access))
}

/// A forward turn, with the refusals in their order. Memory is written only
/// after the last of them; the record may be altered before.
fn forward_turn(r: &mut Record, mem: &mut [u32], table: &[u32]) -> Result<(), u32> {
    require(sizes_fit(r, mem, table), 10)?;
    r.position = r.position.checked_add(1).ok_or(21u32)?;
    let pc = r.regs[PC];
    require(pc < r.k, 11)?;
    require(!code_holds(r, mem, pc, FINISH), 12)?;
    let (ins, access) = fetch(r, mem)?;
    let walk = walk_forward(ins, r, table).ok_or(17u32)?;
    require(r.qifw <= walk.most, 14)?;
    let mut cell = read_cell(access, mem);
    effect(ins, &mut r.regs, &mut cell);
    r.qifv = walk.qifv;
    r.qifw = walk.qifw;
    if r.qifw == 0 {
        r.regs[PC] = pc.wrapping_add(step(r.regs[BR]));
        require(!code_holds(r, mem, r.regs[PC], START), 18)?;
    }
    write_cell(access, mem, cell);
    Ok(())
}

/// A back turn, with the refusals in their order; the record may be altered
/// before the last of them.
fn back_turn(r: &mut Record, mem: &mut [u32], table: &[u32]) -> Result<(), u32> {
    require(sizes_fit(r, mem, table), 10)?;
    r.position = r.position.checked_sub(1).ok_or(21u32)?;
    if r.qifw == 0 {
        require(!code_holds(r, mem, r.regs[PC], START), 12)?;
        // A word that names pc reads the turn's own pc, so it shrinks first.
        r.regs[PC] = r.regs[PC].wrapping_sub(step(r.regs[BR]));
    }
    let pc = r.regs[PC];
    require(pc < r.k, 11)?;
    require(r.qifw > 0 || !code_holds(r, mem, pc, FINISH), 18)?;
    let (ins, access) = fetch(r, mem)?;
    let walk = walk_back(ins, r, table).ok_or(17u32)?;
    require(r.qifw <= walk.most, 14)?;
    let mut cell = read_cell(access, mem);
    effect(ins.inverse(), &mut r.regs, &mut cell);
    r.qifv = walk.qifv;
    r.qifw = walk.qifw;
    write_cell(access, mem, cell);
    Ok(())
}

/// One forward turn: the refusal, 0 for none, and the new record. A refused
/// turn changes nothing.
pub fn forward(r: Record, mem: &mut [u32], table: &[u32]) -> (u32, Record) {
    let mut new = r;
    match forward_turn(&mut new, mem, table) {
        Ok(()) => (0, new),
        Err(refusal) => (refusal, r),
    }
}

/// One back turn, answering as `forward` does.
pub fn back(r: Record, mem: &mut [u32], table: &[u32]) -> (u32, Record) {
    let mut new = r;
    match back_turn(&mut new, mem, table) {
        Ok(()) => (0, new),
        Err(refusal) => (refusal, r),
    }
}

/// What a batch gives (document 02, #103): the turns made; the refusal of the
/// next one if they are fewer than asked for, else 0; and the record.
#[derive(Clone, Copy, Debug, PartialEq, Eq)]
pub struct Batch {
    pub turns: u32,
    pub refusal: u32,
    pub record: Record,
}

/// Forward turns until n are made or one is refused.
pub fn forward_batch(r: Record, n: u32, mem: &mut [u32], table: &[u32]) -> Batch {
    batch(forward, r, n, mem, table)
}

/// Back turns until n are made or one is refused.
pub fn back_batch(r: Record, n: u32, mem: &mut [u32], table: &[u32]) -> Batch {
    batch(back, r, n, mem, table)
}

fn batch(
    turn: impl Fn(Record, &mut [u32], &[u32]) -> (u32, Record),
    mut record: Record,
    n: u32,
    mem: &mut [u32],
    table: &[u32],
) -> Batch {
    for turns in 0..n {
        let (refusal, new) = turn(record, mem, table);
        record = new;
        if refusal != 0 {
            return Batch {
                turns,
                refusal,
                record,
            };
        }
    }
    Batch {
        turns: n,
        refusal: 0,
        record,
    }
}
