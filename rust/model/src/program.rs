//! What the crank program prints for the bytes on its standard input.

use crate::image::load;
use crate::machine::{forward_batch, MAX_M, MAX_N, NODE};

pub const MAX_TURNS: u32 = 1_000_000;

pub fn output(input: &[u8]) -> String {
    let mut mem = vec![0; MAX_M as usize];
    let mut table = vec![0; NODE * MAX_N as usize];
    let (refusal, record) = load(input, &mut mem, &mut table);
    if refusal != 0 {
        return format!("refusal {refusal}\n");
    }
    let end = forward_batch(record, MAX_TURNS, &mut mem, &table);
    let regs: Vec<String> = end.record.regs.iter().map(u32::to_string).collect();
    format!(
        "turns {} refusal {}\n{}\nnode {} wait {}\n",
        end.turns,
        end.refusal,
        regs.join(" "),
        end.record.qifv,
        end.record.qifw
    )
}
