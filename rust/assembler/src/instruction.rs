//! An instruction between its word and its text.

use crate::forms::Kind::{Address, Imm, Offset, Para, Reg, RegPc};
use crate::forms::{Form, Kind};
use crate::text::in_range;
use crate::Checked;
use crank::{BR, PC, REGISTERS};

/// A form with the values of its operands; registers, gates and operations by number.
pub struct Instruction {
    pub form: &'static Form,
    pub values: Vec<i64>,
}

impl Instruction {
    /// The word, or why there is none.
    pub fn word(&self) -> Checked<u32> {
        let mut word = self.form.opcode << 24;
        let mut named = Vec::new();
        for (kind, value) in self.operands() {
            word |= match kind {
                Reg | RegPc => {
                    register_allowed(kind, value, &named)?;
                    named.push(value);
                    (value as u32) << (24 - 4 * named.len())
                }
                Imm | Address => in_range(value, 0, 0xFFFF)? as u32,
                Offset => in_range(value, -0x8000, 0x7FFF)? as u32 & 0xFFFF,
                Para(names) => (in_range(value, 1, names.len() as i64)? as u32) << 8,
            };
        }
        Ok(word)
    }

    /// The instruction that a word is, if it is one.
    pub fn of(word: u32) -> Option<Instruction> {
        let form = Form::with_opcode(word >> 24)?;
        let mut shift = 24;
        let values = form.kinds.iter().map(|kind| match kind {
            Reg | RegPc => {
                shift -= 4;
                i64::from(word >> shift & 0xF)
            }
            Imm | Address => i64::from(word & 0xFFFF),
            Offset => i64::from(word as u16 as i16),
            Para(_) => i64::from(word >> 8 & 0xF),
        });
        let values = values.collect();
        let read = Instruction { form, values };
        // Written anew it differs where a bit is set that the form does not use.
        (read.word() == Ok(word)).then_some(read)
    }

    /// As it is written in a source; `number` stands for the immediate, address or offset.
    pub fn text(&self, number: Option<&str>) -> String {
        let mut text = self.form.name.to_string();
        for (place, (kind, value)) in self.operands().enumerate() {
            text += if place == 0 { " " } else { ", " };
            text += &match (kind, number) {
                (Reg | RegPc, _) => REGISTERS[value as usize].to_string(),
                (Para(names), _) => names[value as usize - 1][0].to_string(),
                (Imm | Address | Offset, Some(number)) => number.to_string(),
                (Imm | Address | Offset, None) => value.to_string(),
            };
        }
        text
    }

    /// The offset of a branch.
    pub fn offset(&self) -> Option<i64> {
        let mut operands = self.operands();
        Some(operands.find(|(kind, _)| matches!(kind, Offset))?.1)
    }

    /// The address that the word itself holds.
    pub fn address(&self) -> Option<i64> {
        let mut operands = self.operands();
        Some(operands.find(|(kind, _)| matches!(kind, Address))?.1)
    }

    fn operands(&self) -> impl Iterator<Item = (Kind, i64)> + '_ {
        let values = self.values.iter().copied();
        self.form.kinds.iter().copied().zip(values)
    }
}

fn register_allowed(kind: Kind, register: i64, named: &[i64]) -> Checked<()> {
    if register == BR as i64 {
        return Err("br is never named in an instruction".into());
    }
    if register == PC as i64 && matches!(kind, Reg) {
        return Err("pc cannot stand in this place".into());
    }
    if named.contains(&register) {
        let name = REGISTERS[register as usize];
        return Err(format!("{name} is named twice; registers must differ"));
    }
    Ok(())
}
