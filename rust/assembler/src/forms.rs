//! The forms of the instructions: one line each, for writing words and for reading them.

use crate::text::{is_name, quoted, split_word};
use crate::Checked;
use crank::REGISTERS;

/// Names and signs of a gate or an operation; entry i has number i + 1.
type Names = &'static [&'static [&'static str]];

/// What an operand may be.
#[derive(Clone, Copy)]
pub enum Kind {
    /// A register other than pc and br.
    Reg,
    /// A register other than br.
    RegPc,
    /// An unsigned number of 16 bits.
    Imm,
    /// The address of a data word, an unsigned number of 16 bits.
    Address,
    /// A branch offset, a signed number of 16 bits.
    Offset,
    /// A gate or an operation.
    Para(Names),
}

use Kind::{Address, Imm, Offset, Para, Reg, RegPc};

impl Kind {
    /// For the messages on operands.
    fn title(self) -> String {
        match self {
            Reg => "register".into(),
            RegPc => "register or pc".into(),
            Imm | Address => "value".into(),
            Offset => "offset".into(),
            Para(names) => first_names(names).join("|"),
        }
    }
}

const GATES: Names = &[&["x"]];
const GATES_TWO: Names = &[&["cnot"], &["swap"]];
const OPS_ONE: Names = &[&["neg", "-"], &["not", "~"]];
const OPS_TWO: Names = &[
    &["add", "+"],
    &["mul", "*"],
    &["div", "/"],
    &["eq", "="],
    &["lt", "<"],
];

/// Mnemonic, opcode and operands in the order of document 003. Registers go to reg1, reg2 and reg3
/// in the order written here.
pub struct Form {
    pub name: &'static str,
    pub opcode: u32,
    pub kinds: &'static [Kind],
}

const fn form(name: &'static str, opcode: u32, kinds: &'static [Kind]) -> Form {
    Form {
        name,
        opcode,
        kinds,
    }
}

static FORMS: [Form; 23] = [
    form("ld", 1, &[Reg, Address]),
    form("xori", 2, &[Reg, Imm]),
    form("addi", 3, &[Reg, Imm]),
    form("subi", 4, &[Reg, Imm]),
    form("bra", 5, &[Offset]),
    form("bez", 6, &[Reg, Offset]),
    form("bnz", 7, &[Reg, Offset]),
    form("ldr", 16, &[Reg, RegPc]),
    form("fetr", 17, &[Reg, RegPc]),
    form("swap", 18, &[Reg, Reg]),
    form("xor", 19, &[Reg, RegPc]),
    form("add", 20, &[Reg, RegPc]),
    form("sub", 21, &[Reg, RegPc]),
    form("neg", 22, &[Reg]),
    form("swbr", 23, &[Reg]),
    form("qif", 24, &[Reg]),
    form("fiq", 25, &[Reg]),
    form("start", 26, &[]),
    form("finish", 27, &[]),
    form("uni", 32, &[Para(GATES), Reg]),
    form("unib", 33, &[Para(GATES_TWO), Reg, Reg]),
    form("ari", 34, &[Para(OPS_ONE), Reg, RegPc]),
    form("arib", 35, &[Para(OPS_TWO), Reg, RegPc, RegPc]),
];

impl Form {
    pub fn named(name: &str) -> Option<&'static Form> {
        FORMS
            .iter()
            .find(|form| form.name.eq_ignore_ascii_case(name))
    }

    pub fn with_opcode(opcode: u32) -> Option<&'static Form> {
        FORMS.iter().find(|form| form.opcode == opcode)
    }

    /// The form of a written instruction, and its operands.
    pub fn written(text: &str) -> Checked<(&'static Form, &str)> {
        let end = text
            .find(|c: char| c.is_whitespace() || c == '(' || c == ',')
            .unwrap_or(text.len());
        let (name, operands) = (&text[..end], text[end..].trim());
        match Form::named(name) {
            Some(form) => Ok((form, operands)),
            None if name.is_empty() => Err(unknown(text, "")),
            None => Err(unknown(name, operands)),
        }
    }

    /// The instruction that has the gate or the operation.
    fn with_para(name: &str) -> Option<&'static Form> {
        FORMS.iter().find(|form| match form.kinds.first() {
            Some(Para(names)) => para_place(name, names).is_some(),
            _ => false,
        })
    }

    /// The operands in words.
    pub fn operands(&self) -> String {
        let titles: Vec<String> = self.kinds.iter().map(|kind| kind.title()).collect();
        titles.join(", ")
    }
}

/// What was meant by a line that begins with no mnemonic.
fn unknown(name: &str, rest: &str) -> String {
    let what = format!("unknown instruction {}", quoted(name));
    let next = split_word(rest).0;
    let before_a_line = next.starts_with('.') || Form::named(next).is_some();
    match Form::with_para(name) {
        _ if is_name(name) && before_a_line => format!("{what}; a label ends with a colon"),
        Some(form) => format!("{what}; it is written with {}", form.name),
        None if is_name(name) && rest.is_empty() => format!("{what}; a label ends with a colon"),
        None => what,
    }
}

/// The number of a register.
pub fn register_number(name: &str) -> Option<usize> {
    REGISTERS
        .iter()
        .position(|register| register.eq_ignore_ascii_case(name))
}

fn first_names(names: Names) -> Vec<&'static str> {
    names.iter().map(|group| group[0]).collect()
}

fn para_place(text: &str, names: Names) -> Option<usize> {
    names
        .iter()
        .position(|group| group.iter().any(|name| name.eq_ignore_ascii_case(text)))
}

/// The number of a gate or an operation that is written by name or sign.
pub fn para_number(text: &str, names: Names) -> Checked<i64> {
    match para_place(text, names) {
        Some(place) => Ok(place as i64 + 1),
        None => {
            let all = first_names(names).join(", ");
            Err(format!("{} is none of {all}", quoted(text)))
        }
    }
}
