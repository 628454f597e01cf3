//! The source of an image: assembled, it gives the same bytes.

use crate::branches::{branches, Branch};
use crate::instruction::Instruction;
use crate::preface;
use crank::{calls, Kind, Machine, Record, NODE_FIELDS, NODE_WORDS, REGISTERS};
use std::collections::BTreeSet;
use std::fmt::Write;

/// Zeros in a row that are written by `.space`.
const SPACE: usize = 4;
/// The values in a row of `.word`.
const ROW: usize = 8;

/// The source of an image and its preface.
///
/// # Errors
///
/// The refusal of the load.
pub fn disassemble(file: &[u8]) -> Result<String, u32> {
    let machine = Machine::load(file)?;
    let Record { k, m, n, .. } = machine.record;
    let mut source = Disassembly {
        text: format!("; K {k}, M {m}, N {n}\n"),
        labels: BTreeSet::new(),
    };
    for text in preface::write(calls::preface(file)) {
        source.line("", &format!(".preface {text}"));
    }
    let (code, data) = machine.mem.split_at(k as usize);
    source.memory(code, data);
    source.text.push('\n');
    source.record(&machine.record);
    // Also where it is 0: this line is what makes an image kind 2.
    if Kind::of(file) == Some(Kind::Two) {
        source.line("", &format!(".position {}", machine.record.position));
    }
    source.nodes(&machine.table);
    Ok(source.text.trim_end().to_string() + "\n")
}

/// The source as far as it is written, and the addresses that it names by labels.
struct Disassembly {
    text: String,
    labels: BTreeSet<usize>,
}

impl Disassembly {
    fn line(&mut self, label: &str, statement: &str) {
        writeln!(self.text, "{label:7} {statement}").expect("a string takes all");
    }

    fn memory(&mut self, code: &[u32], data: &[u32]) {
        let read: Vec<_> = code.iter().map(|word| Instruction::of(*word)).collect();
        let offsets: Vec<_> = read.iter().map(|i| i.as_ref()?.offset()).collect();
        let branches = branches(&offsets);
        let memory = code.len() + data.len();
        let written: Vec<String> = read
            .iter()
            .zip(code)
            .zip(branches)
            .map(|((instruction, word), branch)| match instruction {
                Some(instruction) => self.instruction(instruction, branch, code.len()..memory),
                None => format!(".word 0x{word:08X}"),
            })
            .collect();
        for (address, statement) in written.iter().enumerate() {
            let label = self.label_at("L", address);
            self.line(&label, statement);
        }
        self.data(data, code.len());
    }

    /// An instruction, with a label where its number names a word of the code or of the data.
    fn instruction(
        &mut self,
        instruction: &Instruction,
        branch: Branch,
        data: std::ops::Range<usize>,
    ) -> String {
        let address = instruction.address().map(|address| address as usize);
        let number = match (branch, address) {
            (Branch::To(to), _) => Some((to, format!("L{to}"))),
            (Branch::From(from), _) => Some((from, format!("from L{from}"))),
            (_, Some(address)) if data.contains(&address) => Some((address, format!("D{address}"))),
            _ => None,
        };
        let text = match number {
            Some((label, number)) => {
                self.labels.insert(label);
                instruction.text(Some(&number))
            }
            None => instruction.text(None),
        };
        match text.split_once(' ') {
            Some((mnemonic, operands)) => format!("{mnemonic:4} {operands}"),
            None => text,
        }
    }

    fn label_at(&self, letter: &str, address: usize) -> String {
        match self.labels.contains(&address) {
            true => format!("{letter}{address}:"),
            false => String::new(),
        }
    }

    fn data(&mut self, data: &[u32], first: usize) {
        if !data.is_empty() {
            self.text.push('\n');
            self.line("", ".data");
        }
        let mut from = 0;
        while from < data.len() {
            let label = self.label_at("D", first + from);
            let next = self.labels.range(first + from + 1..).next();
            let end = next.map_or(data.len(), |address| address - first);
            let (taken, statement) = data_row(&data[from..end]);
            self.line(&label, &statement);
            from += taken;
        }
    }

    fn record(&mut self, record: &Record) {
        for (name, value) in REGISTERS.iter().zip(record.regs) {
            if value != 0 {
                self.line("", &format!(".reg {name} {}", number(value)));
            }
        }
        for (name, value) in [("qifv", record.qifv), ("qifw", record.qifw)] {
            if value != 0 {
                self.line("", &format!(".{name} {value}"));
            }
        }
    }

    fn nodes(&mut self, table: &[u32]) {
        for (index, node) in table.chunks(NODE_WORDS).enumerate() {
            let mut statement = format!(".node {}", index + 1);
            for (field, value) in NODE_FIELDS
                .iter()
                .zip(node)
                .filter(|(_, value)| **value != 0)
            {
                write!(statement, " {field}={value}").expect("a string takes all");
            }
            self.line("", &statement);
        }
    }
}

/// The next row of data, and how many words it holds.
fn data_row(words: &[u32]) -> (usize, String) {
    let zeros = words.iter().take_while(|word| **word == 0).count();
    if zeros >= SPACE {
        return (zeros, format!(".space {zeros}"));
    }
    let most = words.len().min(ROW);
    let taken = (1..most)
        .find(|place| words[*place..].starts_with(&[0; SPACE]))
        .unwrap_or(most);
    let values: Vec<String> = words[..taken].iter().map(|word| number(*word)).collect();
    (taken, format!(".word {}", values.join(", ")))
}

/// Small words in decimal, others in hexadecimal, where their bits are seen.
fn number(word: u32) -> String {
    match word {
        0..=0xFFFF => word.to_string(),
        _ => format!("0x{word:08X}"),
    }
}
