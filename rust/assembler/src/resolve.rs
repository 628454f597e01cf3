//! Resolving: the words that the operands of a source stand for.

use crate::forms::{para_number, register_number, Form, Kind};
use crate::instruction::Instruction;
use crate::source::{Place, Setting, Source, Word};
use crate::text::{
    as_count, as_word, number, operands, position, quoted, split_word, starts_name,
    without_parentheses, FROM,
};
use crate::Checked;
use crank::{Record, NODE_FIELDS, NODE_WORDS, W};

impl Source<'_> {
    /// The memory word at the address `here`.
    pub fn word(&self, word: &Word<'_>, here: usize) -> Checked<u32> {
        match word {
            Word::Instruction(form, text) => self.instruction(form, text, here as i64)?.word(),
            Word::Value(text) => as_word(self.value(text)?),
            Word::Zero => Ok(0),
        }
    }

    /// Puts a first value into the record.
    pub fn set(&self, set: &Setting<'_>, record: &mut Record) -> Checked<()> {
        match set.place {
            Place::Register(register) => record.regs[register] = as_word(self.value(set.value)?)?,
            Place::Qifv => record.qifv = self.link(set.value)?,
            Place::Qifw => record.qifw = as_count(number(set.value)?)?,
            Place::Position => record.position = position(set.value)?,
        }
        Ok(())
    }

    /// The words of a node.
    pub fn fields(&self, text: &str) -> Checked<[u32; NODE_WORDS]> {
        let mut node = [0; NODE_WORDS];
        let mut seen = [false; NODE_WORDS];
        // A comma may stand between fields, and so it may not stand alone.
        let fields = operands(text)?;
        for part in fields.iter().flat_map(|part| part.split_whitespace()) {
            let (place, value) = field(part)?;
            if std::mem::replace(&mut seen[place], true) {
                return Err(format!("the field {} is written twice", NODE_FIELDS[place]));
            }
            node[place] = match place {
                W => as_count(number(value)?)?,
                // All others are links.
                _ => self.link(value)?,
            };
        }
        Ok(node)
    }

    /// A node by name, or by number, which need not be a node of the table.
    fn link(&self, text: &str) -> Checked<u32> {
        match self.node_numbers.get(text) {
            Some(node) => Ok(*node),
            None if starts_name(text) => Err(format!("there is no node {}", quoted(text))),
            None => as_count(number(text)?),
        }
    }

    fn instruction(&self, form: &'static Form, text: &str, here: i64) -> Checked<Instruction> {
        let written = operands(without_parentheses(text)?)?;
        if written.len() != form.kinds.len() {
            return Err(wrong_count(form, &written));
        }
        let values: Checked<Vec<i64>> = form
            .kinds
            .iter()
            .zip(written)
            .map(|(kind, operand)| self.operand(*kind, operand, here))
            .collect();
        values.map(|values| Instruction { form, values })
    }

    fn operand(&self, kind: Kind, text: &str, here: i64) -> Checked<i64> {
        match kind {
            Kind::Reg | Kind::RegPc => register_number(text)
                .map(|register| register as i64)
                .ok_or_else(|| format!("{} is not a register", quoted(text))),
            Kind::Imm | Kind::Address => self.value(text),
            Kind::Offset => self.offset(text, here),
            Kind::Para(_) if text.starts_with(|c: char| c.is_ascii_digit()) => number(text),
            Kind::Para(names) => para_number(text, names),
        }
    }

    /// A branch offset: a number, `LABEL` (the distance from here to it) or `from LABEL` (the
    /// distance from it to here).
    fn offset(&self, text: &str, here: i64) -> Checked<i64> {
        let (first, label) = split_word(text);
        if first.eq_ignore_ascii_case(FROM) {
            return match label {
                "" => Err("from takes the label of the jump that lands here".into()),
                _ => Ok(here - self.label_value(label)?),
            };
        }
        if starts_name(text) {
            return Ok(self.label_value(text)? - here);
        }
        number(text)
    }

    /// A number, a label, or a label plus or minus a number.
    fn value(&self, text: &str) -> Checked<i64> {
        if starts_name(text) {
            return self.label_value(text);
        }
        number(text)
    }

    /// A label's address, or one a number of words from it.
    fn label_value(&self, text: &str) -> Checked<i64> {
        let end = text.find(['+', '-']).unwrap_or(text.len());
        let label = text[..end].trim();
        let address = match self.address(label) {
            Some(address) => address as i64,
            None => return Err(no_label(label)),
        };
        match text[end..].split_at_checked(1) {
            None => Ok(address),
            Some(("-", distance)) => Ok(address - number(distance.trim())?),
            Some((_, distance)) => Ok(address + number(distance.trim())?),
        }
    }
}

/// The place of a field in its node, and the value written for it.
fn field(part: &str) -> Checked<(usize, &str)> {
    let (name, value) = match part.split_once('=') {
        Some((name, value)) if !name.is_empty() && !value.is_empty() => (name, value),
        _ => {
            let part = quoted(part);
            return Err(format!(
                "{part} is not of the form field=value, without blanks"
            ));
        }
    };
    NODE_FIELDS
        .iter()
        .position(|field| field.eq_ignore_ascii_case(name))
        .map(|place| (place, value))
        .ok_or_else(|| format!("a node has no field {}", quoted(name)))
}

fn no_label(label: &str) -> String {
    if register_number(label).is_some() {
        return format!("{label} is a register; here a number or a label stands");
    }
    format!("there is no label {}", quoted(label))
}

fn wrong_count(form: &Form, written: &[&str]) -> String {
    let takes = match form.kinds.len() {
        0 => "no operand".to_string(),
        1 => format!("1 operand ({})", form.operands()),
        many => format!("{many} operands ({})", form.operands()),
    };
    let here = match written.len() {
        0 => "here is none".to_string(),
        1 => "here is 1".to_string(),
        many => format!("here are {many}"),
    };
    let run_together = written.len() < form.kinds.len()
        && written
            .iter()
            .any(|operand| operand.contains(char::is_whitespace));
    let hint = if run_together {
        "; commas stand between operands"
    } else {
        ""
    };
    format!("{} takes {takes}, {here}{hint}", form.name)
}
