//! What is taken, but can hardly be meant: an exchange of no data word, a link that nothing pairs.

use crate::instruction::Instruction;
use crate::source::{Source, Word};
use crate::Warning;
use crank::{Machine, PC};

/// The warnings on a source that became `machine`, in the order of lines.
pub fn of(source: &Source<'_>, machine: &Machine) -> Vec<Warning> {
    let mut warnings = addresses(source, machine);
    warnings.extend(unpaired(source, machine));
    warnings.sort_by_key(|warning| warning.line);
    warnings
}

/// The instructions with their lines and addresses; a word written as a number is nobody's mistake.
fn instructions<'a>(
    source: &'a Source<'_>,
    machine: &'a Machine,
) -> impl Iterator<Item = (usize, i64, Instruction)> + 'a {
    let words = source.code.iter().zip(&machine.mem).zip(0..);
    words.filter_map(|(((line, written), word), own)| match written {
        Word::Instruction(..) => Some((*line, own, Instruction::of(*word)?)),
        _ => None,
    })
}

/// The address of an exchange, where it is known before any turn: that of an `ld`, and an `ldr`'s own
/// where pc has it.
fn exchanged(own: i64, instruction: &Instruction) -> Option<i64> {
    let of_pc = instruction.form.name == "ldr" && instruction.values[1] == PC as i64;
    instruction.address().or(of_pc.then_some(own))
}

/// Every exchange whose address is known to be no data word's.
fn addresses(source: &Source<'_>, machine: &Machine) -> Vec<Warning> {
    let (k, m) = (machine.record.k, machine.record.m);
    let data = match m - k {
        0 => "there are no data words".to_string(),
        _ => format!("data words are {k} to {}", m - 1),
    };
    let outside = |address: &i64| !(i64::from(k)..i64::from(m)).contains(address);
    instructions(source, machine)
        .filter_map(|(line, own, instruction)| {
            let address = exchanged(own, &instruction).filter(outside)?;
            let name = instruction.form.name;
            let message =
                format!("{data}, so an {name} of address {address} is refused by 15 in a turn");
            Some(Warning { line, message })
        })
        .collect()
}

/// The lowest node with an unpaired link, as the proved check of one node tells it: the whole check
/// looks at the code first.
fn unpaired(source: &Source<'_>, machine: &Machine) -> Option<Warning> {
    let mut nodes = (1..).zip(&source.nodes);
    let (number, node) = nodes.find(|(number, _)| machine.check_node(*number) == 8)?;
    let name = node.name.map_or(number.to_string(), str::to_string);
    let message = format!("a link of node {name} is not paired: no link leads back");
    let line = node.line;
    Some(Warning { line, message })
}
