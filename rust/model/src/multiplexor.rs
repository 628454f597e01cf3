//! Document 003's quantum multiplexor, compiled: its Figure 18.
//!
//! `P(k, x)` is Q[x] for k = 0, else a qif on q[k] with P(k-1, 2x) and P(k-1, 2x+1)
//! as its branches; the program is P(n, 0). What the figure has otherwise:
//! - Where a jump lands, its own offset is xored into br once more; the figure's
//!   landing names the label of the jump, which is the offset's negative.
//! - The call of Pmain, line 8, is written as the calls of P are.
//! - No arib subtracts: k-1 is k and -1, lines 126 to 130 and 388 to 392.
//! - x1, x0 and k0 are uncomputed where they were computed, before line 308.

use std::collections::BTreeMap;

use crate::instruction::{word_i, word_o, word_r, FINISH, PC, START};
use crate::machine::Record;
use crate::state::Machine;

/// Registers by the figure's names.
const RO: usize = 2;
const SP: usize = 3;
const R1: usize = 4;
const R2: usize = 5;
const R3: usize = 6;
const R4: usize = 7;
const R5: usize = 8;
const R6: usize = 9;
const R7: usize = 10;
const R8: usize = 11;

/// The variables; the word at `@v` has the address of v. The gates are on the last three.
const SYMBOLS: [&str; 20] = [
    "n",
    "z",
    "k",
    "x",
    "k0",
    "x0",
    "x1",
    "y1",
    "y2",
    "y3",
    "w1",
    "w2",
    "w3",
    "q",
    "Pmain.ent",
    "P.ent",
    "Q.ent",
    "t0",
    "t1",
    "t2",
];
const TARGETS: [&str; 3] = ["t0", "t1", "t2"];

/// Words for the call stack: a level of P takes six.
const STACK: usize = 64;

#[derive(Default)]
struct Code {
    words: Vec<u32>,
    labels: BTreeMap<String, u32>,
    /// Words that get the offset of a jump, with its two labels.
    jumps: Vec<(usize, String, String)>,
}

/// The instructions and the figure's short sequences of them.
impl Code {
    fn put(&mut self, words: &[u32]) {
        self.words.extend(words);
    }

    fn label(&mut self, name: &str) {
        self.labels.insert(name.into(), self.words.len() as u32);
    }

    /// A word, with this opcode, of the jump between two labels: the jump itself
    /// or its landing.
    fn jump(&mut self, opcode: u32, reg: usize, from: &str, to: &str) {
        self.jumps.push((self.words.len(), from.into(), to.into()));
        self.put(&[word_i(opcode, reg, 0)]);
    }

    /// ld(reg,@symbol): until the code is complete, with the number of the symbol.
    fn ld(&mut self, reg: usize, symbol: &str) {
        let number = SYMBOLS.iter().position(|known| *known == symbol);
        self.put(&[word_i(1, reg, number.expect("a symbol") as u32)]);
    }

    fn load(&mut self, address: usize, reg: usize, symbol: &str) {
        self.ld(address, symbol);
        self.put(&[word_r(16, reg, address)]);
    }

    fn store(&mut self, address: usize, reg: usize, symbol: &str) {
        self.put(&[word_r(16, reg, address)]);
        self.ld(address, symbol);
    }

    fn push(&mut self, reg: usize) {
        self.put(&[word_i(3, SP, 1), word_r(16, reg, SP)]);
    }

    fn pop(&mut self, reg: usize) {
        self.put(&[word_r(16, reg, SP), word_i(4, SP, 1)]);
    }

    fn push_variable(&mut self, symbol: &str) {
        self.load(R1, R2, symbol);
        self.push(R2);
        self.store(R1, R2, symbol);
    }

    fn pop_variable(&mut self, symbol: &str) {
        self.load(R1, R2, symbol);
        self.pop(R2);
        self.store(R1, R2, symbol);
    }

    /// Calls the entry in a register, and has it there again behind the call.
    fn call_register(&mut self, reg: usize) {
        let (offset, home) = (word_r(21, reg, PC), word_r(22, reg, 0));
        let swbr = word_r(23, reg, 0);
        self.put(&[offset, word_i(4, reg, 2), swbr]);
        self.put(&[word_i(3, reg, 2), offset, home]);
    }

    fn copy_entry(&mut self, symbol: &str) {
        self.ld(R1, symbol);
        self.put(&[word_r(17, R2, R1)]);
        self.ld(R1, symbol);
    }

    fn call(&mut self, symbol: &str) {
        self.copy_entry(symbol);
        self.call_register(R2);
        self.copy_entry(symbol);
    }

    /// A procedure: from its entry to its end and by its beginning to the entry
    /// again, which leads back to the call.
    fn procedure(&mut self, name: &str, body: impl FnOnce(&mut Code)) {
        let [begin, entry, end] = ["beg", "ent", "end"].map(|part| format!("{name}.{part}"));
        self.label(&begin);
        self.jump(5, 0, &end, &begin);
        self.label(&entry);
        self.put(&[word_r(23, RO, 0), word_r(22, RO, 0)]);
        body(self);
        self.label(&end);
        self.jump(5, 0, &end, &begin);
    }

    /// Sets the offsets of the jumps, and the addresses of the symbols behind
    /// the code.
    fn complete(&self) -> Vec<u32> {
        let k = self.words.len() as u32;
        let mut words = self.words.clone();
        for word in words.iter_mut().filter(|word| **word >> 24 == 1) {
            *word += k;
        }
        for (at, from, to) in &self.jumps {
            words[*at] |= self.labels[to].wrapping_sub(self.labels[from]) & 0xFFFF;
        }
        words
    }
}

/// Lines 1 to 15.
fn program(code: &mut Code) {
    code.put(&[START]);
    code.push_variable("n");
    code.call("Pmain.ent");
    code.pop_variable("n");
    code.put(&[FINISH]);
}

/// Lines 19 to 31, and 72 to 84.
fn main_argument(code: &mut Code) {
    code.load(R1, R2, "y3");
    code.pop(R2);
    code.load(R3, R4, "n");
    code.put(&[word_r(18, R4, R2)]);
    code.push(R2);
    code.store(R3, R4, "n");
    code.store(R1, R2, "y3");
}

/// Lines 19 to 84.
fn main_procedure(code: &mut Code) {
    main_argument(code);
    code.push(RO);
    code.push_variable("n");
    code.push_variable("z");
    code.call("P.ent");
    code.pop_variable("z");
    code.pop_variable("n");
    code.pop(RO);
    main_argument(code);
}

/// Lines 89 to 114, and 399 to 424.
fn arguments(code: &mut Code) {
    code.load(R1, R2, "y2");
    code.pop(R2);
    code.load(R3, R4, "y1");
    code.pop(R4);
    code.load(R5, R6, "k");
    code.load(R7, R8, "x");
    code.put(&[word_r(18, R6, R4), word_r(18, R8, R2)]);
    code.push(R4);
    code.push(R2);
    code.store(R1, R2, "y2");
    code.store(R3, R4, "y1");
    code.store(R5, R6, "k");
    code.store(R7, R8, "x");
}

/// A variable computed from another and a number in r5, by way of a third: `set`
/// puts the number there, `clear` takes it away.
struct Computed {
    to: &'static str,
    by: &'static str,
    from: &'static str,
    para: u32,
    set: u32,
    clear: u32,
}

/// k0 = k - 1, x0 = 2x and x1 = x0 + 1.
fn computed() -> [Computed; 3] {
    let of = |to, by, from, para, set, clear| Computed {
        to,
        by,
        from,
        para,
        set,
        clear,
    };
    [
        of("k0", "w1", "k", 1, word_i(4, R5, 1), word_i(3, R5, 1)),
        of("x0", "w2", "x", 2, word_i(2, R5, 2), word_i(2, R5, 2)),
        of("x1", "w3", "x0", 1, word_i(2, R5, 1), word_i(2, R5, 1)),
    ]
}

impl Computed {
    /// Lines 122 to 139, and so to 175.
    fn compute(&self, code: &mut Code) {
        code.load(R1, R2, self.by);
        code.load(R3, R4, self.from);
        code.put(&[self.set, word_o(35, self.para, R2, R4, R5)]);
        code.store(R3, R4, self.from);
        code.put(&[self.clear]);
        self.exchange(code);
        code.push(R2);
        code.store(R1, R2, self.by);
    }

    fn exchange(&self, code: &mut Code) {
        code.load(R3, R4, self.to);
        code.put(&[word_r(18, R4, R2)]);
        code.store(R3, R4, self.to);
    }

    /// Lines 379 to 396, and so from 343 on.
    fn uncompute(&self, code: &mut Code) {
        code.load(R1, R2, self.by);
        code.pop(R2);
        self.exchange(code);
        code.put(&[self.set]);
        code.load(R3, R4, self.from);
        code.put(&[word_o(35, self.para, R2, R4, R5), self.clear]);
        code.store(R1, R2, self.by);
        code.store(R3, R4, self.from);
    }
}

/// Lines 176 to 184: exchanges r4 with q[k].
fn coin(code: &mut Code) {
    code.load(R1, R2, "k");
    code.ld(R3, "q");
    code.put(&[word_r(20, R3, R2), word_r(16, R4, R3), word_r(21, R3, R2)]);
    code.ld(R3, "q");
    code.store(R1, R2, "k");
}

/// Lines 187 to 240: P(k0, x0), or P(k0, x1).
fn branch(code: &mut Code, x: &str) {
    coin(code);
    code.push_variable("k0");
    code.push_variable(x);
    code.call("P.ent");
    code.pop_variable(x);
    code.pop_variable("k0");
    coin(code);
}

/// Lines 120 to 309, for k not 0.
fn quantum_choice(code: &mut Code) {
    code.store(R1, R2, "k");
    for each in computed() {
        each.compute(code);
    }
    coin(code);
    code.put(&[word_r(24, R4, 0)]);
    code.label("b0");
    code.jump(7, R4, "b0", "b2");
    branch(code, "x0");
    code.label("b1");
    code.jump(5, 0, "b1", "b3");
    code.label("b2");
    code.jump(5, 0, "b0", "b2");
    branch(code, "x1");
    code.label("b3");
    code.jump(6, R4, "b1", "b3");
    code.put(&[word_r(25, R4, 0)]);
    coin(code);
    for each in computed().iter().rev() {
        each.uncompute(code);
    }
    code.load(R1, R2, "k");
}

/// Lines 314 to 322: Q.ent[x] is xored into r4.
fn leaf_entry(code: &mut Code) {
    code.load(R1, R2, "x");
    code.ld(R3, "Q.ent");
    code.put(&[word_r(20, R3, R2), word_r(17, R4, R3), word_r(21, R3, R2)]);
    code.ld(R3, "Q.ent");
    code.store(R1, R2, "x");
}

/// Lines 312 to 339, for k = 0.
fn leaf_call(code: &mut Code) {
    code.store(R1, R2, "k");
    leaf_entry(code);
    code.call_register(R4);
    leaf_entry(code);
    code.load(R1, R2, "k");
}

/// Lines 89 to 424.
fn procedure_p(code: &mut Code) {
    arguments(code);
    code.push(RO);
    code.load(R1, R2, "k");
    code.label("l0");
    code.jump(6, R2, "l0", "l2");
    quantum_choice(code);
    code.label("l1");
    code.jump(5, 0, "l1", "l3");
    code.label("l2");
    code.jump(5, 0, "l0", "l2");
    leaf_call(code);
    code.label("l3");
    code.jump(7, R2, "l1", "l3");
    code.store(R1, R2, "k");
    code.pop(RO);
    arguments(code);
}

/// Lines 429 to 434, with so many gates, each on one of the targets.
fn leaf(code: &mut Code, gates: u32) {
    code.push(RO);
    for target in TARGETS.iter().cycle().take(gates as usize) {
        code.load(R1, R2, target);
        code.put(&[word_o(32, 1, R2, 0, 0)]);
        code.store(R1, R2, target);
    }
    code.pop(RO);
}

/// The words of a variable behind the symbols.
fn variable(symbol: &str, code: &Code, q: &[u32], leaves: usize) -> Vec<u32> {
    let leaf = |x: usize| code.labels[&format!("Q{x}.ent")];
    match symbol {
        "n" => vec![leaves.trailing_zeros()],
        "q" => q.to_vec(),
        "Q.ent" => (0..leaves).map(leaf).collect(),
        "P.ent" | "Pmain.ent" => vec![code.labels[symbol]],
        _ => vec![0],
    }
}

/// The program at its start, without a table: Q[x] has `gates[x]` gates, their
/// number is 2 to the n, and the words q[0] to q[n] are given.
pub fn multiplexor(gates: &[u32], q: &[u32]) -> Machine {
    let mut code = Code::default();
    program(&mut code);
    code.procedure("Pmain", main_procedure);
    code.procedure("P", procedure_p);
    for (x, gates) in gates.iter().enumerate() {
        code.procedure(&format!("Q{x}"), |code| leaf(code, *gates));
    }
    let mut mem = code.complete();
    let k = mem.len();
    let variables = SYMBOLS.map(|symbol| variable(symbol, &code, q, gates.len()));
    let mut address = k + SYMBOLS.len();
    for words in &variables {
        mem.push(address as u32);
        address += words.len();
    }
    mem.extend(variables.concat());
    let stack = mem.len();
    mem.resize(stack + STACK, 0);
    let mut record = Record {
        k: k as u32,
        m: mem.len() as u32,
        ..Record::default()
    };
    record.regs[SP] = stack as u32;
    Machine {
        record,
        mem,
        table: Vec::new(),
    }
}
