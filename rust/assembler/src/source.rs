//! Reading a source: its words, labels, nodes and settings, with operands left as they are written.

use crate::forms::{register_number, Form};
use crate::text::{
    as_count, is_name, leading_label, lines, number, operands, quoted, split_item, split_word,
    without_comment, FROM,
};
use crate::{preface, Checked, Error};
use crank::{Kind, MAKE_LIMIT, MAX_NODES, MAX_WORDS, REGISTERS};
use std::collections::HashMap;

/// Nodes are written, or all are made.
const BOTH: &str = "a source has .node lines or .table make, not both";

/// A section of the memory, by its place among the words.
#[derive(Clone, Copy, Default, PartialEq, Eq)]
pub enum Section {
    #[default]
    Code,
    Data,
}

/// A memory word as written.
pub enum Word<'a> {
    Instruction(&'static Form, &'a str),
    Value(&'a str),
    Zero,
}

/// `.node`, with its fields as written.
pub struct Node<'a> {
    pub line: usize,
    /// None where it is written by number.
    pub name: Option<&'a str>,
    pub fields: &'a str,
}

/// `.table make`.
pub struct Making {
    pub line: usize,
    /// The most cycles that are walked.
    pub limit: u32,
}

/// What a line gives its first value: a register, qifv, qifw or the position.
#[derive(Clone, Copy, PartialEq, Eq)]
pub enum Place {
    Register(usize),
    Qifv,
    Qifw,
    Position,
}

/// A line that sets a first value.
pub struct Setting<'a> {
    pub line: usize,
    pub place: Place,
    pub value: &'a str,
}

/// A source, read but not resolved.
#[derive(Default)]
pub struct Source<'a> {
    pub code: Vec<(usize, Word<'a>)>,
    pub data: Vec<(usize, Word<'a>)>,
    section: Section,
    /// In the order written: section and place in it.
    pub labels: Vec<(&'a str, Section, usize)>,
    label_places: HashMap<&'a str, usize>,
    pub nodes: Vec<Node<'a>>,
    pub node_numbers: HashMap<&'a str, u32>,
    /// Where the nodes are not written.
    pub making: Option<Making>,
    pub settings: Vec<Setting<'a>>,
    pub preface: Vec<u8>,
    /// The number of the last line, where what concerns the whole is reported.
    pub last: usize,
}

impl<'a> Source<'a> {
    /// Reads all lines.
    pub fn read(text: &'a str) -> Result<Source<'a>, Error> {
        let mut source = Source {
            last: 1,
            ..Source::default()
        };
        for (index, text) in lines(text).enumerate() {
            let line = index + 1;
            source.last = line;
            source
                .line(text)
                .map_err(|message| Error { line, message })?;
        }
        Ok(source)
    }

    /// Labels, then at most one instruction or directive.
    fn line(&mut self, text: &'a str) -> Checked<()> {
        let mut rest = without_comment(text)?.trim();
        while let Some((name, after)) = leading_label(rest) {
            self.label(name)?;
            rest = after;
        }
        if rest.is_empty() {
            return Ok(());
        }
        if let Some(directive) = rest.strip_prefix('.') {
            return self.directive(directive);
        }
        let (form, operands) = Form::written(rest)?;
        if self.section == Section::Data {
            return Err("an instruction in the data section; write .code before it".into());
        }
        self.push(Word::Instruction(form, operands))
    }

    fn label(&mut self, name: &'a str) -> Checked<()> {
        check_name(name)?;
        let place = match self.section {
            Section::Code => self.code.len(),
            Section::Data => self.data.len(),
        };
        if self.label_places.insert(name, self.labels.len()).is_some() {
            return Err(format!("the label {name} is defined twice"));
        }
        self.labels.push((name, self.section, place));
        Ok(())
    }

    /// The address of a label; K is known when all lines are read.
    pub fn address(&self, label: &str) -> Option<usize> {
        let (_, section, place) = self.labels[*self.label_places.get(label)?];
        Some(match section {
            Section::Code => place,
            Section::Data => self.code.len() + place,
        })
    }

    /// The kind of its image: where no position is written, the one that has none.
    pub fn kind(&self) -> Kind {
        match self.sets(Place::Position) {
            true => Kind::Two,
            false => Kind::One,
        }
    }

    fn sets(&self, place: Place) -> bool {
        self.settings.iter().any(|set| set.place == place)
    }

    fn push(&mut self, word: Word<'a>) -> Checked<()> {
        if self.code.len() + self.data.len() == MAX_WORDS {
            return Err(format!("more than {MAX_WORDS} memory words"));
        }
        let words = match self.section {
            Section::Code => &mut self.code,
            Section::Data => &mut self.data,
        };
        words.push((self.last, word));
        Ok(())
    }

    fn directive(&mut self, text: &'a str) -> Checked<()> {
        let (name, rest) = split_word(text);
        let lower = name.to_ascii_lowercase();
        match lower.as_str() {
            "code" | "data" if !rest.is_empty() => Err(format!(".{lower} takes no operand")),
            "code" => {
                self.section = Section::Code;
                Ok(())
            }
            "data" => {
                self.section = Section::Data;
                Ok(())
            }
            "word" if rest.is_empty() => Err(".word takes at least one value".into()),
            "word" => operands(rest)?
                .into_iter()
                .try_for_each(|value| self.push(Word::Value(value))),
            "space" => self.space(rest),
            "node" => self.node(rest),
            "table" => self.table(rest),
            "reg" => self.register(rest),
            "qifv" if rest.is_empty() => Err(".qifv takes a node, by name or number".into()),
            "qifv" => self.setting(Place::Qifv, rest),
            "qifw" if rest.is_empty() => Err(".qifw takes a number".into()),
            "qifw" => self.setting(Place::Qifw, rest),
            "position" if rest.is_empty() => Err(".position takes a number".into()),
            "position" => self.setting(Place::Position, rest),
            "preface" => {
                self.preface.extend(preface::read(rest)?);
                Ok(())
            }
            _ => Err(format!("unknown directive {}", quoted(&format!(".{name}")))),
        }
    }

    fn space(&mut self, rest: &str) -> Checked<()> {
        if rest.is_empty() {
            return Err(".space takes a number of words".into());
        }
        let count = number(rest)?;
        if !(1..=MAX_WORDS as i64).contains(&count) {
            return Err(format!(".space takes 1 to {MAX_WORDS} words, not {count}"));
        }
        (0..count).try_for_each(|_| self.push(Word::Zero))
    }

    /// A name that is a number must be the number that the node gets.
    fn node(&mut self, rest: &'a str) -> Checked<()> {
        let (name, fields) = split_item(rest);
        if name.is_empty() {
            return Err(".node takes a name, then fields such as nx=2".into());
        }
        if fields.is_empty() && rest.ends_with(',') {
            return Err("an operand is missing beside a comma".into());
        }
        if self.making.is_some() {
            return Err(BOTH.into());
        }
        if self.nodes.len() == MAX_NODES {
            return Err(format!("more than {MAX_NODES} nodes"));
        }
        let place = self.nodes.len() + 1;
        let by_number = name.starts_with(|c: char| c.is_ascii_digit());
        if by_number && number(name)? != place as i64 {
            return Err(format!("this is node {place}, but it is written as {name}"));
        }
        if !by_number {
            check_name(name)?;
            if self.node_numbers.insert(name, place as u32).is_some() {
                return Err(format!("the node {name} is defined twice"));
            }
        }
        self.nodes.push(Node {
            line: self.last,
            name: (!by_number).then_some(name),
            fields,
        });
        Ok(())
    }

    /// `make`, and the limit where one is written.
    fn table(&mut self, rest: &str) -> Checked<()> {
        let (make, limit) = split_word(rest);
        if !make.eq_ignore_ascii_case("make") {
            return Err(".table takes make, then a limit of cycles or nothing".into());
        }
        if self.making.is_some() {
            return Err(".table make is written twice".into());
        }
        if !self.nodes.is_empty() {
            return Err(BOTH.into());
        }
        let limit = match limit {
            "" => MAKE_LIMIT,
            _ => as_count(number(limit)?)?,
        };
        let line = self.last;
        self.making = Some(Making { line, limit });
        Ok(())
    }

    fn register(&mut self, rest: &'a str) -> Checked<()> {
        let (name, value) = split_item(rest);
        if value.is_empty() || value.starts_with('=') {
            return Err(".reg takes a register and a value, as in .reg r1 5".into());
        }
        match register_number(name) {
            Some(register) => self.setting(Place::Register(register), value),
            None => Err(format!("{} is not a register", quoted(name))),
        }
    }

    fn setting(&mut self, place: Place, value: &'a str) -> Checked<()> {
        if self.sets(place) {
            let name = match place {
                Place::Register(register) => REGISTERS[register],
                Place::Qifv => "qifv",
                Place::Qifw => "qifw",
                Place::Position => "position",
            };
            return Err(format!("{name} is set twice"));
        }
        let line = self.last;
        self.settings.push(Setting { line, place, value });
        Ok(())
    }
}

fn check_name(name: &str) -> Checked<()> {
    if !is_name(name) {
        let rule = "a letter or _, then letters, digits, _ and .";
        return Err(format!("{} is not a name: {rule}", quoted(name)));
    }
    if register_number(name).is_some() {
        return Err(format!("{name} is a register and cannot be a name"));
    }
    if name.eq_ignore_ascii_case(FROM) {
        return Err(format!("{name} marks a landing and cannot be a name"));
    }
    Ok(())
}
