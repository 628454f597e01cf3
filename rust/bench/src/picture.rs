//! The qif table as a picture, in SVG.

mod forest;

use crate::exercise::Exercise;
use crate::show;
use crank::{Machine, FC, LC, NODE_FIELDS, NODE_WORDS, NX, W};
use forest::Place;

/// Sizes in pixels.
const MARGIN: i64 = 24;
const LINE: i64 = 17;
const LETTER: i64 = 8;
const GAP: i64 = 26;
const RISE: i64 = 64;
const HEAD: i64 = 76;
/// How far a link that goes round a box stands out.
const ASIDE: i64 = 60;
/// Between the ends of the links at a node.
const PORT: i64 = 22;
/// Of coin 0 and coin 1.
const COLOURS: [&str; 2] = ["#1f5fa8", "#b3470f"];
const NEUTRAL: &str = "#555";

const STYLE: &str = "\
<style>
text { font-family: sans-serif; font-size: 13px; fill: #222; text-anchor: middle }
.head { text-anchor: start }
.key { text-anchor: start; fill: #666 }
.number { font-weight: bold }
.node rect { fill: #f4f4f1; stroke: #555 }
.present rect { fill: #ffe08a; stroke: #7a5b00; stroke-width: 2 }
.link { fill: none; stroke-width: 1.4 }
.last { stroke-dasharray: 5 4 }
.coin circle { fill: #fff }
.coin text { font-size: 11px }
</style>
";
const KEY: &str =
    "solid: first child for the coin (fc), dashed: last child (lc), to the right: next (nx)";

/// The frame of a node: the middle of its top, its height, and what is written in it.
struct Frame {
    x: i64,
    y: i64,
    height: i64,
    lines: Vec<String>,
}

struct Drawing<'a> {
    machine: &'a Machine,
    exercise: &'a Exercise,
    frames: Vec<Frame>,
    width: i64,
    svg: String,
}

/// The qif table with the present node marked.
pub fn picture(machine: &Machine, exercise: &Exercise) -> String {
    let mut drawing = Drawing::new(machine, exercise);
    drawing.head();
    for node in 0..drawing.frames.len() {
        drawing.links(node);
    }
    // Over the lines, so that none crosses a text.
    for node in 0..drawing.frames.len() {
        drawing.node(node);
    }
    drawing.svg + "</svg>\n"
}

impl Drawing<'_> {
    fn new<'a>(machine: &'a Machine, exercise: &'a Exercise) -> Drawing<'a> {
        let places = forest::places(&machine.table);
        let texts: Vec<Vec<String>> = (1..)
            .zip(machine.table.chunks(NODE_WORDS))
            .map(|(number, fields)| lines(number, fields, machine, exercise))
            .collect();
        let letters = texts.iter().flatten().map(|line| line.chars().count());
        let width = LETTER * letters.max().unwrap_or(0) as i64 + 20;
        let width = width.max(4 * PORT + 8);
        let most = texts.iter().map(Vec::len).max().unwrap_or(0) as i64;
        let pitch = (width + GAP, LINE * most + RISE);
        let frames = places
            .iter()
            .zip(texts)
            .map(|(place, lines)| Frame::new(*place, lines, pitch))
            .collect();
        Drawing {
            machine,
            exercise,
            frames,
            width,
            svg: String::new(),
        }
    }

    fn head(&mut self) {
        let caption = caption(self.machine, self.exercise);
        let right = self.frames.iter().map(|b| b.x + self.width / 2).max();
        let bottom = self.frames.iter().map(|b| b.y + b.height).max();
        let text = (LETTER - 1) * caption.chars().count().max(KEY.len()) as i64;
        let width = right.unwrap_or(0).max(text) + 3 * MARGIN;
        let height = bottom.unwrap_or(HEAD) + MARGIN;
        self.svg += &format!(
            "<svg xmlns=\"http://www.w3.org/2000/svg\" width=\"{width}\" height=\"{height}\" \
             viewBox=\"0 0 {width} {height}\">\n{STYLE}\
             <rect width=\"{width}\" height=\"{height}\" fill=\"#fff\"/>\n\
             <text class=\"head\" x=\"{MARGIN}\" y=\"26\">{}</text>\n",
            escaped(&caption)
        );
        if !self.frames.is_empty() {
            self.svg += &format!("<text class=\"key\" x=\"{MARGIN}\" y=\"44\">{KEY}</text>\n");
        }
    }

    fn links(&mut self, node: usize) {
        let fields = &self.machine.table[NODE_WORDS * node..][..NODE_WORDS];
        for coin in 0..2 {
            if let Some(child) = self.drawn(fields[FC + coin]) {
                self.child(node, child, coin, false);
            }
            if let Some(child) = self.drawn(fields[LC + coin]) {
                self.child(node, child, coin, true);
            }
        }
        if let Some(next) = self.drawn(fields[NX]) {
            self.next(node, next);
        }
    }

    /// The box of a node that exists.
    fn drawn(&self, number: u32) -> Option<usize> {
        let place = (number as usize).checked_sub(1)?;
        (place < self.frames.len()).then_some(place)
    }

    /// The link to the first or last child for a coin, from the bottom of a box to the top of another.
    fn child(&mut self, from: usize, to: usize, coin: usize, last: bool) {
        let (a, b) = (&self.frames[from], &self.frames[to]);
        // From left to right fc0, lc0, fc1, lc1: a branch ends to the right of where it begins.
        let port = if last { PORT / 2 } else { -PORT / 2 };
        let class = if last { "link last" } else { "link" };
        let [x1, x2] = [a.x + PORT * (2 * coin as i64 - 1) + port, b.x + port];
        let [y1, y2] = [a.y + a.height, b.y];
        // A link that does not lead down goes round its own box.
        let aside = if y2 > y1 {
            0
        } else {
            ASIDE + self.width * 2 / 3
        };
        let bend = if y2 > y1 { (y2 - y1) / 2 } else { RISE };
        let [cx1, cx2] = [x1 + aside, x2 + aside];
        let [cy1, cy2] = [y1 + bend, y2 - bend];
        let middle = (
            (x1 + 3 * cx1 + 3 * cx2 + x2) / 8,
            (y1 + 3 * cy1 + 3 * cy2 + y2) / 8,
        );
        let colour = COLOURS[coin];
        let field = NODE_FIELDS[if last { LC } else { FC } + coin];
        self.svg += &format!(
            "<g><title>{field}: {} to {}</title>\n\
             <path class=\"{class}\" stroke=\"{colour}\" \
             d=\"M{x1} {y1}C{cx1} {cy1} {cx2} {cy2} {x2} {}\"/>\n",
            from + 1,
            to + 1,
            y2 - 6
        );
        self.arrow(colour, (x2, y2), "l-4 -8h8z");
        self.svg += &format!(
            "<g class=\"coin\"><circle cx=\"{0}\" cy=\"{1}\" r=\"8\" stroke=\"{colour}\"/>\
             <text x=\"{0}\" y=\"{2}\" style=\"fill: {colour}\">{coin}</text></g></g>\n",
            middle.0,
            middle.1,
            middle.1 + 4
        );
    }

    /// The link nx, from the right of a box to the left of another.
    fn next(&mut self, from: usize, to: usize) {
        let (a, b) = (&self.frames[from], &self.frames[to]);
        let [x1, x2] = [a.x + self.width / 2, b.x - self.width / 2];
        let [y1, y2] = [a.y + LINE, b.y + LINE];
        // A link that does not lead to the right goes over its own box.
        let over = if x2 > x1 { 0 } else { RISE };
        let bend = if x2 > x1 { (x2 - x1) / 2 } else { RISE };
        self.svg += &format!(
            "<g><title>{}: {} to {}</title>\n\
             <path class=\"link\" stroke=\"{NEUTRAL}\" d=\"M{x1} {y1}C{} {} {} {} {} {y2}\"/>\n",
            NODE_FIELDS[NX],
            from + 1,
            to + 1,
            x1 + bend,
            y1 - over,
            x2 - bend,
            y2 - over,
            x2 - 6
        );
        self.arrow(NEUTRAL, (x2, y2), "l-8 -4v8z");
        self.svg += "</g>\n";
    }

    fn arrow(&mut self, colour: &str, (x, y): (i64, i64), shape: &str) {
        self.svg += &format!("<path fill=\"{colour}\" d=\"M{x} {y}{shape}\"/>\n");
    }

    fn node(&mut self, node: usize) {
        let number = node as u32 + 1;
        let drawn = &self.frames[node];
        let class = match self.machine.record.qifv == number {
            true => "node present",
            false => "node",
        };
        self.svg += &format!(
            "<g class=\"{class}\" id=\"node{number}\">\
             <rect x=\"{}\" y=\"{}\" width=\"{}\" height=\"{}\" rx=\"7\"/>\n",
            drawn.x - self.width / 2,
            drawn.y,
            self.width,
            drawn.height
        );
        for (row, line) in drawn.lines.iter().enumerate() {
            let class = if row == 0 { " class=\"number\"" } else { "" };
            let y = drawn.y + LINE * (row as i64 + 1) + 4;
            let text = escaped(line);
            self.svg += &format!("<text{class} x=\"{}\" y=\"{y}\">{text}</text>\n", drawn.x);
        }
        self.svg += "</g>\n";
    }
}

impl Frame {
    fn new(place: Place, lines: Vec<String>, pitch: (i64, i64)) -> Frame {
        Frame {
            x: MARGIN + place.half_column as i64 * pitch.0 / 2,
            y: HEAD + place.row as i64 * pitch.1,
            height: LINE * lines.len() as i64 + 14,
            lines,
        }
    }
}

/// What is written in the box of a node.
fn lines(number: u32, fields: &[u32], machine: &Machine, exercise: &Exercise) -> Vec<String> {
    let mut lines = vec![show::node(number, exercise)];
    if fields[W] != 0 {
        lines.push(format!("waits {}", fields[W]));
    }
    let record = &machine.record;
    if record.qifv == number && record.qifw != 0 {
        lines.push(format!("{} still to wait", record.qifw));
    }
    for (field, link) in NODE_FIELDS[..W].iter().zip(fields) {
        if *link > record.n {
            lines.push(format!("{field} = {link}"));
        }
    }
    lines
}

fn caption(machine: &Machine, exercise: &Exercise) -> String {
    let record = &machine.record;
    let count = match record.n {
        0 => "The qif table has no nodes".to_string(),
        n => format!("The qif table, N = {n}"),
    };
    let node = show::node(record.qifv, exercise);
    format!("{count}; it stands at node {node}, wait {}", record.qifw)
}

/// A text between tags.
fn escaped(text: &str) -> String {
    text.replace('&', "&amp;")
        .replace('<', "&lt;")
        .replace('>', "&gt;")
}
