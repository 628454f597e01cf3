//! The picture of a qif table: for the examples, and for tables of any size and in any disorder, it
//! is well-formed, shows every node once with its waits, marks the present one, and draws the links
//! of the table and no others.

#[path = "../../model/tests/proved/records.rs"]
mod records;
#[path = "support/scratch.rs"]
mod scratch;
#[path = "support/xml.rs"]
mod xml;

use crank::{Machine, NODE_FIELDS, NODE_WORDS};
use crank_model::{damage, generate, nodes, rng::Rng, state, structured};
use records::given;
use scratch::{scratch, top};
use std::fs;
use std::path::Path;
use std::process::Command;
use xml::Element;

const MAX_NODES: usize = crank::MAX_NODES;
const W: usize = 8;
const NX: usize = 6;
/// The fields whose links are drawn.
const LINKS: [usize; 5] = [0, 1, 2, 3, NX];
/// Between the ends of the links at a node.
const PORT: i64 = 22;
/// Of coin 0 and coin 1, and of a link without one.
const COLOURS: [&str; 2] = ["#1f5fa8", "#b3470f"];
const NEUTRAL: &str = "#555";
/// So many qifs have the most nodes: three each, and the root.
const QIFS: u32 = 170;

/// The picture drawn after some commands.
fn draw(folder: &Path, file: &str, before: &str) -> String {
    // Of an earlier one.
    let _ = fs::remove_file(folder.join("t.svg"));
    let drawn = Command::new(env!("CARGO_BIN_EXE_bench"))
        .args([file, "-c", &format!("{before}; picture t.svg")])
        .current_dir(folder)
        .output()
        .expect("bench");
    assert!(drawn.status.success(), "{file}: {drawn:?}");
    fs::read_to_string(folder.join("t.svg")).expect("a picture")
}

/// Left, top, right, bottom.
type Edges = [i64; 4];

fn edges(rect: &Element) -> Edges {
    let [x, y, width, height] = ["x", "y", "width", "height"].map(|name| rect.number(name));
    [x, y, x + width, y + height]
}

fn apart(a: &Edges, b: &Edges) -> bool {
    a[2] < b[0] || b[2] < a[0] || a[3] < b[1] || b[3] < a[1]
}

/// A link as it is drawn: where it begins and where its arrow ends, and what marks it.
#[derive(Debug, PartialEq, Eq, PartialOrd, Ord)]
struct Link {
    /// As its title says: the field, from and to.
    title: String,
    class: String,
    colour: String,
    /// Of a link to a child.
    coin: Option<String>,
    /// Node and place on its edge.
    ends: [(usize, Edge); 2],
}

/// The place on an edge of a box, as the picture has them from left to right.
#[derive(Clone, Copy, Debug, PartialEq, Eq, PartialOrd, Ord)]
enum Edge {
    /// At the bottom: fc0, lc0, fc1, lc1.
    Bottom(i64),
    /// At the top: first, last.
    Top(i64),
    Right,
    Left,
}

/// The numbers in the path of a link, or the first two in that of an arrow.
fn points(path: &Element) -> Vec<i64> {
    let path = path.attribute("d").expect("a path");
    let path = path.split('l').next().expect("a beginning");
    let numbers = path.split(|c: char| !c.is_ascii_digit() && c != '-');
    let numbers = numbers.filter(|number| !number.is_empty());
    numbers.map(|n| n.parse().expect("a number")).collect()
}

/// The box and the place on its edge that a point is at; the edges of boxes are apart.
fn edge(boxes: &[Edges], x: i64, y: i64) -> (usize, Edge) {
    let at = |[left, top, right, bottom]: Edges| {
        let port = (x - left - (right - left) / 2).div_euclid(PORT);
        let (across, along) = ((left..=right).contains(&x), (top..=bottom).contains(&y));
        match (across, along) {
            (true, _) if y == bottom => Some(Edge::Bottom(port)),
            (true, _) if y == top => Some(Edge::Top(port)),
            (_, true) if x == right => Some(Edge::Right),
            (_, true) if x == left => Some(Edge::Left),
            _ => None,
        }
    };
    let mut found = (1..)
        .zip(boxes)
        .filter_map(|(node, edges)| Some((node, at(*edges)?)));
    let place = found.next().unwrap_or_else(|| panic!("no box at {x} {y}"));
    assert!(found.next().is_none(), "two boxes at {x} {y}");
    place
}

/// Every link that is drawn.
fn drawn_links(elements: &[Element], boxes: &[Edges]) -> Vec<Link> {
    let mut links = Vec::new();
    for (place, title) in elements.iter().enumerate() {
        if title.name != "title" {
            continue;
        }
        let [path, arrow] = [1, 2].map(|next| &elements[place + next]);
        let colour = path.attribute("stroke").expect("a colour");
        assert_eq!(arrow.attribute("fill"), Some(colour));
        let (line, tip) = (points(path), points(arrow));
        assert_eq!((line.len(), tip.len()), (8, 2), "{}", title.text);
        let coin = elements
            .get(place + 3)
            .filter(|group| group.attribute("class") == Some("coin"));
        links.push(Link {
            title: title.text.clone(),
            class: path.attribute("class").expect("a class").to_string(),
            colour: colour.to_string(),
            coin: coin.map(|_| elements[place + 5].text.clone()),
            ends: [edge(boxes, line[0], line[1]), edge(boxes, tip[0], tip[1])],
        });
    }
    links
}

/// How a link of the table should be drawn.
fn link(field: usize, from: usize, to: usize) -> Link {
    let title = format!("{}: {from} to {to}", NODE_FIELDS[field]);
    if field == NX {
        return Link {
            title,
            class: "link".to_string(),
            colour: NEUTRAL.to_string(),
            coin: None,
            ends: [(from, Edge::Right), (to, Edge::Left)],
        };
    }
    let (coin, last) = (field % 2, field / 2);
    // From left to right fc0, lc0, fc1, lc1, and first, last.
    let bottom = 2 * coin as i64 + last as i64 - 2;
    Link {
        title,
        class: ["link", "link last"][last].to_string(),
        colour: COLOURS[coin].to_string(),
        coin: Some(coin.to_string()),
        ends: [
            (from, Edge::Bottom(bottom)),
            (to, Edge::Top(last as i64 - 1)),
        ],
    }
}

/// Every link of the table to a node that exists.
fn links_of(machine: &Machine) -> Vec<Link> {
    let count = machine.record.n as usize;
    let mut links = Vec::new();
    for (from, fields) in (1..).zip(machine.table.chunks(NODE_WORDS)) {
        for field in LINKS {
            let to = fields[field] as usize;
            if (1..=count).contains(&to) {
                links.push(link(field, from, to));
            }
        }
    }
    links
}

/// Every link to a node that exists is drawn once, between its boxes and as its kind is; gives how
/// many.
fn check_links(machine: &Machine, elements: &[Element], boxes: &[Edges]) -> usize {
    let (mut drawn, mut expected) = (drawn_links(elements, boxes), links_of(machine));
    drawn.sort();
    expected.sort();
    for (drawn, expected) in drawn.iter().zip(&expected) {
        assert_eq!(drawn, expected);
    }
    assert_eq!(drawn.len(), expected.len(), "links");
    let lines = |element: &&Element| {
        let class = element.attribute("class").unwrap_or_default();
        class.split(' ').any(|name| name == "link")
    };
    assert_eq!(
        elements.iter().filter(lines).count(),
        drawn.len(),
        "lines without a title"
    );
    drawn.len()
}

/// Checks the picture of a table; gives the nodes and the links seen.
fn check(machine: &Machine, svg: &str) -> (usize, usize) {
    let elements = xml::elements(svg);
    let groups: Vec<usize> = (0..elements.len())
        .filter(|place| elements[*place].attribute("id").is_some())
        .collect();
    let count = machine.record.n as usize;
    assert_eq!(groups.len(), count, "boxes");
    let mut boxes = Vec::new();
    for (node, group) in (1..).zip(&groups) {
        let fields = &machine.table[NODE_WORDS * (node - 1)..][..NODE_WORDS];
        let [group, rect, title] = [0, 1, 2].map(|next| &elements[group + next]);
        assert_eq!(group.attribute("id"), Some(format!("node{node}").as_str()));
        let present = group.attribute("class") == Some("node present");
        assert_eq!(present, machine.record.qifv as usize == node);
        assert_eq!(
            title.text.split(' ').next(),
            Some(node.to_string().as_str())
        );
        let end = svg.split(&format!("id=\"node{node}\"")).nth(1).expect("it");
        let inside = end.split("</g>").next().expect("its end");
        let waits = format!(">waits {}<", fields[W]);
        assert_eq!(inside.contains(&waits), fields[W] != 0, "{inside}");
        for link in fields[..W].iter().filter(|link| **link as usize > count) {
            assert!(inside.contains(&format!(" = {link}<")), "{link}: {inside}");
        }
        boxes.push(edges(rect));
    }
    let all = &elements[0];
    let (width, height) = (all.number("width"), all.number("height"));
    for (place, one) in boxes.iter().enumerate() {
        assert!(one[0] > 0 && one[1] > 0 && one[2] < width && one[3] < height);
        assert!(
            boxes[..place].iter().all(|other| apart(one, other)),
            "they overlap"
        );
    }
    (count, check_links(machine, &elements, &boxes))
}

fn of_model(from: &state::Machine) -> Machine {
    Machine {
        record: given(from.record),
        mem: from.mem.clone(),
        table: from.table.clone(),
    }
}

/// A machine of any kind; those with a table of its own have up to the most nodes.
fn machine(rng: &mut Rng, round: u32) -> state::Machine {
    let mut machine = match round % 2 {
        0 => generate::valid(rng),
        _ => structured::program(rng, None),
    };
    if round % 4 > 1 {
        machine.table = nodes::random_table(rng, QIFS.min(1 << (round / 4 % 8)));
        machine.record.n = (machine.table.len() / NODE_WORDS) as u32;
    }
    machine.record.qifv = rng.between(0, machine.record.n);
    machine
}

/// Saves, draws and checks; gives the nodes and the links, or nothing where such a machine can't be
/// saved.
fn check_machine(folder: &Path, machine: &Machine) -> Option<(usize, usize)> {
    let image = machine.save().ok()?;
    fs::write(folder.join("t.img"), &image).expect("an image");
    let machine = Machine::load(&image).expect("what was saved");
    Some(check(&machine, &draw(folder, "t.img", "")))
}

fn with_table(table: Vec<u32>) -> Machine {
    Machine::new(1, vec![0x1A00_0000], table)
}

#[test]
fn the_examples() {
    let folder = scratch("picture_examples");
    let (mut pictures, mut nodes, mut links) = (0, 0, 0);
    for entry in fs::read_dir(folder.join("examples")).expect("the examples") {
        let path = entry.expect("an example").path();
        let name = path.file_stem().expect("a name").to_string_lossy();
        if path.extension().is_some_and(|extension| extension == "img") {
            let machine = Machine::load(&fs::read(&path).expect("it")).expect("an image");
            for extension in ["img", "qasm"] {
                let svg = draw(&folder, &format!("examples/{name}.{extension}"), "");
                let seen = check(&machine, &svg);
                (nodes, links) = (nodes + seen.0, links + seen.1);
                pictures += 1;
            }
        }
    }
    println!("examples: {pictures} pictures, {nodes} nodes, {links} links");
    assert!(pictures >= 24 && nodes > 50 && links > 100);
}

/// The pictures in docs/BENCH.md and docs/MANUAL.md are those that the commands beside them draw.
#[test]
fn the_pictures_of_the_documents() {
    let folder = scratch("picture_documents");
    for (name, file, before) in [
        ("docs/table.svg", "examples/qif_nested10.qasm", "f 5"),
        ("docs/made.svg", "examples/mux.qasm", ""),
    ] {
        let picture = draw(&folder, file, before);
        let kept = fs::read_to_string(top().join(name)).expect(name);
        assert!(picture == kept, "{name} is to be drawn anew");
    }
}

#[test]
fn names_are_escaped() {
    let folder = scratch("picture_names");
    let source = "start\n.qifv &a\n.node &a fc0=@b w=2\n.node @b cf=&a\n";
    fs::write(folder.join("names.qasm"), source).expect("a source");
    let svg = draw(&folder, "names.qasm", "");
    xml::elements(&svg);
    assert!(svg.contains(">1 &amp;a</text>") && svg.contains(">2 @b</text>"));
    assert!(svg.contains("it stands at node 1 &amp;a, wait 0<"));
}

#[test]
fn chains_and_sizes() {
    let folder = scratch("picture_sizes");
    let chain = |fields: &[usize]| {
        let mut table = vec![0; NODE_WORDS * MAX_NODES];
        for node in 0..MAX_NODES - 1 {
            for field in fields {
                table[NODE_WORDS * node + field] = node as u32 + 2;
            }
        }
        table
    };
    let own = |number: u32| (1..=number).flat_map(|node| [node; NODE_WORDS]).collect();
    let tables = [
        Vec::new(),
        own(1),
        own(MAX_NODES as u32),
        chain(&[]),
        chain(&[0]),
        chain(&[1, 3]),
        chain(&[6]),
        chain(&[0, 1, 2, 3, 4, 5, 6, 7]),
        vec![u32::MAX; NODE_WORDS * MAX_NODES],
        vec![1; NODE_WORDS * MAX_NODES],
        vec![MAX_NODES as u32; NODE_WORDS * MAX_NODES],
    ];
    let drawn: Vec<(usize, usize)> = tables
        .into_iter()
        .map(|table| check_machine(&folder, &with_table(table)).expect("its sizes are in order"))
        .collect();
    println!("sizes: pictures of {drawn:?} nodes and links");
    assert!(drawn.contains(&(0, 0)) && drawn.contains(&(MAX_NODES, LINKS.len() * MAX_NODES)));
}

#[test]
fn tables_in_order_and_disorder() {
    let folder = scratch("picture_random");
    let mut rng = Rng::new(20);
    let (mut pictures, mut nodes, mut links, mut damaged) = (0, 0, 0, 0);
    for round in 0..120 {
        let mut machine = machine(&mut rng, round);
        let drawn = check_machine(&folder, &of_model(&machine)).expect("its sizes are in order");
        (nodes, links) = (nodes + drawn.0, links + drawn.1);
        for _ in 0..6 {
            damage::damage(&mut rng, &mut machine);
        }
        damaged += usize::from(check_machine(&folder, &of_model(&machine)).is_some());
        pictures += 1;
    }
    println!(
        "random: {pictures} pictures with {nodes} nodes and {links} links, and {damaged} of \
         damaged tables"
    );
    assert!(pictures == 120 && nodes > 1000 && links > 1000 && damaged > 10);
}
