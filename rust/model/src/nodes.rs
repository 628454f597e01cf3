//! Qif tables with paired links, grown as an execution with two branches at
//! each qif would make them.

use crate::machine::{link, CF, CL, FC, LC, NODE, NX, PR, W};
use crate::rng::Rng;

/// A table under construction; node numbers count from 1.
#[derive(Clone, Debug, Default)]
pub struct Nodes {
    nodes: Vec<[u32; NODE]>,
}

impl Nodes {
    pub fn count(&self) -> u32 {
        self.nodes.len() as u32
    }

    pub fn get(&self, node: u32, field: usize) -> u32 {
        self.nodes[node as usize - 1][field]
    }

    pub fn set(&mut self, node: u32, field: usize, value: u32) {
        self.nodes[node as usize - 1][field] = value;
    }

    /// A new node without links.
    pub fn add(&mut self, w: u32) -> u32 {
        let mut node = [0; NODE];
        node[W] = w;
        self.nodes.push(node);
        self.count()
    }

    /// Makes `child` the first child of `v` for a coin.
    pub fn first_child(&mut self, v: u32, coin: usize, child: u32) {
        self.set(v, FC + coin, child);
        self.set(child, CF, v);
    }

    /// Makes `child` the last child of `v` for a coin.
    pub fn last_child(&mut self, v: u32, coin: usize, child: u32) {
        self.set(v, LC + coin, child);
        self.set(child, CL, v);
    }

    pub fn next(&mut self, v: u32, next: u32) {
        self.set(v, NX, next);
        self.set(next, PR, v);
    }

    /// Gives the childless last node `v` two children and a next node, which
    /// takes over as last child of v's parent.
    fn grow(&mut self, v: u32, rng: &mut Rng) {
        for coin in 0..2 {
            let child = self.add(rng.below(5));
            self.first_child(v, coin, child);
            self.last_child(v, coin, child);
        }
        let next = self.add(rng.below(5));
        self.next(v, next);
        let parent = self.get(v, CL);
        if parent != 0 {
            let coin = usize::from(self.get(parent, LC + 1) == v);
            self.last_child(parent, coin, next);
            self.set(v, CL, 0);
        }
    }

    /// The words of the table.
    pub fn words(&self) -> Vec<u32> {
        self.nodes.concat()
    }

    /// The words with the nodes renumbered at random, and the new number of
    /// each old node.
    pub fn shuffled(&self, rng: &mut Rng) -> (Vec<u32>, Vec<u32>) {
        let count = self.nodes.len();
        let mut number: Vec<u32> = (0..=count as u32).collect();
        for i in (2..=count).rev() {
            let j = 1 + rng.index(i);
            number.swap(i, j);
        }
        let mut words = vec![0; NODE * count];
        for (old, node) in self.nodes.iter().enumerate() {
            let at = NODE * (number[old + 1] as usize - 1);
            for (field, value) in node.iter().enumerate() {
                words[at + field] = if field == W {
                    *value
                } else {
                    number[*value as usize]
                };
            }
        }
        (words, number)
    }
}

/// A random nest of qifs with at most `most` of them; each takes 3 nodes.
pub fn random_table(rng: &mut Rng, most: u32) -> Vec<u32> {
    let mut nodes = Nodes::default();
    nodes.add(rng.below(5));
    for _ in 0..rng.between(1, most) {
        let childless: Vec<u32> = (1..=nodes.count())
            .filter(|v| nodes.get(*v, FC) == 0)
            .collect();
        let v = rng.pick(&childless);
        nodes.grow(v, rng);
    }
    nodes.shuffled(rng).0
}

/// How many qifs enclose a node: 0 at the top; `None` if the links do not
/// lead there.
pub fn depth(table: &[u32], n: u32, node: u32) -> Option<u32> {
    let mut depth = 0;
    let mut at = node;
    for _ in 0..=2 * n {
        let before = link(table, n, at, PR)?;
        let above = link(table, n, at, CF)?;
        if before == 0 && above == 0 {
            return Some(depth);
        }
        if before == 0 {
            depth += 1;
            at = above;
        } else {
            at = before;
        }
    }
    None
}
