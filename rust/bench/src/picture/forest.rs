//! Where the nodes of a qif table go in a picture: a forest, children below, next to the right.
//!
//! Any table has one, a crooked one too: each node is placed where it is met first, and a link to a
//! placed node is only a line. Without recursion, since a chain may be as long as the table.

use crank::{FC, NODE_WORDS, NX};

/// The links that are followed, in this order: fc0, fc1, nx.
const FOLLOWED: [usize; 3] = [FC, FC + 1, NX];
/// Trees stand side by side up to this many columns, then below.
const SHELF: usize = 16;

/// The place of a node: twice its column, since a parent stands between two children, and its row.
#[derive(Clone, Copy, Default)]
pub struct Place {
    pub half_column: usize,
    pub row: usize,
}

#[derive(Clone, Default)]
struct Node {
    met: bool,
    /// The nodes that were met first from here, by the links in their order.
    branches: [Option<usize>; 3],
    /// The columns of the children, of the node with these, and with all that follows by nx too.
    below: usize,
    own: usize,
    whole: usize,
    place: Place,
}

/// The nodes, counted from 0.
struct Forest {
    nodes: Vec<Node>,
}

/// The place of each node, from node 1.
pub fn places(table: &[u32]) -> Vec<Place> {
    let count = table.len() / NODE_WORDS;
    let mut forest = Forest {
        nodes: vec![Node::default(); count],
    };
    let (mut column, mut top, mut bottom) = (0, 0, 0);
    for root in roots(table) {
        if forest.nodes[root].met {
            continue;
        }
        let order = forest.walk(root, table);
        forest.measure(&order);
        let width = forest.nodes[root].whole;
        if column > 0 && column + width > SHELF {
            (column, top) = (0, bottom);
        }
        let rows = forest.place(&order, column, top);
        column += width;
        bottom = bottom.max(rows);
    }
    forest.nodes.iter().map(|node| node.place).collect()
}

/// The node that a link names, counted from 0, if there is one.
fn target(table: &[u32], node: usize, field: usize) -> Option<usize> {
    let number = table[NODE_WORDS * node + field] as usize;
    (1..=table.len() / NODE_WORDS)
        .contains(&number)
        .then(|| number - 1)
}

/// All nodes, first those that no other leads to: there the trees of a table in order begin.
fn roots(table: &[u32]) -> Vec<usize> {
    let count = table.len() / NODE_WORDS;
    let mut entered = vec![false; count];
    for node in 0..count {
        for field in FOLLOWED {
            if let Some(next) = target(table, node, field).filter(|next| *next != node) {
                entered[next] = true;
            }
        }
    }
    let (inner, mut first): (Vec<usize>, Vec<usize>) = (0..count).partition(|node| entered[*node]);
    first.extend(inner);
    first
}

impl Forest {
    /// Meets what can be reached from a root; gives the nodes met, parents before children.
    fn walk(&mut self, root: usize, table: &[u32]) -> Vec<usize> {
        let mut order = Vec::new();
        let mut ahead = vec![(root, None)];
        while let Some((node, from)) = ahead.pop() {
            if self.nodes[node].met {
                continue;
            }
            self.nodes[node].met = true;
            order.push(node);
            if let Some((parent, branch)) = from {
                let parent: &mut Node = &mut self.nodes[parent];
                parent.branches[branch] = Some(node);
            }
            for (branch, field) in FOLLOWED.into_iter().enumerate().rev() {
                if let Some(next) = target(table, node, field) {
                    ahead.push((next, Some((node, branch))));
                }
            }
        }
        order
    }

    fn measure(&mut self, order: &[usize]) {
        for node in order.iter().rev() {
            let [fc0, fc1, nx] = self.nodes[*node]
                .branches
                .map(|branch| branch.map_or(0, |branch| self.nodes[branch].whole));
            let node = &mut self.nodes[*node];
            node.below = fc0 + fc1;
            node.own = node.below.max(1);
            node.whole = node.own + nx;
        }
    }

    /// Places a measured tree with its left top corner there; gives the row below it.
    fn place(&mut self, order: &[usize], column: usize, top: usize) -> usize {
        // For each node the half column at which its own part begins, and its row.
        let mut corners = vec![(2 * column, top); self.nodes.len()];
        let mut bottom = top;
        for at in order {
            let node = &self.nodes[*at];
            let (left, row) = corners[*at];
            let inner = left + node.own - node.below;
            let [fc0, fc1, nx] = node.branches;
            let second = inner + 2 * fc0.map_or(0, |child| self.nodes[child].whole);
            let starts = [
                (inner, row + 1),
                (second, row + 1),
                (left + 2 * node.own, row),
            ];
            for (branch, corner) in [fc0, fc1, nx].into_iter().zip(starts) {
                if let Some(branch) = branch {
                    corners[branch] = corner;
                }
            }
            let half_column = left + node.own;
            self.nodes[*at].place = Place { half_column, row };
            bottom = bottom.max(row + 1);
        }
        bottom
    }
}
