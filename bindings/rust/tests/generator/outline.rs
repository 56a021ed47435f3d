//! A table's nodes before they are bytes.

use crate::evaluator::{Range, Table, FIELDS};

/// The largest value of each field.
pub type Maxima = [u8; FIELDS];

/// The range of each field.
pub type Ranges = [Range; FIELDS];

/// A node by its level: under it are the nodes on deeper levels that follow it directly.
#[derive(Clone, Copy, PartialEq)]
pub struct Node {
    pub level: usize,
    pub kind: u8,
    pub card: u16,
    pub ranges: Ranges,
}

impl Node {
    pub fn is_group(&self) -> bool {
        self.kind < 4
    }
}

#[derive(Clone, PartialEq)]
pub struct Outline {
    pub maxima: Maxima,
    pub nodes: Vec<Node>,
}

impl Outline {
    /// No nodes yet.
    pub fn new(maxima: Maxima) -> Outline {
        Outline {
            maxima,
            nodes: Vec::new(),
        }
    }

    /// The nodes of a table that is accepted.
    pub fn of(bytes: &[u8]) -> Outline {
        let table = Table::read(bytes).expect("a table that is accepted");
        let mut outline = Outline::new(table.maxima.map(|most| most as u8));
        for node in &table.nodes {
            outline.add(table.level(node), node.kind, node.card, node.ranges);
        }
        outline
    }

    /// Ranges that hold every value.
    pub fn all(&self) -> Ranges {
        self.maxima.map(|most| (0, most))
    }

    pub fn add(&mut self, level: usize, kind: u8, card: u16, ranges: Ranges) {
        self.nodes.push(Node {
            level,
            kind,
            card,
            ranges,
        });
    }

    /// How many nodes a node and all under it are.
    pub fn span(&self, node: usize) -> usize {
        let level = self.nodes[node].level;
        let after = self.nodes[node + 1..].iter();
        1 + after.take_while(|under| under.level > level).count()
    }

    /// The children of a node.
    pub fn children(&self, node: usize) -> Vec<usize> {
        let level = self.nodes[node].level + 1;
        let under = node + 1..node + self.span(node);
        under
            .filter(|&under| self.nodes[under].level == level)
            .collect()
    }

    /// The place of a node's parent; the root has none.
    pub fn place_above(&self, node: usize) -> Option<usize> {
        let level = self.nodes[node].level;
        (0..node)
            .rev()
            .find(|&above| self.nodes[above].level < level)
    }

    /// The parent of a node that is not the root.
    pub fn parent(&self, node: usize) -> &Node {
        let above = self.place_above(node);
        &self.nodes[above.expect("a node above all but the root")]
    }

    /// A group more before a node, with ranges that hold every value.
    pub fn insert_group(&mut self, place: usize, level: usize, kind: u8) {
        let ranges = self.all();
        let group = Node {
            level,
            kind,
            card: 0,
            ranges,
        };
        self.nodes.insert(place, group);
    }

    /// A node and all under it put in a group of their own.
    pub fn wrap(&mut self, place: usize, kind: u8) {
        let level = self.nodes[place].level;
        let end = place + self.span(place);
        for node in &mut self.nodes[place..end] {
            node.level += 1;
        }
        self.insert_group(place, level, kind);
    }

    /// All nodes of another outline, as the last child of the root with all under it.
    pub fn attach(&mut self, expansion: &Outline) {
        let deeper = |node: &Node| Node {
            level: node.level + 1,
            ..*node
        };
        self.nodes.extend(expansion.nodes.iter().map(deeper));
    }

    pub fn bytes(&self) -> Vec<u8> {
        let mut bytes = vec![0, 0, 1];
        bytes.extend(self.maxima);
        bytes.extend((self.nodes.len() as u16).to_be_bytes());
        for (place, node) in self.nodes.iter().enumerate() {
            bytes.push(node.kind);
            bytes.extend((self.span(place) as u16).to_be_bytes());
            bytes.extend(node.card.to_be_bytes());
            bytes.extend(node.ranges.iter().flat_map(|&(low, high)| [low, high]));
        }
        state_length(&mut bytes);
        bytes
    }
}

/// States a table's length as it is, where it has room for that.
pub fn state_length(bytes: &mut [u8]) {
    let length = bytes.len().saturating_sub(2) as u16;
    if let Some(word) = bytes.first_chunk_mut() {
        *word = length.to_be_bytes();
    }
}
