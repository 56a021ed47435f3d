//! Reading a table: refusals 1 to 8 in their order.

use std::array;

use super::{Refused, Values, FIELDS};

/// Bytes of the header: two for the length, the version, the maxima, two for the number of nodes.
pub const HEADER: usize = 5 + FIELDS;

/// Bytes of a record: the kind, two for the span, two for the card, two for each field's range.
pub const RECORD: usize = 5 + 2 * FIELDS;

/// Low and high, both included.
pub type Range = (u8, u8);

#[derive(Debug)]
pub struct Node {
    pub kind: u8,
    pub span: usize,
    pub card: u16,
    pub ranges: [Range; FIELDS],
    pub parent: Option<usize>,
    pub children: Vec<usize>,
}

impl Node {
    /// "Kinds 4 and 5 are rules".
    pub fn is_rule(&self) -> bool {
        self.kind >= 4
    }
}

#[derive(Debug)]
pub struct Table {
    pub maxima: Values,
    pub nodes: Vec<Node>,
}

fn number(bytes: &[u8]) -> usize {
    usize::from(bytes[0]) * 256 + usize::from(bytes[1])
}

impl Table {
    pub fn read(bytes: &[u8]) -> Result<Table, Refused> {
        if bytes.len() < HEADER || bytes.len() != number(bytes) + 2 {
            return Err(Refused(1, 0));
        }
        if bytes[2] != 1 {
            return Err(Refused(2, 0));
        }
        let count = number(&bytes[HEADER - 2..]);
        if count == 0 || count > 128 || bytes.len() != HEADER + RECORD * count {
            return Err(Refused(3, 0));
        }
        let mut table = Table {
            maxima: array::from_fn(|field| u16::from(bytes[3 + field])),
            nodes: Vec::new(),
        };
        for (place, record) in bytes[HEADER..].chunks(RECORD).enumerate() {
            let node = table.node(place, record);
            if let Some(refusal) = table.refusal(place, &node, count) {
                return Err(Refused(refusal, place));
            }
            if let Some(parent) = node.parent {
                table.nodes[parent].children.push(place);
            }
            table.nodes.push(node);
        }
        Ok(table)
    }

    fn node(&self, place: usize, record: &[u8]) -> Node {
        Node {
            kind: record[0],
            span: number(&record[1..]),
            card: number(&record[3..]) as u16,
            ranges: array::from_fn(|field| (record[5 + 2 * field], record[6 + 2 * field])),
            parent: (0..place).rev().find(|&above| self.end(above) > place),
            children: Vec::new(),
        }
    }

    /// The first node after those that a node's span reaches over.
    fn end(&self, node: usize) -> usize {
        node + self.nodes[node].span
    }

    /// The lowest of refusals 4 to 8 that applies to a node; those before it have none.
    fn refusal(&self, place: usize, node: &Node, count: usize) -> Option<u8> {
        let span_over = match node.parent {
            None => node.span != count,
            Some(parent) => place + node.span > self.end(parent),
        };
        // "a low or high above the maximum"
        let range_wrong = (0..FIELDS).any(|field| {
            let (low, high) = node.ranges[field];
            let above = |end| u16::from(end) > self.maxima[field];
            above(low) || above(high)
        });
        if node.kind > 5 {
            Some(4)
        } else if node.span == 0 || (node.is_rule() && node.span != 1) || span_over {
            Some(5)
        } else if self.level(node) > 8 {
            Some(6)
        } else if range_wrong {
            Some(7)
        } else if node.is_rule() == (node.card == 0) {
            Some(8)
        } else {
            None
        }
    }

    /// "The root is on level 1, a child one level below its parent".
    pub fn level(&self, node: &Node) -> usize {
        1 + node
            .parent
            .map_or(0, |parent| self.level(&self.nodes[parent]))
    }
}
