//! The convention profile: refusals 14, 15 and 16, in the requirements' words.

use super::{reader::Node, Refused, Table};

impl Table {
    /// Reads a table by the profile: "after all of 1 to 8", "14 is looked for in all nodes before 15, and 15 before 16".
    pub fn read_standard(bytes: &[u8]) -> Result<Table, Refused> {
        let table = Table::read(bytes)?;
        let lowest = |fault: fn(&Table, &Node) -> bool| {
            let mut nodes = table.nodes.iter();
            nodes.position(|node| fault(&table, node))
        };
        if let Some(group) = lowest(Table::is_mixed) {
            return Err(Refused(14, group));
        }
        if let Some(group) = lowest(Table::is_only_one_with_a_rule) {
            return Err(Refused(15, group));
        }
        if table.nodes[0].is_rule() {
            return Err(Refused(16, 0));
        }
        Ok(table)
    }

    /// "when a group holds rules and groups"
    fn is_mixed(&self, node: &Node) -> bool {
        self.has_child(node, true) && self.has_child(node, false)
    }

    /// "when an "only one" group holds a rule"
    fn is_only_one_with_a_rule(&self, node: &Node) -> bool {
        node.kind == 1 && self.has_child(node, true)
    }

    /// Whether a node holds a rule, or a group.
    fn has_child(&self, node: &Node, rule: bool) -> bool {
        let mut children = node.children.iter();
        children.any(|&child| self.nodes[child].is_rule() == rule)
    }
}
