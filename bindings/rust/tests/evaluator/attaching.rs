//! Attaching an expansion to a base: refusals 17, 18 and 19, the table of both, and what it gives, by its parts.

use super::ruling::{combined, holds, Child};
use super::{Joint, Refused, Ruled, Table, HEADER};

/// The bytes of the table of both, or the first refusal but 11: "in this order after both tables' own faults, the base
/// first".
pub fn attach(base: &[u8], expansion: &[u8]) -> Result<Vec<u8>, Refused> {
    let read = Table::read(base)?;
    let nodes = read.nodes.len() + Table::read(expansion)?.nodes.len();
    // "17 when the base root is a rule"
    if read.nodes[0].is_rule() {
        return Err(Refused(17, 0));
    }
    // "18 when versions or maxima differ": they stand between the length and the number of nodes
    if base[2..HEADER - 2] != expansion[2..HEADER - 2] {
        return Err(Refused(18, 0));
    }
    // "with the expansion's root as the last child of the base root; count, root span and length follow, all other
    // bytes are copied"
    let mut bytes = [base, &expansion[HEADER..]].concat();
    let length = bytes.len() - 2;
    for (place, number) in [(0, length), (HEADER - 2, nodes), (HEADER + 1, nodes)] {
        bytes[place..place + 2].copy_from_slice(&(number as u16).to_be_bytes());
    }
    // "19 when the result has over 128 nodes or a ninth level": by these a table is refused 3 or 6
    match Table::read(&bytes) {
        Err(Refused(3 | 6, _)) => Err(Refused(19, 0)),
        Err(refused) => panic!("the table of both: {refused:?}"),
        Ok(_) => Ok(bytes),
    }
}

impl Table {
    /// What a base with an expansion gives a set, by what each of them gives; or refusal 13 or 9.
    pub fn rule_with(&self, expansion: &Table, joint: &Joint) -> Result<Ruled, Refused> {
        let applies = self.applying(joint)?;
        let alone = self.rule(joint)?;
        let left = self.left_by_root(joint);
        if left.members.is_empty() {
            return Ok(alone);
        }
        let root = &self.nodes[0];
        let own = root
            .children
            .iter()
            .map(|&child| self.child(child, &applies));
        let last = expansion.rule(&left)?;
        let child = Child {
            decision: last.decision,
            counts: expansion.applying(&left)?[0],
        };
        Ok(Ruled {
            decision: combined(root.kind, own.chain([child])),
            cards: [alone.cards, last.cards].concat(),
        })
    }

    /// The request of the members for which the root's target holds.
    pub fn left_by_root(&self, joint: &Joint) -> Joint {
        let meets = |member: &u16| holds(&self.nodes[0], joint.asked_by(*member));
        let left = joint.members.iter().copied().filter(meets);
        Joint::new(left, joint.others)
    }
}
