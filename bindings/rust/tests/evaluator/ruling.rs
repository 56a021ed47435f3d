//! Ruling by a table's groups.

use super::{every_request, reader::Node, within};
use super::{Joint, Range, Refused, Ruled, Table, Values, FIELDS};

const NONE: u8 = 0;
const MAY: u8 = 1;
const NOT: u8 = 2;
const UNCLEAR: u8 = 3;

/// A child of a group: what it gives, and whether it counts under "only one".
pub(super) struct Child {
    pub(super) decision: u8,
    pub(super) counts: bool,
}

/// What a node gives, where these nodes apply.
type Decide = fn(&Table, usize, &[bool]) -> u8;

impl Table {
    /// What the groups give a set, or refusal 13 or 9.
    pub fn rule(&self, joint: &Joint) -> Result<Ruled, Refused> {
        self.rule_by(joint, Table::decision)
    }

    /// The same of a table of the profile, by the algorithms of appendix C.
    pub fn rule_standard(&self, joint: &Joint) -> Result<Ruled, Refused> {
        self.rule_by(joint, Table::as_printed)
    }

    fn rule_by(&self, joint: &Joint, decide: Decide) -> Result<Ruled, Refused> {
        Ok(self.given(&self.applying(joint)?, decide))
    }

    /// Which nodes apply to a set, or refusal 13 or 9.
    pub(super) fn applying(&self, joint: &Joint) -> Result<Vec<bool>, Refused> {
        let members = &joint.members;
        // "13 when the party is empty or names a figure above the who maximum"
        if members.is_empty() || members.iter().any(|&member| member > self.maxima[0]) {
            return Err(Refused(13, 0));
        }
        within(&joint.others, self.maxima)?;
        // "A node holds for the party exactly when at least one member by itself meets its target and every target
        // above it"
        let meets = |node: &Node, member| self.applies(node, joint.asked_by(member));
        let applies = |node: &Node| members.iter().any(|&member| meets(node, member));
        Ok(self.nodes.iter().map(applies).collect())
    }

    /// What the groups give a request of one subject, or refusal 9.
    pub fn rule_one(&self, values: Values) -> Result<Ruled, Refused> {
        within(&values, self.maxima)?;
        let nodes = self.nodes.iter();
        let applies: Vec<bool> = nodes.map(|node| self.applies(node, values)).collect();
        Ok(self.given(&applies, Table::decision))
    }

    /// "Two tables with the same maxima rule alike when the groups give, for every question within them, the same
    /// decision and the same card numbers in the same order."
    pub fn rules_alike(&self, other: &Table) -> bool {
        let given = |table: &Table, values| table.rule_one(values).expect("within the maxima");
        self.maxima == other.maxima
            && every_request(self.maxima).all(|values| given(self, values) == given(other, values))
    }

    /// A node's own target and every target above it hold.
    fn applies(&self, node: &Node, values: Values) -> bool {
        let above = node.parent.map(|parent| &self.nodes[parent]);
        holds(node, values) && above.map_or(true, |above| self.applies(above, values))
    }

    /// The decision of the root, and the cards of all matching rules, where these nodes apply.
    fn given(&self, applies: &[bool], decide: Decide) -> Ruled {
        let nodes = self.nodes.iter().zip(applies);
        let matching = nodes.filter(|(node, &applies)| node.is_rule() && applies);
        Ruled {
            decision: decide(self, 0, applies),
            cards: matching.map(|(node, _)| node.card).collect(),
        }
    }

    fn decision(&self, place: usize, applies: &[bool]) -> u8 {
        if !applies[place] {
            return NONE;
        }
        let node = &self.nodes[place];
        let children = node.children.iter();
        let children = children.map(|&child| self.child(child, applies));
        match node.kind {
            4 => MAY,
            5 => NOT,
            group => combined(group, children),
        }
    }

    /// "a group child counts when its target holds, though no card in it matches. A rule child counts when it
    /// matches." "For a party, a child counts when it holds for the party."
    pub(super) fn child(&self, place: usize, applies: &[bool]) -> Child {
        Child {
            decision: self.decision(place, applies),
            counts: applies[place],
        }
    }
}

/// "A node's target holds when all three values lie in its ranges."
pub(super) fn holds(node: &Node, values: Values) -> bool {
    (0..FIELDS).all(|field| lies_in(values[field], node.ranges[field]))
}

/// "A low above its high now means values from low upward or up to high."
pub fn lies_in(value: u16, (low, high): Range) -> bool {
    let from_low = u16::from(low) <= value;
    let up_to_high = value <= u16::from(high);
    if low > high {
        from_low || up_to_high
    } else {
        from_low && up_to_high
    }
}

/// What a group of a kind gives, where its target and every target above it hold.
pub(super) fn combined(kind: u8, children: impl Iterator<Item = Child>) -> u8 {
    match kind {
        0 => first(decisions(children)),
        1 => only_one(children.collect()),
        2 => may_beats(decisions(children)),
        _ => may_not_beats(decisions(children)),
    }
}

fn decisions(children: impl Iterator<Item = Child>) -> Vec<u8> {
    children.map(|child| child.decision).collect()
}

fn first(given: Vec<u8>) -> u8 {
    given.into_iter().find(|&d| d != NONE).unwrap_or(NONE)
}

/// "None counted gives none, two or more give unclear, one gives its own decision."
fn only_one(mut children: Vec<Child>) -> u8 {
    children.retain(|child| child.counts);
    match &children[..] {
        [] => NONE,
        [one] => one.decision,
        _ => UNCLEAR,
    }
}

fn may_beats(given: Vec<u8>) -> u8 {
    let order = [MAY, NOT, UNCLEAR];
    order
        .into_iter()
        .find(|d| given.contains(d))
        .unwrap_or(NONE)
}

fn may_not_beats(given: Vec<u8>) -> u8 {
    if given.contains(&NOT) || given.contains(&UNCLEAR) {
        NOT
    } else if given.contains(&MAY) {
        MAY
    } else {
        NONE
    }
}
