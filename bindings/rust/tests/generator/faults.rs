//! Faults by the convention profile, each put into a table at a group drawn at random, and taken out of a table.

use super::changes::{any_group_kind, pick};
use super::outline::{Node, Outline};
use super::Random;
use crate::evaluator::Refused;

/// The refusal of a table that the profile accepted before; none where there is no group to put it in.
pub type Fault = fn(&mut Random, &mut Outline) -> Option<Refused>;

pub const FAULTS: [(&str, Fault); 8] = [
    ("a rule before the groups of a group", |random, outline| {
        mix(random, outline, true, Among::First)
    }),
    ("a rule between groups", |random, outline| {
        mix(random, outline, true, Among::Middle)
    }),
    ("a rule after the groups of a group", |random, outline| {
        mix(random, outline, true, Among::Last)
    }),
    ("a group before the rules of a group", |random, outline| {
        mix(random, outline, false, Among::First)
    }),
    ("a group between rules", |random, outline| {
        mix(random, outline, false, Among::Middle)
    }),
    ("a group after the rules of a group", |random, outline| {
        mix(random, outline, false, Among::Last)
    }),
    ("an only-one group over rules", only_one_over_rules),
    ("a rule as the root", rule_as_root),
];

/// The place of this one among them; those before it mix a group.
pub const ONLY_ONE_OVER_RULES: usize = 6;

/// At most so many nodes come with a fault.
pub const NODES_OF_A_FAULT: usize = 2;

/// The place of a node among the children of a group.
enum Among {
    First,
    Middle,
    Last,
}

/// One more rule in a group that holds groups, or one more group, with a rule in it or not, in a group that holds rules.
fn mix(random: &mut Random, outline: &mut Outline, rule: bool, among: Among) -> Option<Refused> {
    let group = pick(random, outline, |node| holds(outline, node, rule))?;
    let level = outline.nodes[group].level + 1;
    let mut places = outline.children(group);
    places.push(group + outline.span(group));
    let last = places.len() - 1;
    let place = match among {
        Among::First => places[0],
        Among::Middle if last < 2 => return None,
        Among::Middle => places[1 + random.below(last - 1)],
        Among::Last => places[last],
    };
    if rule {
        outline.nodes.insert(place, a_rule(outline, level));
    } else {
        outline.insert_group(place, level, any_group_kind(random));
        if level < 8 && random.one_in(2) {
            let under = a_rule(outline, level + 1);
            outline.nodes.insert(place + 1, under);
        }
    }
    Some(Refused(14, group))
}

/// Whether a node holds groups alone, or rules alone, and at least one.
fn holds(outline: &Outline, node: usize, groups: bool) -> bool {
    let children = outline.children(node);
    let mut children = children.iter().map(|&child| outline.nodes[child]);
    children.len() > 0 && children.all(|child| child.is_group() == groups)
}

/// A rule for everything.
fn a_rule(outline: &Outline, level: usize) -> Node {
    Node {
        level,
        kind: 4,
        card: 1,
        ranges: outline.all(),
    }
}

fn only_one_over_rules(random: &mut Random, outline: &mut Outline) -> Option<Refused> {
    let group = pick(random, outline, |node| holds(outline, node, false))?;
    outline.nodes[group].kind = 1;
    Some(Refused(15, group))
}

/// It is then the only node.
fn rule_as_root(_: &mut Random, outline: &mut Outline) -> Option<Refused> {
    outline.nodes = vec![a_rule(outline, 1)];
    Some(Refused(16, 0))
}

/// A table that rules as one does and has none of these faults: each rule at fault is put in a group of its own with its
/// target, or neighbouring ones together in a group for everything. It may have too many nodes or levels.
pub fn without_faults(table: &Outline, together: bool) -> Outline {
    let mut made = table.clone();
    let mut place = 0;
    while place < made.nodes.len() {
        place = if is_at_fault(&made, place) {
            put_in_group(&mut made, place, together)
        } else {
            place + 1
        };
    }
    made
}

/// Whether a node is a rule where the profile has none.
fn is_at_fault(outline: &Outline, node: usize) -> bool {
    let may_hold_rules =
        |group: usize| outline.nodes[group].kind != 1 && holds(outline, group, false);
    let above = outline.place_above(node);
    !outline.nodes[node].is_group() && !above.is_some_and(may_hold_rules)
}

/// Puts a rule in a group, of any kind but only one, or together with the rules that follow it in a group of its
/// parent's kind, where that is not only one: the place after these.
fn put_in_group(outline: &mut Outline, place: usize, together: bool) -> usize {
    let rule = outline.nodes[place];
    let parent = outline.place_above(place);
    let kind = parent.map_or(1, |parent| outline.nodes[parent].kind);
    outline.wrap(place, [0, 2, 3][place % 3]);
    let mut after = place + 2;
    if !together || kind == 1 {
        outline.nodes[place].ranges = rule.ranges;
        return after;
    }
    outline.nodes[place].kind = kind;
    let follows = |node: &&mut Node| node.level == rule.level && !node.is_group();
    for node in outline.nodes[after..].iter_mut().take_while(follows) {
        node.level += 1;
        after += 1;
    }
    after
}
