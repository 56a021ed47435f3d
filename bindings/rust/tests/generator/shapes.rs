//! Tables of a certain shape.

use super::{outline::Ranges, Outline};
use crate::evaluator::{Range, FIELDS};

/// A group over rules that match every request, so many nodes in all.
pub fn flat(nodes: u16) -> Outline {
    let mut outline = Outline::new([255; FIELDS]);
    outline.add(1, 3, 0, outline.all());
    for node in 1..nodes {
        outline.add(2, 4, 999 + node, outline.all());
    }
    outline
}

/// A group of a kind with nothing under it, with T's maxima.
pub fn empty_root(kind: u8) -> Outline {
    let mut outline = Outline::new([2, 1, 1]);
    outline.add(1, kind, 0, outline.all());
    outline
}

/// One path of groups down to a level.
pub fn chain(levels: usize) -> Outline {
    path_among(0, levels, 0)
}

/// A path of groups down to a level, and under its root so many rules before the rest of the path and so many after it.
/// All are for the lowest values, so that any maxima will do.
pub fn path_among(before: u16, levels: usize, after: u16) -> Outline {
    let mut outline = Outline::new([0; FIELDS]);
    let lowest = outline.all();
    outline.add(1, 0, 0, lowest);
    for card in 1..=before {
        outline.add(2, 4, card, lowest);
    }
    for level in 2..=levels {
        outline.add(level, 0, 0, lowest);
    }
    for card in 1..=after {
        outline.add(2, 5, before + card, lowest);
    }
    outline
}

/// One rule, to permit the lowest values.
pub fn one_rule() -> Outline {
    let mut outline = Outline::new([0; FIELDS]);
    outline.add(1, 4, 10, outline.all());
    outline
}

/// Level and kind of each node of the nested table.
const LEVELS: [usize; 24] = [
    1, 2, 3, 3, 4, 5, 5, 6, 7, 8, 8, 8, 3, 2, 2, 3, 3, 4, 2, 2, 3, 4, 3, 3,
];
const KINDS: [u8; 24] = [
    3, 0, 4, 1, 2, 5, 0, 3, 1, 4, 2, 5, 4, 2, 1, 4, 0, 5, 5, 3, 3, 4, 0, 4,
];

/// Down to level 8, with empty groups on levels 2, 3 and 8; no two nodes have the same ranges.
pub fn nested() -> Outline {
    let mut outline = Outline::new([9, 5, 255]);
    for (node, (level, kind)) in (0..).zip(LEVELS.into_iter().zip(KINDS)) {
        let card = if kind < 4 { 0 } else { node.into() };
        let ranges = [(node % 10, 9), (2, 2 + node % 4), (node, 255)];
        outline.add(level, kind, card, ranges);
    }
    outline
}

/// As many nodes as a table has, of the convention profile, down to level 8: a path of groups to four rules, and then 39
/// groups, each over two rules or over two empty groups. Every third node is not for subject 0, nor the next for 1.
pub fn full_standard() -> Outline {
    let mut levels: Vec<(usize, bool)> = (1..=7).map(|level| (level, true)).collect();
    levels.extend([(8, false); 4]);
    for turn in 0..39 {
        let under = (3, turn % 3 == 0);
        levels.extend([(2, true), under, under]);
    }
    let mut outline = Outline::new([2, 0, 0]);
    for (node, (level, group)) in (0..).zip(levels) {
        let kind = if group {
            [3, 0, 2][level % 3]
        } else {
            4 + node % 2
        };
        let card = if group { 0 } else { u16::from(node) };
        let low = [0, 0, 1, 0, 0, 2][usize::from(node) % 6];
        outline.add(level, kind, card, [(low, 2), (0, 0), (0, 0)]);
    }
    outline
}

/// Of a group over a rule to permit and a rule to deny: whether the group applies, and whether each rule does.
pub type Child = [bool; 3];

/// What a child can be to its group: none that does not count, none that counts, permit, deny, and indeterminate.
pub const CHILDREN: [Child; 5] = [
    [false, false, false],
    [true, false, false],
    [true, true, false],
    [true, false, true],
    [true, true, true],
];

/// A group of a kind over only-one groups, which are these children to subject 1, and in the reverse order to subject
/// 0. What is for neither is for subject 2. Where rules may stand alone, a child that a rule can be is no group.
pub fn children(kind: u8, given: &[Child], alone: bool) -> Outline {
    let mut outline = Outline::new([2, 0, 0]);
    outline.add(1, kind, 0, outline.all());
    let pairs = given.iter().rev().zip(given);
    for (card, (zero, one)) in (1..).step_by(2).zip(pairs) {
        let [group, permit, deny] = [0, 1, 2].map(|part| of_two(zero[part], one[part]));
        let nobody = of_two(false, false);
        if alone && group == permit && deny == nobody {
            outline.add(2, 4, card, permit);
        } else if alone && group == deny && permit == nobody {
            outline.add(2, 5, card, deny);
        } else {
            outline.add(2, 1, 0, group);
            outline.add(3, 4, card, permit);
            outline.add(3, 5, card + 1, deny);
        }
    }
    outline
}

/// For subject 0, for subject 1, for both, or for subject 2.
fn of_two(zero: bool, one: bool) -> Ranges {
    let subjects = match [zero, one] {
        [true, true] => (0, 1),
        [true, false] => (0, 0),
        [false, true] => (1, 1),
        [false, false] => (2, 2),
    };
    [subjects, (0, 0), (0, 0)]
}

/// An only-one group over a group for each of some subjects, and then a rule to permit for each of others, with cards
/// from 1 on. The groups are empty, or have a rule for subject 2.
pub fn silent_groups(groups: &[u8], rules: &[u8], empty: bool) -> Outline {
    let mut outline = Outline::new([2, 0, 0]);
    let only = |subject| [(subject, subject), (0, 0), (0, 0)];
    outline.add(1, 1, 0, outline.all());
    for &subject in groups {
        outline.add(2, 0, 0, only(subject));
        if !empty {
            outline.add(3, 4, 99, only(2));
        }
    }
    for (card, &subject) in (1..).zip(rules) {
        outline.add(2, 4, card, only(subject));
    }
    outline
}

/// A first-applicable group over a rule that permits one subject, with card 10, and one that denies another, with 20.
pub fn permit_and_deny(permit: u8, deny: u8) -> Outline {
    let mut outline = Outline::new([63, 0, 0]);
    outline.add(1, 0, 0, outline.all());
    outline.add(2, 4, 10, [(permit, permit), (0, 0), (0, 0)]);
    outline.add(2, 5, 20, [(deny, deny), (0, 0), (0, 0)]);
    outline
}

/// A rule to permit a range of one field, under a group for a range of it.
pub fn two_ranges(field: usize, most: u8, group: Range, rule: Range) -> Outline {
    let mut outline = rules_for(field, most, &[rule]);
    outline.nodes[0].ranges[field] = group;
    outline
}

/// A rule to permit each of some ranges of one field, with cards from 1 on, under a group for everything. The other
/// fields have one value.
pub fn rules_for(field: usize, most: u8, ranges: &[Range]) -> Outline {
    let mut outline = Outline::new([0; FIELDS]);
    outline.maxima[field] = most;
    outline.add(1, 0, 0, outline.all());
    for (card, &range) in (1..).zip(ranges) {
        let mut ranges = outline.all();
        ranges[field] = range;
        outline.add(2, 4, card, ranges);
    }
    outline
}

/// 127 rules, whose ranges in one field begin and end each at another value; every other two are wrapped.
pub fn spread(field: usize) -> Outline {
    let mut outline = Outline::new([0; FIELDS]);
    outline.maxima[field] = 255;
    outline.add(1, 3, 0, outline.all());
    for rule in 0..127 {
        let mut ranges = outline.all();
        ranges[field] = match rule % 4 {
            0 | 1 => (1 + rule, 128 + rule),
            _ => (129 + rule, rule),
        };
        outline.add(2, 4 + rule % 2, 1000 + u16::from(rule), ranges);
    }
    outline
}

/// One rule more matches from each subject to the next, and from each resource to the next, so that no two requests
/// have the same cards; one always matches, and so many match for the last request alone, each with a place more.
pub fn staircase(subjects: u8, resources: u8, last: u8) -> Outline {
    let [subject, resource] = [subjects - 1, resources - 1];
    let mut outline = Outline::new([subject, resource, 0]);
    outline.add(1, 2, 0, outline.all());
    let from_subjects = (1..=subject).map(|low| (low, 0));
    let from_resources = (0..=resource).map(|low| (0, low));
    let for_the_last = (0..last).map(|_| (subject, resource));
    let lows = from_subjects.chain(from_resources).chain(for_the_last);
    for (card, (s, r)) in (1..).zip(lows) {
        outline.add(2, 4, card, [(s, subject), (r, resource), (0, 0)]);
    }
    outline
}

/// Rules that each reach from some value of one field to its last, so that all 512 rulings differ, and one that matches
/// 25 requests; so many more match for the last request alone, each with a place more.
pub fn all_different(last: u16) -> Outline {
    let mut outline = Outline::new([7; 3]);
    outline.add(1, 0, 0, outline.all());
    outline.add(2, 4, 1, [(0, 4), (0, 4), (0, 0)]);
    for rule in 0..101 {
        let mut ranges = outline.all();
        ranges[rule % 3].0 = if rule < 96 { (rule / 3 % 8) as u8 } else { 1 };
        outline.add(2, 4, 2 + rule as u16, ranges);
    }
    for rule in 0..last {
        outline.add(2, 4, 103 + rule, [(7, 7); 3]);
    }
    outline
}
