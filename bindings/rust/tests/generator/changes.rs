//! Changes of a table, each at a node drawn at random: some never change a ruling, some often do.

use super::ranges::{cover, every_value, meet, steps_of, steps_on};
use super::{Outline, Random};
use crate::evaluator::{Range, FIELDS};

/// Whether a change makes a table rule otherwise.
#[derive(Clone, Copy)]
pub enum Moves {
    Never,
    Sometimes,
    Always,
}

/// None where there is nothing to change. After it the table may be as it was, or refused.
pub type Change = fn(&mut Random, &mut Outline) -> Option<()>;

pub const CHANGES: [(&str, Moves, Change); 17] = [
    (
        "an empty group added to an only-one group",
        Moves::Sometimes,
        |random, outline| add_group(random, outline, true),
    ),
    (
        "an empty group added elsewhere",
        Moves::Never,
        |random, outline| add_group(random, outline, false),
    ),
    ("a node put in a group of its own", Moves::Sometimes, wrap),
    ("a group dissolved", Moves::Sometimes, dissolve),
    ("a group split", Moves::Sometimes, split),
    ("a rule cut in two", Moves::Never, cut),
    ("every range cut at the parent's", Moves::Never, narrow),
    (
        "every range under a group cut at it and the group widened",
        Moves::Sometimes,
        lift,
    ),
    (
        "a group in an only-one group narrowed to what is under it",
        Moves::Sometimes,
        |random, outline| surround(random, outline, true),
    ),
    (
        "another group narrowed to what is under it",
        Moves::Never,
        |random, outline| surround(random, outline, false),
    ),
    ("a range widened to all values", Moves::Sometimes, widen),
    (
        "a range of all values written otherwise",
        Moves::Never,
        rewrite,
    ),
    ("another card", Moves::Sometimes, other_card),
    ("another kind", Moves::Sometimes, other_kind),
    ("a range's end moved by one", Moves::Sometimes, move_end),
    ("two nodes exchanged", Moves::Sometimes, exchange),
    ("another maximum", Moves::Always, other_maximum),
];

/// Some node of which a test holds.
pub fn pick(random: &mut Random, outline: &Outline, test: impl Fn(usize) -> bool) -> Option<usize> {
    let found: Vec<usize> = (0..outline.nodes.len())
        .filter(|&node| test(node))
        .collect();
    (!found.is_empty()).then(|| random.of(&found))
}

fn pick_group(random: &mut Random, outline: &Outline) -> Option<usize> {
    pick(random, outline, |node| outline.nodes[node].is_group())
}

/// Some group, or some rule, but not the root.
fn pick_under(random: &mut Random, outline: &Outline, group: bool) -> Option<usize> {
    let is_one = |node: usize| node > 0 && outline.nodes[node].is_group() == group;
    pick(random, outline, is_one)
}

pub fn any_group_kind(random: &mut Random) -> u8 {
    random.of(&[0, 1, 2, 3])
}

/// Whether a group counts where nothing in it matches: it is in an only-one group.
fn counts_silent(outline: &Outline, group: usize) -> bool {
    group > 0 && outline.parent(group).kind == 1
}

/// Anywhere under the root, on any level that leaves all other nodes under the same parents; where the new group
/// counts, or where it does not.
fn add_group(random: &mut Random, outline: &mut Outline, counts: bool) -> Option<()> {
    let place = 1 + random.below(outline.nodes.len());
    let before = outline.nodes[place - 1];
    let deepest = before.level + usize::from(before.is_group());
    let highest = outline.nodes.get(place).map_or(2, |after| after.level);
    if deepest < highest {
        return None;
    }
    let level = highest + random.below(deepest + 1 - highest);
    outline.insert_group(place, level, any_group_kind(random));
    (counts_silent(outline, place) == counts).then_some(())
}

/// For a group the new one is a may-not-beats group, which turns unclear to not.
fn wrap(random: &mut Random, outline: &mut Outline) -> Option<()> {
    let place = random.below(outline.nodes.len());
    let kind = if outline.nodes[place].is_group() {
        3
    } else {
        any_group_kind(random)
    };
    outline.wrap(place, kind);
    Some(())
}

/// What was under a group is then under its parent.
fn dissolve(random: &mut Random, outline: &mut Outline) -> Option<()> {
    let group = pick_under(random, outline, true)?;
    let span = outline.span(group);
    for under in &mut outline.nodes[group + 1..group + span] {
        under.level -= 1;
    }
    outline.nodes.remove(group);
    Some(())
}

/// A group's later children go to a second group like it.
fn split(random: &mut Random, outline: &mut Outline) -> Option<()> {
    let place = pick_under(random, outline, true)?;
    let group = outline.nodes[place];
    let mut parts = outline.children(place);
    parts.push(place + outline.span(place));
    outline.nodes.insert(random.of(&parts), group);
    Some(())
}

/// One rule for the values of a field from its low on, and one for the others up to its high.
fn cut(random: &mut Random, outline: &mut Outline) -> Option<()> {
    let place = pick_under(random, outline, false)?;
    let field = random.below(FIELDS);
    let most = outline.maxima[field];
    let rule = outline.nodes[place];
    let (low, high) = rule.ranges[field];
    let steps = steps_of((low, high), most);
    if steps == 0 {
        return None;
    }
    let last = steps_on(low, random.below(steps), most);
    outline.nodes[place].ranges[field] = (low, last);
    outline.nodes.insert(place + 1, rule);
    outline.nodes[place + 1].ranges[field] = (steps_on(last, 1, most), high);
    Some(())
}

/// Parents first; a range of which that does not leave one range stays.
fn narrow_under(outline: &mut Outline, group: usize) {
    for under in group + 1..group + outline.span(group) {
        let parent = outline.parent(under).ranges;
        for (field, range) in parent.into_iter().enumerate() {
            narrow_to(outline, under, field, range);
        }
    }
}

fn narrow_to(outline: &mut Outline, node: usize, field: usize, to: Range) {
    let most = outline.maxima[field];
    let range = &mut outline.nodes[node].ranges[field];
    *range = meet(*range, to, most).unwrap_or(*range);
}

fn narrow(_: &mut Random, outline: &mut Outline) -> Option<()> {
    narrow_under(outline, 0);
    Some(())
}

/// Widened in one field.
fn lift(random: &mut Random, outline: &mut Outline) -> Option<()> {
    let group = pick_group(random, outline)?;
    let field = random.below(FIELDS);
    narrow_under(outline, group);
    outline.nodes[group].ranges[field] = every_value(random, outline.maxima[field]);
    Some(())
}

/// To a range that has all values of those under it: a group that counts where nothing in it matches, or one that does
/// not.
fn surround(random: &mut Random, outline: &mut Outline, counts: bool) -> Option<()> {
    let is_one =
        |node: usize| outline.nodes[node].is_group() && counts_silent(outline, node) == counts;
    let group = pick(random, outline, is_one)?;
    let under = group + 1..group + outline.span(group);
    for field in 0..FIELDS {
        let most = outline.maxima[field];
        let ranges = outline.nodes[under.clone()].iter();
        let ranges = ranges.map(|node| node.ranges[field]);
        let all = ranges.reduce(|one, other| cover(one, other, most))?;
        narrow_to(outline, group, field, all);
    }
    Some(())
}

fn widen(random: &mut Random, outline: &mut Outline) -> Option<()> {
    let node = random.below(outline.nodes.len());
    let field = random.below(FIELDS);
    outline.nodes[node].ranges[field] = every_value(random, outline.maxima[field]);
    Some(())
}

fn rewrite(random: &mut Random, outline: &mut Outline) -> Option<()> {
    let field = random.below(FIELDS);
    let most = outline.maxima[field];
    let steps = |node: usize| steps_of(outline.nodes[node].ranges[field], most);
    let node = pick(random, outline, |node| steps(node) == usize::from(most))?;
    outline.nodes[node].ranges[field] = every_value(random, most);
    Some(())
}

fn other_card(random: &mut Random, outline: &mut Outline) -> Option<()> {
    let rule = pick(random, outline, |node| !outline.nodes[node].is_group())?;
    let card = &mut outline.nodes[rule].card;
    *card = *card % 65_535 + 1;
    Some(())
}

/// A rule's other effect, or another way of a group.
fn other_kind(random: &mut Random, outline: &mut Outline) -> Option<()> {
    let node = random.below(outline.nodes.len());
    let kind = &mut outline.nodes[node].kind;
    *kind = match *kind {
        4 => 5,
        5 => 4,
        _ => any_group_kind(random),
    };
    Some(())
}

fn move_end(random: &mut Random, outline: &mut Outline) -> Option<()> {
    let node = random.below(outline.nodes.len());
    let (low, high) = &mut outline.nodes[node].ranges[random.below(FIELDS)];
    let end = if random.one_in(2) { low } else { high };
    *end = end.wrapping_add(random.of(&[1, 255]));
    Some(())
}

/// Two nodes that follow each other, where neither has nodes under it.
fn exchange(random: &mut Random, outline: &mut Outline) -> Option<()> {
    let alone = |node: usize| outline.span(node) == 1;
    let last = outline.nodes.len() - 1;
    let node = pick(random, outline, |node| {
        node < last && alone(node) && alone(node + 1)
    })?;
    let levels = [node, node + 1].map(|node| outline.nodes[node].level);
    outline.nodes.swap(node, node + 1);
    [outline.nodes[node].level, outline.nodes[node + 1].level] = levels;
    Some(())
}

/// One higher, or one lower.
fn other_maximum(random: &mut Random, outline: &mut Outline) -> Option<()> {
    let maximum = &mut outline.maxima[random.below(FIELDS)];
    *maximum = match *maximum {
        255 => 254,
        0 => 1,
        most if random.one_in(4) => most - 1,
        most => most + 1,
    };
    Some(())
}
