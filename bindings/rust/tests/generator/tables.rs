//! Tables that are accepted, and tables that most often are not.

use super::{
    damage::damage_table,
    outline::Ranges,
    ranges::{every_value, steps_on},
};
use super::{Maxima, Outline, Random};
use crate::evaluator::{Range, FIELDS};

pub const HARBOUR: &[u8] = include_bytes!("../../../../examples/harbour.table");
pub const RULEBOOK: &[u8] = include_bytes!("../../../../examples/rulebook.table");

/// The last subject of a set and those beside it, and the last values of all.
const LAST: [u8; 6] = [61, 62, 63, 64, 254, 255];

/// Maxima of every sort; now and then the subjects end about where those of a set do.
pub fn any_maxima(random: &mut Random) -> Maxima {
    let mut maxima = match random.below(5) {
        0 => [255; FIELDS],
        1 => [0; FIELDS].map(|_: u8| random.byte()),
        2 => [12, 20, 10],
        _ => small_maxima(random),
    };
    if random.one_in(3) {
        maxima[0] = random.of(&[61, 62, 63, 64]);
    }
    maxima
}

/// Maxima of which every request can be tried; now and then one is large.
pub fn small_maxima(random: &mut Random) -> Maxima {
    let mut maxima = [0; FIELDS].map(|_: u8| random.below(5) as u8);
    if random.one_in(8) {
        maxima[random.below(FIELDS)] = random.of(&LAST);
    }
    maxima
}

pub fn accepted_table(random: &mut Random, maxima: Maxima) -> Outline {
    let nodes = any_count(random, 128);
    let levels = random.of(&[2, 5, 8, 8]);
    grown(random, maxima, nodes, levels)
}

/// A table of at most so many nodes on at most so many levels, which are two or more.
pub fn bounded_table(random: &mut Random, maxima: Maxima, most: usize, levels: usize) -> Outline {
    let nodes = any_count(random, most);
    grown(random, maxima, nodes, levels)
}

/// A table of few nodes, of which each one tells.
pub fn small_table(random: &mut Random, maxima: Maxima) -> Outline {
    let nodes = 1 + random.below(12);
    grown(random, maxima, nodes, 4)
}

/// A table of the convention profile, of at most so many nodes: its root is a group, every group holds rules alone, groups
/// alone or nothing, and only-one groups hold no rule.
pub fn standard_table(random: &mut Random, maxima: Maxima, most: usize) -> Outline {
    let nodes = any_count(random, most);
    let levels = random.of(&[2, 3, 5, 8, 8]);
    let mut growth = Growth::new(random, maxima, levels);
    growth.grow_standard(nodes, 1);
    growth.outline
}

/// A table with up to three pieces of damage, or with too many nodes or levels.
pub fn damaged_table(random: &mut Random, maxima: Maxima) -> Vec<u8> {
    let (most, levels) = random.of(&[(128, 8), (128, 8), (128, 8), (128, 12), (131, 9)]);
    let nodes = any_count(random, most);
    let mut bytes = grown(random, maxima, nodes, levels).bytes();
    for _ in 0..random.below(4) {
        damage_table(random, &mut bytes);
    }
    bytes
}

/// How many nodes: mostly few, now and then the most.
fn any_count(random: &mut Random, most: usize) -> usize {
    match random.below(8) {
        0 => most,
        1 | 2 => 1 + random.below(most),
        _ => 1 + random.below(most.min(20)),
    }
}

/// So many nodes on at most so many levels.
fn grown(random: &mut Random, maxima: Maxima, nodes: usize, levels: usize) -> Outline {
    let mut growth = Growth::new(random, maxima, levels);
    growth.grow(nodes, 1);
    growth.outline
}

struct Growth<'a> {
    outline: Outline,
    /// At least 2.
    levels: usize,
    /// How groups part the nodes under them, and how seldom a range of a group, and of a rule, is narrow.
    parting: usize,
    groups_seldom: usize,
    rules_seldom: usize,
    random: &'a mut Random,
}

impl Growth<'_> {
    fn new(random: &mut Random, maxima: Maxima, levels: usize) -> Growth<'_> {
        Growth {
            outline: Outline::new(maxima),
            levels,
            parting: random.below(4),
            groups_seldom: random.of(&[1, 2, 4, 8]),
            rules_seldom: random.of(&[1, 2, 4, 8]),
            random,
        }
    }

    /// Adds a node on a level and all under it: so many nodes.
    fn grow(&mut self, nodes: usize, level: usize) {
        if nodes > 1 || self.random.one_in(8) {
            self.add_group(level, &[0, 1, 1, 2, 3]);
        } else {
            self.add_rule(level);
        }
        self.part(nodes - 1, level, Growth::grow);
    }

    /// The same of a group of the convention profile.
    fn grow_standard(&mut self, nodes: usize, level: usize) {
        let under = nodes - 1;
        let often = if under < 6 { 2 } else { 5 };
        let last = level + 1 >= self.levels;
        if under > 0 && (self.random.one_in(often) || last && !self.random.one_in(8)) {
            self.add_group(level, &[0, 2, 3]);
            for _ in 0..under {
                self.add_rule(level + 1);
            }
        } else {
            self.add_group(level, &[0, 1, 1, 2, 3]);
            self.part(under, level, Growth::grow_standard);
        }
    }

    /// Parts so many nodes under a node of a level, each part one child with all under it.
    fn part(&mut self, nodes: usize, level: usize, grow: fn(&mut Self, usize, usize)) {
        let mut left = nodes;
        while left > 0 {
            let part = match self.parting {
                _ if level + 1 >= self.levels => 1,
                0 => 1 + self.random.below(left.min(4)),
                1 => 1 + self.random.below(left.div_ceil(2)),
                2 => 1 + self.random.below(left),
                _ => left,
            };
            grow(self, part, level + 1);
            left -= part;
        }
    }

    /// Adds a group of one of some kinds.
    fn add_group(&mut self, level: usize, kinds: &[u8]) {
        let kind = self.random.of(kinds);
        let ranges = self.ranges(self.groups_seldom);
        self.outline.add(level, kind, 0, ranges);
    }

    fn add_rule(&mut self, level: usize) {
        let kind = self.random.of(&[4, 5]);
        let card = self.card();
        let ranges = self.ranges(self.rules_seldom);
        self.outline.add(level, kind, card, ranges);
    }

    fn card(&mut self) -> u16 {
        let card = match self.random.below(4) {
            0 => 65_535 - self.random.below(3),
            1 => 1 + self.random.below(65_535),
            _ => 1 + self.random.below(6),
        };
        card as u16
    }

    fn ranges(&mut self, seldom: usize) -> Ranges {
        let maxima = self.outline.maxima;
        maxima.map(|most| self.range(most, seldom))
    }

    /// About one in three is wrapped.
    fn range(&mut self, most: u8, seldom: usize) -> Range {
        if self.random.one_in(seldom) {
            self.narrow_range(most)
        } else if self.random.one_in(3) {
            every_value(self.random, most)
        } else {
            (0, most)
        }
    }

    /// From one value to another, or as many steps from a third one on.
    fn narrow_range(&mut self, most: u8) -> Range {
        let range = (self.end(most), self.end(most));
        if self.random.one_in(4) {
            return range;
        }
        let low = self.end(most);
        let steps = range.0.abs_diff(range.1);
        (low, steps_on(low, steps.into(), most))
    }

    fn end(&mut self, most: u8) -> u8 {
        if most > LAST[0] && self.random.one_in(4) {
            self.random.of(&LAST).min(most)
        } else {
            self.random.below(usize::from(most) + 1) as u8
        }
    }
}
