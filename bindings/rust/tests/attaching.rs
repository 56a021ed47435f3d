//! Attaching an expansion to a base, and what the table of both gives.

use crate::compare::Compare;
use crate::evaluator::{self, Due, Joint, Refused, Ruled, Table, FIELDS, HEADER, RECORD};
use crate::generator::{accepted_table, any_maxima, bounded_table, damaged_table};
use crate::generator::{chain, each_place, lists, one_rule, path_among, some_joint_requests};
use crate::generator::{Maxima, Outline, Random, HARBOUR};

/// What the largest table takes.
const MOST_BYTES: usize = HEADER + RECORD * 128;

/// Attaches in rooms of many lengths: none, one byte, about what the table of both takes, or would take, and about what
/// the largest takes. The refusal, where there is one in every room.
fn attaches(
    compare: &mut Compare,
    random: &mut Random,
    [base, expansion]: [&[u8]; 2],
) -> Option<Refused> {
    let attached = evaluator::attach(base, expansion);
    let needed = (base.len() + expansion.len()).saturating_sub(HEADER);
    let less = random.below(needed + 1);
    let more = needed + 2 + random.below(40);
    let about = [needed.saturating_sub(1), needed, needed + 1, more];
    compare.attaches_in(base, expansion, &attached, [0, 1, less]);
    compare.attaches_in(base, expansion, &attached, about);
    compare.attaches_in(base, expansion, &attached, [MOST_BYTES, MOST_BYTES + 1]);
    attached.err()
}

/// A table of at most so many nodes, for a base.
fn small_base(random: &mut Random, maxima: Maxima, most: usize) -> Outline {
    let levels = random.of(&[2, 5, 8]);
    bounded_table(random, maxima, most, levels)
}

/// A table of at most so many nodes, and of no more levels than an expansion may have.
fn small_expansion(random: &mut Random, maxima: Maxima, most: usize) -> Outline {
    let levels = random.of(&[2, 5, 7]);
    bounded_table(random, maxima, most, levels)
}

/// A table of any size for a base; now and then a single node, most often a rule.
fn any_base(random: &mut Random, maxima: Maxima) -> Vec<u8> {
    let table = match random.below(3) {
        0 => small_base(random, maxima, 1),
        _ => accepted_table(random, maxima),
    };
    table.bytes()
}

/// One of them one higher, or one lower.
fn other_maxima(random: &mut Random, maxima: Maxima) -> Maxima {
    let mut other = maxima;
    let most = &mut other[random.below(FIELDS)];
    *most = match *most {
        255 => 254,
        0 => 1,
        most => random.of(&[most - 1, most + 1]),
    };
    other
}

/// A base and an expansion: small enough for each other, of any size, with different maxima, and with one of them or
/// both damaged.
fn some_two(random: &mut Random, turn: usize) -> [Vec<u8>; 2] {
    let maxima = any_maxima(random);
    match turn % 8 {
        0..=2 => {
            let most = 1 + random.below(127);
            let base = small_base(random, maxima, most);
            let expansion = small_expansion(random, maxima, 128 - most);
            [base.bytes(), expansion.bytes()]
        }
        3 => {
            let base = any_base(random, maxima);
            [base, accepted_table(random, maxima).bytes()]
        }
        4 => {
            let other = other_maxima(random, maxima);
            let base = any_base(random, maxima);
            [base, accepted_table(random, other).bytes()]
        }
        5 => {
            let base = damaged_table(random, maxima);
            [base, accepted_table(random, maxima).bytes()]
        }
        6 => [any_base(random, maxima), damaged_table(random, maxima)],
        _ => [maxima; 2].map(|maxima| damaged_table(random, maxima)),
    }
}

#[test]
fn generated_tables() {
    let mut compare = Compare::new("attaching generated tables");
    for seed in 0..18_000 {
        compare.case("seed", seed);
        let mut random = Random::new(seed);
        let [base, expansion] = some_two(&mut random, seed);
        attaches(&mut compare, &mut random, [&base, &expansion]);
    }
    compare.end(100_000_000, (0..=8).chain([11, 17, 18, 19]), 900);
}

/// Tables of a rule, of few nodes, of about as many as there may be and on about as many levels, each with some maxima
/// and with others; and refused ones, of no bytes, of nine levels, and with a fault of every other sort.
fn every_sort() -> Vec<Vec<u8>> {
    let few = path_among(2, 3, 2);
    let mut tables = vec![Vec::new(), chain(9).bytes()];
    for maxima in [[0, 0, 0], [1, 0, 0], [0, 1, 0], [0, 0, 1]] {
        let many = [127, 128].map(|nodes| path_among(nodes - 1, 1, 0));
        let deep = [7, 8].map(chain);
        let others = [one_rule(), chain(1), few.clone()];
        for mut table in others.into_iter().chain(many).chain(deep) {
            table.maxima = maxima;
            tables.push(table.bytes());
        }
    }
    tables.extend(with_each_fault(&one_rule().bytes()));
    tables.extend(with_each_fault(&few.bytes()));
    tables
}

/// A table whose maxima are 0 and whose last node is a rule, with each of refusals 1 to 5, 7 and 8, from 4 on at that
/// node.
fn with_each_fault(table: &[u8]) -> Vec<Vec<u8>> {
    let last = table.len() - RECORD;
    let header = [(1, 0), (2, 2), (HEADER - 1, 0)];
    let record = [(0, 6), (2, 0), (6, 1), (4, 0)].map(|(place, byte)| (last + place, byte));
    let faults = header.into_iter().chain(record);
    let with_fault = |(place, byte): (usize, u8)| {
        let mut changed = table.to_vec();
        changed[place] = byte;
        changed
    };
    faults.map(with_fault).collect()
}

/// Each of these tables as the base, with each as the expansion.
fn every_two(compare: &mut Compare, random: &mut Random) {
    let tables = every_sort();
    for (number, base) in tables.iter().enumerate() {
        compare.case("base", number);
        for expansion in &tables {
            attaches(compare, random, [base, expansion]);
        }
    }
}

/// About as many nodes in all as a table may have, some of them the base's and the others the expansion's.
fn every_count(compare: &mut Compare, random: &mut Random) {
    for nodes in 1..=127 {
        compare.case("nodes of the base", nodes.into());
        let base = path_among(nodes - 1, 1, 0).bytes();
        for all in [127, 128, 129].into_iter().filter(|&all| all > nodes) {
            let expansion = path_among(all - nodes - 1, 1, 0).bytes();
            let refused = attaches(compare, random, [&base, &expansion]);
            too_large(compare, refused, all > 128);
        }
    }
}

/// Each number of levels in the base with each in the expansion, whose deepest node has others before it, after it, both
/// or neither.
fn every_depth(compare: &mut Compare, random: &mut Random) {
    for levels in 1..=8 {
        compare.case("levels of the base", levels);
        let base = chain(levels).bytes();
        for (before, after) in [(0, 0), (40, 0), (0, 40), (40, 40)] {
            for levels in 1..=8 {
                let expansion = path_among(before, levels, after).bytes();
                let refused = attaches(compare, random, [&base, &expansion]);
                too_large(compare, refused, levels > 7);
            }
        }
    }
}

fn too_large(compare: &mut Compare, refused: Option<Refused>, due: bool) {
    let due = due.then_some(Refused(19, 0));
    compare.same("whether it is too large", refused, due);
}

/// T attached to T, which takes 118 bytes, each of the two with each byte at some values.
fn every_change(compare: &mut Compare) {
    let tables: Vec<Vec<u8>> = each_place(HARBOUR, &[0, 1, 255]).collect();
    for (number, base) in tables.iter().enumerate() {
        compare.case("changed base", number);
        for (turn, expansion) in tables.iter().enumerate() {
            let attached = evaluator::attach(base, expansion);
            let rooms = [118, [0, 117, 119][turn % 3]];
            compare.attaches_in(base, expansion, &attached, rooms);
        }
    }
}

#[test]
fn small_tables_and_the_largest() {
    let mut compare = Compare::new("attaching small tables and the largest");
    let mut random = Random::new(0);
    compare.same("the most bytes", kolfsein::MOST_BYTES, MOST_BYTES);
    every_two(&mut compare, &mut random);
    every_count(&mut compare, &mut random);
    every_depth(&mut compare, &mut random);
    every_change(&mut compare);
    compare.case("T and T in every room", 0);
    let attached = evaluator::attach(HARBOUR, HARBOUR);
    compare.attaches_in(HARBOUR, HARBOUR, &attached, 0..=130);
    compare.end(23_000_000, (0..=8).chain([11, 17, 18, 19]), 600);
}

/// How often the target of the base's root fails for every member, how often it fails for some to whom the expansion by
/// itself gives further cards, and how often the decision is not that of the base alone.
#[derive(Debug, Default)]
struct Tally {
    nobody: usize,
    fewer_cards: usize,
    decided: usize,
}

impl Tally {
    fn add(&mut self, [base, expansion]: [&Table; 2], joint: &Joint, ruled: &Ruled) {
        let given = |table: &Table, joint: &Joint| table.rule(joint).expect("a request within");
        let left = base.left_by_root(joint);
        if left.members.is_empty() {
            self.nobody += 1;
        } else if given(expansion, &left).cards != given(expansion, joint).cards {
            self.fewer_cards += 1;
        }
        self.decided += usize::from(given(base, joint).decision != ruled.decision);
    }

    fn is_enough(&self) -> bool {
        self.nobody >= 14_000 && self.fewer_cards >= 900 && self.decided >= 5_000
    }
}

/// Attaches, and rules on some requests by the table of both: what it gives follows from what the two give. That table.
fn rules_by_parts(
    compare: &mut Compare,
    random: &mut Random,
    tally: &mut Tally,
    [base, expansion]: [&Outline; 2],
) -> Outline {
    let mut both = base.clone();
    both.attach(expansion);
    let whole = both.bytes();
    let [base, expansion] = [base, expansion].map(Outline::bytes);
    let attached = evaluator::attach(&base, &expansion);
    compare.same("the table of both", attached.as_ref(), Ok(&whole));
    let due = Due::attached(&attached, whole.len());
    let bytes = compare.attaches(&base, &expansion, whole.len(), &due);
    let read = |bytes: &Vec<u8>| Table::read(bytes).expect("a table that is accepted");
    let [base, expansion, table] = [&base, &expansion, &bytes].map(read);
    let numbers: Vec<u16> = bytes.iter().map(|&byte| byte.into()).collect();
    for joint in some_joint_requests(random, both.maxima, &numbers, 12) {
        let ruled = table.rule(&joint);
        let by_parts = base.rule_with(&expansion, &joint);
        compare.same("what the parts give", &by_parts, &ruled);
        compare.rules_with(&bytes, &joint, &ruled, [random.of(&lists(&ruled))]);
        if let Ok(ruled) = ruled {
            tally.add([&base, &expansion], &joint, &ruled);
        }
    }
    both
}

/// Two expansions of a base, one after the other. Most often its root tells subjects apart and nothing else.
#[test]
fn rulings_by_parts() {
    let mut compare = Compare::new("ruling by attached tables");
    let mut tally = Tally::default();
    for seed in 0..4_000 {
        compare.case("seed", seed);
        let mut random = Random::new(seed);
        let maxima = any_maxima(&mut random);
        let mut base = small_base(&mut random, maxima, 64);
        if !base.nodes[0].is_group() {
            base.wrap(0, random.of(&[0, 1, 2, 3]));
        }
        if !random.one_in(4) {
            let all = base.all();
            base.nodes[0].ranges[1..].copy_from_slice(&all[1..]);
        }
        for _ in 0..2 {
            let expansion = small_expansion(&mut random, maxima, 32);
            let tables = [&base, &expansion];
            base = rules_by_parts(&mut compare, &mut random, &mut tally, tables);
        }
    }
    assert!(tally.is_enough(), "{tally:?}");
    compare.every_decision(6_000);
    compare.silent_groups(900);
    compare.every_set(130);
    compare.end(9_000_000, [0, 9, 10, 13], 6_000);
}
