//! The convention profile: which tables it accepts, that it then answers as the plain calls do, and that both rule by the
//! combining algorithms of XACML 2.0, appendix C.

use crate::compare::Compare;
use crate::evaluator::{self, Due, Joint, Refused, Table};
use crate::generator::{accepted_table, any_maxima, damaged_table, small_maxima, standard_table};
use crate::generator::{full_standard, joint_requests_of, lists, sets_of, some_joint_requests};
use crate::generator::{without_faults, Fault, FAULTS, NODES_OF_A_FAULT, ONLY_ONE_OVER_RULES};
use crate::generator::{Maxima, Outline, Random};

/// A table, and how it is read without the profile and by it.
struct Read<'a> {
    bytes: &'a [u8],
    plain: Result<Table, Refused>,
    standard: Result<Table, Refused>,
}

/// Reads a table both ways.
fn reads<'a>(compare: &mut Compare, bytes: &'a [u8]) -> Read<'a> {
    let plain = Table::read(bytes);
    let standard = Table::read_standard(bytes);
    let due = Due::read(&plain);
    let due_standard = Due::read(&standard);
    compare.reads(bytes, &due);
    compare.reads_standard(bytes, &due_standard);
    // "Whatever they accept the plain ones accept too, with equal answers"
    if standard.is_ok() {
        compare.same("the plain reading", &due, &due_standard);
    }
    Read {
        bytes,
        plain,
        standard,
    }
}

impl Read<'_> {
    /// Rules on a set by the profile, where what is due comes from appendix C; and without it where the profile accepts
    /// the table. The list's length goes round.
    fn rules(&self, compare: &mut Compare, joint: &Joint, turn: usize) {
        let ruled = evaluator::rule_standard(&self.standard, joint);
        let lists = lists(&ruled);
        let places = lists[turn % lists.len()];
        compare.rules_standard_with(self.bytes, joint, &ruled, [places]);
        if self.standard.is_ok() {
            let plain = evaluator::rule(&self.plain, joint);
            compare.same("the plain ruling", &plain, &ruled);
            compare.rules_with(self.bytes, joint, &plain, [places]);
        }
    }
}

/// A table of the profile with up to four faults that mix a group or make it an only-one group over rules, about as many
/// of either, at nodes in any order.
fn with_faults(random: &mut Random, maxima: Maxima) -> Outline {
    let mut table = standard_table(random, maxima, 128 - 4 * NODES_OF_A_FAULT);
    for _ in 0..2 + random.below(3) {
        let mixing = random.below(ONLY_ONE_OVER_RULES);
        let (_, fault) = FAULTS[random.of(&[mixing, ONLY_ONE_OVER_RULES])];
        fault(random, &mut table);
    }
    table
}

/// Whether a table has a group by which it is 14, and at an earlier node one by which it would be 15.
fn fifteen_comes_earlier(read: &Read) -> bool {
    let (Err(Refused(14, mixed)), Ok(table)) = (&read.standard, &read.plain) else {
        return false;
    };
    let mut before = table.nodes[..*mixed].iter();
    before.any(|node| node.kind == 1 && node.children.iter().any(|&c| table.nodes[c].is_rule()))
}

/// Puts one fault into a table of the profile, if it can be put there: whether it is. It is then refused by that fault,
/// by the evaluator too.
fn refuses(compare: &mut Compare, random: &mut Random, fault: Fault) -> bool {
    let maxima = any_maxima(random);
    let mut table = standard_table(random, maxima, 128 - NODES_OF_A_FAULT);
    let Some(refused) = fault(random, &mut table) else {
        return false;
    };
    let bytes = table.bytes();
    let read = reads(compare, &bytes);
    compare.same("whether it is read", read.plain.is_ok(), true);
    compare.same("the refusal", read.standard.as_ref().err(), Some(&refused));
    for (turn, joint) in (0..).zip(some_joint_requests(random, maxima, &[], 3)) {
        read.rules(compare, &joint, turn);
    }
    true
}

/// How often each fault is put into a table of its own.
const EACH_FAULT: usize = 400;

#[test]
fn one_fault() {
    let mut compare = Compare::new("one fault by the profile");
    for (name, fault) in FAULTS {
        let put = (0..8 * EACH_FAULT).filter(|&seed| {
            compare.case(name, seed);
            refuses(&mut compare, &mut Random::new(seed), fault)
        });
        let put = put.take(EACH_FAULT).count();
        assert_eq!(put, EACH_FAULT, "{name}");
    }
    compare.end(170_000, [0, 14, 15, 16], 1_600);
}

/// Tables of the profile, with several faults, of any sort, and damaged.
#[test]
fn generated_tables() {
    let mut compare = Compare::new("generated tables by the profile");
    let mut earlier = 0;
    for seed in 0..17_000 {
        compare.case("seed", seed);
        let mut random = Random::new(seed);
        let maxima = any_maxima(&mut random);
        let bytes = match seed % 8 {
            0..=3 => standard_table(&mut random, maxima, 128).bytes(),
            4 | 5 => with_faults(&mut random, maxima).bytes(),
            6 => accepted_table(&mut random, maxima).bytes(),
            _ => damaged_table(&mut random, maxima),
        };
        let read = reads(&mut compare, &bytes);
        if seed % 8 < 4 {
            compare.same("whether it is accepted", read.standard.is_ok(), true);
        }
        earlier += u64::from(fifteen_comes_earlier(&read));
        let numbers: Vec<u16> = bytes.iter().map(|&byte| byte.into()).collect();
        let requests = some_joint_requests(&mut random, maxima, &numbers, 6);
        for (turn, joint) in requests.iter().enumerate() {
            read.rules(&mut compare, joint, seed + turn);
        }
    }
    assert!(earlier >= 250, "15 earlier than 14: {earlier}");
    compare.every_decision(5_000);
    compare.silent_groups(600);
    compare.every_set(200);
    compare.end(9_500_000, (0..=10).chain(13..=16), 200);
}

/// The largest table of the profile with each node at each kind, with a card where that is a rule's.
#[test]
fn each_kind() {
    let mut compare = Compare::new("each kind by the profile");
    let table = full_standard();
    let requests = joint_requests_of(&sets_of(&[0, 1, 2]), &[0]);
    for node in 0..table.nodes.len() {
        for kind in 0..=6 {
            compare.case("node and kind", 10 * node + usize::from(kind));
            let mut changed = table.clone();
            changed.nodes[node].kind = kind;
            changed.nodes[node].card = if kind < 4 { 0 } else { 7 };
            let bytes = changed.bytes();
            let read = reads(&mut compare, &bytes);
            for (turn, joint) in requests.iter().enumerate() {
                read.rules(&mut compare, joint, turn);
            }
        }
    }
    compare.end(550_000, [0, 4, 5, 10, 13, 14, 15], 200);
}

/// Levels of the nodes of every tree of so many nodes.
fn trees(nodes: u32) -> Vec<Vec<usize>> {
    let mut trees = vec![vec![1]];
    for _ in 1..nodes {
        let one_more = |levels: &Vec<usize>| {
            let deepest = levels[levels.len() - 1] + 1;
            let add = |level| [&levels[..], &[level]].concat();
            Vec::from_iter((2..=deepest).map(add))
        };
        trees = trees.iter().flat_map(one_more).collect();
    }
    trees
}

/// A table by its levels and its kinds, which are the digits of a number by 6. Every node is for subject 0, and every
/// other one, as the root, for subject 1 too.
fn by_levels_and_kinds(levels: &[usize], number: usize) -> Outline {
    let mut outline = Outline::new([1, 0, 0]);
    let mut left = number;
    for (node, &level) in (0..).zip(levels) {
        let kind = (left % 6) as u8;
        left /= 6;
        let card = if kind < 4 { 0 } else { node + 1 };
        let subjects = (0, (node % 2 == 0).into());
        outline.add(level, kind, card, [subjects, (0, 0), (0, 0)]);
    }
    outline
}

/// Reads every table of so many nodes, and rules by one in so many of them: how many the profile accepts.
fn every_table(compare: &mut Compare, nodes: u32, one_in: usize) -> usize {
    let requests = joint_requests_of(&sets_of(&[0, 1]), &[0]);
    let mut accepted = 0;
    for levels in trees(nodes) {
        for number in 0..6usize.pow(nodes) {
            compare.case("kinds", number);
            let bytes = by_levels_and_kinds(&levels, number).bytes();
            let read = reads(compare, &bytes);
            accepted += usize::from(read.standard.is_ok());
            let asked = requests.iter().filter(|_| number % one_in == 0);
            asked.for_each(|joint| read.rules(compare, joint, number));
        }
    }
    accepted
}

/// How many of the tables of so many nodes the profile accepts, by their trees and kinds. A group of one node has 4 kinds;
/// one of more holds rules, of 2 kinds each, and has 3 kinds, or holds groups, and has 4.
const ACCEPTED: [(u32, usize); 5] = [(1, 4), (2, 22), (3, 164), (4, 1_640), (5, 19_040)];

#[test]
fn every_small_table() {
    let mut compare = Compare::new("every small table by the profile");
    for (nodes, due) in ACCEPTED {
        let one_in = if nodes < 5 { 1 } else { 5 };
        let accepted = every_table(&mut compare, nodes, one_in);
        compare.same("how many are accepted", accepted, due);
    }
    compare.every_decision(700);
    compare.silent_groups(150);
    compare.end(8_000_000, [0, 5, 10, 13, 14, 15, 16], 10);
}

/// Rules where the profile has none, put in groups: the profile accepts the table, and it rules as before.
#[test]
fn faults_taken_out() {
    let mut compare = Compare::new("faults by the profile taken out");
    let mut changed = 0;
    for seed in 0..2_000 {
        compare.case("seed", seed);
        let mut random = Random::new(seed);
        let maxima = small_maxima(&mut random);
        let table = accepted_table(&mut random, maxima);
        let made = without_faults(&table, seed % 2 == 0);
        let (before, bytes) = (table.bytes(), made.bytes());
        let read = reads(&mut compare, &bytes);
        // too many nodes or levels
        if read.plain.is_err() {
            continue;
        }
        changed += u64::from(made != table);
        compare.same("whether it is accepted", read.standard.is_ok(), true);
        let table = Table::read(&before);
        for joint in some_joint_requests(&mut random, maxima, &[], 8) {
            let ruled = evaluator::rule(&table, &joint);
            let places = random.of(&lists(&ruled));
            compare.rules_with(&before, &joint, &ruled, [places]);
            compare.rules_standard_with(&bytes, &joint, &ruled, [places]);
        }
    }
    assert!(changed >= 1_000, "tables with faults: {changed}");
    compare.every_decision(1_800);
    compare.silent_groups(100);
    compare.end(1_400_000, [0, 9, 10, 13], 1_500);
}
