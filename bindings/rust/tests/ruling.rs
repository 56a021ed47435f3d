//! Ruling by a table's groups.

use crate::compare::Compare;
use crate::evaluator::{self, every_request, Joint, Refused, Ruled, Table};
use crate::evaluator::{HEADER, MOST_SUBJECTS, OTHERS};
use crate::generator::{accepted_table, any_maxima, children, damaged_table, flat};
use crate::generator::{joint_requests_of, lists, ranges_of, sets_of, some_joint_requests};
use crate::generator::{silent_groups, small_maxima, two_ranges, Random, CHILDREN, HARBOUR};
use crate::pairs::builds;

#[test]
fn generated_tables() {
    let mut compare = Compare::new("ruling by generated tables");
    for seed in 0..25_000 {
        compare.case("seed", seed);
        let mut random = Random::new(seed);
        let maxima = any_maxima(&mut random);
        let bytes = match seed % 4 {
            0 => damaged_table(&mut random, maxima),
            _ => accepted_table(&mut random, maxima).bytes(),
        };
        let table = Table::read(&bytes);
        let numbers: Vec<u16> = bytes.iter().map(|&byte| byte.into()).collect();
        for joint in some_joint_requests(&mut random, maxima, &numbers, 12) {
            let ruled = evaluator::rule(&table, &joint);
            compare.rules_with(&bytes, &joint, &ruled, lists(&ruled));
        }
    }
    compare.every_decision(50_000);
    compare.silent_groups(7_000);
    compare.every_set(1_500);
    compare.end(95_000_000, (0..=10).chain([13]), 4_500);
}

/// Rules on each set with every list, and on each subject by the diagram.
fn every_set(compare: &mut Compare, bytes: &[u8]) {
    let (table, diagram) = builds(compare, bytes).expect("a small diagram");
    for joint in joint_requests_of(&sets_of(&[0, 1, 2]), &[0]) {
        compare.rules_with(bytes, &joint, &table.rule(&joint), 0..=9);
    }
    for values in [[0, 0, 0], [1, 0, 0], [2, 0, 0]] {
        compare.looks_up_with(&diagram, values, &table.rule_one(values), [8]);
    }
}

/// Each kind over each four children, all of them groups, and some of them rules.
fn every_way(compare: &mut Compare) {
    for kind in 0..4 {
        for number in 0..625 {
            compare.case("children", number);
            let given = [number / 125, number / 25 % 5, number / 5 % 5, number % 5];
            let given = given.map(|child| CHILDREN[child]);
            for alone in [false, true] {
                every_set(compare, &children(kind, &given, alone).bytes());
            }
        }
    }
}

/// T with a root of each kind, each set of some subjects with each of some other values, and every list.
fn every_root(compare: &mut Compare) {
    let sets = sets_of(&[0, 1, 2, 3, 63]);
    for kind in 0..4 {
        compare.case("kind", kind.into());
        let mut bytes = HARBOUR.to_vec();
        bytes[HEADER] = kind;
        let table = Table::read(&bytes);
        for joint in joint_requests_of(&sets, &[0, 1, 2, 255, 256, 65_535]) {
            let ruled = evaluator::rule(&table, &joint);
            compare.rules_with(&bytes, &joint, &ruled, 0..=4);
        }
    }
}

/// A rule under a group, each for every range of which both ends are of some subjects, about the last of a set and the
/// last of all; each set of some subjects, and the set of as many as a set has.
fn every_range(compare: &mut Compare) {
    let mut sets = sets_of(&[0, 31, 32, 62, 63]);
    sets.push((0..MOST_SUBJECTS).collect());
    let requests = joint_requests_of(&sets, &[0]);
    for most in [62, 63, 64, 255] {
        compare.case("subjects up to", most.into());
        let ends = [0, 1, 31, 32, 62, 63, 64, 65, 255].into_iter();
        let ranges = ranges_of(&Vec::from_iter(ends.filter(|&end| end <= most)));
        for &group in &ranges {
            for &rule in &ranges {
                let bytes = two_ranges(0, most, group, rule).bytes();
                let table = Table::read(&bytes);
                for joint in &requests {
                    let ruled = evaluator::rule(&table, joint);
                    compare.rules_with(&bytes, joint, &ruled, [1]);
                }
            }
        }
    }
}

#[test]
fn small_tables_and_the_largest() {
    let mut compare = Compare::new("ruling by small tables and the largest");
    every_way(&mut compare);
    every_root(&mut compare);
    every_range(&mut compare);
    for nodes in [127, 128, 129] {
        compare.case("nodes", nodes.into());
        let bytes = flat(nodes).bytes();
        let table = Table::read(&bytes);
        for members in [63..64, 0..64] {
            let joint = Joint::new(members, [255; OTHERS]);
            let ruled = evaluator::rule(&table, &joint);
            compare.rules_with(&bytes, &joint, &ruled, 0..=130);
        }
    }
    compare.every_decision(150);
    compare.silent_groups(1_000);
    compare.end(13_500_000, [0, 3, 9, 10, 13], 100);
}

/// The subjects of silent groups and those of rules to permit, all of them in an only-one group; a set, and the
/// decision and the cards that it is given.
type Silent<'a> = (&'static str, [&'a [u8]; 2], &'a [u16], u8, &'a [u16]);

const SILENT: [Silent; 9] = [
    ("one", [&[0], &[]], &[0], 0, &[]),
    ("two", [&[0, 0], &[]], &[0], 3, &[]),
    ("one and a rule", [&[0], &[0]], &[0], 3, &[1]),
    ("one, no rule matches", [&[0], &[1]], &[0], 0, &[]),
    ("its target fails", [&[1], &[]], &[0], 0, &[]),
    ("one of two fails", [&[1, 0], &[]], &[0], 0, &[]),
    ("it fails, and a rule", [&[1], &[0]], &[0], 1, &[1]),
    ("two, by two members", [&[1, 0], &[]], &[0, 1], 3, &[]),
    ("and a rule, by two", [&[1], &[0]], &[0, 1], 3, &[1]),
];

/// "a group child counts when its target holds, though no card in it matches."
#[test]
fn silent_groups_count() {
    let mut compare = Compare::new("silent groups");
    for (case, [groups, rules], members, decision, cards) in SILENT {
        for empty in [false, true] {
            compare.case(case, empty.into());
            let bytes = silent_groups(groups, rules, empty).bytes();
            let joint = Joint::new(members.to_vec(), [0; OTHERS]);
            let ruled = evaluator::rule(&Table::read(&bytes), &joint);
            let cards = cards.to_vec();
            let due = Ok(Ruled { decision, cards });
            compare.same("what the evaluator gives", &ruled, &due);
            every_set(&mut compare, &bytes);
        }
    }
    compare.silent_groups(150);
    compare.end(25_000, [0, 10, 13], 30);
}

fn is_indeterminate(ruled: &Result<Ruled, Refused>) -> bool {
    matches!(ruled, Ok(Ruled { decision: 3, .. }))
}

fn never_indeterminate(compare: &mut Compare, ruled: &Result<Ruled, Refused>) {
    compare.same("indeterminate", is_indeterminate(ruled), false);
}

/// "Show that such a group never gives unclear, for questions and parties alike": a root that is "may not beats", by the
/// groups and by the diagram. That it would be under another root is seen by one that is "may beats".
#[test]
fn deny_overrides_never_indeterminate() {
    let mut compare = Compare::new("deny overrides as the root");
    let mut otherwise = 0;
    for seed in 0..3_000 {
        compare.case("seed", seed);
        let mut random = Random::new(seed);
        let maxima = small_maxima(&mut random);
        let mut bytes = accepted_table(&mut random, maxima).bytes();
        bytes[HEADER] = 2;
        let Ok(permitting) = Table::read(&bytes) else {
            continue;
        };
        bytes[HEADER] = 3;
        let Some((denying, diagram)) = builds(&mut compare, &bytes) else {
            continue;
        };
        for values in every_request(denying.maxima) {
            let ruled = denying.rule_one(values);
            compare.looks_up_with(&diagram, values, &ruled, [127]);
            never_indeterminate(&mut compare, &ruled);
            otherwise += u32::from(is_indeterminate(&permitting.rule_one(values)));
        }
        for joint in some_joint_requests(&mut random, maxima, &[], 40) {
            let ruled = denying.rule(&joint);
            compare.rules_with(&bytes, &joint, &ruled, [127]);
            never_indeterminate(&mut compare, &ruled);
            otherwise += u32::from(is_indeterminate(&permitting.rule(&joint)));
        }
    }
    assert!(otherwise >= 6_000, "{otherwise} times under may beats");
    compare.end(85_000_000, [0, 9, 13], 9_000);
}
