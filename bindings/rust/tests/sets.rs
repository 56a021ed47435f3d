//! Sets of subjects beside their members, and runs of subjects beside a table without subjects.

use std::collections::BTreeSet;

use crate::compare::Compare;
use crate::evaluator::{every_request, lies_in, Joint, Table, FIELDS, MOST_SUBJECTS};
use crate::generator::{accepted_table, lists, some_joint_requests};
use crate::generator::{steps_on, Outline, Random};
use crate::pairs::builds;

/// A table whose subjects often end about where those of a set do. A card tells its rule from all others, and cards rise
/// in table order.
fn some_table(random: &mut Random) -> Outline {
    let mut maxima = [0; FIELDS].map(|_: u8| random.below(5) as u8);
    if !random.one_in(4) {
        maxima[0] = random.of(&[62, 63, 64, 255]);
    }
    let mut table = accepted_table(random, maxima);
    if random.one_in(2) {
        part_subjects(random, &mut table);
    }
    let rules = table.nodes.iter_mut().filter(|node| !node.is_group());
    for (card, rule) in (1..).zip(rules) {
        rule.card = card;
    }
    table
}

/// The root is then an only-one group, where it is a group, and what is in such a group is for few subjects each: often
/// one child holds for one member of a set, and another for another.
fn part_subjects(random: &mut Random, table: &mut Outline) {
    let most = table.maxima[0];
    if table.nodes[0].is_group() {
        table.nodes[0].kind = 1;
    }
    for place in 1..table.nodes.len() {
        if table.parent(place).kind == 1 {
            let low = random.below(usize::from(most.min(63)) + 1) as u8;
            table.nodes[place].ranges[0] = (low, steps_on(low, random.below(3), most));
        }
    }
}

/// A set of one subject is ruled as that subject, and as the built diagram rules; a rule matches for a set exactly where
/// it matches for one of its members by itself.
#[test]
fn members_by_themselves() {
    let mut compare = Compare::new("sets beside their members");
    let mut silent = 0;
    for seed in 0..1_800 {
        compare.case("seed", seed);
        let mut random = Random::new(seed);
        let outline = some_table(&mut random);
        let bytes = outline.bytes();
        let Some((table, diagram)) = builds(&mut compare, &bytes) else {
            continue;
        };
        let any = |most: u16| random.below(usize::from(most) + 1) as u16;
        let [_, others @ ..] = table.maxima.map(any);
        let mut alone = Vec::new();
        for subject in 0..=table.maxima[0] {
            let values = Joint::new([], others).asked_by(subject);
            let ruled = table.rule_one(values);
            compare.looks_up_with(&diagram, values, &ruled, [127]);
            if let Some(joint) = Joint::only(values) {
                compare.same("the ruling on a set of one", &table.rule(&joint), &ruled);
                compare.rules_with(&bytes, &joint, &ruled, [127]);
            }
            alone.push(ruled.expect("values within the maxima"));
        }
        for joint in some_joint_requests(&mut random, outline.maxima, &[], 16) {
            let joint = Joint { others, ..joint };
            let ruled = table.rule(&joint);
            compare.rules_with(&bytes, &joint, &ruled, [127]);
            let Ok(ruled) = ruled else { continue };
            let members = joint.members.iter();
            let members = Vec::from_iter(members.map(|&member| &alone[usize::from(member)]));
            let each: BTreeSet<u16> = members.iter().flat_map(|one| one.cards.clone()).collect();
            // indeterminate by a silent group for one member, and for another by one more or by a rule
            let decisions = members.iter().map(|one| one.decision);
            let apart = ruled.decision == 3 && ruled.cards.len() < 2 && decisions.max() < Some(3);
            silent += u64::from(apart);
            compare.same("the cards of a set", ruled.cards, Vec::from_iter(each));
        }
    }
    assert!(silent >= 120, "silent groups of two members: {silent}");
    compare.every_decision(1_000);
    compare.silent_groups(500);
    compare.every_set(40);
    compare.end(34_000_000, [0, 13], 500);
}

/// The table with one subject alone: a node applies to it exactly where it can apply to a subject of a run. A node for
/// which the ranges on its way leave none of the run goes, with all under it; for a root an empty group stays.
fn without_subjects(table: &Outline, run: &[u16]) -> Outline {
    let mut outline = Outline::new(table.maxima);
    outline.maxima[0] = 0;
    // what each level above a node leaves of the run
    let mut left = vec![run.to_vec()];
    for node in &table.nodes {
        left.truncate(node.level);
        let mut subjects = left[left.len() - 1].clone();
        subjects.retain(|&subject| lies_in(subject, node.ranges[0]));
        if !subjects.is_empty() {
            let mut ranges = node.ranges;
            ranges[0] = (0, 0);
            outline.add(node.level, node.kind, node.card, ranges);
        }
        left.push(subjects);
    }
    if outline.nodes.is_empty() {
        outline.add(1, 0, 0, outline.all());
    }
    outline
}

/// A run of subjects, the run of all among them, is ruled as the one subject of the table without subjects.
#[test]
fn runs_of_subjects() {
    let mut compare = Compare::new("runs of subjects");
    for seed in 0..3_400 {
        compare.case("seed", seed);
        let mut random = Random::new(seed);
        let outline = some_table(&mut random);
        let bytes = outline.bytes();
        let last = u16::from(outline.maxima[0]).min(MOST_SUBJECTS - 1);
        let some = random.below(usize::from(last) + 1) as u16;
        for run in [0..=last, 0..=some, some..=last].map(Vec::from_iter) {
            let without = without_subjects(&outline, &run).bytes();
            let without = Table::read(&without).expect("a table that is accepted");
            for values in every_request(without.maxima) {
                let [_, others @ ..] = values;
                let joint = Joint::new(run.clone(), others);
                let ruled = without.rule_one(values);
                compare.rules_with(&bytes, &joint, &ruled, [random.of(&lists(&ruled))]);
            }
        }
    }
    compare.every_decision(1_000);
    compare.silent_groups(1_000);
    compare.every_set(10);
    compare.end(6_000_000, [0, 10], 5_000);
}
