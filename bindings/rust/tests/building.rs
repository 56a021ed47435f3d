//! Building a diagram, and ruling by it and by the table, for every request.

use crate::compare::Compare;
use crate::evaluator::{self, every_request, Due, Joint, Table, FIELDS, MOST_PLACES};
use crate::generator::{accepted_table, damaged_table, small_maxima};
use crate::generator::{all_different, each_place, empty_root, spread, staircase};
use crate::generator::{lists, some_joint_requests, some_requests};
use crate::generator::{Outline, Random, HARBOUR, RULEBOOK};

/// Builds a table's diagram in rooms about what it takes, and in others. Then every request within the maxima is ruled
/// on by the groups, for the set of its one subject, and by the diagram; some over the maxima are by the diagram, and
/// some of sets by the groups.
fn builds(compare: &mut Compare, random: &mut Random, bytes: &[u8]) {
    let table = Table::read(bytes);
    let walked = evaluator::walk(&table);
    let used = walked.as_ref().map_or(80, Vec::len);
    compare.builds_in(bytes, &walked, [0, 1, 2, 3, 4, 5, random.below(used)]);
    let beyond = used + 2 + random.below(8);
    compare.builds_in(bytes, &walked, [used - 1, used + 1, beyond]);
    let over = MOST_PLACES + 1 + random.below(8);
    compare.builds_in(bytes, &walked, [MOST_PLACES, over]);
    let diagram = compare.builds(bytes, used, &Due::built(&walked, used));
    let Ok(table) = table else { return };
    let maxima = table.maxima.map(|most| most as u8);
    for values in every_request(table.maxima).chain(some_requests(random, maxima, &[], 8)) {
        let ruled = table.rule_one(values);
        let places = random.of(&lists(&ruled));
        // "A party of one is ruled as that figure."
        if let Some(joint) = Joint::only(values).filter(|_| ruled.is_ok()) {
            compare.rules_with(bytes, &joint, &ruled, [places]);
        }
        if used <= MOST_PLACES {
            compare.looks_up_with(&diagram, values, &ruled, [places]);
        }
    }
    for joint in some_joint_requests(random, maxima, &[], 8) {
        let ruled = table.rule(&joint);
        let places = random.of(&lists(&ruled));
        compare.rules_with(bytes, &joint, &ruled, [places]);
    }
}

#[test]
fn generated_tables() {
    let mut compare = Compare::new("building generated tables");
    for seed in 0..2_800 {
        compare.case("seed", seed);
        let mut random = Random::new(seed);
        let maxima = small_maxima(&mut random);
        let bytes = match seed % 8 {
            0 => damaged_table(&mut random, maxima),
            _ => accepted_table(&mut random, maxima).bytes(),
        };
        builds(&mut compare, &mut random, &bytes);
    }
    compare.every_decision(50_000);
    compare.silent_groups(10_000);
    compare.end(235_000_000, [0, 9, 10, 11, 13], 2_000);
}

/// The examples, T with each byte at some values, T under one more root and an empty root, both of each kind, and nodes
/// with the most edges.
fn some_tables() -> Vec<Vec<u8>> {
    let mut tables = vec![HARBOUR.to_vec(), RULEBOOK.to_vec()];
    tables.extend(each_place(HARBOUR, &[0, 1, 2, 3, 4, 5, 255]));
    for kind in 0..4 {
        let mut wrapped = Outline::of(HARBOUR);
        wrapped.wrap(0, kind);
        tables.extend([wrapped.bytes(), empty_root(kind).bytes()]);
    }
    tables.extend((0..FIELDS).map(|field| spread(field).bytes()));
    tables
}

#[test]
fn small_tables_and_the_largest() {
    let mut compare = Compare::new("building small tables and the largest");
    let mut random = Random::new(0);
    for (number, bytes) in some_tables().iter().enumerate() {
        compare.case("table", number);
        builds(&mut compare, &mut random, bytes);
    }
    compare.case("T in every room", 0);
    let walked = evaluator::walk(&Table::read(HARBOUR));
    compare.builds_in(HARBOUR, &walked, 0..=130);
    // the most places, and one more
    for (places, table) in [
        (MOST_PLACES, staircase(38, 22, 5)),
        (MOST_PLACES + 1, staircase(38, 22, 6)),
        (MOST_PLACES, all_different(0)),
        (MOST_PLACES + 1, all_different(1)),
    ] {
        compare.case("places", places);
        let bytes = table.bytes();
        let walked = evaluator::walk(&Table::read(&bytes));
        compare.same("the walk's length", walked.map_or(0, |w| w.len()), places);
        builds(&mut compare, &mut random, &bytes);
    }
    compare.end(30_000_000, [0, 9, 10, 11, 13], 200);
}
