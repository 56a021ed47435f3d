//! Every range of a field: "A low above its high now means values from low upward or up to high."

use crate::compare::Compare;
use crate::evaluator::{self, Diagram, Joint, Range, Refused, Ruled, Values};
use crate::evaluator::{FIELDS, MOST_SUBJECTS};
use crate::generator::{joint_requests_of, ranges_of, rules_for, sets_of, two_ranges};
use crate::pairs::builds;

/// A value of one field, and 0 in each other.
fn only_in(field: usize, value: u16) -> Values {
    let mut values = [0; FIELDS];
    values[field] = value;
    values
}

/// Rules by the groups on the set of one subject, where a set has it.
fn rules(compare: &mut Compare, bytes: &[u8], values: Values, ruled: &Result<Ruled, Refused>) {
    if let Some(joint) = Joint::only(values) {
        compare.rules_with(bytes, &joint, ruled, [127]);
    }
}

/// Ranges of seats 0 to 5, and the seats that are in them.
const SEATS: [(Range, &[u16]); 10] = [
    ((1, 4), &[1, 2, 3, 4]),
    ((4, 4), &[4]),
    ((0, 5), &[0, 1, 2, 3, 4, 5]),
    // "seat 4 to seat 1"
    ((4, 1), &[4, 5, 0, 1]),
    ((5, 0), &[5, 0]),
    ((5, 3), &[5, 0, 1, 2, 3]),
    ((2, 0), &[2, 3, 4, 5, 0]),
    // "Low one more than high takes in every value."
    ((1, 0), &[1, 2, 3, 4, 5, 0]),
    ((3, 2), &[3, 4, 5, 0, 1, 2]),
    ((5, 4), &[5, 0, 1, 2, 3, 4]),
];

#[test]
fn seats() {
    let mut compare = Compare::new("seats of a ring");
    for field in 0..FIELDS {
        compare.case("field", field);
        let bytes = rules_for(field, 5, &SEATS.map(|(range, _)| range)).bytes();
        let (table, diagram) = builds(&mut compare, &bytes).expect("a small diagram");
        for seat in 0..=5 {
            let rules_of_seat = (1..)
                .zip(SEATS)
                .filter(|(_, (_, seats))| seats.contains(&seat));
            let cards = rules_of_seat.map(|(card, _)| card).collect();
            let due = Ok(Ruled { decision: 1, cards });
            let values = only_in(field, seat);
            compare.same("what the evaluator gives", &table.rule_one(values), &due);
            rules(&mut compare, &bytes, values, &due);
            compare.looks_up_with(&diagram, values, &due, [127]);
        }
    }
    compare.end(5_000, [0], 40);
}

/// Rules on each value of a field by the groups and by the diagram, and on each set of subjects.
fn every_value(compare: &mut Compare, field: usize, bytes: &[u8]) {
    let (table, diagram) = builds(compare, bytes).expect("a small diagram");
    for value in 0..=table.maxima[field] {
        let values = only_in(field, value);
        let ruled = table.rule_one(values);
        rules(compare, bytes, values, &ruled);
        compare.looks_up_with(&diagram, values, &ruled, [127]);
    }
    let subjects = Vec::from_iter(0..=table.maxima[0]);
    for joint in joint_requests_of(&sets_of(&subjects), &[0]) {
        compare.rules_with(bytes, &joint, &table.rule(&joint), [1]);
    }
}

/// A rule under a group, each for every range of a small field.
#[test]
fn small_fields() {
    let mut compare = Compare::new("ranges of small fields");
    for most in [0, 1, 2, 5] {
        compare.case("maximum", most.into());
        let ranges = ranges_of(&Vec::from_iter(0..=most));
        for &group in &ranges {
            for &rule in &ranges {
                for field in 0..FIELDS {
                    let table = two_ranges(field, most, group, rule);
                    every_value(&mut compare, field, &table.bytes());
                }
            }
        }
    }
    compare.end(8_000_000, [0, 13], 4_000);
}

/// Rules for every range of the largest field, as many in a table as there may be: each value by the groups as by the
/// built diagram, and some sets of subjects.
#[test]
fn largest_fields() {
    let mut compare = Compare::new("ranges of the largest fields");
    let ranges = ranges_of(&Vec::from_iter(0..=255));
    let requests = joint_requests_of(&[vec![0, 63], (0..MOST_SUBJECTS).collect()], &[0]);
    for field in 0..FIELDS {
        for (number, ranges) in (0..).zip(ranges.chunks(127)) {
            compare.case("ranges", number);
            let bytes = rules_for(field, 255, ranges).bytes();
            let (table, diagram) = builds(&mut compare, &bytes).expect("a small diagram");
            let checked = Diagram::check(&diagram);
            for value in 0..=255 {
                let values = only_in(field, value);
                let ruled = evaluator::look_up(&checked, values);
                rules(&mut compare, &bytes, values, &ruled);
            }
            let values = only_in(field, number as u16 % 256);
            compare.looks_up_with(&diagram, values, &table.rule_one(values), [127]);
            for joint in &requests {
                compare.rules_with(&bytes, joint, &table.rule(joint), [127]);
            }
        }
    }
    compare.end(55_000_000, [0, 13], 2_000);
}
