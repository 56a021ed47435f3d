//! Reading, by the convention profile too, and that a table's refusal comes before all others of a call.

use crate::compare::Compare;
use crate::evaluator::{Due, Joint, Range, Table, FIELDS, MOST_SUBJECTS, OTHERS};
use crate::generator::{accepted_table, any_maxima, chain, damaged_table, nested, one_rule};
use crate::generator::{each_length, each_place, each_span, ranges_of, state_length};
use crate::generator::{two_ranges, Random, HARBOUR};

/// Reads a table: whether it is accepted. Where it is not, a ruling and a build refuse it too, before an empty set or
/// one with subjects over their maximum, a value over its maximum, a list that is too short and a room that is. So does
/// attaching, as the base before an expansion that is refused, and as the expansion before a base that is a rule.
fn reads(compare: &mut Compare, number: usize, bytes: &[u8]) -> bool {
    compare.case("table", number);
    let table = Table::read(bytes);
    let due = Due::read(&table);
    compare.reads(bytes, &due);
    compare.reads_standard(bytes, &Due::read(&Table::read_standard(bytes)));
    if table.is_err() {
        let members = [0, MOST_SUBJECTS][number % 2];
        let joint = Joint::new(0..members, [256; OTHERS]);
        compare.rules(bytes, &joint, number % 4, &due);
        compare.rules_standard(bytes, &joint, number % 4, &due);
        compare.builds(bytes, number % 100, &due);
        compare.attaches(bytes, &[], number % 100, &due);
        compare.attaches(&one_rule().bytes(), bytes, number % 100, &due);
    }
    table.is_ok()
}

#[test]
fn generated_tables() {
    let mut compare = Compare::new("reading generated tables");
    for seed in 0..100_000 {
        let mut random = Random::new(seed);
        let maxima = any_maxima(&mut random);
        let bytes = match seed % 4 {
            0 => accepted_table(&mut random, maxima).bytes(),
            _ => damaged_table(&mut random, maxima),
        };
        reads(&mut compare, seed, &bytes);
    }
    compare.end(12_000_000, (0..=8).chain([14, 15]), 3_000);
}

#[test]
fn small_changes() {
    let mut compare = Compare::new("reading tables with small changes");
    let bytes: Vec<u8> = (0..=255).collect();
    let few = [0, 1, 2, 6, 255];
    let nested = nested().bytes();
    let few_at_two = |table: Vec<u8>| each_place(&table, &few).collect::<Vec<_>>();
    let tables = each_place(HARBOUR, &bytes)
        .chain(each_place(&nested, &bytes))
        .chain(each_place(HARBOUR, &few).flat_map(few_at_two))
        .chain(each_length(HARBOUR, 80, state_length))
        .chain(each_length(&nested, 300, state_length));
    for (number, table) in tables.enumerate() {
        reads(&mut compare, number, &table);
    }
    // five groups under a path of five, each of any span up to 6: the ways to nest them at most three deep
    let spans = [0, 1, 2, 3, 4, 5, 6];
    let tables = each_span(&chain(10).bytes(), &[5, 6, 7, 8, 9], &spans);
    let tables = tables.iter().enumerate();
    let accepted = tables.filter(|(number, table)| reads(&mut compare, *number, table));
    let accepted = accepted.count();
    compare.same("the number of nestings", accepted, 34);
    compare.end(37_000_000, (0..=8).chain([14]), 30);
}

/// "Refusal 7 remains only for a low or high above the maximum.": each low with each high, at a group and at a rule.
#[test]
fn ranges_about_the_maximum() {
    let mut compare = Compare::new("reading ranges about the maximum");
    let ends = [0, 1, 4, 5, 6, 7, 62, 63, 64, 65, 127, 128, 253, 254, 255];
    let ranges = ranges_of(&ends);
    // a maximum, and how many of these ends are not above it
    for (most, up_to) in [(0, 1), (1, 2), (5, 4), (63, 8), (254, 14), (255, 15)] {
        for field in 0..FIELDS {
            let at_group = |&range: &Range| two_ranges(field, most, range, (0, most));
            let at_rule = |&range: &Range| two_ranges(field, most, (0, most), range);
            let tables = ranges
                .iter()
                .map(at_group)
                .chain(ranges.iter().map(at_rule));
            let accepted = tables
                .enumerate()
                .filter(|(number, table)| reads(&mut compare, *number, &table.bytes()));
            let accepted = accepted.count();
            compare.same("how many are accepted", accepted, 2 * up_to * up_to);
        }
    }
    compare.end(1_100_000, [0, 7], 3_000);
}
