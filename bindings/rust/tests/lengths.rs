//! Slices whose lengths 8 or 16 bits do not hold.

use crate::compare::Compare;
use crate::evaluator::{self, Diagram, Due, Joint, Table, Values, MOST_PLACES};
use crate::generator::HARBOUR;

/// Cut to 8 or 16 bits they are 0, or 63 as the lengths of T and of its diagram are.
const LENGTHS: [usize; 4] = [256, 256 + 63, 65_536, 65_536 + 63];

/// The smuggler trades at the harbour, for which T gives two cards.
const VALUES: Values = [2, 0, 0];

#[test]
fn long_slices() {
    let mut compare = Compare::new("long slices");
    let table = Table::read(HARBOUR);
    let joint = Joint::only(VALUES).expect("a subject of a set");
    let ruled = evaluator::rule(&table, &joint);
    let walked = evaluator::walk(&table);
    let attached = evaluator::attach(HARBOUR, HARBOUR);
    let diagram = Due::built(&walked, MOST_PLACES).numbers;
    for length in LENGTHS {
        compare.case("length", length);
        compare.rules_with(HARBOUR, &joint, &ruled, [length]);
        compare.builds_in(HARBOUR, &walked, [length]);
        compare.attaches_in(HARBOUR, HARBOUR, &attached, [length]);
        // a table is refused for what follows it
        let longer = [HARBOUR, &vec![0; length - HARBOUR.len()]].concat();
        let due = Due::read(&Table::read(&longer));
        compare.reads(&longer, &due);
        compare.rules(&longer, &joint, 2, &due);
        compare.reads_standard(&longer, &due);
        compare.rules_standard(&longer, &joint, 2, &due);
        compare.builds(&longer, 63, &due);
        compare.attaches(&longer, HARBOUR, 118, &due);
        compare.attaches(HARBOUR, &longer, 118, &due);
        // a diagram is not
        let longer = [&diagram[..], &vec![1; length - diagram.len()]].concat();
        let ruled = evaluator::look_up(&Diagram::check(&longer), VALUES);
        compare.looks_up_with(&longer, VALUES, &ruled, [2, length]);
    }
    compare.end(520_000, [0, 1], 20);
}
