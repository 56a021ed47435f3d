//! Looking up in a diagram, sound or not.

use crate::compare::Compare;
use crate::evaluator::{self, every_request, Diagram, Due, Table, FIELDS, MOST_PLACES};
use crate::generator::{accepted_table, any_maxima, empty_root, small_maxima, HARBOUR};
use crate::generator::{damage_diagram, fill_diagram, sound_diagram, state_used, widest_diagram};
use crate::generator::{each_entry_more, each_length, each_place};
use crate::generator::{lists, requests_of, some_requests, Maxima, Random};

/// The diagram that a table is built into, by the evaluator; nothing where it is too large.
fn built(bytes: &[u8]) -> Vec<u16> {
    let walked = evaluator::walk(&Table::read(bytes));
    Due::built(&walked, MOST_PLACES).numbers
}

/// Looks up four requests, each with many lists.
fn looks_up(compare: &mut Compare, random: &mut Random, maxima: Maxima, diagram: &[u16]) {
    let checked = Diagram::check(diagram);
    for values in some_requests(random, maxima, diagram, 4) {
        let ruled = evaluator::look_up(&checked, values);
        compare.looks_up_with(diagram, values, &ruled, lists(&ruled));
    }
}

#[test]
fn generated_diagrams() {
    let mut compare = Compare::new("looking up in generated diagrams");
    for seed in 0..8_000 {
        compare.case("seed", seed);
        let mut random = Random::new(seed);
        let maxima = match seed % 4 {
            3 => any_maxima(&mut random),
            _ => small_maxima(&mut random),
        };
        let mut diagram = match seed % 2 {
            0 => built(&accepted_table(&mut random, maxima).bytes()),
            _ => sound_diagram(&mut random, maxima, 0),
        };
        diagram.resize(diagram.len() + seed % 3, 0);
        for damages in [0, 1, 1, 1, 2] {
            let mut diagram = diagram.clone();
            for _ in 0..damages {
                damage_diagram(&mut random, &mut diagram);
            }
            looks_up(&mut compare, &mut random, maxima, &diagram);
        }
    }
    compare.every_decision(30_000);
    compare.end(50_000_000, [0, 9, 10, 12], 40_000);
}

/// Looks up every request up to one over T's maxima; the list's length goes round.
fn looks_up_small(compare: &mut Compare, diagram: &[u16]) {
    let checked = Diagram::check(diagram);
    for (turn, values) in every_request([3, 2, 2]).enumerate() {
        let ruled = evaluator::look_up(&checked, values);
        compare.looks_up_with(diagram, values, &ruled, [turn % 5]);
    }
}

/// A small diagram with each number at each of some eighty, also where zeros follow it, which are terminals if they are
/// used; at each length; and with one entry more.
fn changed(diagram: &[u16]) -> Vec<Vec<u16>> {
    let large = [127, 128, 255, 256, 259, 32_768, 32_769, 65_535];
    let numbers: Vec<u16> = (0..=72).chain(large).collect();
    let mut changed = each_length(diagram, 80, state_used);
    for zeros in [0, 3, 9] {
        let longer = [diagram, &vec![0; zeros]].concat();
        changed.extend(each_place(&longer, &numbers));
    }
    changed.extend(each_entry_more(diagram));
    changed
}

#[test]
fn small_changes() {
    let mut compare = Compare::new("looking up in diagrams with small changes");
    for table in [HARBOUR, &empty_root(0).bytes()] {
        let diagram = built(table);
        let checked = Diagram::check(&diagram);
        for values in requests_of(&[0, 1, 2, 3, 255, 256, 65_535]) {
            let ruled = evaluator::look_up(&checked, values);
            compare.looks_up_with(&diagram, values, &ruled, 0..=4);
        }
        for (number, diagram) in changed(&diagram).iter().enumerate() {
            compare.case("changed diagram", number);
            looks_up_small(&mut compare, diagram);
        }
    }
    compare.end(50_000_000, [0, 9, 10, 12], 5_000);
}

/// T's diagram with terminals after it up to so many places: as it is, cut by one, with numbers after it, with other
/// roots about its end, and with each of its last numbers at some others.
fn filled(places: usize) -> Vec<Vec<u16>> {
    let mut diagram = built(HARBOUR);
    fill_diagram(&mut diagram, places);
    let used = diagram[0];
    let mut filled = vec![
        diagram.clone(),
        diagram[..places - 1].to_vec(),
        [&diagram[..], &[1, 2, 3]].concat(),
    ];
    let mut set = |place: usize, numbers: &[u16]| {
        for &number in numbers {
            let mut changed = diagram.clone();
            changed[place] = number;
            filled.push(changed);
        }
    };
    set(1, &[used - 3, used - 1, used, used + 1]);
    for place in places - 4..places {
        set(place, &[0, 1, 3, 4, 128]);
    }
    filled
}

/// Looks up each value of each field in nodes with the most edges, where terminals have so many cards.
fn looks_up_widest(compare: &mut Compare, cards: u16) {
    let diagram = widest_diagram(cards);
    let checked = Diagram::check(&diagram);
    for field in 0..FIELDS {
        for value in 0..=256 {
            let mut values = [254; FIELDS];
            values[field] = value;
            let ruled = evaluator::look_up(&checked, values);
            compare.looks_up_with(&diagram, values, &ruled, [126, 127, 128]);
        }
    }
}

#[test]
fn long_diagrams() {
    let mut compare = Compare::new("looking up in long diagrams");
    // about the most places, and about where the check takes more room
    for places in (2_040..=2_056).chain(MOST_PLACES - 8..=MOST_PLACES + 2) {
        compare.case("places", places);
        for diagram in filled(places) {
            looks_up_small(&mut compare, &diagram);
        }
    }
    for seed in 0..300 {
        compare.case("seed", seed);
        let mut random = Random::new(seed);
        let maxima = small_maxima(&mut random);
        let places = random.of(&[2_048, MOST_PLACES]) - 8 + random.below(17);
        // what is reached stands before or after the filling
        let late = places - random.below(400);
        let before = random.of(&[0, late]);
        let mut diagram = sound_diagram(&mut random, maxima, before);
        fill_diagram(&mut diagram, places);
        for length in [diagram.len(), diagram.len() - 1] {
            looks_up(&mut compare, &mut random, maxima, &diagram[..length]);
        }
        damage_diagram(&mut random, &mut diagram);
        looks_up(&mut compare, &mut random, maxima, &diagram);
    }
    for cards in [127, 128] {
        compare.case("cards", cards.into());
        looks_up_widest(&mut compare, cards);
    }
    compare.end(2_000_000, [0, 9, 10, 12], 500);
}
