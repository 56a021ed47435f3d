//! Pairs of tables, the second made from the first by one change: their diagrams are equal exactly where they rule alike
//! on every subject by itself. Tables that do may still rule otherwise on a set.

use std::fmt;

use crate::compare::Compare;
use crate::evaluator::{self, Due, Joint, Ruled, Table, MOST_SUBJECTS, OTHERS};
use crate::generator::{accepted_table, permit_and_deny, small_maxima, small_table, HARBOUR};
use crate::generator::{Moves, Outline, Random, CHANGES};

/// How many pairs of accepted tables are compared for each change, how many are drawn at most, and how many rule alike
/// and how many do not at least, where a change sometimes changes a ruling.
const PAIRS: usize = 600;
const DRAWN: usize = 30_000;
const ENOUGH: usize = 10;

#[derive(Default)]
struct Tally {
    alike: usize,
    not_alike: usize,
    refused: usize,
}

impl Tally {
    fn pairs(&self) -> usize {
        self.alike + self.not_alike
    }

    fn is_right(&self, moves: Moves) -> bool {
        let moves_so = match moves {
            Moves::Never => self.not_alike == 0,
            Moves::Sometimes => self.alike >= ENOUGH && self.not_alike >= ENOUGH,
            Moves::Always => self.alike == 0,
        };
        moves_so && self.pairs() == PAIRS
    }
}

impl fmt::Display for Tally {
    fn fmt(&self, f: &mut fmt::Formatter<'_>) -> fmt::Result {
        let Tally {
            alike,
            not_alike,
            refused,
        } = self;
        write!(f, "{alike} alike, {not_alike} not alike, {refused} refused")
    }
}

/// Reads a table and builds its diagram in exactly the room that it takes: both, where it is not refused.
pub fn builds(compare: &mut Compare, bytes: &[u8]) -> Option<(Table, Vec<u16>)> {
    let table = Table::read(bytes);
    compare.reads(bytes, &Due::read(&table));
    let walked = evaluator::walk(&table);
    let room = walked.as_ref().map_or(80, Vec::len);
    let due = Due::built(&walked, room);
    let diagram = compare.builds(bytes, room, &due);
    let table = table.ok().filter(|_| due.number == 0)?;
    Some((table, diagram))
}

fn pair(compare: &mut Compare, tally: &mut Tally, tables: [&Outline; 2]) {
    let [one, other] = tables.map(|table| builds(compare, &table.bytes()));
    let (Some((one, diagram)), Some((other, changed))) = (one, other) else {
        tally.refused += 1;
        return;
    };
    let alike = one.rules_alike(&other);
    compare.same("whether the diagrams are equal", diagram == changed, alike);
    if alike {
        tally.alike += 1;
    } else {
        tally.not_alike += 1;
    }
}

fn some_table(random: &mut Random) -> Outline {
    let maxima = small_maxima(random);
    match random.below(8) {
        0 => Outline::of(HARBOUR),
        1 | 2 => accepted_table(random, maxima),
        _ => small_table(random, maxima),
    }
}

#[test]
fn equal_exactly_where_alike() {
    let mut compare = Compare::new("pairs");
    for (number, (name, moves, change)) in CHANGES.into_iter().enumerate() {
        let mut tally = Tally::default();
        for draw in 0..DRAWN {
            compare.case(name, draw);
            let mut random = Random::new(draw * CHANGES.len() + number);
            let table = some_table(&mut random);
            let mut changed = table.clone();
            if change(&mut random, &mut changed).is_some() && changed != table {
                pair(&mut compare, &mut tally, [&table, &changed]);
            }
            if tally.pairs() == PAIRS {
                break;
            }
        }
        println!("{name}: {tally}");
        assert!(tally.is_right(moves), "{name}: {tally}");
    }
    compare.end(1_000_000, [0], 10_000);
}

/// Two rules in either order: the diagrams are equal, and the rulings on a set that has both subjects are not.
fn exchanges(compare: &mut Compare, [permit, deny]: [u16; 2]) {
    let table = permit_and_deny(permit as u8, deny as u8);
    let mut exchanged = table.clone();
    exchanged.nodes.swap(1, 2);
    let mut diagrams = Vec::new();
    for (outline, decision, cards) in [(table, 1, [10, 20]), (exchanged, 2, [20, 10])] {
        let bytes = outline.bytes();
        let (table, diagram) = builds(compare, &bytes).expect("a small diagram");
        diagrams.push(diagram);
        let cards = cards.to_vec();
        let ruled = Ok(Ruled { decision, cards });
        for members in [vec![permit, deny], (0..MOST_SUBJECTS).collect()] {
            let joint = Joint::new(members, [0; OTHERS]);
            compare.same("what the evaluator gives", &table.rule(&joint), &ruled);
            compare.rules_with(&bytes, &joint, &ruled, [2]);
        }
    }
    compare.same("the second diagram", &diagrams[1], &diagrams[0]);
}

/// "two tables with equal diagrams may still rule a party differently, as when a may card for figure 0 and a may not card
/// for figure 1 change places in a "first" group": here for each two subjects.
#[test]
fn exchanged_rules() {
    let mut compare = Compare::new("exchanged rules");
    for permit in 0..MOST_SUBJECTS {
        for deny in (0..MOST_SUBJECTS).filter(|&deny| deny != permit) {
            compare.case("subjects", (100 * permit + deny).into());
            exchanges(&mut compare, [permit, deny]);
        }
    }
    compare.end(800_000, [0], 30_000);
}
