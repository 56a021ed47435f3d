//! Sound diagrams, also such as no build gives.

use super::{Maxima, Random};
use crate::evaluator::FIELDS;

/// A sound diagram and anything after it: some entries are equal, some are not reached, and neighbouring edges may have
/// one child. Terminals fill so many places before all other entries, or up to 2 more. Now and then it is sound but for
/// a maximum of 256, or for a terminal of 128 cards.
pub fn sound_diagram(random: &mut Random, maxima: Maxima, before: usize) -> Vec<u16> {
    let mut maxima = maxima.map(u16::from);
    if random.one_in(32) {
        maxima[random.below(FIELDS)] = 256;
    }
    let most_cards = if random.one_in(32) { 128 } else { 127 };
    let mut numbers = vec![0, 0];
    numbers.extend(maxima);
    while numbers.len() < before {
        add_terminal(&mut numbers, 3, &[]);
    }
    // where the entries of each level start; those of terminals are level 0
    let mut starts: [Vec<u16>; 1 + FIELDS] = Default::default();
    for level in some_levels(random) {
        let start = if level == 0 {
            let count = random.of(&[0, 1, 2, 3, 4, 5, most_cards]);
            let cards: Vec<u16> = (0..count).map(|_| any_card(random)).collect();
            add_terminal(&mut numbers, random.below(4) as u16, &cards)
        } else {
            let children = &starts[(level + 1) % starts.len()];
            let edges = some_edges(random, maxima[level - 1], children);
            add_node(&mut numbers, level as u16, &edges)
        };
        starts[level].push(start);
    }
    numbers[1] = random.of(&starts[1]);
    for _ in 0..random.below(4) {
        numbers.push(random.below(65_536) as u16);
    }
    numbers
}

/// The levels of entries: each of them once, from the terminals up, and then any.
fn some_levels(random: &mut Random) -> Vec<usize> {
    let mut levels = vec![0];
    levels.extend((1..=FIELDS).rev());
    for _ in 0..random.below(24) {
        levels.push(random.below(1 + FIELDS));
    }
    levels
}

fn any_card(random: &mut Random) -> u16 {
    1 + random.below(65_535) as u16
}

fn some_edges(random: &mut Random, last: u16, children: &[u16]) -> Vec<(u16, u16)> {
    let seldom = 1 + random.below(4);
    let mut edges = Vec::new();
    for value in 0..=last {
        if value == last || random.one_in(seldom) {
            edges.push((value, random.of(children)));
        }
    }
    edges
}

/// Adds an entry, which is then used: its place.
fn add_terminal(numbers: &mut Vec<u16>, decision: u16, cards: &[u16]) -> u16 {
    let place = numbers.len() as u16;
    numbers.extend([0, decision, cards.len() as u16]);
    numbers.extend(cards);
    state_used(numbers);
    place
}

fn add_node(numbers: &mut Vec<u16>, level: u16, edges: &[(u16, u16)]) -> u16 {
    let place = numbers.len() as u16;
    numbers.extend([level, edges.len() as u16]);
    numbers.extend(edges.iter().flat_map(|&(last, child)| [last, child]));
    state_used(numbers);
    place
}

/// States that all places are used, where there is one.
pub fn state_used(numbers: &mut [u16]) {
    let used = numbers.len() as u16;
    if let Some(first) = numbers.first_mut() {
        *first = used;
    }
}

/// Cuts what follows a diagram, and adds terminals up to so many places, where these are more than 2 more.
pub fn fill_diagram(numbers: &mut Vec<u16>, places: usize) {
    numbers.truncate(numbers[0].into());
    while numbers.len() < places {
        let left = places - numbers.len();
        let count = if left < 6 { left.saturating_sub(3) } else { 0 };
        add_terminal(numbers, 3, &vec![1; count]);
    }
}

/// Nodes with an edge for each of 256 values: a request whose values have an even sum is permitted with so many cards,
/// any other is denied with one.
pub fn widest_diagram(count: u16) -> Vec<u16> {
    let mut numbers = vec![0, 0];
    numbers.extend([255; FIELDS]);
    let cards: Vec<u16> = (1000..1000 + count).collect();
    let mut even = add_terminal(&mut numbers, 1, &cards);
    let mut odd = add_terminal(&mut numbers, 2, &[7]);
    for level in (1..=FIELDS as u16).rev() {
        let by_turns = |one: u16, other: u16| -> Vec<(u16, u16)> {
            let child = |value| (value, [one, other][usize::from(value % 2)]);
            (0..256).map(child).collect()
        };
        let nodes = [by_turns(even, odd), by_turns(odd, even)];
        [even, odd] = nodes.map(|edges| add_node(&mut numbers, level, &edges));
    }
    numbers[1] = even;
    numbers
}
