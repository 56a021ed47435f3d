//! One small change after another.

use crate::evaluator::{Range, FIELDS, HEADER, RECORD};

/// Some numbers, with each of them at each of some others.
pub fn each_place<'a, T: Copy>(
    numbers: &'a [T],
    others: &'a [T],
) -> impl Iterator<Item = Vec<T>> + 'a {
    (0..numbers.len()).flat_map(move |place| each_at(numbers, place, others))
}

/// Some numbers, with the one at a place at each of some others.
fn each_at<'a, T: Copy>(
    numbers: &'a [T],
    place: usize,
    others: &'a [T],
) -> impl Iterator<Item = Vec<T>> + 'a {
    others.iter().map(move |&other| {
        let mut changed = numbers.to_vec();
        changed[place] = other;
        changed
    })
}

/// Every range from one of some ends to one of them.
pub fn ranges_of(ends: &[u8]) -> Vec<Range> {
    let highs = |&low: &u8| ends.iter().map(move |&high| (low, high));
    ends.iter().flat_map(highs).collect()
}

/// A table or diagram cut, or lengthened by zeros, to each length up to some: stated as it was, and as it is.
pub fn each_length<T: Copy + Default>(
    numbers: &[T],
    most: usize,
    state: impl Fn(&mut [T]),
) -> Vec<Vec<T>> {
    let mut lengths = Vec::new();
    for length in 0..=most {
        let mut changed = numbers.to_vec();
        changed.resize(length, T::default());
        lengths.push(changed.clone());
        state(&mut changed);
        lengths.push(changed);
    }
    lengths
}

/// A table with each of some nodes at each of some spans, below 256.
pub fn each_span(table: &[u8], nodes: &[usize], spans: &[u8]) -> Vec<Vec<u8>> {
    let mut tables = vec![table.to_vec()];
    for node in nodes {
        let place = HEADER + RECORD * node + 2;
        let changed = tables.iter().flat_map(|table| each_at(table, place, spans));
        tables = changed.collect();
    }
    tables
}

/// A diagram whose places are all used with one entry more, sound or not, which is the root or is not, and of which all
/// places are used, all but one, or none.
pub fn each_entry_more(diagram: &[u16]) -> Vec<Vec<u16>> {
    let end = diagram.len() as u16;
    let mut diagrams = Vec::new();
    for entry in entries(end) {
        let longer = [diagram, &entry].concat();
        let all = longer.len() as u16;
        for used in [all, all - 1, end] {
            for root in [diagram[1], end] {
                let mut changed = longer.clone();
                changed[..2].copy_from_slice(&[used, root]);
                diagrams.push(changed);
            }
        }
    }
    diagrams
}

/// Terminals with few cards, and nodes with up to two edges to each place, for a diagram that ends there.
fn entries(end: u16) -> Vec<Vec<u16>> {
    let mut entries = Vec::new();
    for decision in 0..=4 {
        for cards in [&[][..], &[7], &[0], &[7, 65_535], &[7, 0], &[0, 7]] {
            entries.push([&[0, decision, cards.len() as u16], cards].concat());
        }
    }
    let levels = 1..=FIELDS as u16 + 2;
    for level in levels.chain([257, 258, 259, 65_535]) {
        entries.push(vec![level, 0]);
        for child in 0..end + 2 {
            for last in 0..=3 {
                entries.push(vec![level, 1, last, child]);
                let two = |first| vec![level, 2, first, child, last, child];
                entries.extend((0..=3).map(two));
            }
        }
    }
    entries
}
