//! Damage done to tables and diagrams; it may leave one as it was, or accepted, or sound.

use super::{outline::state_length, Random};
use crate::evaluator::{FIELDS, HEADER, RECORD};

pub fn damage_table(random: &mut Random, bytes: &mut Vec<u8>) {
    let length = bytes.len();
    if length < HEADER + RECORD {
        bytes.push(random.byte());
        return;
    }
    let at = HEADER + RECORD * random.below((length - HEADER) / RECORD);
    let field = random.below(FIELDS);
    let (most, low, high) = (3 + field, at + 5 + 2 * field, at + 6 + 2 * field);
    match random.below(16) {
        0 => bytes.truncate(random.below(length)),
        1 => bytes.resize(length + 1 + random.below(12), 0),
        2 => bytes[random.below(HEADER)] = random.byte(),
        3 => bytes[2] = random.of(&[0, 2, 255]),
        4 => bytes[HEADER - 1] = bytes[HEADER - 1].wrapping_add(random.of(&[1, 255])),
        5 => bytes.extend_from_within(length - RECORD..),
        6 => bytes.truncate(length - RECORD),
        7 => bytes[at] = random.of(&[0, 1, 2, 3, 4, 5, 6, 7, 255]),
        8 => bytes[at + 2] = bytes[at + 2].wrapping_add(random.of(&[1, 2, 255])),
        9 => bytes[at + 1 + random.below(2)] = random.of(&[0, 1, 2, 128]),
        10 => bytes[at + 3 + random.below(2)] = random.of(&[0, 1, 255]),
        11 => bytes[random.of(&[low, high])] = bytes[most].wrapping_add(random.of(&[0, 1])),
        12 => bytes[low] = bytes[high].wrapping_add(random.of(&[0, 1, 2])),
        13 => bytes.swap(low, high),
        14 => bytes[most] = bytes[most].wrapping_sub(1),
        _ => bytes[random.below(length)] = random.byte(),
    }
    if random.one_in(2) {
        state_length(bytes);
    }
    if random.one_in(4) {
        state_nodes(bytes);
    }
}

/// States the number of nodes for which there is room, where there is a header.
fn state_nodes(bytes: &mut [u8]) {
    if let Some(records) = bytes.len().checked_sub(HEADER) {
        let nodes = (records / RECORD) as u16;
        bytes[HEADER - 2..HEADER].copy_from_slice(&nodes.to_be_bytes());
    }
}

pub fn damage_diagram(random: &mut Random, numbers: &mut Vec<u16>) {
    let length = numbers.len();
    if length < 2 + FIELDS {
        numbers.push(random.of(&[0, 1, 5]));
        return;
    }
    let used = usize::from(numbers[0]).clamp(2 + FIELDS, length);
    let part = random.of(&[2 + FIELDS, used, used, used]);
    let place = random.below(part);
    match random.below(12) {
        0 => numbers.truncate(random.below(length)),
        1 => numbers.truncate(used - 1),
        2 => {
            numbers.truncate(used);
            numbers.extend([0, random.below(5) as u16, random.below(2) as u16]);
            numbers[0] = numbers.len() as u16;
        }
        3 => numbers[0] = length as u16,
        4 | 5 => numbers[place] = numbers[place].wrapping_add(random.of(&[1, 65_535])),
        6 | 7 => numbers[place] = numbers[random.below(used)],
        8 => numbers[place] = random.of(&[0, 1, 2, 3, 4]),
        9 => numbers[place] = random.of(&[127, 128, 255, 256, 32_768, 65_535]),
        10 => numbers.swap(place, random.below(used)),
        _ => numbers[place] = random.below(used + 2) as u16,
    }
}
