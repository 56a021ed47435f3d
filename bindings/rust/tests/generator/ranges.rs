//! Ranges of one field, wrapped or not.

use super::Random;
use crate::evaluator::{lies_in, Range};

/// The value so many steps on from another, where 0 follows the maximum.
pub fn steps_on(value: u8, steps: usize, most: u8) -> u8 {
    ((usize::from(value) + steps) % (usize::from(most) + 1)) as u8
}

/// How many such steps a range goes from its low to its high.
pub fn steps_of((low, high): Range, most: u8) -> usize {
    let values = usize::from(most) + 1;
    (usize::from(high) + values - usize::from(low)) % values
}

/// A range that takes in every value: from 0 to the maximum, or with a low one more than its high.
pub fn every_value(random: &mut Random, most: u8) -> Range {
    let low = random.below(usize::from(most) + 1) as u8;
    (low, steps_on(low, most.into(), most))
}

/// The range of the values that lie in both of two ranges; none where these are not the values of one range.
pub fn meet(one: Range, other: Range, most: u8) -> Option<Range> {
    let both = |value| lies_in(value, one) && lies_in(value, other);
    first_of(one, other, |range| {
        values(most).all(|value| lies_in(value, range) == both(value))
    })
}

/// A range that has the values of two ranges, and maybe others.
pub fn cover(one: Range, other: Range, most: u8) -> Range {
    let either = |value: &u16| lies_in(*value, one) || lies_in(*value, other);
    let covers = |range| {
        values(most)
            .filter(either)
            .all(|value| lies_in(value, range))
    };
    first_of(one, other, covers).unwrap_or((0, most))
}

/// Of the ranges from a low to a high of two ranges, the first of which a test holds.
fn first_of(one: Range, other: Range, test: impl Fn(Range) -> bool) -> Option<Range> {
    let ranges = [one, other, (one.0, other.1), (other.0, one.1)];
    ranges.into_iter().find(|&range| test(range))
}

fn values(most: u8) -> impl Iterator<Item = u16> {
    0..=u16::from(most)
}
