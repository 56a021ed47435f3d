//! What is asked.

use super::{Maxima, Random};
use crate::evaluator::{every_request, Joint, Refused, Ruled, Values, FIELDS, MOST_SUBJECTS};

/// Every request of some values, the same for each field.
pub fn requests_of(values: &[u16]) -> impl Iterator<Item = Values> + '_ {
    let last = values.len() as u16 - 1;
    every_request([last; FIELDS]).map(|places| places.map(|place| values[usize::from(place)]))
}

/// Every set of some subjects.
pub fn sets_of(subjects: &[u16]) -> Vec<Vec<u16>> {
    let mut sets = vec![Vec::new()];
    for &subject in subjects {
        for place in 0..sets.len() {
            sets.push([&sets[place][..], &[subject]].concat());
        }
    }
    sets
}

/// Every request of some sets and some other values, the same for each other field.
pub fn joint_requests_of(sets: &[Vec<u16>], values: &[u16]) -> Vec<Joint> {
    let mut requests = Vec::new();
    for [_, others @ ..] in requests_of(values).filter(|asked| asked[0] == values[0]) {
        requests.extend(sets.iter().map(|set| Joint::new(set.clone(), others)));
    }
    requests
}

/// So many requests: most of them within the maxima, many where a range or an edge ends as some numbers of the table or
/// diagram say, some over one or more of the maxima.
pub fn some_requests(
    random: &mut Random,
    maxima: Maxima,
    numbers: &[u16],
    count: usize,
) -> Vec<Values> {
    let one = |_| one_request(random, maxima, numbers);
    (0..count).map(one).collect()
}

fn one_request(random: &mut Random, maxima: Maxima, numbers: &[u16]) -> Values {
    let over = random.one_in(6);
    maxima.map(|most| {
        let most = u16::from(most);
        let number = numbers.get(random.below(numbers.len() + 1));
        let end = number.map_or(0, |&end| end % (most + 1));
        match random.below(8) {
            0..=2 if over => random.of(&[most + 1, 256 + most, 65_535]),
            3 => most,
            4 => end,
            5 => most.min(end + 1),
            _ => random.below(usize::from(most) + 1) as u16,
        }
    })
}

/// So many requests of sets, with other values as in `some_requests`.
pub fn some_joint_requests(
    random: &mut Random,
    maxima: Maxima,
    numbers: &[u16],
    count: usize,
) -> Vec<Joint> {
    let one = |_| {
        let [subject, others @ ..] = one_request(random, maxima, numbers);
        Joint::new(some_set(random, maxima[0].into(), subject), others)
    };
    (0..count).map(one).collect()
}

/// The first and last subjects of a set's word and of its halves, and those beside them.
const ENDS: [u16; 8] = [0, 1, 30, 31, 32, 33, 62, 63];

/// A set of any size, mostly within the maximum, and often about one subject.
fn some_set(random: &mut Random, most: u16, subject: u16) -> Vec<u16> {
    let last = most.min(MOST_SUBJECTS - 1);
    let one = subject.min(last);
    let mut members: Vec<u16> = match random.below(8) {
        0 | 1 => vec![one],
        2 => vec![one, random.below(usize::from(last) + 1) as u16],
        3 => (0..=one).collect(),
        4 => (one..=last).collect(),
        5 => ENDS.into_iter().filter(|_| random.one_in(2)).collect(),
        _ => some_of(random, last),
    };
    members.retain(|&member| member <= last);
    let over = most + 1..MOST_SUBJECTS;
    if !over.is_empty() && random.one_in(8) {
        let any = over.start + random.below(over.len()) as u16;
        members.push(random.of(&[over.start, any, MOST_SUBJECTS - 1]));
    }
    members
}

/// Some subjects up to the last; each number of them is as likely.
fn some_of(random: &mut Random, last: u16) -> Vec<u16> {
    let mut left = random.below(usize::from(last) + 2);
    let mut members = Vec::new();
    for subject in 0..=last {
        if random.below(usize::from(last - subject) + 1) < left {
            members.push(subject);
            left -= 1;
        }
    }
    members
}

/// Lengths of a list for a ruling: what it needs, about that, and as much as any needs.
pub fn lists(ruled: &Result<Ruled, Refused>) -> Vec<usize> {
    let needed = ruled.as_ref().map_or(2, |ruled| ruled.cards.len());
    let mut lists = vec![0, 1, needed.saturating_sub(1), needed, needed + 1, 127, 128];
    lists.sort_unstable();
    lists.dedup();
    lists
}
