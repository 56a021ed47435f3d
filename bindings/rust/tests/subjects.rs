//! The type of a set of subjects.

use kolfsein::Subjects;

use crate::evaluator::MOST_SUBJECTS;
use crate::generator::Random;

/// Sees that a set has these members, which rise.
fn has(set: Subjects, members: &[u16]) {
    let bits = members.iter().map(|&member| 1 << member).sum();
    assert_eq!(set.bits(), bits);
    assert_eq!(set, Subjects::from_bits(bits));
    assert_eq!(set.len(), members.len());
    assert_eq!(set.is_empty(), members.is_empty());
    for subject in (0..=300).chain([65_535]) {
        assert_eq!(set.contains(subject), members.contains(&subject));
    }
    assert_eq!(set.iter().len(), members.len());
    assert_eq!(Vec::from_iter(set), members);
    assert_eq!(format!("{set:?}"), as_set(members));
}

/// As the standard library writes the members of a set.
fn as_set(members: &[u16]) -> String {
    let texts: Vec<String> = members.iter().map(u16::to_string).collect();
    format!("{{{}}}", texts.join(", "))
}

#[test]
fn sets_of_one() {
    for subject in 0..=u16::MAX {
        let set = Subjects::only(subject);
        assert_eq!(set.is_some(), subject < MOST_SUBJECTS);
        assert_eq!(set, Subjects::of([subject]));
        if let Some(set) = set {
            has(set, &[subject]);
        }
    }
}

#[test]
fn sets_of_several() {
    has(Subjects::default(), &[]);
    has(
        Subjects::from_bits(u64::MAX),
        &Vec::from_iter(0..MOST_SUBJECTS),
    );
    for seed in 0..10_000 {
        let mut random = Random::new(seed);
        let seldom = 1 + random.below(20);
        let members = (0..MOST_SUBJECTS).filter(|_| random.one_in(seldom));
        let members = Vec::from_iter(members);
        // in another order, and twice
        let asked = members.iter().rev().chain(&members).copied();
        has(
            Subjects::of(asked.clone()).expect("members of a set"),
            &members,
        );
        let over = MOST_SUBJECTS + random.below(1_000) as u16;
        assert_eq!(Subjects::of(asked.clone().chain([over])), None);
        assert_eq!(Subjects::of([over].into_iter().chain(asked)), None);
    }
}
