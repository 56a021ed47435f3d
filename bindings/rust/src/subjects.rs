//! Sets of subjects.

use core::fmt;
use core::iter::FusedIterator;

/// A set of subjects that ask together, each of them 0 to 63. It is one 64-bit word: bit `k` stands for subject `k`.
///
/// Subjects over 63, of which a table may have some, are in no set: ask for them one at a time, of the table's diagram
/// by [`look_up`](crate::look_up).
///
/// ```
/// use kolfsein::Subjects;
///
/// let crew = Subjects::of([0, 2, 5]).unwrap();
/// assert_eq!(crew.len(), 3);
/// assert!(crew.contains(2) && !crew.contains(3));
/// assert!(crew.into_iter().eq([0, 2, 5]));
/// assert_eq!(crew.bits(), 0b100101);
/// assert_eq!(format!("{crew:?}"), "{0, 2, 5}");
/// ```
#[derive(Clone, Copy, Default, PartialEq, Eq, Hash)]
pub struct Subjects(u64);

impl Subjects {
    /// The set of one subject; `None` where it is over 63.
    ///
    /// ```
    /// use kolfsein::Subjects;
    ///
    /// assert_eq!(Subjects::only(63).unwrap().bits(), 1 << 63);
    /// assert_eq!(Subjects::only(64), None);
    /// ```
    pub const fn only(subject: u16) -> Option<Subjects> {
        match 1u64.checked_shl(subject as u32) {
            Some(bit) => Some(Subjects(bit)),
            None => None,
        }
    }

    /// The set of some subjects, in any order and any number of times; `None` where one of them is over 63.
    ///
    /// ```
    /// use kolfsein::Subjects;
    ///
    /// assert_eq!(Subjects::of([2, 0, 2]), Subjects::of([0, 2]));
    /// assert_eq!(Subjects::of(0..64).unwrap().len(), 64);
    /// assert_eq!(Subjects::of([0, 64]), None);
    /// ```
    pub fn of(subjects: impl IntoIterator<Item = u16>) -> Option<Subjects> {
        subjects.into_iter().try_fold(Subjects(0), |set, subject| {
            Some(Subjects(set.0 | Subjects::only(subject)?.0))
        })
    }

    /// The set of the subjects whose bits are 1.
    pub const fn from_bits(bits: u64) -> Subjects {
        Subjects(bits)
    }

    /// The word, in which a subject's bit is 1 where it is in the set.
    pub const fn bits(self) -> u64 {
        self.0
    }

    /// How many subjects are in the set.
    pub const fn len(self) -> usize {
        self.0.count_ones() as usize
    }

    /// Whether no subject is in the set; [`rule`](crate::rule) refuses such a set.
    pub const fn is_empty(self) -> bool {
        self.0 == 0
    }

    /// Whether a subject is in the set; one over 63 is not.
    pub fn contains(self, subject: u16) -> bool {
        Subjects::only(subject).is_some_and(|one| self.0 & one.0 != 0)
    }

    /// The subjects of the set, rising.
    pub const fn iter(self) -> Members {
        Members(self.0)
    }
}

impl fmt::Debug for Subjects {
    fn fmt(&self, f: &mut fmt::Formatter<'_>) -> fmt::Result {
        f.debug_set().entries(*self).finish()
    }
}

impl IntoIterator for Subjects {
    type Item = u16;
    type IntoIter = Members;

    fn into_iter(self) -> Members {
        self.iter()
    }
}

/// The subjects of a set, rising; [`Subjects::iter`] gives it.
#[derive(Clone, Debug)]
pub struct Members(u64);

impl Iterator for Members {
    type Item = u16;

    fn next(&mut self) -> Option<u16> {
        let lowest = self.0.trailing_zeros() as u16;
        self.0 &= self.0.wrapping_sub(1);
        (lowest < 64).then_some(lowest)
    }

    fn size_hint(&self) -> (usize, Option<usize>) {
        let left = self.0.count_ones() as usize;
        (left, Some(left))
    }
}

impl ExactSizeIterator for Members {}

impl FusedIterator for Members {}
