//! The library's C interface, as `include/kolfsein.h` declares it.

use crate::{Decision, JointRuling, Reason, Refusal, Ruling};

/// `kolfsein_answer`.
#[repr(C)]
pub(crate) struct Answer {
    number: u8,
    decision: u8,
    place: usize,
    count: usize,
    subjects: usize,
}

extern "C" {
    fn kolfsein_interface_1() -> u8;

    pub(crate) fn kolfsein_read(table: *const u8, table_len: usize) -> Answer;

    pub(crate) fn kolfsein_rule(
        table: *const u8,
        table_len: usize,
        subjects: u64,
        resource: u16,
        action: u16,
        cards: *mut u16,
        cards_len: usize,
    ) -> Answer;

    pub(crate) fn kolfsein_read_standard(table: *const u8, table_len: usize) -> Answer;

    pub(crate) fn kolfsein_rule_standard(
        table: *const u8,
        table_len: usize,
        subjects: u64,
        resource: u16,
        action: u16,
        cards: *mut u16,
        cards_len: usize,
    ) -> Answer;

    pub(crate) fn kolfsein_build(
        table: *const u8,
        table_len: usize,
        diagram: *mut u16,
        diagram_len: usize,
    ) -> Answer;

    pub(crate) fn kolfsein_look_up(
        diagram: *const u16,
        diagram_len: usize,
        subject: u16,
        resource: u16,
        action: u16,
        cards: *mut u16,
        cards_len: usize,
    ) -> Answer;

    pub(crate) fn kolfsein_attach(
        base: *const u8,
        base_len: usize,
        expansion: *const u8,
        expansion_len: usize,
        table: *mut u8,
        table_len: usize,
    ) -> Answer;
}

/// The interface's number is in this name, so that a library of another interface does not link. It moves with the
/// header's, here and in `build.rs`, whenever a struct or a signature changes.
#[used]
static INTERFACE: unsafe extern "C" fn() -> u8 = kolfsein_interface_1;

impl Answer {
    /// The count of a reading, of a build or of attaching.
    pub(crate) fn counted(self) -> Result<usize, Refusal> {
        Ok(self.accepted()?.count)
    }

    /// A ruling by a table's groups.
    pub(crate) fn ruled(self) -> Result<JointRuling, Refusal> {
        let answer = self.accepted()?;
        Ok(JointRuling {
            decision: answer.decision()?,
            count: answer.count,
            subjects: answer.subjects,
        })
    }

    /// A ruling by a diagram.
    pub(crate) fn looked_up(self) -> Result<Ruling, Refusal> {
        let answer = self.accepted()?;
        Ok(Ruling {
            decision: answer.decision()?,
            count: answer.count,
        })
    }

    /// The decision of an answer where nothing is refused.
    fn decision(&self) -> Result<Decision, Refusal> {
        match self.decision {
            0 => Ok(Decision::NotApplicable),
            1 => Ok(Decision::Permit),
            2 => Ok(Decision::Deny),
            3 => Ok(Decision::Indeterminate),
            other => Err(Refusal {
                reason: Reason::Unknown(self.number),
                place: other.into(),
            }),
        }
    }

    /// The answer where nothing is refused.
    fn accepted(self) -> Result<Answer, Refusal> {
        match self.number {
            0 => Ok(self),
            number => Err(Refusal {
                reason: Reason::of(number),
                place: self.place,
            }),
        }
    }
}

#[cfg(test)]
mod tests {
    use super::*;

    fn answer(number: u8, decision: u8) -> Answer {
        Answer {
            number,
            decision,
            place: 7,
            count: 5,
            subjects: 2,
        }
    }

    fn refused<T>(reason: Reason, place: usize) -> Result<T, Refusal> {
        Err(Refusal { reason, place })
    }

    #[test]
    fn decisions() {
        let decisions = [
            Decision::NotApplicable,
            Decision::Permit,
            Decision::Deny,
            Decision::Indeterminate,
        ];
        for number in 0..=u8::MAX {
            let decision = match decisions.get(usize::from(number)) {
                Some(decision) => Ok(*decision),
                None => refused(Reason::Unknown(0), number.into()),
            };
            let ruling = decision.map(|decision| Ruling { decision, count: 5 });
            let joint = decision.map(|decision| JointRuling {
                decision,
                count: 5,
                subjects: 2,
            });
            assert_eq!(answer(0, number).looked_up(), ruling);
            assert_eq!(answer(0, number).ruled(), joint);
            assert_eq!(answer(0, number).counted(), Ok(5));
        }
    }

    #[test]
    fn refusals() {
        for number in 1..=u8::MAX {
            let reason = Reason::of(number);
            assert_eq!(reason.number(), number);
            assert_eq!(reason == Reason::Unknown(number), number > 19);
            assert_eq!(answer(number, 0).counted(), refused(reason, 7));
            assert_eq!(answer(number, 0).ruled(), refused(reason, 7));
            assert_eq!(answer(number, 4).looked_up(), refused(reason, 7));
        }
    }
}
