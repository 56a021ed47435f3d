//! What is refused, and why.

use core::error::Error;
use core::fmt;

/// What a call hands back in place of its result. The list, the diagram or the table lent to be written is then zeros
/// throughout, for every reason but [`Unknown`](Reason::Unknown).
///
/// ```
/// use kolfsein::{Reason, Refusal};
///
/// let refusal = kolfsein::read(&[]).unwrap_err();
/// assert_eq!(refusal, Refusal { reason: Reason::Length, place: 0 });
///
/// let at_a_node = Refusal { reason: Reason::Level, place: 8 };
/// assert_eq!(at_a_node.to_string(), "refusal 6 at node 8: level 9 or deeper");
/// ```
#[derive(Clone, Copy, Debug, PartialEq, Eq, Hash)]
pub struct Refusal {
    /// The first reason that applies, in the order of the call.
    pub reason: Reason,
    /// The node at fault for the reasons `Kind` to `Card`, `MixedGroup` and `RuleInOnlyOne`, the field for `Value`, for
    /// `Unknown` what is said there, else 0.
    pub place: usize,
}

/// Makes [`Reason`] of its reasons, each with its number and its text.
macro_rules! reasons {
    ($($(#[$meaning:meta])+ $reason:ident = $number:literal, $text:literal;)+) => {
        /// Why something is refused. It is written as a short text, the one that C's `kolfsein_text` gives.
        ///
        /// ```
        /// use kolfsein::Reason;
        ///
        /// assert_eq!(Reason::ListTooShort.number(), 10);
        /// assert_eq!(Reason::ListTooShort.to_string(), "the list is shorter than the cards");
        /// ```
        #[derive(Clone, Copy, Debug, PartialEq, Eq, Hash)]
        #[non_exhaustive]
        pub enum Reason {
            $($(#[$meaning])+ $reason,)+
            /// An answer that this crate does not know, as a later library may give: a refusal with this number, at
            /// the library's own place; or, with number 0, a ruling whose decision is none of the four, with the
            /// decision's number as the place. What was lent then holds whatever the library wrote.
            Unknown(u8),
        }

        impl Reason {
            /// The reason of a number.
            pub(crate) const fn of(number: u8) -> Reason {
                match number {
                    $($number => Reason::$reason,)+
                    _ => Reason::Unknown(number),
                }
            }

            /// The refusal's number.
            pub const fn number(self) -> u8 {
                match self {
                    $(Reason::$reason => $number,)+
                    Reason::Unknown(number) => number,
                }
            }

            const fn text(self) -> &'static str {
                match self {
                    $(Reason::$reason => $text,)+
                    Reason::Unknown(_) => "unknown refusal",
                }
            }
        }
    };
}

reasons! {
    /// The table has under 8 bytes, or not as many as its first two say.
    Length = 1, "under 8 bytes, or not as many as the first two say";
    /// The table's version is not 1.
    Version = 2, "the version is not 1";
    /// The table has no nodes or over 128, or its length is not what so many take.
    NodeCount = 3, "no nodes or over 128, or not as many bytes as they take";
    /// A node's kind is over 5.
    Kind = 4, "a kind over 5";
    /// A span is 0, of a rule not 1, of the root not the number of nodes, or goes past its parent's end.
    Span = 5, "a span of 0, of a rule not 1, of the root not the number of nodes, or past its parent's end";
    /// A node is on level 9 or deeper.
    Level = 6, "level 9 or deeper";
    /// A low or a high is over the field's maximum.
    Range = 7, "a low or a high over the field's maximum";
    /// A rule has card 0, or a group has another.
    Card = 8, "a rule with card 0, or a group with another card";
    /// A value of the request is over its field's maximum; the first such field: 0 subject (of
    /// [`look_up`](crate::look_up) only), 1 resource, 2 action.
    Value = 9, "a value over its field's maximum";
    /// The list is shorter than the cards.
    ListTooShort = 10, "the list is shorter than the cards";
    /// The diagram to be built needs more places than were lent, or more than [`MOST_PLACES`](crate::MOST_PLACES), or
    /// the table of a base and an expansion more bytes than were lent.
    Room = 11, "the diagram needs over 32,768 places or more than lent, or the table more bytes than lent";
    /// The diagram is not sound.
    Diagram = 12, "the diagram is not sound";
    /// The set of subjects is empty, or has one over the table's maximum.
    Subjects = 13, "the set of subjects is empty, or has one over the maximum";
    /// By the convention profile: a group holds rules and groups; the lowest such group.
    MixedGroup = 14, "a group holds rules and groups";
    /// By the convention profile: an only-one-applicable group holds a rule; the lowest such group.
    RuleInOnlyOne = 15, "an only-one-applicable group holds a rule";
    /// By the convention profile: the root is a rule.
    RuleAsRoot = 16, "the root is a rule";
    /// The root of the base is a rule, so that nothing can be attached to it.
    BaseIsRule = 17, "the root of the base is a rule";
    /// The base and the expansion have different versions or maxima.
    HeadersDiffer = 18, "the versions or the maxima differ";
    /// The table of the base and the expansion would have over 128 nodes, or a ninth level, since the expansion has an
    /// eighth.
    TooLarge = 19, "the table of both would have over 128 nodes or a ninth level";
}

impl fmt::Display for Refusal {
    fn fmt(&self, f: &mut fmt::Formatter<'_>) -> fmt::Result {
        write!(f, "refusal {}", self.reason.number())?;
        match self.reason {
            Reason::Kind
            | Reason::Span
            | Reason::Level
            | Reason::Range
            | Reason::Card
            | Reason::MixedGroup
            | Reason::RuleInOnlyOne => write!(f, " at node {}", self.place)?,
            Reason::Value => write!(f, " at field {}", self.place)?,
            Reason::Unknown(_) => write!(f, " at {}", self.place)?,
            _ => {}
        }
        write!(f, ": {}", self.reason)
    }
}

impl fmt::Display for Reason {
    fn fmt(&self, f: &mut fmt::Formatter<'_>) -> fmt::Result {
        f.write_str(self.text())
    }
}

impl Error for Refusal {}

impl Error for Reason {}
