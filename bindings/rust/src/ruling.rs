//! What is asked and what is decided.

use crate::Subjects;

/// What [`look_up`](crate::look_up) is asked: a value for each field. Each has 16 bits, so that one over 255 is refused
/// and not wrapped. [`Request::new`] makes one; a field that is added later is 0 in it until it is set.
///
/// ```
/// let mut request = kolfsein::Request::new(2, 0, 0); // the smuggler trades at the harbour
/// assert_eq!((request.subject, request.resource, request.action), (2, 0, 0));
/// request.resource = 1; // at the market
/// assert_eq!(request, kolfsein::Request::new(2, 1, 0));
/// ```
#[derive(Clone, Copy, Debug, PartialEq, Eq, Hash)]
#[non_exhaustive]
pub struct Request {
    /// Who, field 0.
    pub subject: u16,
    /// Where, field 1.
    pub resource: u16,
    /// Which deed, field 2.
    pub action: u16,
}

impl Request {
    /// One subject, one resource and one action.
    pub const fn new(subject: u16, resource: u16, action: u16) -> Request {
        Request {
            subject,
            resource,
            action,
        }
    }
}

/// What [`rule`](crate::rule) and [`rule_standard`](crate::rule_standard) are asked: the subjects that ask together, and
/// a value for each other field. Each value has 16 bits, so that one over 255 is refused and not wrapped.
/// [`JointRequest::new`] makes one; a field that is added later is 0 in it until it is set.
///
/// ```
/// use kolfsein::{JointRequest, Subjects};
///
/// let subjects = Subjects::of([1, 2]).unwrap();
/// let mut request = JointRequest::new(subjects, 0, 0); // both trade at the harbour
/// assert_eq!((request.subjects.len(), request.resource, request.action), (2, 0, 0));
/// request.action = 1; // they attack
/// assert_eq!(request, JointRequest::new(subjects, 0, 1));
/// ```
#[derive(Clone, Copy, Debug, PartialEq, Eq, Hash)]
#[non_exhaustive]
pub struct JointRequest {
    /// Who, one or several: field 0.
    pub subjects: Subjects,
    /// Where, field 1.
    pub resource: u16,
    /// Which deed, field 2.
    pub action: u16,
}

impl JointRequest {
    /// Subjects that ask together, one resource and one action.
    pub const fn new(subjects: Subjects, resource: u16, action: u16) -> JointRequest {
        JointRequest {
            subjects,
            resource,
            action,
        }
    }
}

/// One of the four decisions of XACML. `as u8` gives the number that stands for it in a diagram.
///
/// ```
/// assert_eq!(kolfsein::Decision::Deny as u8, 2);
/// ```
#[derive(Clone, Copy, Debug, PartialEq, Eq, Hash)]
pub enum Decision {
    /// The groups give nothing.
    NotApplicable = 0,
    /// It may be done.
    Permit = 1,
    /// It may not be done.
    Deny = 2,
    /// It is left unclear, by rules that match or by groups in which none does. Never given by a table whose root is of
    /// kind 3, deny overrides, nor by a diagram built from one.
    Indeterminate = 3,
}

/// What [`look_up`](crate::look_up) hands back where nothing is refused.
///
/// ```
/// use kolfsein::{Decision, Request, Ruling};
///
/// // One permit rule, with card 10, for every subject and resource up to 2 and 1, and for action 0.
/// let table = [0, 17, 1, 2, 1, 1, 0, 1, 4, 0, 1, 0, 10, 0, 2, 0, 1, 0, 0];
/// let mut diagram = [0; 26];
/// kolfsein::build(&table, &mut diagram)?;
/// let mut cards = [0; kolfsein::MOST_CARDS];
/// let request = Request::new(2, 0, 0);
/// let ruling = kolfsein::look_up(&diagram, request, &mut cards)?;
/// assert_eq!(ruling, Ruling { decision: Decision::Permit, count: 1 });
/// assert_eq!(cards[..ruling.count], [10]);
/// # Ok::<(), kolfsein::Refusal>(())
/// ```
#[derive(Clone, Copy, Debug, PartialEq, Eq, Hash)]
pub struct Ruling {
    /// What the diagram decides.
    pub decision: Decision,
    /// How many cards stand in the list.
    pub count: usize,
}

/// What [`rule`](crate::rule) and [`rule_standard`](crate::rule_standard) hand back where nothing is refused.
///
/// ```
/// use kolfsein::{Decision, JointRequest, JointRuling, Subjects};
///
/// // One permit rule, with card 10, for every subject and resource up to 2 and 1, and for action 0.
/// let table = [0, 17, 1, 2, 1, 1, 0, 1, 4, 0, 1, 0, 10, 0, 2, 0, 1, 0, 0];
/// let mut cards = [0; kolfsein::MOST_CARDS];
/// let subjects = Subjects::of([0, 2]).unwrap();
/// let request = JointRequest::new(subjects, 0, 0);
/// let ruling = kolfsein::rule(&table, request, &mut cards)?;
/// assert_eq!(ruling, JointRuling { decision: Decision::Permit, count: 1, subjects: 2 });
/// assert_eq!(cards[..ruling.count], [10]);
/// # Ok::<(), kolfsein::Refusal>(())
/// ```
#[derive(Clone, Copy, Debug, PartialEq, Eq, Hash)]
pub struct JointRuling {
    /// What the groups decide.
    pub decision: Decision,
    /// How many cards stand in the list.
    pub count: usize,
    /// How many subjects ask together.
    pub subjects: usize,
}
