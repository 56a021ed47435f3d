//! Kolfsein, a verified policy engine for board games: safe calls of its static library.
//!
//! A table of rules in nested groups is read, ruled by for one subject or for several that ask together, or built into
//! a decision diagram, which rules as it does on one subject at a time. The convention profile reads and rules likewise,
//! and accepts the tables that are XACML 2.0 as printed. An expansion is a table that is attached to another, the base;
//! both are then one table.
//! Each call takes any bytes, any numbers and any values and ends. It allocates nothing and keeps nothing between
//! calls, and calls share no state, so any number of threads may call at once; one takes up to some 67 KB of stack. The
//! crate needs no `std`. The repository's docs/FORMAT.md describes the formats.
//!
//! Which call when:
//! - [`rule`] where the table is at hand, for one subject or for several that ask together. It reads the table itself,
//!   and needs no [`read`] before it.
//! - [`read`] to see whether a table is accepted, and which node is at fault where it is not.
//! - [`rule_standard`] and [`read_standard`] in place of these two where a table is to be XACML 2.0 as printed: they
//!   refuse what this library allows beyond it, and on all other tables they answer as those two do.
//! - [`build`] to see whether two tables rule alike on every subject by itself, or to hand on these rulings in place of
//!   the table.
//! - [`look_up`] for one subject, where a diagram is at hand and no table, or where the subject is over 63 and so in no
//!   set. Each call checks the whole diagram, so it takes longer than [`rule`] unless the diagram is small for its
//!   table; docs/PERFORMANCE.md has the figures.
//! - [`attach`] to fit an expansion to a base. It reads both itself; the table that it writes is one for every call
//!   above, and a base for the next expansion.
//!
//! ```
//! use kolfsein::{Decision, JointRequest, Reason, Request, Subjects, MOST_CARDS, MOST_PLACES};
//!
//! let table = [
//!     0, 61, 1, 2, 1, 1, 0, 5, // 61 bytes follow, version 1, the maxima 2, 1 and 1, 5 nodes
//!     3, 0, 5, 0, 0, 0, 2, 0, 1, 0, 1, // deny overrides, over all five
//!     4, 0, 1, 0, 10, 0, 2, 0, 1, 0, 0, // card 10: anyone may trade anywhere
//!     5, 0, 1, 0, 20, 2, 2, 0, 0, 0, 0, // card 20: the smuggler may not trade at the harbour
//!     0, 0, 2, 0, 0, 1, 1, 0, 1, 1, 1, // first applicable: of the captain's attacks,
//!     4, 0, 1, 0, 30, 0, 2, 1, 1, 0, 1, // card 30: at the market they may be done
//! ];
//! assert_eq!(kolfsein::read(&table)?, 5);
//!
//! // The captain and the smuggler trade at the harbour together.
//! let subjects = Subjects::of([1, 2]).unwrap();
//! let request = JointRequest::new(subjects, 0, 0);
//! let mut cards = [0; MOST_CARDS];
//! let ruling = kolfsein::rule(&table, request, &mut cards)?;
//! assert_eq!((ruling.decision, ruling.subjects), (Decision::Deny, 2));
//! assert_eq!(cards[..ruling.count], [10, 20]);
//!
//! // There is no subject 3.
//! let subjects = Subjects::of([1, 3]).unwrap();
//! let request = JointRequest::new(subjects, 0, 0);
//! let refusal = kolfsein::rule(&table, request, &mut cards).unwrap_err();
//! assert_eq!((refusal.reason, refusal.place), (Reason::Subjects, 0));
//! assert_eq!(cards, [0; MOST_CARDS]);
//!
//! // The captain alone, by the diagram.
//! let mut diagram = vec![0; MOST_PLACES];
//! let used = kolfsein::build(&table, &mut diagram)?;
//! assert_eq!(used, 63);
//! let request = Request::new(1, 0, 0);
//! let ruling = kolfsein::look_up(&diagram[..used], request, &mut cards)?;
//! assert_eq!(ruling.decision, Decision::Permit);
//! assert_eq!(cards[..ruling.count], [10]);
//! # Ok::<(), kolfsein::Refusal>(())
//! ```

#![no_std]
#![deny(unsafe_op_in_unsafe_fn)]
#![deny(missing_docs)]

mod c;
mod refusal;
mod ruling;
mod subjects;

pub use refusal::{Reason, Refusal};
pub use ruling::{Decision, JointRequest, JointRuling, Request, Ruling};
pub use subjects::{Members, Subjects};

/// No ruling has more cards than this: a list of so many places is never too short.
///
/// ```
/// let mut cards = [0u16; kolfsein::MOST_CARDS];
/// assert_eq!(cards.len(), 127);
/// # cards[0] = 1;
/// ```
pub const MOST_CARDS: usize = 127;

/// No sound diagram uses more places than this: so many to build in are too few only where all would be.
///
/// ```
/// let diagram = vec![0u16; kolfsein::MOST_PLACES];
/// assert_eq!(diagram.len(), 32_768);
/// ```
pub const MOST_PLACES: usize = 32_768;

/// No table has more bytes than this: so many lent to attach in are never too few.
///
/// ```
/// let table = [0u8; kolfsein::MOST_BYTES];
/// assert_eq!(table.len(), 1_416);
/// ```
pub const MOST_BYTES: usize = 1_416;

/// A C call with the arguments of a ruling by a table. It stands in a block that says why it may be made.
macro_rules! ruling_by_table {
    ($call:path, $table:ident, $request:ident, $cards:ident) => {
        $call(
            $table.as_ptr(),
            $table.len(),
            $request.subjects.bits(),
            $request.resource,
            $request.action,
            $cards.as_mut_ptr(),
            $cards.len(),
        )
    };
}

/// Reads a table: its number of nodes.
///
/// ```
/// use kolfsein::Reason;
///
/// // One permit rule, with card 10, for every subject and resource up to 2 and 1, and for action 0.
/// let mut table = [0, 17, 1, 2, 1, 1, 0, 1, 4, 0, 1, 0, 10, 0, 2, 0, 1, 0, 0];
/// assert_eq!(kolfsein::read(&table), Ok(1));
///
/// table[2] = 2;
/// assert_eq!(kolfsein::read(&table).unwrap_err().reason, Reason::Version);
/// ```
///
/// # Errors
///
/// The first refusal in this order: [`Length`](Reason::Length), [`Version`](Reason::Version),
/// [`NodeCount`](Reason::NodeCount); then [`Kind`](Reason::Kind) to [`Card`](Reason::Card), nodes upward, lowest
/// number first within a node.
pub fn read(table: &[u8]) -> Result<usize, Refusal> {
    // SAFETY: the slice's pointer is valid to read for its length.
    let answer = unsafe { c::kolfsein_read(table.as_ptr(), table.len()) };
    answer.counted()
}

/// Rules by a table's groups on subjects that ask together: the decision, how many rules match, and how many subjects
/// ask. The list then holds the cards of all matching rules in table order, once for each rule, and 0 in every place
/// after them.
///
/// A node applies to the set exactly where at least one member by itself meets its target and every target above it; a
/// rule that applies matches, and groups combine what their children give. So a set of one subject is ruled as that
/// subject, while the ruling on several does not follow from those on each. An only-one-applicable group goes by how
/// many of its children apply, groups in which no rule matches among them, so that a ruling without a card need not be
/// [`NotApplicable`](Decision::NotApplicable).
///
/// ```
/// use kolfsein::{Decision, JointRequest, Reason, Subjects};
///
/// // One permit rule, with card 10, for subjects 1 and 2 of 0 to 2, for every resource up to 1, and for action 0.
/// let table = [0, 17, 1, 2, 1, 1, 0, 1, 4, 0, 1, 0, 10, 1, 2, 0, 1, 0, 0];
/// let subjects = Subjects::of([0, 1]).unwrap();
/// let request = JointRequest::new(subjects, 1, 0);
/// let mut cards = [7; 3];
/// let ruling = kolfsein::rule(&table, request, &mut cards)?;
/// assert_eq!((ruling.decision, ruling.count, ruling.subjects), (Decision::Permit, 1, 2));
/// assert_eq!(cards, [10, 0, 0]);
///
/// let alone = JointRequest::new(Subjects::only(0).unwrap(), 1, 0);
/// let ruling = kolfsein::rule(&table, alone, &mut cards)?;
/// assert_eq!((ruling.decision, ruling.count, ruling.subjects), (Decision::NotApplicable, 0, 1));
///
/// let refusal = kolfsein::rule(&table, request, &mut []).unwrap_err();
/// assert_eq!(refusal.reason, Reason::ListTooShort);
/// # Ok::<(), kolfsein::Refusal>(())
/// ```
///
/// # Errors
///
/// The first refusal in this order: those of [`read`], then [`Subjects`](Reason::Subjects), then
/// [`Value`](Reason::Value), of the resource or the action, then [`ListTooShort`](Reason::ListTooShort). The list is
/// then all 0.
pub fn rule(
    table: &[u8],
    request: JointRequest,
    cards: &mut [u16],
) -> Result<JointRuling, Refusal> {
    // SAFETY: each slice's pointer is valid for its length, and a list that is lent to be written overlaps nothing.
    let answer = unsafe { ruling_by_table!(c::kolfsein_rule, table, request, cards) };
    answer.ruled()
}

/// Reads a table by the convention profile, which accepts those that are XACML 2.0 as printed: its number of nodes, as
/// [`read`] gives it. The root of such a table is a group, every group holds rules alone, groups alone or nothing, and an
/// only-one-applicable group holds no rule. What a group holds are its children, and not the nodes further down.
///
/// ```
/// use kolfsein::{Reason, Refusal};
///
/// let mut table = [
///     0, 50, 1, 1, 1, 1, 0, 4, // 50 bytes follow, version 1, the maxima 1, 1 and 1, 4 nodes
///     1, 0, 4, 0, 0, 0, 1, 0, 1, 0, 1, // only one applicable, over all four
///     2, 0, 2, 0, 0, 0, 0, 0, 1, 0, 1, // permit overrides: of subject 0,
///     4, 0, 1, 0, 10, 0, 1, 0, 1, 0, 0, // card 10: action 0 may be done
///     3, 0, 1, 0, 0, 1, 1, 0, 1, 0, 1, // deny overrides: of subject 1, nothing
/// ];
/// assert_eq!(kolfsein::read_standard(&table), Ok(4));
///
/// // A rule in place of the last group, beside the group at node 1: the root holds rules and groups.
/// table[41..46].copy_from_slice(&[5, 0, 1, 0, 20]);
/// assert_eq!(kolfsein::read(&table), Ok(4));
/// let mixed = Refusal { reason: Reason::MixedGroup, place: 0 };
/// assert_eq!(kolfsein::read_standard(&table), Err(mixed));
/// ```
///
/// # Errors
///
/// The first refusal in this order: those of [`read`], then [`MixedGroup`](Reason::MixedGroup), then
/// [`RuleInOnlyOne`](Reason::RuleInOnlyOne), then [`RuleAsRoot`](Reason::RuleAsRoot). Each is looked for in all nodes
/// before the next.
pub fn read_standard(table: &[u8]) -> Result<usize, Refusal> {
    // SAFETY: the slice's pointer is valid to read for its length.
    let answer = unsafe { c::kolfsein_read_standard(table.as_ptr(), table.len()) };
    answer.counted()
}

/// Rules by the convention profile on subjects that ask together: wherever [`read_standard`] accepts the table, the
/// ruling and the list are those of [`rule`]. There every group of rules combines by the rule-combining algorithm of its
/// kind in XACML 2.0, appendix C, and every group of groups by the policy-combining one.
///
/// ```
/// use kolfsein::{Decision, JointRequest, Reason, Subjects};
///
/// let mut table = [
///     0, 28, 1, 1, 1, 1, 0, 2, // 28 bytes follow, version 1, the maxima 1, 1 and 1, 2 nodes
///     2, 0, 2, 0, 0, 0, 1, 0, 1, 0, 1, // permit overrides, over both
///     4, 0, 1, 0, 10, 0, 1, 0, 1, 0, 0, // card 10: action 0 may be done
/// ];
/// let subjects = Subjects::of([0, 1]).unwrap();
/// let request = JointRequest::new(subjects, 1, 0);
/// let mut cards = [7; 3];
/// let ruling = kolfsein::rule_standard(&table, request, &mut cards)?;
/// assert_eq!((ruling.decision, ruling.count, ruling.subjects), (Decision::Permit, 1, 2));
/// assert_eq!(cards, [10, 0, 0]);
///
/// // There is no rule-combining form of only one applicable.
/// table[8] = 1;
/// assert!(kolfsein::rule(&table, request, &mut cards).is_ok());
/// let refusal = kolfsein::rule_standard(&table, request, &mut cards).unwrap_err();
/// assert_eq!((refusal.reason, refusal.place), (Reason::RuleInOnlyOne, 0));
/// assert_eq!(cards, [0; 3]);
/// # Ok::<(), kolfsein::Refusal>(())
/// ```
///
/// # Errors
///
/// The first refusal in this order: those of [`read_standard`], then [`Subjects`](Reason::Subjects), then
/// [`Value`](Reason::Value), of the resource or the action, then [`ListTooShort`](Reason::ListTooShort). The list is
/// then all 0.
pub fn rule_standard(
    table: &[u8],
    request: JointRequest,
    cards: &mut [u16],
) -> Result<JointRuling, Refusal> {
    // SAFETY: each slice's pointer is valid for its length, and a list that is lent to be written overlaps nothing.
    let answer = unsafe { ruling_by_table!(c::kolfsein_rule_standard, table, request, cards) };
    answer.ruled()
}

/// Builds the decision diagram of a table into the places lent: how many it uses. The places then hold the diagram,
/// and 0 after it. It rules as the table's groups do on every request of one subject within the table's maxima. Two
/// tables with the same maxima have equal diagrams, number for number, exactly where they rule alike on all these, cards
/// included; they may still rule otherwise on several subjects that ask together.
///
/// ```
/// use kolfsein::Reason;
///
/// // One permit rule, with card 10, for every subject and resource up to 2 and 1, and for action 0.
/// let table = [0, 17, 1, 2, 1, 1, 0, 1, 4, 0, 1, 0, 10, 0, 2, 0, 1, 0, 0];
/// let mut diagram = vec![0; kolfsein::MOST_PLACES];
/// let used = kolfsein::build(&table, &mut diagram)?;
/// assert_eq!(used, 26);
/// assert_eq!(diagram[..5], [26, 22, 2, 1, 1]); // places used, the root's place, the maxima
///
/// let refusal = kolfsein::build(&table, &mut diagram[..25]).unwrap_err();
/// assert_eq!(refusal.reason, Reason::Room);
/// # Ok::<(), kolfsein::Refusal>(())
/// ```
///
/// # Errors
///
/// The first refusal in this order: those of [`read`], then [`Room`](Reason::Room). The places are then all 0.
pub fn build(table: &[u8], diagram: &mut [u16]) -> Result<usize, Refusal> {
    // SAFETY: each slice's pointer is valid for its length, and a diagram that is lent to be written overlaps nothing.
    let answer = unsafe {
        c::kolfsein_build(
            table.as_ptr(),
            table.len(),
            diagram.as_mut_ptr(),
            diagram.len(),
        )
    };
    answer.counted()
}

/// Rules on a request of one subject by a diagram: the decision, and how many cards, both of the terminal that the
/// request reaches. The list then holds the terminal's cards, and 0 in every place after them.
///
/// A diagram may come from anyone: each call sees whether it is sound, in one pass over the places that it uses, so it
/// takes longer than [`rule`] unless the diagram is small for its table. What stands after those places makes no
/// difference.
///
/// ```
/// use kolfsein::{Decision, Reason, Request};
///
/// let mut diagram = [
///     20, 16, 2, 1, 1, // 20 places used, the root at 16, the maxima 2, 1 and 1
///     0, 3, 0, // at 5, a terminal: indeterminate, no cards
///     3, 1, 1, 5, // at 8, for every action up to 1 the terminal
///     2, 1, 1, 8, // at 12, for every resource
///     1, 1, 2, 12, // at 16, for every subject
/// ];
/// let request = Request::new(2, 1, 0);
/// let ruling = kolfsein::look_up(&diagram, request, &mut [])?;
/// assert_eq!((ruling.decision, ruling.count), (Decision::Indeterminate, 0));
///
/// diagram[1] = 17;
/// let refusal = kolfsein::look_up(&diagram, request, &mut []).unwrap_err();
/// assert_eq!(refusal.reason, Reason::Diagram);
/// # Ok::<(), kolfsein::Refusal>(())
/// ```
///
/// # Errors
///
/// The first refusal in this order: [`Diagram`](Reason::Diagram), [`Value`](Reason::Value),
/// [`ListTooShort`](Reason::ListTooShort). The list is then all 0.
pub fn look_up(diagram: &[u16], request: Request, cards: &mut [u16]) -> Result<Ruling, Refusal> {
    // SAFETY: each slice's pointer is valid for its length, and a list that is lent to be written overlaps nothing.
    let answer = unsafe {
        c::kolfsein_look_up(
            diagram.as_ptr(),
            diagram.len(),
            request.subject,
            request.resource,
            request.action,
            cards.as_mut_ptr(),
            cards.len(),
        )
    };
    answer.looked_up()
}

/// Attaches an expansion to a base, which makes one table of both: how many bytes it has. The bytes lent then hold it,
/// and 0 after it. Its nodes are the base's and then the expansion's, whose root is the last child of the base's root.
/// The length, the number of nodes and the root's span are its own; all other bytes are copied.
///
/// So the base's root decides over its own children and then the expansion's root. The cards of a ruling are those of
/// the base, and then those that the expansion gives to the members of the set that meet the target of the base's root;
/// where none does, nothing comes from the expansion.
///
/// ```
/// use kolfsein::{Decision, JointRequest, Reason, Subjects, MOST_BYTES};
///
/// let base = [
///     0, 28, 1, 2, 1, 1, 0, 2, // 28 bytes follow, version 1, the maxima 2, 1 and 1, 2 nodes
///     3, 0, 2, 0, 0, 0, 2, 0, 1, 0, 1, // deny overrides, over both
///     4, 0, 1, 0, 10, 0, 2, 0, 1, 0, 0, // card 10: anyone may trade anywhere
/// ];
/// let expansion = [
///     0, 17, 1, 2, 1, 1, 0, 1, // 17 bytes follow, version and maxima as in the base, 1 node
///     5, 0, 1, 0, 20, 2, 2, 0, 0, 0, 0, // card 20: the smuggler may not trade at the harbour
/// ];
/// let mut table = [0; MOST_BYTES];
/// let length = kolfsein::attach(&base, &expansion, &mut table)?;
/// assert_eq!(length, 41);
/// assert_eq!(table[..8], [0, 39, 1, 2, 1, 1, 0, 3]); // 39 bytes follow, 3 nodes
/// assert_eq!(table[8..11], [3, 0, 3]); // deny overrides, over all three
///
/// // The smuggler trades at the harbour.
/// let subjects = Subjects::only(2).unwrap();
/// let request = JointRequest::new(subjects, 0, 0);
/// let mut cards = [0; 3];
/// let ruling = kolfsein::rule(&table[..length], request, &mut cards)?;
/// assert_eq!((ruling.decision, ruling.count), (Decision::Deny, 2));
/// assert_eq!(cards, [10, 20, 0]);
///
/// // A rule has no children.
/// let refusal = kolfsein::attach(&expansion, &base, &mut table).unwrap_err();
/// assert_eq!((refusal.reason, refusal.place), (Reason::BaseIsRule, 0));
/// assert_eq!(table, [0; MOST_BYTES]);
/// # Ok::<(), kolfsein::Refusal>(())
/// ```
///
/// # Errors
///
/// The first refusal in this order: those of [`read`] for the base, those of [`read`] for the expansion, then
/// [`BaseIsRule`](Reason::BaseIsRule), then [`HeadersDiffer`](Reason::HeadersDiffer), then
/// [`TooLarge`](Reason::TooLarge), then [`Room`](Reason::Room). The bytes are then all 0. A refusal of [`read`] is about
/// the expansion only where the base is accepted.
pub fn attach(base: &[u8], expansion: &[u8], table: &mut [u8]) -> Result<usize, Refusal> {
    // SAFETY: each slice's pointer is valid for its length, and a table that is lent to be written overlaps nothing.
    let answer = unsafe {
        c::kolfsein_attach(
            base.as_ptr(),
            base.len(),
            expansion.as_ptr(),
            expansion.len(),
            table.as_mut_ptr(),
            table.len(),
        )
    };
    answer.counted()
}
