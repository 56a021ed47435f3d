//! Tables, diagrams and requests, the same in every run, changes of them, and damage done to them.

mod changes;
mod damage;
mod diagrams;
mod faults;
mod outline;
mod random;
mod ranges;
mod requests;
mod shapes;
mod sweeps;
mod tables;

pub use changes::{Moves, CHANGES};
pub use damage::damage_diagram;
pub use diagrams::{fill_diagram, sound_diagram, state_used, widest_diagram};
pub use faults::{without_faults, Fault, FAULTS, NODES_OF_A_FAULT, ONLY_ONE_OVER_RULES};
pub use outline::{state_length, Maxima, Outline};
pub use random::Random;
pub use ranges::steps_on;
pub use requests::{joint_requests_of, requests_of, sets_of};
pub use requests::{lists, some_joint_requests, some_requests};
pub use shapes::{all_different, children, empty_root, flat, full_standard, nested, CHILDREN};
pub use shapes::{chain, one_rule, path_among, permit_and_deny, silent_groups, spread};
pub use shapes::{rules_for, staircase, two_ranges};
pub use sweeps::{each_entry_more, each_length, each_place, each_span, ranges_of};
pub use tables::{accepted_table, bounded_table, damaged_table, small_table, standard_table};
pub use tables::{any_maxima, small_maxima, HARBOUR, RULEBOOK};
