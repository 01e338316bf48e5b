//! Whether a set is overloaded, and by which group.

use crate::set::Set;
use crate::{flow, groups};

/// The group carried by answer 7 (bit i for task i) and its cores.
#[derive(Clone, Copy, Debug, PartialEq, Eq)]
pub struct Overload {
    pub group: u64,
    pub cores: u16,
}

/// Up to this many tasks every group is tried.
const FEW_TASKS: usize = 12;

/// The overload of a set that passed `Set::refusal`, if it has one.
pub fn overload(set: &Set) -> Option<Overload> {
    if set.tasks.len() <= FEW_TASKS {
        groups::overload(set)
    } else {
        flow::overload(set)
    }
}
