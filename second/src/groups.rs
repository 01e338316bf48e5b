//! Overload by trying every group of tasks; for few tasks only.

use crate::overload::Overload;
use crate::set::Set;

/// The overload of a set of at most 20 tasks, if it has one: the common part
/// of all groups of greatest excess, which is the smallest of them.
pub fn overload(set: &Set) -> Option<Overload> {
    assert!(set.tasks.len() <= 20, "too many tasks to try every group");
    let mut greatest = 0;
    let mut common = 0;
    for group in 0..1_u64 << set.tasks.len() {
        let excess = excess(set, group);
        if excess > greatest {
            greatest = excess;
            common = group;
        } else if excess == greatest {
            common &= group;
        }
    }
    if greatest == 0 {
        return None;
    }
    assert_eq!(excess(set, common), greatest, "the common part is not greatest");
    Some(Overload { group: common, cores: cores(set, common) })
}

/// The group's budgets less F × the number of cores in the union of its masks.
pub fn excess(set: &Set, group: u64) -> i64 {
    let budgets: u64 = members(set, group).map(|task| set.tasks[task].budget).sum();
    let capacity = set.frame * u64::from(cores(set, group).count_ones());
    budgets as i64 - capacity as i64
}

/// The union of the group's masks.
pub fn cores(set: &Set, group: u64) -> u16 {
    members(set, group).fold(0, |union, task| union | set.tasks[task].mask)
}

fn members(set: &Set, group: u64) -> impl Iterator<Item = usize> + '_ {
    (0..set.tasks.len()).filter(move |&task| group >> task & 1 == 1)
}
