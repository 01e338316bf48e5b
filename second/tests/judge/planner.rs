//! A plain planner to feed the judge with right answers: the flow's units
//! with loops removed, laid out by document 01's choices.

use second::accepted;
use second::allocation::Allocation;
use second::answers::{wanted, Wanted};
use second::flow;
use second::set::Set;
use second::stretches;

/// A right answer to an input line of the planner.
pub fn answer(input: &[u8]) -> Vec<u8> {
    match wanted(input) {
        Wanted::Line(line) => line,
        Wanted::Table(set) => accepted::write(&stretches::table(set.frame, &allocation(&set))),
    }
}

/// A loop-free allocation of a set without overload.
pub fn allocation(set: &Set) -> Allocation {
    let mut allocation = flow::units(set);
    while let Some(loop_) = find_loop(&allocation) {
        remove(&mut allocation, &loop_);
    }
    allocation
}

/// A loop as (task, core) edges in turn, lowered and raised by turns.
fn find_loop(allocation: &Allocation) -> Option<Vec<(usize, usize)>> {
    (0..allocation.cores).find_map(|core| search(allocation, core, core, &mut Vec::new()))
}

/// Follows edges from a core, never the same task or core twice, until it is
/// back where it began.
fn search(
    allocation: &Allocation,
    first: usize,
    core: usize,
    path: &mut Vec<(usize, usize)>,
) -> Option<Vec<(usize, usize)>> {
    for task in allocation.tasks_on(core) {
        if path.iter().any(|&(used, _)| used == task) {
            continue;
        }
        for next in allocation.cores_of(task) {
            if next == core
                || path.iter().step_by(2).any(|&(_, used)| used == next && next != first)
            {
                continue;
            }
            path.extend([(task, core), (task, next)]);
            if next == first {
                return Some(path.clone());
            }
            if let Some(found) = search(allocation, first, next, path) {
                return Some(found);
            }
            path.truncate(path.len() - 2);
        }
    }
    None
}

/// Shifts the smallest amount on the lowered edges round the loop.
fn remove(allocation: &mut Allocation, edges: &[(usize, usize)]) {
    let lowered = edges.iter().step_by(2);
    let amount = lowered.map(|&(task, core)| allocation.units[task][core]).min().unwrap_or(0);
    for (place, &(task, core)) in edges.iter().enumerate() {
        let units = &mut allocation.units[task][core];
        *units = if place % 2 == 0 { *units - amount } else { *units + amount };
    }
}
