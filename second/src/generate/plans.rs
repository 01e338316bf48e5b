//! Input lines of the planner.

use super::{damage, faults, sets};
use crate::hex::push;
use crate::random::Random;
use crate::set::Set;

/// Mostly sets that reach the overload test; the rest refused or damaged.
pub fn line(random: &mut Random) -> Vec<u8> {
    let mut set = sets::set(random);
    match random.below(20) {
        0..=2 => {
            let line = write(&set);
            damage::line(random, line, 12, 3_072)
        }
        3..=5 => {
            faults::add(random, &mut set);
            write(&set)
        }
        6 => {
            faults::edge(random, &mut set);
            write(&set)
        }
        _ => write(&set),
    }
}

fn write(set: &Set) -> Vec<u8> {
    let mut line = Vec::new();
    push(&mut line, set.frame, 4);
    push(&mut line, set.cores, 1);
    push(&mut line, set.tasks.len() as u64, 1);
    for task in &set.tasks {
        push(&mut line, task.budget, 4);
        push(&mut line, task.mask.into(), 2);
    }
    line
}
