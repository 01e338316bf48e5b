//! Faults put into a set so that it is refused with 1 to 5 or 13.

use crate::random::Random;
use crate::set::{Set, Task, MOST_CORES, MOST_FRAME, MOST_TASKS};

const WORD: u64 = u32::MAX as u64;

/// One to three faults, so that the order of the tests is met too.
pub fn add(random: &mut Random, set: &mut Set) {
    for _ in 0..random.between(1, 3) {
        match random.below(9) {
            0 => set.frame = random.pick(&[0, MOST_FRAME + 1, WORD]),
            1 => set.cores = random.pick(&[0, MOST_CORES + 1, 255]),
            2 => too_many(random, set),
            3..=5 => bad_masks(random, set),
            // Masks made for another rack.
            6 => set.cores = random.between(1, MOST_CORES),
            _ => high_budget(random, set),
        }
    }
}

fn too_many(random: &mut Random, set: &mut Set) {
    let least = MOST_TASKS as u64 + 1;
    let wanted = if random.one_in(2) { least } else { random.between(least, 255) };
    while set.tasks.len() < wanted as usize {
        let budget = random.below(set.frame + 1);
        set.tasks.push(Task { budget, mask: random.below(1 << 16) as u16 });
    }
}

/// One to three masks, so that empty ones and missing cores stand side by side
/// in either order of tasks.
fn bad_masks(random: &mut Random, set: &mut Set) {
    if set.tasks.is_empty() {
        return;
    }
    for _ in 0..random.between(1, 3) {
        let task = random.place(set.tasks.len());
        set.tasks[task].mask = bad_mask(random, set.tasks[task].mask, set.cores);
    }
}

/// An empty mask, or one with missing cores; where none is missing it may stay.
fn bad_mask(random: &mut Random, mask: u16, cores: u64) -> u16 {
    let missing = u16::MAX.checked_shl(cores as u32).unwrap_or(0);
    match random.below(6) {
        0..=1 => 0,
        2 => mask | missing & missing.wrapping_neg(), // core m
        3 => mask | missing & 1 << 15,
        4 => mask | missing & random.word() as u16,
        _ => missing,
    }
}

fn high_budget(random: &mut Random, set: &mut Set) {
    if set.tasks.is_empty() {
        return;
    }
    let task = random.place(set.tasks.len());
    let above = (set.frame + 1).min(WORD);
    set.tasks[task].budget = random.pick(&[above, above, MOST_FRAME + 1, WORD]);
}

/// Sizes at the edges that are still allowed.
pub fn edge(random: &mut Random, set: &mut Set) {
    match random.below(5) {
        0 => set.frame = MOST_FRAME,
        1 => set.cores = MOST_CORES,
        2 => set.tasks.clear(),
        3 => set.tasks.iter_mut().for_each(|task| task.budget = 0),
        _ => {
            while set.tasks.len() < MOST_TASKS {
                set.tasks.push(Task { budget: 0, mask: 1 });
            }
        }
    }
}
