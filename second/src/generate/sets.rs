//! Sets that pass every test before the overload, from empty to full.

use super::masks::masks;
use crate::random::Random;
use crate::set::{Set, Task, MOST_CORES, MOST_FRAME, MOST_TASKS};

/// A set of some size with masks of one shape and budgets of one kind.
pub fn set(random: &mut Random) -> Set {
    let (frame, cores, tasks) = sizes(random);
    let masks = masks(random, tasks, cores);
    let task = |mask| Task { budget: 0, mask };
    let mut set = Set { frame, cores, tasks: masks.into_iter().map(task).collect() };
    match random.below(8) {
        0 => any_budgets(random, &mut set),
        1..=3 => scaled_budgets(random, &mut set),
        _ => filled_budgets(random, &mut set),
    }
    if random.one_in(6) && tasks > 0 {
        let task = random.place(tasks);
        set.tasks[task].budget = random.pick(&[0, 1, frame - 1, frame]);
    }
    set
}

fn sizes(random: &mut Random) -> (u64, u64, usize) {
    let most = MOST_TASKS as u64;
    let (frame, cores, tasks) = match random.below(10) {
        0..=3 => (random.between(1, 12), random.between(1, 4), random.between(0, 8)),
        4..=5 => (random.between(1, 1_000), random.between(1, 8), random.between(0, 20)),
        6..=7 => (MOST_FRAME, MOST_CORES, most),
        8 => (random.between(1, 40), MOST_CORES, most),
        _ => {
            (random.between(1, MOST_FRAME), random.between(1, MOST_CORES), random.between(0, most))
        }
    };
    (frame, cores, tasks as usize)
}

fn any_budgets(random: &mut Random, set: &mut Set) {
    for task in &mut set.tasks {
        let most = if random.one_in(2) { set.frame } else { set.frame / 4 };
        task.budget = random.between(0, most);
    }
}

/// Random weights brought to a chosen part of all cores' time.
fn scaled_budgets(random: &mut Random, set: &mut Set) {
    let weights: Vec<u64> = set.tasks.iter().map(|_| random.between(0, 1_000)).collect();
    let sum = weights.iter().sum::<u64>().max(1);
    let percent = random.between(50, 110);
    let wanted = set.frame * set.cores * percent / 100;
    for (task, weight) in set.tasks.iter_mut().zip(weights) {
        task.budget = (wanted * weight / sum).min(set.frame);
    }
}

/// Budgets handed out core by core, so that an allocation is known to exist
/// and often fills its cores; then often a few units less or more.
fn filled_budgets(random: &mut Random, set: &mut Set) {
    for core in 0..set.cores {
        let mut allowed: Vec<usize> =
            (0..set.tasks.len()).filter(|&task| set.tasks[task].mask >> core & 1 == 1).collect();
        random.shuffle(&mut allowed);
        let mut left = set.frame;
        for &task in &allowed {
            let most = left.min(set.frame - set.tasks[task].budget);
            let share = set.frame * 3 / allowed.len() as u64 + 1;
            let given = random.between(0, most.min(share));
            set.tasks[task].budget += given;
            left -= given;
        }
        // What is left goes to the first that can take all of it.
        let taker = allowed.iter().find(|&&task| set.tasks[task].budget + left <= set.frame);
        if let (Some(&task), false) = (taker, random.one_in(40)) {
            set.tasks[task].budget += left;
        }
    }
    if random.one_in(2) && !set.tasks.is_empty() {
        let task = random.place(set.tasks.len());
        set.tasks[task].budget = set.tasks[task].budget.saturating_sub(1);
    }
    for _ in 0..random.below(4).min(set.tasks.len() as u64) {
        let task = random.place(set.tasks.len());
        let budget = set.tasks[task].budget + random.pick(&[1, 1, 2, set.frame / 20 + 1]);
        set.tasks[task].budget = budget.min(set.frame);
    }
}
