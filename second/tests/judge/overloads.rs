//! Three ways to the overload group agree: every group of tasks, the flow,
//! and every set of cores.

use crate::planner;
use second::generate::{self, Kind};
use second::groups;
use second::overload::Overload;
use second::random::Random;
use second::set::{self, Set};

/// Every greatest group that leaves out no task inside its cores belongs to a
/// set of cores: the tasks with a budget whose masks lie within it.
fn by_cores(set: &Set) -> Option<Overload> {
    let sets = 1_usize << set.cores;
    let mut budgets = vec![0_i64; sets];
    for task in &set.tasks {
        budgets[task.mask as usize] += task.budget as i64;
    }
    for core in 0..set.cores {
        for cores in 0..sets {
            if cores >> core & 1 == 1 {
                budgets[cores] += budgets[cores ^ 1 << core];
            }
        }
    }
    let excess = |cores: usize| budgets[cores] - (set.frame * u64::from(cores.count_ones())) as i64;
    let greatest = (0..sets).map(excess).max().unwrap();
    if greatest <= 0 {
        return None;
    }
    let within = |cores: usize| {
        let inside = |task: &usize| {
            let task = set.tasks[*task];
            task.budget > 0 && task.mask as usize & !cores == 0
        };
        (0..set.tasks.len()).filter(inside).fold(0_u64, |group, task| group | 1 << task)
    };
    let all = (0..sets).filter(|&cores| excess(cores) == greatest).map(within);
    let group = all.fold(u64::MAX, |common, group| common & group);
    Some(Overload { group, cores: groups::cores(set, group) })
}

fn sets(seed: u64, count: usize) -> Vec<Set> {
    let mut random = Random::new(seed);
    let lines = (0..count).map(|_| generate::line(Kind::Plan, &mut random));
    lines.filter_map(|line| set::read(&line)).filter(|set| set.refusal().is_none()).collect()
}

#[test]
fn flow_and_every_group_agree() {
    for set in sets(11, 2_000) {
        if set.tasks.len() <= 12 {
            assert_eq!(second::flow::overload(&set), groups::overload(&set), "{set:?}");
        }
    }
}

#[test]
fn flow_and_every_set_of_cores_agree() {
    for set in sets(12, 400) {
        assert_eq!(second::flow::overload(&set), by_cores(&set), "{set:?}");
    }
}

#[test]
fn an_allocation_exists_exactly_without_overload() {
    for set in sets(13, 1_000) {
        let fits = second::flow::units(&set).fits(&set).is_ok();
        assert_eq!(fits, second::overload::overload(&set).is_none(), "{set:?}");
        if fits {
            let allocation = planner::allocation(&set);
            assert_eq!(allocation.fits(&set), Ok(()));
            assert!(allocation.is_loop_free());
        }
    }
}
