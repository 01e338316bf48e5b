//! Answers 4 and 13: a mask that is empty, and one that names a missing core.

use crate::written::{input, right, wrong};
use second::generate::{self, Kind};
use second::random::Random;
use second::set::{self, Refusal, Set, Task};
use std::collections::BTreeMap;

#[test]
fn an_empty_mask_wins_over_a_missing_core() {
    right(&input(10, 2, &[(1, 0b100), (1, 0)]), "0401");
    right(&input(10, 2, &[(1, 0), (1, 0b100)]), "0400");
    right(&input(10, 2, &[(1, 0x8000), (1, 0b101), (1, 0), (1, 0)]), "0402");
}

#[test]
fn the_lowest_missing_core_is_named() {
    right(&input(10, 2, &[(1, 0b100)]), "0d0002");
    right(&input(10, 2, &[(1, 0b111)]), "0d0002");
    right(&input(10, 2, &[(1, 0x8001)]), "0d000f");
    right(&input(10, 15, &[(1, 0x8000)]), "0d000f");
    right(&input(10, 2, &[(1, 0xa009)]), "0d0003");
    right(&input(10, 1, &[(1, 0xffff)]), "0d0001");
    right(&input(10, 2, &[(0, 0b100)]), "0d0002");
}

#[test]
fn the_lowest_task_counts_before_the_lowest_core() {
    right(&input(10, 2, &[(1, 0b11), (1, 0b10_0000), (1, 0b100)]), "0d0105");
    let mut tasks = [(1, 1); 64];
    tasks[63].1 = 0x8000;
    right(&input(64, 1, &tasks), "0d3f0f");
}

#[test]
fn a_missing_core_stands_between_4_and_5() {
    right(&input(10, 2, &[(11, 0b11), (1, 0b100)]), "0d0102");
    right(&input(10, 2, &[(11, 0b100)]), "0d0002");
    right(&input(10, 2, &[(11, 0b11), (1, 0b100), (1, 0)]), "0402");
    right(&input(10, 2, &[(8, 1), (8, 1), (1, 0b100)]), "0d0202");
    right(&input(10, 2, &[(1, 0b100); 65]), "03");
    right(&input(10, 17, &[(1, 0b100)]), "02");
}

#[test]
fn sixteen_cores_lack_none() {
    right(&input(10, 16, &[(10, 0x8000)]), "0000010f00000000000000000a");
    right(&input(10, 16, &[(0, 0xffff)]), "000000");
    right(&input(10, 16, &[(1, 0x8000), (11, 0xffff)]), "0501");
    right(&input(10, 16, &[(10, 0x8000), (1, 0x8000)]), "0700000000000000038000");
    right(&input(10, 16, &[(1, 0xffff), (1, 0)]), "0401");
}

#[test]
fn other_answers_to_a_bad_mask_are_wrong() {
    let several = input(10, 2, &[(11, 0b11), (1, 0xa009), (1, 0b100)]);
    right(&several, "0d0103");
    let highest_core = "0d010f";
    let lowest_core_of_all = "0d0202";
    let core_before_task = "0d0301";
    let task_alone = "0d01";
    let mask_in_place_of_core = "0d01a009";
    let number_of_an_empty_mask = "0401";
    let budget_first = "0500";
    for answer in [
        highest_core,
        lowest_core_of_all,
        core_before_task,
        task_alone,
        mask_in_place_of_core,
        number_of_an_empty_mask,
        budget_first,
        "0d",
        "0D0103",
    ] {
        wrong(&several, answer);
    }
    let both = input(10, 2, &[(1, 0b100), (1, 0)]);
    for answer in ["0d0002", "0400", "0d0102", "040102"] {
        wrong(&both, answer);
    }
}

/// What can be told wrong of a set that is refused by 4 or 13: by tests in
/// another order, by another task, by another core.
fn beside(set: &Set) -> Vec<(&'static str, bool)> {
    let missing = |task: &Task| u32::from(task.mask) >> set.cores << set.cores;
    let lacks = |tasks: &[Task]| tasks.iter().any(|task| missing(task) != 0);
    match set.refusal() {
        Some(Refusal::Task(4, task)) => vec![
            ("4, and a missing core before", lacks(&set.tasks[..task])),
            ("4, and a missing core after", lacks(&set.tasks[task..])),
        ],
        Some(Refusal::MissingCore(task, core)) => {
            let lower = |task: &Task| missing(task) & ((1 << core) - 1) != 0;
            let high = |task: &Task| task.budget > set.frame;
            vec![
                ("13 at core m", core == set.cores),
                ("13 at core 15", core == 15 && set.cores < 15),
                ("13, one of several cores", missing(&set.tasks[task]).count_ones() > 1),
                ("13, and a lower core after", set.tasks[task..].iter().any(lower)),
                ("13, and a budget above F before", set.tasks[..task].iter().any(high)),
            ]
        }
        _ => vec![],
    }
}

#[test]
fn generated_faults_meet() {
    let mut random = Random::new(31);
    let mut counts = BTreeMap::new();
    for _ in 0..20_000 {
        let line = generate::line(Kind::Plan, &mut random);
        for (what, met) in set::read(&line).iter().flat_map(beside) {
            *counts.entry(what).or_insert(0) += usize::from(met);
        }
    }
    println!("{counts:?}");
    assert!(counts.len() == 7 && counts.values().all(|&count| count >= 10), "{counts:?}");
}
