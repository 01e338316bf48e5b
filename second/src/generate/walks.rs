//! Input lines of the walker.

use super::{damage, tables};
use crate::jobs::{MOST_JOBS, MOST_RELEASE, MOST_UNITS};
use crate::random::Random;
use crate::walk_line::{self, Walk};

const WORD: u64 = u32::MAX as u64;

/// A walk over a table; some job lists bad, some lines damaged.
pub fn line(random: &mut Random) -> Vec<u8> {
    let table = tables::table(random);
    let (releases, units) = jobs(random, table.frame);
    let mut walk = Walk {
        frame: table.frame,
        cores: table.cores,
        task: task(random, &table.words),
        room: releases.len() + random.place(3),
        words: table.words,
        releases,
        units,
    };
    if random.one_in(200) {
        many_jobs(random, &mut walk);
    }
    if random.one_in(3) {
        for _ in 0..random.between(1, 2) {
            spoil(random, &mut walk);
        }
    }
    let line = walk_line::write(&walk);
    if random.one_in(15) {
        return damage::call(random, line, 42);
    }
    line
}

/// Mostly a task of the table.
fn task(random: &mut Random, words: &[u64]) -> u64 {
    let tasks: Vec<u64> = words.chunks_exact(4).map(|piece| piece[1]).collect();
    if tasks.is_empty() || random.one_in(12) {
        random.pick(&[0, 1, 63, 64, WORD])
    } else {
        random.pick(&tasks)
    }
}

fn jobs(random: &mut Random, frame: u64) -> (Vec<u64>, Vec<u64>) {
    let count = match random.below(20) {
        0 => 0,
        1 => random.between(100, 1_000),
        _ => random.between(1, 12),
    };
    let gap = random.pick(&[1, frame / 2 + 1, 3 * frame + 1, 100 * frame + 1]);
    let most = random.pick(&[1, frame / 3 + 1, 2 * frame + 1, MOST_UNITS]).min(MOST_UNITS);
    let mut release = random.pick(&[0, 0, 5, frame, MOST_RELEASE - 10 * gap.min(MOST_UNITS)]);
    let mut releases = Vec::new();
    let mut units = Vec::new();
    for _ in 0..count {
        release = (release + random.below(gap)).min(MOST_RELEASE);
        releases.push(release);
        units.push(random.between(0, most));
    }
    (releases, units)
}

/// As many jobs as are allowed, or one less or more.
fn many_jobs(random: &mut Random, walk: &mut Walk) {
    let count = MOST_JOBS - 1 + random.place(3);
    let release = walk.releases.last().copied().unwrap_or(0);
    let asked = walk.units.last().copied().unwrap_or(0);
    walk.releases.resize(count, release);
    walk.units.resize(count, asked);
    walk.room = count;
}

/// One fault of a job list, or a finish list that is too short.
fn spoil(random: &mut Random, walk: &mut Walk) {
    let jobs = walk.releases.len().min(walk.units.len());
    if jobs == 0 {
        walk.units.push(random.below(WORD + 1));
        return;
    }
    let job = random.place(jobs);
    match random.below(10) {
        0 => walk.releases.truncate(walk.releases.len() - 1),
        1 => walk.units.truncate(walk.units.len() - 1),
        2 => walk.releases[job] = random.pick(&[MOST_RELEASE, MOST_RELEASE + 1, u64::MAX]),
        3 => walk.units[job] = random.pick(&[MOST_UNITS, MOST_UNITS + 1, WORD]),
        4 => walk.releases[job] = walk.releases[job].saturating_sub(1),
        5 => walk.releases[job] = 0,
        6 => walk.room = random.place(jobs),
        7 => walk.units.iter_mut().for_each(|asked| *asked = 0),
        8 => walk.task = random.pick(&[62, 63, 64, WORD]),
        _ => walk.units = vec![0; random.pick(&[0, 1_000, 4_096, 4_097])],
    }
}
