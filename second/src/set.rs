//! The planner's input: a frame length, a core count and the tasks.

use crate::hex::{decode, Fields};

pub const MOST_FRAME: u64 = 1_000_000;
pub const MOST_CORES: u64 = 16;
pub const MOST_TASKS: usize = 64;
const MOST_DIGITS: usize = 3_072;

#[derive(Clone, Copy, Debug, PartialEq, Eq)]
pub struct Task {
    pub budget: u64,
    pub mask: u16,
}

#[derive(Clone, Debug, PartialEq, Eq)]
pub struct Set {
    pub frame: u64,
    pub cores: u64,
    pub tasks: Vec<Task>,
}

/// A refusal of the planner before any overload is looked for.
#[derive(Clone, Copy, Debug, PartialEq, Eq)]
pub enum Refusal {
    Plain(u8),
    Task(u8, usize),
    /// Answer 13: a task, and a core that its mask names and the rack lacks.
    MissingCore(usize, u64),
}

/// Reads one input line; nothing if it is not well written (answer 12).
pub fn read(line: &[u8]) -> Option<Set> {
    if line.len() > MOST_DIGITS {
        return None;
    }
    let bytes = decode(line)?;
    let mut fields = Fields::new(&bytes);
    let frame = fields.number(4)?;
    let cores = fields.number(1)?;
    let count = fields.number(1)? as usize;
    if fields.left() != 6 * count {
        return None;
    }
    let mut tasks = Vec::new();
    for _ in 0..count {
        let budget = fields.number(4)?;
        let mask = fields.number(2)? as u16;
        tasks.push(Task { budget, mask });
    }
    Some(Set { frame, cores, tasks })
}

/// Answers 1 and 2, which every call tests first.
pub fn size_refusal(frame: u64, cores: u64) -> Option<u8> {
    if frame == 0 || frame > MOST_FRAME {
        Some(1)
    } else if cores == 0 || cores > MOST_CORES {
        Some(2)
    } else {
        None
    }
}

impl Set {
    /// Answers 1, 2, 3, 4, 13 and 5 in that order, each over all tasks before
    /// the next.
    pub fn refusal(&self) -> Option<Refusal> {
        if let Some(number) = size_refusal(self.frame, self.cores) {
            return Some(Refusal::Plain(number));
        }
        if self.tasks.len() > MOST_TASKS {
            return Some(Refusal::Plain(3));
        }
        if let Some(task) = self.tasks.iter().position(|task| task.mask == 0) {
            return Some(Refusal::Task(4, task));
        }
        if let Some((task, core)) = self.missing_core() {
            return Some(Refusal::MissingCore(task, core));
        }
        let above = |task: &Task| task.budget > self.frame;
        let task = self.tasks.iter().position(above)?;
        Some(Refusal::Task(5, task))
    }

    /// The lowest task whose mask names a missing core, and its lowest one.
    fn missing_core(&self) -> Option<(usize, u64)> {
        let lowest = |task: &Task| (self.cores..MOST_CORES).find(|core| task.mask >> core & 1 == 1);
        let mut named = self.tasks.iter().map(lowest).enumerate();
        named.find_map(|(task, core)| Some((task, core?)))
    }
}
