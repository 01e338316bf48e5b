//! Allocations: units of each task on each core, read back off a table.

use crate::set::Set;
use crate::table::Piece;

#[derive(Clone, Debug, PartialEq, Eq)]
pub struct Allocation {
    /// `units[task][core]`
    pub units: Vec<Vec<u64>>,
    pub cores: usize,
}

impl Allocation {
    pub fn empty(tasks: usize, cores: usize) -> Self {
        Allocation { units: vec![vec![0; cores]; tasks], cores }
    }

    /// Adds up the lengths of each task's pieces on each core. The pieces'
    /// tasks must be below `tasks` and their cores below `cores`.
    pub fn from_pieces(tasks: usize, cores: usize, pieces: &[Piece]) -> Self {
        let mut allocation = Allocation::empty(tasks, cores);
        for piece in pieces {
            allocation.units[piece.task as usize][piece.core as usize] += piece.length;
        }
        allocation
    }

    /// Says why this is not an allocation for the set, if it is not.
    pub fn fits(&self, set: &Set) -> Result<(), String> {
        for (number, task) in set.tasks.iter().enumerate() {
            for core in self.cores_of(number) {
                if task.mask >> core & 1 == 0 {
                    return Err(format!("task {number} runs on core {core} outside its mask"));
                }
            }
            let sum: u64 = self.units[number].iter().sum();
            if sum != task.budget {
                return Err(format!(
                    "task {number} has {sum} units, its budget is {}",
                    task.budget
                ));
            }
        }
        for core in 0..self.cores {
            let sum: u64 = self.units.iter().map(|of_task| of_task[core]).sum();
            if sum > set.frame {
                return Err(format!("core {core} has {sum} units, the frame has {}", set.frame));
            }
        }
        Ok(())
    }

    /// The cores on which a task has units, ascending.
    pub fn cores_of(&self, task: usize) -> Vec<usize> {
        (0..self.cores).filter(|&core| self.units[task][core] > 0).collect()
    }

    /// The tasks with units on a core, ascending.
    pub fn tasks_on(&self, core: usize) -> Vec<usize> {
        (0..self.units.len()).filter(|&task| self.units[task][core] > 0).collect()
    }

    /// For each task with a budget, its cores less one, summed.
    pub fn extra_assignments(&self) -> usize {
        let extra = |task| self.cores_of(task).len().saturating_sub(1);
        (0..self.units.len()).map(extra).sum()
    }

    /// Whether the graph that joins a task to its cores has no cycle. A task
    /// closes a cycle exactly if two of its cores are joined already.
    pub fn is_loop_free(&self) -> bool {
        let mut joined = Joined::new(self.cores);
        (0..self.units.len()).all(|task| {
            let cores = self.cores_of(task);
            cores.windows(2).all(|pair| joined.join(pair[0], pair[1]))
        })
    }
}

/// Groups of cores joined through shared tasks; small enough for plain labels.
pub struct Joined {
    label: Vec<usize>,
}

impl Joined {
    pub fn new(cores: usize) -> Self {
        Joined { label: (0..cores).collect() }
    }

    pub fn same(&self, one: usize, other: usize) -> bool {
        self.label[one] == self.label[other]
    }

    /// Joins two cores; false if they were joined already.
    pub fn join(&mut self, one: usize, other: usize) -> bool {
        let (kept, gone) = (self.label[one], self.label[other]);
        for label in &mut self.label {
            if *label == gone {
                *label = kept;
            }
        }
        kept != gone
    }
}
