//! From allocation to table: the choices document 01 closes.

use crate::allocation::Allocation;
use crate::table::Piece;

/// The table fixed by a loop-free allocation.
pub fn table(frame: u64, allocation: &Allocation) -> Vec<Piece> {
    let mut layout = Layout {
        frame,
        allocation,
        met: vec![false; allocation.units.len()],
        reached: vec![false; allocation.cores],
        pieces: Vec::new(),
    };
    for core in 0..allocation.cores {
        // In ascending order, the first core not yet reached is the lowest
        // of its group: the root, which starts at 0.
        if !layout.reached[core] {
            layout.lay_core(core, 0, None);
        }
    }
    layout.pieces.sort_by_key(|piece| (piece.core, piece.start));
    layout.pieces
}

struct Layout<'a> {
    frame: u64,
    allocation: &'a Allocation,
    met: Vec<bool>,
    reached: Vec<bool>,
    pieces: Vec<Piece>,
}

impl Layout<'_> {
    /// Lays the tasks of a core one after another from `begin`, then the
    /// cores reached from it.
    fn lay_core(&mut self, core: usize, begin: u64, through: Option<usize>) {
        self.reached[core] = true;
        let mut reaches = Vec::new();
        let mut instant = begin;
        for task in self.order(core, through) {
            let end = instant + self.allocation.units[task][core];
            self.lay_stretch(core, task, instant, end);
            if !self.met[task] {
                self.met[task] = true;
                reaches.extend(self.reaches(core, task, end));
            }
            instant = end;
        }
        for (other, start, task) in reaches {
            assert!(!self.reached[other], "the allocation has a loop");
            self.lay_core(other, start, Some(task));
        }
    }

    /// The task through which the core was reached, then the rest ascending.
    fn order(&self, core: usize, through: Option<usize>) -> Vec<usize> {
        let rest = self.allocation.tasks_on(core).into_iter().filter(|&task| Some(task) != through);
        through.into_iter().chain(rest).collect()
    }

    /// The other cores of a task first met, ascending; each starts where the
    /// task's previous stretch ended.
    fn reaches(&self, core: usize, task: usize, end: u64) -> Vec<(usize, u64, usize)> {
        let mut start = end;
        let mut reaches = Vec::new();
        for other in self.allocation.cores_of(task) {
            if other != core {
                reaches.push((other, start, task));
                start += self.allocation.units[task][other];
            }
        }
        reaches
    }

    /// Takes a stretch modulo F; one that crosses the end becomes two pieces.
    fn lay_stretch(&mut self, core: usize, task: usize, begin: u64, end: u64) {
        let start = begin % self.frame;
        let length = end - begin;
        let before_end = length.min(self.frame - start);
        self.lay_piece(core, task, start, before_end);
        if length > before_end {
            self.lay_piece(core, task, 0, length - before_end);
        }
    }

    fn lay_piece(&mut self, core: usize, task: usize, start: u64, length: u64) {
        let (core, task) = (core as u64, task as u64);
        self.pieces.push(Piece { core, task, start, length });
    }
}
