//! Overload of larger sets, by preflow and relabelling over a network with a
//! source, the tasks, the cores and a sink, and then its smallest least cut.

use crate::allocation::Allocation;
use crate::groups;
use crate::overload::Overload;
use crate::set::Set;
use std::collections::VecDeque;

const SOURCE: usize = 0;
const SINK: usize = 1;
const FIRST_TASK: usize = 2;

/// The overload of a set that passed `Set::refusal`, if it has one. The tasks
/// on the source's side of the smallest least cut are the smallest group of
/// greatest excess, because a cut whose tasks are a group costs all budgets
/// less that group's excess.
pub fn overload(set: &Set) -> Option<Overload> {
    let mut network = Network::of(set);
    network.run();
    let budgets: u64 = set.tasks.iter().map(|task| task.budget).sum();
    let missing = budgets - network.surplus[SINK];
    let group = network.source_side(set.tasks.len());
    assert_eq!(groups::excess(set, group), missing as i64, "cut and flow differ");
    (missing > 0).then(|| Overload { group, cores: groups::cores(set, group) })
}

/// The units of a greatest flow. Its task sums are the budgets exactly when
/// the set has no overload. It may have loops.
pub fn units(set: &Set) -> Allocation {
    let mut network = Network::of(set);
    network.run();
    let mut allocation = Allocation::empty(set.tasks.len(), set.cores as usize);
    for (number, units) in allocation.units.iter_mut().enumerate() {
        for (core, amount) in units.iter_mut().enumerate() {
            // What flowed to the core is what the core could hand back.
            *amount = network.room[network.first_core + core][FIRST_TASK + number];
        }
    }
    allocation
}

struct Network {
    /// Room left from a node to another.
    room: Vec<Vec<u64>>,
    neighbours: Vec<Vec<usize>>,
    first_core: usize,
    height: Vec<usize>,
    /// What has come into a node and not left it.
    surplus: Vec<u64>,
    waiting: VecDeque<usize>,
}

impl Network {
    fn of(set: &Set) -> Self {
        let first_core = FIRST_TASK + set.tasks.len();
        let nodes = first_core + set.cores as usize;
        let mut network = Network {
            room: vec![vec![0; nodes]; nodes],
            neighbours: vec![Vec::new(); nodes],
            first_core,
            height: vec![0; nodes],
            surplus: vec![0; nodes],
            waiting: VecDeque::new(),
        };
        for (number, task) in set.tasks.iter().enumerate() {
            let node = FIRST_TASK + number;
            network.join(SOURCE, node, task.budget);
            for core in (0..set.cores as usize).filter(|core| task.mask >> core & 1 == 1) {
                // One more than the budget, so that this edge is never full
                // and never cut.
                network.join(node, first_core + core, task.budget + 1);
            }
        }
        for core in first_core..nodes {
            network.join(core, SINK, set.frame);
        }
        network
    }

    fn join(&mut self, from: usize, to: usize, room: u64) {
        self.room[from][to] = room;
        self.neighbours[from].push(to);
        self.neighbours[to].push(from);
    }

    /// Pushes all budgets out of the source; what finds no way to the sink
    /// comes back to the source.
    fn run(&mut self) {
        self.height[SOURCE] = self.room.len();
        for node in self.neighbours[SOURCE].clone() {
            let amount = self.room[SOURCE][node];
            self.surplus[SOURCE] += amount;
            self.push(SOURCE, node, amount);
        }
        while let Some(node) = self.waiting.pop_front() {
            self.discharge(node);
        }
    }

    fn push(&mut self, from: usize, to: usize, amount: u64) {
        if amount == 0 {
            return;
        }
        self.room[from][to] -= amount;
        self.room[to][from] += amount;
        self.surplus[from] -= amount;
        if self.surplus[to] == 0 && to != SOURCE && to != SINK {
            self.waiting.push_back(to);
        }
        self.surplus[to] += amount;
    }

    /// Empties a node downhill, lifting it whenever no way down has room.
    fn discharge(&mut self, node: usize) {
        while self.surplus[node] > 0 {
            for to in self.neighbours[node].clone() {
                if self.height[node] == self.height[to] + 1 {
                    let amount = self.surplus[node].min(self.room[node][to]);
                    self.push(node, to, amount);
                }
            }
            if self.surplus[node] > 0 {
                self.lift(node);
            }
        }
    }

    fn lift(&mut self, node: usize) {
        let open = self.neighbours[node].iter().filter(|&&to| self.room[node][to] > 0);
        let lowest = open.map(|&to| self.height[to]).min();
        self.height[node] = lowest.expect("a node with a surplus has a way back") + 1;
    }

    /// The tasks that the source still reaches through edges with room.
    fn source_side(&self, tasks: usize) -> u64 {
        let mut seen = vec![false; self.room.len()];
        let mut open = vec![SOURCE];
        seen[SOURCE] = true;
        while let Some(node) = open.pop() {
            for &to in &self.neighbours[node] {
                if self.room[node][to] > 0 && !seen[to] {
                    seen[to] = true;
                    open.push(to);
                }
            }
        }
        (0..tasks).filter(|task| seen[FIRST_TASK + task]).fold(0, |group, task| group | 1 << task)
    }
}
