//! The plain flow: repeated breadth-first search from the source for a way
//! with room to the sink, each filled by its narrowest edge.

use crate::sets::{Set, CORES, FRAME, TASKS};

const SOURCE: usize = 0;
const FIRST_TASK: usize = 1;
const FIRST_CORE: usize = FIRST_TASK + TASKS;
const SINK: usize = FIRST_CORE + CORES;
const NODES: usize = SINK + 1;

struct Edge {
    to: u32,
    room: u64,
}

/// Edges lie in pairs: edge e and e ^ 1 run against each other.
struct Network {
    edges: Vec<Edge>,
    leaving: Vec<Vec<u32>>,
}

impl Network {
    fn of(set: &Set) -> Self {
        let mut network = Network {
            edges: Vec::with_capacity(2 * (TASKS * CORES + TASKS + CORES)),
            leaving: vec![Vec::new(); NODES],
        };
        for (number, task) in set.tasks.iter().enumerate() {
            network.join(SOURCE, FIRST_TASK + number, task.budget);
            for core in (0..CORES).filter(|core| task.mask >> core & 1 == 1) {
                network.join(FIRST_TASK + number, FIRST_CORE + core, u64::MAX / 2);
            }
        }
        for core in 0..CORES {
            network.join(FIRST_CORE + core, SINK, FRAME);
        }
        network
    }

    fn join(&mut self, from: usize, to: usize, room: u64) {
        let number = self.edges.len() as u32;
        self.leaving[from].push(number);
        self.leaving[to].push(number + 1);
        self.edges.push(Edge { to: to as u32, room });
        self.edges.push(Edge { to: from as u32, room: 0 });
    }

    /// The edge by which each node is reached on a shortest way from the
    /// source, if the sink is reached.
    fn search(&self) -> Option<[u32; NODES]> {
        const UNSEEN: u32 = u32::MAX;
        let mut reached_by = [UNSEEN; NODES];
        let mut queue = [0_usize; NODES];
        let (mut first, mut end) = (0, 1);
        queue[0] = SOURCE;
        while first < end {
            let node = queue[first];
            first += 1;
            for &number in &self.leaving[node] {
                let edge = &self.edges[number as usize];
                let to = edge.to as usize;
                if edge.room == 0 || reached_by[to] != UNSEEN || to == SOURCE {
                    continue;
                }
                reached_by[to] = number;
                if to == SINK {
                    return Some(reached_by);
                }
                queue[end] = to;
                end += 1;
            }
        }
        None
    }

    /// Fills the way that the search found; hands back the amount.
    fn fill(&mut self, reached_by: &[u32; NODES]) -> u64 {
        let mut amount = u64::MAX;
        let mut node = SINK;
        while node != SOURCE {
            let number = reached_by[node] as usize;
            amount = amount.min(self.edges[number].room);
            node = self.edges[number ^ 1].to as usize;
        }
        node = SINK;
        while node != SOURCE {
            let number = reached_by[node] as usize;
            self.edges[number].room -= amount;
            self.edges[number ^ 1].room += amount;
            node = self.edges[number ^ 1].to as usize;
        }
        amount
    }
}

/// The greatest flow of a set; it is the sum of the budgets exactly when the
/// set has no overload.
pub fn greatest(set: &Set) -> u64 {
    let mut network = Network::of(set);
    let mut sum = 0;
    while let Some(reached_by) = network.search() {
        sum += network.fill(&reached_by);
    }
    sum
}
