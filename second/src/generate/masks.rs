//! Shapes of masks over the cores of a set.

use crate::random::Random;

#[derive(Clone, Copy)]
enum Shape {
    AllCores,
    Arbitrary,
    FewCores,
    Chain,
    Blocks,
    Disjoint,
}

const SHAPES: [Shape; 6] = [
    Shape::AllCores,
    Shape::Arbitrary,
    Shape::FewCores,
    Shape::Chain,
    Shape::Blocks,
    Shape::Disjoint,
];

/// Valid masks of one shape for every task.
pub fn masks(random: &mut Random, tasks: usize, cores: u64) -> Vec<u16> {
    let mut order: Vec<u64> = (0..cores).collect();
    random.shuffle(&mut order);
    let labels: Vec<u64> = (0..cores).map(|_| random.below(cores)).collect();
    let shape = random.pick(&SHAPES);
    (0..tasks).map(|_| mask(random, shape, &order, &labels)).collect()
}

fn mask(random: &mut Random, shape: Shape, order: &[u64], labels: &[u64]) -> u16 {
    let cores = order.len() as u64;
    match shape {
        Shape::AllCores => union(order),
        Shape::Arbitrary => random.between(1, (1 << cores) - 1) as u16,
        Shape::FewCores => {
            let count = random.between(1, 3);
            (0..count).fold(0, |mask, _| mask | 1 << random.pick(order))
        }
        // Nested in one chain: the front of one order of the cores.
        Shape::Chain => union(&order[..=random.place(order.len())]),
        // Nested as in a tree: halves of halves of the order.
        Shape::Blocks => {
            let size = 1 << random.below(5);
            let blocks = order.chunks(size).count();
            union(order.chunks(size).nth(random.place(blocks)).unwrap_or(order))
        }
        Shape::Disjoint => {
            let label = random.pick(labels);
            let same = (0..cores).filter(|&core| labels[core as usize] == label);
            union(&same.collect::<Vec<u64>>())
        }
    }
}

fn union(cores: &[u64]) -> u16 {
    cores.iter().fold(0, |mask, core| mask | 1 << core)
}
