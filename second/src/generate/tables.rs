//! Tables, valid and damaged, and the input lines of check and moves.

use super::damage;
use crate::allocation::{Allocation, Joined};
use crate::call_line::Call;
use crate::random::Random;
use crate::stretches;
use crate::table::{frame_table, to_words, Piece, MOST_PIECES};
use crate::table_line;

const WORD: u64 = u32::MAX as u64;

pub struct Table {
    pub frame: u64,
    pub cores: u64,
    pub words: Vec<u64>,
}

/// An input line of the table check or the move count.
pub fn line(random: &mut Random, call: Call) -> Vec<u8> {
    let table = table(random);
    let line = table_line::write(call, table.frame, table.cores, &table.words);
    if random.one_in(10) {
        return damage::call(random, line, 18);
    }
    line
}

/// A table; about half of them are damaged.
pub fn table(random: &mut Random) -> Table {
    let frame = match random.below(4) {
        0..=1 => random.between(1, 30),
        2 => random.between(1, 1_000_000),
        _ => 1_000_000,
    };
    let cores = random.pick(&[1, 2, 2, 3, 4, 8, 16]);
    let pieces = match random.below(3) {
        0 => from_allocation(random, frame, cores as usize),
        _ => from_stretches(random, frame, cores),
    };
    debug_assert_eq!(frame_table(frame, cores, &pieces), Ok(()));
    let mut table = Table { frame, cores, words: to_words(&pieces) };
    if random.one_in(2) {
        for _ in 0..random.between(1, 2) {
            spoil(random, &mut table);
        }
    }
    table
}

/// A planner's table, over a random loop-free allocation.
fn from_allocation(random: &mut Random, frame: u64, cores: usize) -> Vec<Piece> {
    let tasks = random.between(0, 64) as usize;
    let mut allocation = Allocation::empty(tasks, cores);
    let mut room = vec![frame; cores];
    let mut joined = Joined::new(cores);
    for units in &mut allocation.units {
        let first = random.place(cores);
        let mut budget = frame;
        for core in std::iter::once(first).chain((0..cores).filter(|&core| core != first)) {
            let wanted = core == first || (random.one_in(3) && !joined.same(first, core));
            let most = room[core].min(budget);
            if !wanted || most == 0 {
                continue;
            }
            units[core] = if random.one_in(3) { most } else { random.between(1, most) };
            room[core] -= units[core];
            budget -= units[core];
            if units[first] > 0 {
                joined.join(first, core);
            } else {
                // The first core was full, so nothing joins it to this one.
                break;
            }
        }
    }
    stretches::table(frame, &allocation)
}

/// Any stretches with gaps that never run a task twice at once.
fn from_stretches(random: &mut Random, frame: u64, cores: u64) -> Vec<Piece> {
    let mut pieces: Vec<Piece> = Vec::new();
    let tasks = random.pick(&[1, 2, 5, 64]);
    let longest = frame / random.between(1, 12) + 1;
    for core in 0..cores {
        let mut start = random.below(longest);
        while start < frame && pieces.len() < MOST_PIECES {
            let length = random.between(1, longest.min(frame - start));
            let piece = Piece { core, task: random.below(tasks), start, length };
            let clash = |other: &Piece| {
                other.task == piece.task && other.start < piece.end() && piece.start < other.end()
            };
            if !pieces.iter().any(clash) {
                pieces.push(piece);
            }
            start = piece.end() + if random.one_in(2) { 0 } else { random.below(longest) };
        }
    }
    pieces
}

/// Spoils one thing; now and then the table is still a frame table.
fn spoil(random: &mut Random, table: &mut Table) {
    let pieces = table.words.len() / 4;
    match random.below(12) {
        0 => table.frame = random.pick(&[0, 1, 1_000_000, 1_000_001, WORD]),
        1 => table.cores = random.pick(&[0, 1, 16, 17, WORD]),
        2 => table.frame -= u64::from(table.frame > 0),
        3 => table.words.truncate(table.words.len().saturating_sub(random.between(1, 3) as usize)),
        4 => (0..random.between(1, 3)).for_each(|_| table.words.push(0)),
        5 => too_many(random, table),
        6.. if pieces > 0 => spoil_piece(random, &mut table.words),
        _ => table.words = vec![0, 0, 0, random.pick(&[0, 1, table.frame, WORD])],
    }
}

fn spoil_piece(random: &mut Random, words: &mut Vec<u64>) {
    let piece = 4 * random.place(words.len() / 4);
    let other = 4 * random.place(words.len() / 4);
    match random.below(9) {
        0 => (0..4).for_each(|word| words.swap(piece + word, other + word)),
        1 => words[piece + 3] = (words[piece + 3] + 1).min(WORD),
        2 => words[piece + 3] = 0,
        3 => words[piece + 1] = words[other + 1],
        4 => words[piece + 1] = random.pick(&[63, 64, WORD]),
        5 => words[piece] = random.pick(&[0, 15, 16, WORD]),
        // A start and a length whose sum passes the last word.
        6 => {
            words[piece + 2] = WORD - random.below(4);
            words[piece + 3] = random.between(1, 8);
        }
        7 => {
            let copy = words[piece..piece + 4].to_vec();
            words.splice(piece..piece, copy);
        }
        _ => words[piece + random.place(4)] = random.below(WORD + 1),
    }
}

/// 95 or more pieces, of one unit each, in an order that is right.
fn too_many(random: &mut Random, table: &mut Table) {
    let count = random.pick(&[95, 96, 97, 200]);
    table.frame = table.frame.max(200);
    let piece = |start| Piece { core: 0, task: start % 64, start, length: 1 };
    table.words = to_words(&(0..count).map(piece).collect::<Vec<Piece>>());
}
