//! Frame tables: what counts as one, and its moves.

use crate::set::MOST_TASKS;

pub const MOST_PIECES: usize = 95;

/// All numbers are wide enough that start + length of lent words is exact.
#[derive(Clone, Copy, Debug, PartialEq, Eq)]
pub struct Piece {
    pub core: u64,
    pub task: u64,
    pub start: u64,
    pub length: u64,
}

impl Piece {
    pub fn end(&self) -> u64 {
        self.start + self.length
    }
}

/// The pieces of a flat list of words, or nothing if it ends inside a piece.
pub fn from_words(words: &[u64]) -> Option<Vec<Piece>> {
    if !words.len().is_multiple_of(4) {
        return None;
    }
    let piece =
        |word: &[u64]| Piece { core: word[0], task: word[1], start: word[2], length: word[3] };
    Some(words.chunks_exact(4).map(piece).collect())
}

pub fn to_words(pieces: &[Piece]) -> Vec<u64> {
    let words = |piece: &Piece| [piece.core, piece.task, piece.start, piece.length];
    pieces.iter().flat_map(words).collect()
}

/// Says why the pieces are not a frame table, if they are not.
pub fn frame_table(frame: u64, cores: u64, pieces: &[Piece]) -> Result<(), String> {
    if pieces.len() > MOST_PIECES {
        return Err(format!("{} pieces are more than {MOST_PIECES}", pieces.len()));
    }
    for (number, piece) in pieces.iter().enumerate() {
        piece_in_bounds(frame, cores, piece).map_err(|why| format!("piece {number}: {why}"))?;
    }
    for (number, pair) in pieces.windows(2).enumerate() {
        if (pair[0].core, pair[0].start) > (pair[1].core, pair[1].start) {
            return Err(format!("piece {} is out of order", number + 1));
        }
        if pair[0].core == pair[1].core && pair[0].end() > pair[1].start {
            return Err(format!("piece {} overlaps the one before on its core", number + 1));
        }
    }
    for task in 0..MOST_TASKS as u64 {
        if pieces_of(task, pieces).windows(2).any(|pair| pair[0].end() > pair[1].start) {
            return Err(format!("task {task} runs twice at once"));
        }
    }
    Ok(())
}

fn piece_in_bounds(frame: u64, cores: u64, piece: &Piece) -> Result<(), String> {
    if piece.core >= cores {
        return Err(format!("core {} is not below {cores}", piece.core));
    }
    if piece.task >= MOST_TASKS as u64 {
        return Err(format!("task {} is not below {MOST_TASKS}", piece.task));
    }
    if piece.length == 0 {
        return Err("its length is 0".to_string());
    }
    if piece.end() > frame {
        return Err(format!("it ends at {} after the frame's end {frame}", piece.end()));
    }
    Ok(())
}

/// One task's pieces by start within the frame.
pub fn pieces_of(task: u64, pieces: &[Piece]) -> Vec<Piece> {
    let mut own: Vec<Piece> = pieces.iter().copied().filter(|piece| piece.task == task).collect();
    own.sort_by_key(|piece| piece.start);
    own
}

/// The move count of a frame table: pieces whose core differs from the
/// piece of the same task before it, summed over tasks.
pub fn moves(pieces: &[Piece]) -> u64 {
    let of_task = |task: usize| {
        let own = pieces_of(task as u64, pieces);
        own.windows(2).filter(|pair| pair[0].core != pair[1].core).count() as u64
    };
    (0..MOST_TASKS).map(of_task).sum()
}
