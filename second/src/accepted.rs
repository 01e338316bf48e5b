//! Takes the table of an accepted answer apart.

use crate::allocation::Allocation;
use crate::answers::shown;
use crate::hex::{decode, push, Fields};
use crate::set::Set;
use crate::stretches;
use crate::table::{frame_table, Piece};

/// Says why an answer to a set without overload is wrong, if it is.
pub fn judge(set: &Set, output: &[u8]) -> Result<(), String> {
    let Some(pieces) = read(output) else {
        return Err(format!("wanted an accepted answer, found {}", shown(output)));
    };
    frame_table(set.frame, set.cores, &pieces)?;
    let tasks = set.tasks.len();
    if let Some(piece) = pieces.iter().find(|piece| piece.task >= tasks as u64) {
        return Err(format!("task {} has a piece but only {tasks} tasks are given", piece.task));
    }
    let cores = set.cores as usize;
    let allocation = Allocation::from_pieces(tasks, cores, &pieces);
    allocation.fits(set)?;
    if !allocation.is_loop_free() {
        return Err("the allocation has a loop".to_string());
    }
    let extra = allocation.extra_assignments();
    if extra > cores - 1 {
        return Err(format!("{extra} extra assignments are more than m - 1 = {}", cores - 1));
    }
    let most = tasks + 2 * cores - 1;
    if pieces.len() > most {
        return Err(format!("{} pieces are more than n + 2m - 1 = {most}", pieces.len()));
    }
    fixed_choices(set.frame, &allocation, &pieces)
}

/// Lays the allocation out anew and compares piece by piece.
fn fixed_choices(frame: u64, allocation: &Allocation, pieces: &[Piece]) -> Result<(), String> {
    let wanted = stretches::table(frame, allocation);
    for (number, (wanted, found)) in wanted.iter().zip(pieces).enumerate() {
        if wanted != found {
            return Err(format!(
                "piece {number} is not where the allocation puts it: wanted {}, found {}",
                told(wanted),
                told(found)
            ));
        }
    }
    if wanted.len() != pieces.len() {
        let (wanted, found) = (wanted.len(), pieces.len());
        return Err(format!("the allocation makes {wanted} pieces, found {found}"));
    }
    Ok(())
}

fn told(piece: &Piece) -> String {
    let Piece { core, task, start, length } = piece;
    format!("core {core} task {task} start {start} length {length}")
}

/// The pieces of an accepted answer, or nothing if it is not written as one.
pub fn read(output: &[u8]) -> Option<Vec<Piece>> {
    let bytes = decode(output)?;
    let mut fields = Fields::new(&bytes);
    if fields.number(1)? != 0 {
        return None;
    }
    let count = fields.number(2)? as usize;
    if fields.left() != 10 * count {
        return None;
    }
    let mut pieces = Vec::new();
    for _ in 0..count {
        pieces.push(Piece {
            core: fields.number(1)?,
            task: fields.number(1)?,
            start: fields.number(4)?,
            length: fields.number(4)?,
        });
    }
    Some(pieces)
}

/// The line of an accepted answer.
pub fn write(pieces: &[Piece]) -> Vec<u8> {
    let mut line = b"00".to_vec();
    push(&mut line, pieces.len() as u64, 2);
    for piece in pieces {
        push(&mut line, piece.core, 1);
        push(&mut line, piece.task, 1);
        push(&mut line, piece.start, 4);
        push(&mut line, piece.length, 4);
    }
    line
}
