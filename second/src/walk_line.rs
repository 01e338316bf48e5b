//! Lines of the job walker. In, after the call: F (4 bytes), m (4), task (4),
//! then the counts of words, releases and units and the finish room (2 each),
//! then the words (4 each), releases (8 each) and units (4 each). Out: the
//! number (1); for 9 and 10 the job (4); for 0 the finishes (8 each).

use crate::call_line::Call;
use crate::hex::{push, Fields};
use crate::jobs::{walk, Walked};
use crate::table_line::lent_table;

/// One walk as a line lends it.
#[derive(Clone, Debug)]
pub struct Walk {
    pub frame: u64,
    pub cores: u64,
    pub task: u64,
    pub room: usize,
    pub words: Vec<u64>,
    pub releases: Vec<u64>,
    pub units: Vec<u64>,
}

/// The right answer of the walker: tests 1, 2, 8, 9, 10, 11. Nothing if the
/// counts do not give the line's length.
pub fn finishes(fields: Fields) -> Option<Vec<u8>> {
    let lent = read(fields)?;
    let mut answer = Vec::new();
    let pieces = match lent_table(lent.frame, lent.cores, &lent.words) {
        Ok(pieces) => pieces,
        Err(number) => {
            push(&mut answer, number.into(), 1);
            return Some(answer);
        }
    };
    let jobs = (&lent.releases[..], &lent.units[..]);
    match walk(lent.frame, &pieces, lent.task, jobs, lent.room) {
        Walked::BadList(job) => push_with_job(&mut answer, 9, job),
        Walked::NoUnits(job) => push_with_job(&mut answer, 10, job),
        Walked::NoRoom => push(&mut answer, 11, 1),
        Walked::Finishes(finishes) => {
            push(&mut answer, 0, 1);
            finishes.iter().for_each(|&finish| push(&mut answer, finish, 8));
        }
    }
    Some(answer)
}

fn push_with_job(answer: &mut Vec<u8>, number: u64, job: usize) {
    push(answer, number, 1);
    push(answer, job as u64, 4);
}

fn read(mut fields: Fields) -> Option<Walk> {
    let frame = fields.number(4)?;
    let cores = fields.number(4)?;
    let task = fields.number(4)?;
    let counts = fields.numbers(4, 2)?;
    let count = |place: usize| counts[place] as usize;
    let words = fields.numbers(count(0), 4)?;
    let releases = fields.numbers(count(1), 8)?;
    let units = fields.numbers(count(2), 4)?;
    if fields.left() != 0 {
        return None;
    }
    Some(Walk { frame, cores, task, room: count(3), words, releases, units })
}

/// Writes an input line of the walker.
pub fn write(walk: &Walk) -> Vec<u8> {
    let mut line = Call::Walk.begin();
    for number in [walk.frame, walk.cores, walk.task] {
        push(&mut line, number, 4);
    }
    for count in [walk.words.len(), walk.releases.len(), walk.units.len(), walk.room] {
        push(&mut line, count as u64, 2);
    }
    walk.words.iter().for_each(|&word| push(&mut line, word, 4));
    walk.releases.iter().for_each(|&release| push(&mut line, release, 8));
    walk.units.iter().for_each(|&asked| push(&mut line, asked, 4));
    line
}
