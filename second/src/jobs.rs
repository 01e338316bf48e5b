//! The job walker: bad job lists, and the finishes of a good one.

use crate::table::{pieces_of, Piece};

pub const MOST_JOBS: usize = 4_096;
pub const MOST_RELEASE: u64 = 1_000_000_000_000;
pub const MOST_UNITS: u64 = 1_000_000;

#[derive(Clone, Debug, PartialEq, Eq)]
pub enum Walked {
    /// Answer 9 with its job.
    BadList(usize),
    /// Answer 10 with the first job that asks units.
    NoUnits(usize),
    /// Answer 11.
    NoRoom,
    Finishes(Vec<u64>),
}

/// Walks the jobs of one task over a frame table: tests 9, 10, 11.
pub fn walk(
    frame: u64,
    pieces: &[Piece],
    task: u64,
    (releases, units): (&[u64], &[u64]),
    room: usize,
) -> Walked {
    if let Some(job) = bad_job(releases, units) {
        return Walked::BadList(job);
    }
    let supply = Supply::of(frame, task, pieces);
    if supply.per_frame() == 0 {
        if let Some(job) = units.iter().position(|&asked| asked > 0) {
            return Walked::NoUnits(job);
        }
    }
    if room < releases.len() {
        return Walked::NoRoom;
    }
    let mut clock = 0;
    let mut finishes = Vec::new();
    for (&release, &asked) in releases.iter().zip(units) {
        clock = supply.finish(release.max(clock), asked);
        finishes.push(clock);
    }
    Walked::Finishes(finishes)
}

/// The job carried by answer 9, if the list is bad.
fn bad_job(releases: &[u64], units: &[u64]) -> Option<usize> {
    if releases.len() != units.len() || releases.len() > MOST_JOBS {
        return Some(0);
    }
    (0..releases.len()).find(|&job| {
        let falls = job > 0 && releases[job] < releases[job - 1];
        falls || releases[job] > MOST_RELEASE || units[job] > MOST_UNITS
    })
}

/// The units one task has, as (start, length) by start within the frame.
struct Supply {
    frame: u64,
    spans: Vec<(u64, u64)>,
}

impl Supply {
    fn of(frame: u64, task: u64, pieces: &[Piece]) -> Self {
        let own = pieces_of(task, pieces);
        let spans = own.iter().map(|piece| (piece.start, piece.length)).collect();
        Supply { frame, spans }
    }

    fn per_frame(&self) -> u64 {
        self.spans.iter().map(|&(_, length)| length).sum()
    }

    /// How many units the task has before an instant.
    fn before(&self, instant: u64) -> u64 {
        let (frames, within) = (instant / self.frame, instant % self.frame);
        let part = |&(start, length): &(u64, u64)| within.saturating_sub(start).min(length);
        frames * self.per_frame() + self.spans.iter().map(part).sum::<u64>()
    }

    /// The least instant, not before the begin, by which the units asked have
    /// come: just after the last of them.
    fn finish(&self, begin: u64, asked: u64) -> u64 {
        if asked == 0 {
            return begin;
        }
        let last = self.before(begin) + asked - 1;
        let frame = last / self.per_frame();
        frame * self.frame + self.instant_of(last % self.per_frame()) + 1
    }

    /// The instant within the frame of the unit with this number, from 0.
    fn instant_of(&self, number: u64) -> u64 {
        let mut left = number;
        for &(start, length) in &self.spans {
            if left < length {
                return start + left;
            }
            left -= length;
        }
        unreachable!("the number is below the units of one frame")
    }
}
