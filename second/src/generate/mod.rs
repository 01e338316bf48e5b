//! Random and damaged input lines, the same for the same seed.

mod damage;
mod faults;
mod masks;
mod plans;
mod sets;
mod tables;
mod walks;

use crate::call_line::Call;
use crate::random::Random;
use std::io::{self, Write};

#[derive(Clone, Copy, Debug, PartialEq, Eq)]
pub enum Kind {
    Plan,
    Call(Call),
}

impl Kind {
    pub fn named(name: &str) -> Option<Kind> {
        match name {
            "plan" => Some(Kind::Plan),
            "check" => Some(Kind::Call(Call::Check)),
            "moves" => Some(Kind::Call(Call::Moves)),
            "walk" => Some(Kind::Call(Call::Walk)),
            _ => None,
        }
    }
}

/// One input line without its line feed.
pub fn line(kind: Kind, random: &mut Random) -> Vec<u8> {
    match kind {
        Kind::Plan => plans::line(random),
        Kind::Call(Call::Walk) => walks::line(random),
        Kind::Call(call) => tables::line(random, call),
    }
}

/// Writes `count` lines.
pub fn write(kind: Kind, count: u64, seed: u64, mut to: impl Write) -> io::Result<()> {
    let mut random = Random::new(seed);
    for _ in 0..count {
        let mut line = line(kind, &mut random);
        line.push(b'\n');
        to.write_all(&line)?;
    }
    to.flush()
}
