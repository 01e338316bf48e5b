//! Lines of the program `calls`. In: the call (1 byte), then what it is lent.

use crate::hex::{decode, push, Fields};
use crate::{table_line, walk_line};

/// 4,098 jobs over a table of 19 pieces, so that a list of too many jobs fits.
pub const MOST_DIGITS: usize = 99_002;

#[derive(Clone, Copy, Debug, PartialEq, Eq)]
pub enum Call {
    Check,
    Moves,
    Walk,
}

impl Call {
    fn numbered(number: u64) -> Option<Call> {
        match number {
            1 => Some(Call::Check),
            2 => Some(Call::Moves),
            3 => Some(Call::Walk),
            _ => None,
        }
    }

    fn number(self) -> u64 {
        match self {
            Call::Check => 1,
            Call::Moves => 2,
            Call::Walk => 3,
        }
    }

    /// The front of an input line.
    pub fn begin(self) -> Vec<u8> {
        let mut line = Vec::new();
        push(&mut line, self.number(), 1);
        line
    }
}

/// The right answer of a line; 12 if it is not well written.
pub fn answer(line: &[u8]) -> Vec<u8> {
    called(line).unwrap_or_else(|| b"0c".to_vec())
}

fn called(line: &[u8]) -> Option<Vec<u8>> {
    if line.len() > MOST_DIGITS {
        return None;
    }
    let bytes = decode(line)?;
    let mut fields = Fields::new(&bytes);
    match Call::numbered(fields.number(1)?)? {
        Call::Check => table_line::check(fields),
        Call::Moves => table_line::count(fields),
        Call::Walk => walk_line::finishes(fields),
    }
}
