//! Lines of the table check and the move count. In, after the call: F (4
//! bytes), m (4), then the table's words (4 each). Out: the number (1); a move
//! count adds it (4).

use crate::call_line::Call;
use crate::hex::{push, Fields};
use crate::set::size_refusal;
use crate::table::{frame_table, from_words, moves, Piece};

/// The right answer of the table check; nothing if the fields do not end with
/// a word.
pub fn check(fields: Fields) -> Option<Vec<u8>> {
    Some(match table(fields)? {
        Ok(_) => b"00".to_vec(),
        Err(number) => number_line(number),
    })
}

/// The right answer of the move count.
pub fn count(fields: Fields) -> Option<Vec<u8>> {
    Some(match table(fields)? {
        Ok(pieces) => {
            let mut answer = b"00".to_vec();
            push(&mut answer, moves(&pieces), 4);
            answer
        }
        Err(number) => number_line(number),
    })
}

fn number_line(number: u8) -> Vec<u8> {
    let mut line = Vec::new();
    push(&mut line, number.into(), 1);
    line
}

fn table(mut fields: Fields) -> Option<Result<Vec<Piece>, u8>> {
    let frame = fields.number(4)?;
    let cores = fields.number(4)?;
    if !fields.left().is_multiple_of(4) {
        return None;
    }
    let words = fields.numbers(fields.left() / 4, 4)?;
    Some(lent_table(frame, cores, &words))
}

/// Tests 1, 2 and 8 over lent words.
pub fn lent_table(frame: u64, cores: u64, words: &[u64]) -> Result<Vec<Piece>, u8> {
    if let Some(number) = size_refusal(frame, cores) {
        return Err(number);
    }
    let pieces = from_words(words).ok_or(8)?;
    frame_table(frame, cores, &pieces).map_err(|_| 8)?;
    Ok(pieces)
}

/// Writes an input line of the table check or the move count.
pub fn write(call: Call, frame: u64, cores: u64, words: &[u64]) -> Vec<u8> {
    let mut line = call.begin();
    push(&mut line, frame, 4);
    push(&mut line, cores, 4);
    for &word in words {
        push(&mut line, word, 4);
    }
    line
}
