//! Pairs of input and output lines, judged one after another.

use std::io::{self, BufRead};

/// A way to judge one pair of lines.
pub type Judge = fn(&[u8], &[u8]) -> Result<(), String>;

pub enum Outcome {
    AllRight(u64),
    /// The line's number, from 1, and why it is wrong.
    Wrong(u64, String),
}

/// Where reading failed.
pub enum Unread {
    Input(io::Error),
    Output(io::Error),
}

/// A line without its line feed, and whether it had one.
struct Line {
    bytes: Vec<u8>,
    ended: bool,
}

/// The next line; a last line without a line feed counts if it has a byte.
fn next(from: &mut impl BufRead) -> io::Result<Option<Line>> {
    let mut bytes = Vec::new();
    if from.read_until(b'\n', &mut bytes)? == 0 {
        return Ok(None);
    }
    let ended = bytes.last() == Some(&b'\n');
    if ended {
        bytes.pop();
    }
    Ok(Some(Line { bytes, ended }))
}

/// Judges pairs up to the first wrong one. There is one answer line, ended by
/// a line feed, for each input line.
pub fn judge_all(
    mut input: impl BufRead,
    mut output: impl BufRead,
    judge: Judge,
) -> Result<Outcome, Unread> {
    let mut judged = 0;
    loop {
        let asked = next(&mut input).map_err(Unread::Input)?;
        let answered = next(&mut output).map_err(Unread::Output)?;
        let verdict = match (asked, answered) {
            (None, None) => return Ok(Outcome::AllRight(judged)),
            (Some(_), None) => Err("the input line has no answer".to_string()),
            (None, Some(_)) => Err("an answer without an input line".to_string()),
            (Some(_), Some(answer)) if !answer.ended => {
                Err("the answer is not ended by a line feed".to_string())
            }
            (Some(asked), Some(answer)) => judge(&asked.bytes, &answer.bytes),
        };
        judged += 1;
        if let Err(why) = verdict {
            return Ok(Outcome::Wrong(judged, why));
        }
    }
}
