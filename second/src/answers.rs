//! Judges one answer of the planner against its input line.

use crate::accepted;
use crate::hex::push;
use crate::overload::{overload, Overload};
use crate::set::{self, Refusal, Set};

/// What documents 01 and 02 ask for an input line.
pub enum Wanted {
    /// A refusal or an overload, which has one right line.
    Line(Vec<u8>),
    /// An accepted set; its table is judged.
    Table(Set),
}

/// Tests 12 first, then `Set::refusal`, then 7. 6 can't occur in the program.
pub fn wanted(input: &[u8]) -> Wanted {
    let Some(set) = set::read(input) else {
        return Wanted::Line(b"0c".to_vec());
    };
    if let Some(refusal) = set.refusal() {
        return Wanted::Line(refusal_line(refusal));
    }
    match overload(&set) {
        Some(overload) => Wanted::Line(overload_line(overload)),
        None => Wanted::Table(set),
    }
}

fn refusal_line(refusal: Refusal) -> Vec<u8> {
    let fields = match refusal {
        Refusal::Plain(number) => vec![number.into()],
        Refusal::Task(number, task) => vec![number.into(), task as u64],
        Refusal::MissingCore(task, core) => vec![13, task as u64, core],
    };
    let mut line = Vec::new();
    fields.into_iter().for_each(|field| push(&mut line, field, 1));
    line
}

fn overload_line(overload: Overload) -> Vec<u8> {
    let mut line = b"07".to_vec();
    push(&mut line, overload.group, 8);
    push(&mut line, overload.cores.into(), 2);
    line
}

/// Says why an answer is wrong, if it is.
pub fn judge(input: &[u8], output: &[u8]) -> Result<(), String> {
    match wanted(input) {
        Wanted::Line(line) => same_line(&line, output),
        Wanted::Table(set) => accepted::judge(&set, output),
    }
}

/// Compares a line that has one right form.
pub fn same_line(wanted: &[u8], found: &[u8]) -> Result<(), String> {
    if wanted == found {
        return Ok(());
    }
    Err(format!("wanted {}, found {}", shown(wanted), shown(found)))
}

/// A line for a person: no control bytes, and its front only if it is long.
pub fn shown(line: &[u8]) -> String {
    const MOST: usize = 60;
    if line.is_empty() {
        return "an empty line".to_string();
    }
    let front = line[..line.len().min(MOST)].escape_ascii();
    match line.len() {
        0..=MOST => format!("`{front}`"),
        long => format!("`{front}...` of {long} bytes"),
    }
}
