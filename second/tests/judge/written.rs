//! Sets written as lines, and what the judge says of answers to them.

use crate::planner;
use second::answers::judge;
use second::hex::push;

/// The line of a set, each task a budget and a mask.
pub fn input(frame: u64, cores: u64, tasks: &[(u64, u64)]) -> Vec<u8> {
    let mut line = Vec::new();
    push(&mut line, frame, 4);
    push(&mut line, cores, 1);
    push(&mut line, tasks.len() as u64, 1);
    for &(budget, mask) in tasks {
        push(&mut line, budget, 4);
        push(&mut line, mask, 2);
    }
    line
}

pub fn right(input: &[u8], output: &str) {
    assert_eq!(judge(input, output.as_bytes()), Ok(()));
    assert_eq!(planner::answer(input), output.as_bytes());
}

pub fn wrong(input: &[u8], output: &str) {
    assert!(judge(input, output.as_bytes()).is_err(), "{output} passes");
}
