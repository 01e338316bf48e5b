//! The planner's C call on the sets' lines.

use crate::sets::{line, Set};
use crate::times::Times;

const OUTPUT: usize = 1_906;

extern "C" {
    fn aurhennig_plan_line(
        input: *const u8,
        input_len: usize,
        output: *mut u8,
        output_len: usize,
    ) -> usize;
}

/// Times the call on every set. Its verdicts must be the flow's.
pub fn times(sets: &[Set], accepted: &[bool]) -> Result<Times, String> {
    let lines: Vec<Vec<u8>> = sets.iter().map(line).collect();
    let mut output = [0_u8; OUTPUT];
    let (times, numbers) = Times::of(&lines, |line| {
        // Both slices are alive and of the lengths told.
        let written = unsafe {
            aurhennig_plan_line(line.as_ptr(), line.len(), output.as_mut_ptr(), output.len())
        };
        (written, [output[0], output[1]])
    });
    for (place, (&(written, number), &accepted)) in numbers.iter().zip(accepted).enumerate() {
        let wanted = if accepted { b"00" } else { b"07" };
        if written < 2 || &number != wanted {
            let number = number.escape_ascii();
            return Err(format!(
                "set {place}: the line call wrote {written} bytes, number {number}"
            ));
        }
    }
    Ok(times)
}
