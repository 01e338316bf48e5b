//! Damage to a written line: most of it makes the line not well written.

use crate::call_line;
use crate::random::Random;

/// Damages a line whose shortest form has `head` digits and whose longest
/// allowed form has `most`.
pub fn line(random: &mut Random, mut line: Vec<u8>, head: usize, most: usize) -> Vec<u8> {
    match random.below(10) {
        0 => spoil_byte(random, &mut line[..head]),
        1 => spoil_byte(random, &mut line),
        2 => upper_case(random, &mut line),
        3 => line.truncate(line.len() - 1),
        4 => line.truncate(random.place(head)),
        5 => line.truncate(random.place(line.len() / 2) * 2),
        6 => line.clear(),
        7 => too_long(random, &mut line, most),
        8 => line.extend_from_slice(&b"000000000000"[..2 * random.between(1, 6) as usize]),
        _ => line.push(random.pick(b"\r 0f")),
    }
    line
}

/// Damages a line of `calls`; now and then it asks for another call.
pub fn call(random: &mut Random, mut line: Vec<u8>, head: usize) -> Vec<u8> {
    if random.one_in(10) {
        let place = random.place(2);
        line[place] = random.pick(b"0123456789abcdef");
        return line;
    }
    self::line(random, line, head, call_line::MOST_DIGITS)
}

fn spoil_byte(random: &mut Random, line: &mut [u8]) {
    let place = random.place(line.len());
    line[place] = bad_byte(random);
}

/// Often a neighbour of the digits, otherwise any byte but a line feed.
fn bad_byte(random: &mut Random) -> u8 {
    if random.one_in(2) {
        return random.pick(b"/:`g@AFG \r\0");
    }
    match random.below(256) as u8 {
        b'\n' => 0xff,
        byte => byte,
    }
}

fn upper_case(random: &mut Random, line: &mut [u8]) {
    let letters: Vec<usize> = (0..line.len()).filter(|&place| line[place] >= b'a').collect();
    if letters.is_empty() {
        let place = random.place(line.len());
        line[place] = b'A';
    } else {
        let place = random.pick(&letters);
        line[place] = line[place].to_ascii_uppercase();
    }
}

/// Just above the longest allowed length, or far above it.
fn too_long(random: &mut Random, line: &mut Vec<u8>, most: usize) {
    let above = random.pick(&[1, 2, 8, 12, 500, 5_000]);
    line.resize(most + above, b'0');
}
