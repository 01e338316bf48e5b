//! Lowercase hexadecimal, big-endian: the writing of every line.

/// The bytes a line stands for, or nothing if it has a byte other than
/// `0` to `9` and `a` to `f`, or an odd number of digits.
pub fn decode(line: &[u8]) -> Option<Vec<u8>> {
    if !line.len().is_multiple_of(2) {
        return None;
    }
    line.chunks_exact(2).map(|pair| Some(digit(pair[0])? * 16 + digit(pair[1])?)).collect()
}

fn digit(byte: u8) -> Option<u8> {
    match byte {
        b'0'..=b'9' => Some(byte - b'0'),
        b'a'..=b'f' => Some(byte - b'a' + 10),
        _ => None,
    }
}

/// Writes `number` in `width` bytes, two digits each, at the end of `line`.
pub fn push(line: &mut Vec<u8>, number: u64, width: u32) {
    for place in (0..2 * width).rev() {
        let value = (number >> (4 * place)) & 15;
        line.push(b"0123456789abcdef"[value as usize]);
    }
}

/// Hands out one number after another from decoded bytes.
pub struct Fields<'a> {
    rest: &'a [u8],
}

impl<'a> Fields<'a> {
    pub fn new(bytes: &'a [u8]) -> Self {
        Fields { rest: bytes }
    }

    /// The next `width` bytes as a number, or nothing if fewer are left.
    pub fn number(&mut self, width: usize) -> Option<u64> {
        if self.rest.len() < width {
            return None;
        }
        let (field, rest) = self.rest.split_at(width);
        self.rest = rest;
        Some(field.iter().fold(0, |sum, &byte| sum << 8 | u64::from(byte)))
    }

    /// The next `count` numbers of `width` bytes each.
    pub fn numbers(&mut self, count: usize, width: usize) -> Option<Vec<u64>> {
        (0..count).map(|_| self.number(width)).collect()
    }

    pub fn left(&self) -> usize {
        self.rest.len()
    }
}
