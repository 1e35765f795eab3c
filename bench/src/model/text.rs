//! Lines and numbers of a text, as jobs and captures have them.

/// No text may have more bytes.
pub const LONGEST: usize = 65_536;

/// A text line by line, with the number of the line that was read last.
pub struct Lines<'a> {
    rest: &'a [u8],
    pub number: usize,
}

impl<'a> Lines<'a> {
    pub fn of(text: &'a [u8]) -> Lines<'a> {
        Lines { rest: text, number: 0 }
    }

    /// Whether nothing is left to be read.
    pub fn ended(&self) -> bool {
        self.rest.is_empty()
    }

    /// The next line without its LF; none if it does not end in one.
    pub fn next_line(&mut self) -> Option<&'a [u8]> {
        self.number += 1;
        let end = self.rest.iter().position(|&byte| byte == b'\n')?;
        let line = &self.rest[..end];
        self.rest = &self.rest[end + 1..];
        Some(line)
    }
}

/// Decimal up to 4,294,967,295, with no leading zero.
pub fn number(digits: &[u8]) -> Option<u32> {
    if digits.is_empty() || (digits[0] == b'0' && digits.len() > 1) {
        return None;
    }
    let mut value: u32 = 0;
    for &digit in digits {
        if !digit.is_ascii_digit() {
            return None;
        }
        value = value.checked_mul(10)?.checked_add((digit - b'0') as u32)?;
    }
    Some(value)
}
