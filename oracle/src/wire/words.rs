//! Words and byte strings: how a line is taken apart and put together.

/// Why a line is not a request.
#[derive(Debug, Clone, Copy, PartialEq, Eq)]
pub struct Malformed(pub &'static str);

/// The fields of a line that are still to be read.
pub struct Words<'l> {
    rest: &'l [u8],
}

impl<'l> Words<'l> {
    #[must_use]
    pub fn new(line: &'l [u8]) -> Self {
        Self { rest: line }
    }

    /// The next field, up to a space or the end of the line.
    fn field(&mut self) -> Result<&'l [u8], Malformed> {
        let length = self.rest.iter().position(|byte| *byte == b' ');
        let (field, rest) = match length {
            Some(length) => (&self.rest[..length], &self.rest[length + 1..]),
            None => (self.rest, &[][..]),
        };
        self.rest = rest;
        if field.is_empty() {
            Err(Malformed("a field is missing"))
        } else {
            Ok(field)
        }
    }

    /// A number of at most 64 bits.
    pub fn word(&mut self) -> Result<u64, Malformed> {
        let field = self.field()?;
        if field.len() > 16 {
            return Err(Malformed("a number has more than 16 digits"));
        }
        let mut value = 0;
        for digit in field {
            value = value << 4 | u64::from(nibble(*digit)?);
        }
        Ok(value)
    }

    /// A number below `limit`, which is at most 256.
    #[allow(clippy::cast_possible_truncation)]
    pub fn below(&mut self, limit: u64) -> Result<u8, Malformed> {
        match self.word()? {
            value if value < limit => Ok(value as u8),
            _ => Err(Malformed("a number is too large for its field")),
        }
    }

    /// 128 bits, as two words: the low one first.
    pub fn wide(&mut self) -> Result<u128, Malformed> {
        let low = self.word()?;
        let high = self.word()?;
        Ok(u128::from(high) << 64 | u128::from(low))
    }

    /// A byte string: its length, then its digits unless it is empty. The bytes go into `buffer`.
    pub fn bytes<'b>(&mut self, buffer: &'b mut Vec<u8>) -> Result<&'b [u8], Malformed> {
        buffer.clear();
        let length = self.word()?;
        if length > 0 {
            let digits = self.field()?;
            if digits.len() as u64 != length.saturating_mul(2) {
                return Err(Malformed("a byte string has another length than it says"));
            }
            for pair in digits.chunks_exact(2) {
                buffer.push(nibble(pair[0])? << 4 | nibble(pair[1])?);
            }
        }
        Ok(buffer)
    }

    /// Refuses a line that has more fields than its code asks for.
    pub fn end(&self) -> Result<(), Malformed> {
        if self.rest.is_empty() {
            Ok(())
        } else {
            Err(Malformed("the line has more fields than its code asks for"))
        }
    }
}

fn nibble(digit: u8) -> Result<u8, Malformed> {
    match digit {
        b'0'..=b'9' => Ok(digit - b'0'),
        b'a'..=b'f' => Ok(digit - b'a' + 10),
        _ => Err(Malformed("a digit is not one of 0 to 9 and a to f")),
    }
}

const DIGITS: &[u8; 16] = b"0123456789abcdef";

/// Puts a number on the line, after a space unless it is the first.
pub fn put_word(line: &mut Vec<u8>, value: u64) {
    put_space(line);
    let digits = (64 - value.leading_zeros()).div_ceil(4).max(1);
    for place in (0..digits).rev() {
        line.push(DIGITS[(value >> (4 * place) & 15) as usize]);
    }
}

/// Puts 128 bits on the line as two words, the low one first.
#[allow(clippy::cast_possible_truncation)]
pub fn put_wide(line: &mut Vec<u8>, value: u128) {
    put_word(line, value as u64);
    put_word(line, (value >> 64) as u64);
}

/// Puts a byte string on the line: its length, then its digits unless it is empty.
pub fn put_bytes(line: &mut Vec<u8>, bytes: &[u8]) {
    put_word(line, bytes.len() as u64);
    if !bytes.is_empty() {
        put_space(line);
        for byte in bytes {
            line.push(DIGITS[usize::from(byte >> 4)]);
            line.push(DIGITS[usize::from(byte & 15)]);
        }
    }
}

fn put_space(line: &mut Vec<u8>) {
    if !line.is_empty() {
        line.push(b' ');
    }
}
