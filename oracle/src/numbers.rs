//! Seven-bit numbers (document 01, "The plan file and its line").

/// The greatest number a stream or a plan file may hold.
pub const GREATEST: u64 = 4_294_967_295;

/// A place in bytes that hold one number after another.
pub struct Cursor<'a> {
    bytes: &'a [u8],
    offset: usize,
}

impl<'a> Cursor<'a> {
    pub fn new(bytes: &'a [u8]) -> Self {
        Cursor { bytes, offset: 0 }
    }

    pub fn offset(&self) -> usize {
        self.offset
    }

    pub fn at_end(&self) -> bool {
        self.offset >= self.bytes.len()
    }

    /// The next number. If it is padded, too large, too long or unfinished, the offset of its
    /// first byte; if it is missing whole, the length, which is where that byte would be.
    pub fn number(&mut self) -> Result<u64, usize> {
        let first = self.offset;
        let mut value = 0;
        // Five groups of seven bits hold every number up to GREATEST: a sixth is too long.
        for group in 0..5 {
            let Some(&byte) = self.bytes.get(first + group) else {
                return Err(first);
            };
            value |= u64::from(byte & 0x7f) << (7 * group);
            if byte & 0x80 == 0 {
                let padded = group > 0 && byte == 0;
                if padded || value > GREATEST {
                    return Err(first);
                }
                self.offset = first + group + 1;
                return Ok(value);
            }
        }
        Err(first)
    }

    /// The next number if it is at most `limit`; else the offset of its first byte.
    pub fn number_up_to(&mut self, limit: u64) -> Result<u64, usize> {
        let first = self.offset;
        match self.number()? {
            value if value > limit => Err(first),
            value => Ok(value),
        }
    }
}

/// Appends a number in its fewest bytes, low group first.
pub fn push_number(bytes: &mut Vec<u8>, value: u64) {
    let mut rest = value;
    while rest >= 0x80 {
        bytes.push(0x80 | (rest & 0x7f) as u8);
        rest >>= 7;
    }
    bytes.push(rest as u8);
}

/// The bytes of a list of numbers, one after another.
pub fn encode(numbers: &[u64]) -> Vec<u8> {
    let mut bytes = Vec::new();
    for &number in numbers {
        push_number(&mut bytes, number);
    }
    bytes
}

#[cfg(test)]
mod tests {
    use super::*;

    fn read(bytes: &[u8]) -> Result<u64, usize> {
        Cursor::new(bytes).number()
    }

    #[test]
    fn numbers_of_each_size() {
        assert_eq!(read(&[0]), Ok(0));
        assert_eq!(read(&[0x7f]), Ok(127));
        assert_eq!(read(&[0x80, 0x01]), Ok(128));
        assert_eq!(read(&[0xff, 0xff, 0xff, 0xff, 0x0f]), Ok(4_294_967_295));
    }

    #[test]
    fn bad_numbers() {
        assert_eq!(read(&[]), Err(0));
        assert_eq!(read(&[0x80]), Err(0), "unfinished");
        assert_eq!(read(&[0x80, 0x00]), Err(0), "padded zero");
        assert_eq!(read(&[0xff, 0x00]), Err(0), "padded 127");
        assert_eq!(read(&[0x80, 0x80, 0x80, 0x80, 0x10]), Err(0), "too large");
        assert_eq!(read(&[0x81, 0x80, 0x80, 0x80, 0x80, 0x00]), Err(0), "long");
    }

    #[test]
    fn writing_is_the_inverse_of_reading() {
        for value in (0..70_000).chain([2_097_151, 2_097_152, GREATEST]) {
            assert_eq!(read(&encode(&[value])), Ok(value));
        }
    }
}
