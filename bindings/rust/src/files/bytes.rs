//! Sections of a file: a count, then so many entries.

/// What is left to take apart of some bytes.
pub struct Rest<'a>(&'a [u8]);

impl<'a> Rest<'a> {
    pub fn new(bytes: &'a [u8]) -> Rest<'a> {
        Rest(bytes)
    }

    /// A count of one byte.
    pub fn count(&mut self) -> Option<usize> {
        self.part(1).map(|part| usize::from(part[0]))
    }

    /// A count of two bytes, low byte first.
    pub fn wide_count(&mut self) -> Option<usize> {
        let part = self.part(2)?;
        Some(usize::from(part[0]) + 256 * usize::from(part[1]))
    }

    pub fn part(&mut self, length: usize) -> Option<&'a [u8]> {
        let part = self.0.get(..length)?;
        self.0 = &self.0[length..];
        Some(part)
    }

    pub fn is_empty(&self) -> bool {
        self.0.is_empty()
    }
}

/// A count as one byte; what is too large for a byte is out of every range, and so is 255.
pub fn count_byte(count: usize) -> u8 {
    u8::try_from(count).unwrap_or(u8::MAX)
}

/// A count as two bytes, low byte first; what is too large is out of every range, and so is 65,535.
pub fn count_bytes(count: usize) -> [u8; 2] {
    u16::try_from(count).unwrap_or(u16::MAX).to_le_bytes()
}
