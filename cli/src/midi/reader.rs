//! The bytes of a MIDI file, read one after the other; none is read past the end.

/// What is wrong with a file, and at which byte.
#[derive(Clone, Debug, PartialEq, Eq)]
pub struct Damage {
    pub byte: usize,
    pub words: &'static str,
}

pub type Read<T> = Result<T, Damage>;

/// A part of a file, and the place of its next byte in the whole.
#[derive(Clone, Copy, Debug)]
pub struct Reader<'a> {
    rest: &'a [u8],
    at: usize,
}

/// A number of variable length has at most so many bytes.
const LONGEST_NUMBER: usize = 4;

impl<'a> Reader<'a> {
    pub fn new(bytes: &'a [u8]) -> Reader<'a> {
        Reader { rest: bytes, at: 0 }
    }

    pub fn is_empty(&self) -> bool {
        self.rest.is_empty()
    }

    pub fn damage(&self, words: &'static str) -> Damage {
        Damage { byte: self.at, words }
    }

    /// The next bytes, so many, as a part of their own.
    pub fn part(&mut self, count: usize) -> Read<Reader<'a>> {
        let Some((part, rest)) = self.rest.split_at_checked(count) else {
            return Err(Damage { byte: self.at + self.rest.len(), words: "the file ends early" });
        };
        let part = Reader { rest: part, at: self.at };
        (self.rest, self.at) = (rest, self.at + count);
        Ok(part)
    }

    pub fn bytes(&mut self, count: usize) -> Read<&'a [u8]> {
        self.part(count).map(|part| part.rest)
    }

    pub fn byte(&mut self) -> Read<u8> {
        self.bytes(1).map(|bytes| bytes[0])
    }

    /// The next byte, which stays.
    pub fn peek(&self) -> Option<u8> {
        self.rest.first().copied()
    }

    /// A number of so many bytes, high byte first.
    pub fn number(&mut self, size: usize) -> Read<u32> {
        Ok(self.bytes(size)?.iter().fold(0, |number, &byte| number << 8 | u32::from(byte)))
    }

    /// A number of seven bits a byte; each byte but the last is above 127.
    pub fn variable(&mut self) -> Read<u32> {
        let start = *self;
        let mut number = 0;
        for _ in 0..LONGEST_NUMBER {
            let byte = self.byte()?;
            number = number << 7 | u32::from(byte & 0x7F);
            if byte < 0x80 {
                return Ok(number);
            }
        }
        Err(start.damage("a number has more than four bytes"))
    }

    /// A byte of an event's data: below 128.
    pub fn data(&mut self) -> Read<u8> {
        match self.peek() {
            Some(0x80..) => Err(self.damage("a byte above 127 stands within an event")),
            _ => self.byte(),
        }
    }
}

#[cfg(test)]
mod tests {
    use super::*;

    #[test]
    fn numbers_of_variable_length() {
        let read = |bytes: &[u8]| Reader::new(bytes).variable();
        assert_eq!(read(&[0x00]), Ok(0));
        assert_eq!(read(&[0x7F]), Ok(127));
        assert_eq!(read(&[0x81, 0x00]), Ok(128));
        assert_eq!(read(&[0xFF, 0xFF, 0xFF, 0x7F]), Ok(0x0FFF_FFFF));
        assert!(read(&[0xFF, 0xFF, 0xFF, 0xFF, 0x7F]).is_err());
        assert_eq!(read(&[0x81]), Err(Damage { byte: 1, words: "the file ends early" }));
        assert_eq!(Reader::new(&[1, 2, 3]).number(3), Ok(0x01_02_03));
    }
}
