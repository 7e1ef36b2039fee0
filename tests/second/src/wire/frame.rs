//! Payloads put together and taken apart, and the frames that carry them.

use std::io::{self, Read, Write};

/// A payload that is being written.
#[derive(Clone, Debug, Default)]
pub struct Payload(pub Vec<u8>);

impl Payload {
    pub fn new() -> Payload {
        Payload::default()
    }

    /// A request to the function of that number.
    pub fn call(function: u8) -> Payload {
        Payload(vec![function])
    }

    pub fn number(mut self, number: u64) -> Payload {
        self.0.extend(number.to_le_bytes());
        self
    }

    pub fn count(self, count: usize) -> Payload {
        self.number(count as u64)
    }

    pub fn numbers(mut self, numbers: &[u64]) -> Payload {
        self.0.extend(numbers.iter().flat_map(|number| number.to_le_bytes()));
        self
    }

    pub fn bytes(mut self, bytes: &[u8]) -> Payload {
        self.0.extend((bytes.len() as u32).to_le_bytes());
        self.0.extend(bytes);
        self
    }

    pub fn words(mut self, words: &[u64]) -> Payload {
        self.0.extend((words.len() as u32).to_le_bytes());
        self.numbers(words)
    }
}

/// A payload that is being read; `None` where it ends too early.
pub struct Cursor<'a>(pub &'a [u8]);

impl<'a> Cursor<'a> {
    fn take(&mut self, length: usize) -> Option<&'a [u8]> {
        let (part, rest) = self.0.split_at_checked(length)?;
        self.0 = rest;
        Some(part)
    }

    pub fn byte(&mut self) -> Option<u8> {
        self.take(1).map(|part| part[0])
    }

    pub fn number(&mut self) -> Option<u64> {
        let part = self.take(8)?;
        Some(u64::from_le_bytes(part.try_into().ok()?))
    }

    pub fn numbers(&mut self, count: usize) -> Option<Vec<u64>> {
        let part = self.take(count.checked_mul(8)?)?;
        Some(part.chunks(8).map(|word| u64::from_le_bytes(word.try_into().unwrap())).collect())
    }

    fn length(&mut self) -> Option<usize> {
        let part = self.take(4)?;
        Some(u32::from_le_bytes(part.try_into().ok()?) as usize)
    }

    pub fn bytes(&mut self) -> Option<&'a [u8]> {
        let length = self.length()?;
        self.take(length)
    }

    pub fn words(&mut self) -> Option<Vec<u64>> {
        let count = self.length()?;
        self.numbers(count)
    }

    pub fn at_end(&self) -> bool {
        self.0.is_empty()
    }
}

/// No call has more; a longer frame means that the two sides have lost each other.
const LONGEST: usize = 1 << 24;

pub fn write_frame(out: &mut impl Write, payload: &[u8]) -> io::Result<()> {
    out.write_all(&(payload.len() as u32).to_le_bytes())?;
    out.write_all(payload)
}

/// The next payload; an end of file between two frames is an error of kind `UnexpectedEof`.
pub fn read_frame(from: &mut impl Read) -> io::Result<Vec<u8>> {
    let mut count = [0; 4];
    from.read_exact(&mut count)?;
    let count = u32::from_le_bytes(count) as usize;
    if count > LONGEST {
        return Err(io::Error::other(format!("a frame of {count} bytes")));
    }
    let mut payload = vec![0; count];
    from.read_exact(&mut payload)?;
    Ok(payload)
}
