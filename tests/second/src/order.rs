//! "All words are XDR unsigned ints, big-endian. In order: states; operations; the table as a
//! counted array; start; looms as a counted array of (side, operation); number A; number B; label A
//! and label B as variable opaque, padded to a multiple of four; the schedule as a counted array."
//!
//! "Then the fields in file order, each 1 before its value; a count before its items; 9 after the
//! last loom; 14 last. The place is the byte where the refused field begins."
//!
//! House rules. Seats beyond the count are side 0, operation 0. A label's offset is the byte of the
//! file where its bytes begin, also for an empty label. A label's bytes are one field: its place is
//! where they begin, whichever byte is wrong.

use crate::codes::{self, judged, Code, Refusal};
use crate::limits;
use crate::recording::{Certificate, Seat};
use crate::schedule::Act;

/// Part of the lent file.
#[derive(Clone, Copy, Debug, Default, PartialEq, Eq)]
pub struct Part {
    pub offset: usize,
    pub length: usize,
}

impl Part {
    pub fn of(self, file: &[u8]) -> &[u8] {
        &file[self.offset..self.offset + self.length]
    }
}

#[derive(Clone, Debug, Default, PartialEq, Eq)]
pub struct Order {
    pub states: usize,
    pub operations: usize,
    pub table: Vec<u8>,
    pub certificate: Certificate,
    pub numbers: [u32; 2],
    pub labels: [Part; 2],
    pub schedule: Vec<u8>,
}

/// "A reader holds the lent file and its own position in it, and hands out one field after
/// another."
struct Reader<'a> {
    file: &'a [u8],
    at: usize,
}

impl<'a> Reader<'a> {
    /// The next bytes as one field, or 1 where the field begins.
    fn bytes(&mut self, length: usize) -> Result<&'a [u8], Refusal> {
        let rest = &self.file[self.at..];
        judged(rest.len() >= length, codes::FILE_ENDS, self.at)?;
        self.at += length;
        Ok(&rest[..length])
    }

    /// The next word, refused with the code where it doesn't fit.
    fn word(&mut self, code: Code, fits: impl Fn(usize) -> bool) -> Result<usize, Refusal> {
        let place = self.at;
        let bytes = self.bytes(4)?;
        let value = bytes.iter().fold(0, |value, &byte| value * 256 + usize::from(byte));
        judged(fits(value), code, place)?;
        Ok(value)
    }

    /// So many words, judged one by one, each kept in a byte.
    fn words(
        &mut self,
        count: usize,
        code: Code,
        fits: impl Fn(usize) -> bool,
    ) -> Result<Vec<u8>, Refusal> {
        (0..count).map(|_| self.word(code, &fits).map(|value| value as u8)).collect()
    }

    /// "An opaque's length is one field, its bytes with padding the next." "Pad bytes are stepped
    /// over and not looked at."
    fn label(&mut self) -> Result<Part, Refusal> {
        let length = self.word(codes::LABEL, |length| length <= limits::LABEL)?;
        let offset = self.at;
        let padded = self.bytes(length.next_multiple_of(4))?;
        let printable = padded[..length].iter().all(|byte| limits::LABEL_BYTES.contains(byte));
        judged(printable, codes::LABEL, offset)?;
        Ok(Part { offset, length })
    }

    /// "A loom's side and operation are two fields."
    fn seat(&mut self, operations: usize) -> Result<Seat, Refusal> {
        let side = self.word(codes::SEAT, |side| side <= 1)?;
        let operation = self.word(codes::SEAT, |operation| operation < operations)?;
        Ok(Seat { side, operation })
    }

    /// Start and looms; "for 9, the loom count" is the place.
    fn certificate(&mut self, states: usize, operations: usize) -> Result<Certificate, Refusal> {
        let start = self.word(codes::START, |start| start < states)?;
        let place = self.at;
        let count = self.word(codes::LOOMS, |count| limits::LOOMS.contains(&count))?;
        let mut certificate = Certificate { start, count, ..Certificate::default() };
        for seat in &mut certificate.seats[..count] {
            *seat = self.seat(operations)?;
        }
        let sides = certificate.looms().iter().map(|seat| seat.side).sum::<usize>();
        judged(0 < sides && sides < count, codes::ONE_SIDED, place)?;
        Ok(certificate)
    }

    fn number(&mut self) -> Result<u32, Refusal> {
        self.word(codes::PIECE_NUMBER, |number| number != 0).map(|number| number as u32)
    }

    fn schedule(&mut self, looms: usize) -> Result<Vec<u8>, Refusal> {
        let entries = self.word(codes::SCHEDULE_LENGTH, |count| count <= limits::SCHEDULE)?;
        self.words(entries, codes::ACT, |entry| Act::named(entry, looms).is_some())
    }

    fn order(&mut self) -> Result<Order, Refusal> {
        let states = self.word(codes::STATES, |states| limits::STATES.contains(&states))?;
        let operations =
            self.word(codes::OPERATIONS, |count| limits::OPERATIONS.contains(&count))?;
        let entries = self.word(codes::TABLE_LENGTH, |length| length == states * operations)?;
        let table = self.words(entries, codes::ENTRY, |entry| entry < states)?;
        let certificate = self.certificate(states, operations)?;
        let numbers = [self.number()?, self.number()?];
        let labels = [self.label()?, self.label()?];
        let schedule = self.schedule(certificate.count)?;
        judged(self.at == self.file.len(), codes::TAIL, self.at)?;
        Ok(Order { states, operations, table, certificate, numbers, labels, schedule })
    }
}

/// "Reading: 40 first (rooms of 1,024 table and 4,096 schedule entries)." A refusal writes nothing;
/// "room beyond the items read stays as it was".
pub fn read(file: &[u8], table: &mut [u8], schedule: &mut [u8]) -> Result<Order, Refusal> {
    let roomy = table.len() >= limits::TABLE_ROOM && schedule.len() >= limits::SCHEDULE_ROOM;
    judged(roomy, codes::ROOM, 0)?;
    let order = Reader { file, at: 0 }.order()?;
    table[..order.table.len()].copy_from_slice(&order.table);
    schedule[..order.schedule.len()].copy_from_slice(&order.schedule);
    Ok(order)
}
