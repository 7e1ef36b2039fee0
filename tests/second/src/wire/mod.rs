//! How the comparison and a driver talk: framed calls on pipes.
//!
//! A frame is a u32 byte count, then that many bytes of payload. A request's payload is one byte
//! that numbers the function, then its arguments; an answer's is the results. A number is a u64, a
//! byte slice a u32 length and the bytes, a word slice a u32 count and u64 words; all are
//! little-endian.
//! Lent memory that may be altered comes back whole after the numbers.

pub mod answers;
pub mod calls;
pub mod frame;
pub mod numbering;
pub mod record;
