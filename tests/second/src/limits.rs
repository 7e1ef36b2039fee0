//! "Limits: states 1 to 64, operations 1 to 16, looms 2 to 8, piece numbers 1 to 4,294,967,295
//! (0 means not posted), labels 0 to 32 bytes, each byte 32 to 126, schedules 0 to 4,096 entries."

use std::ops::RangeInclusive;

pub const STATES: RangeInclusive<usize> = 1..=64;
pub const OPERATIONS: RangeInclusive<usize> = 1..=16;
pub const LOOMS: RangeInclusive<usize> = 2..=8;
pub const LABEL: usize = 32;
pub const LABEL_BYTES: RangeInclusive<u8> = 32..=126;
pub const SCHEDULE: usize = 4096;

/// The most looms that a certificate or a group has seats for.
pub const SEATS: usize = 8;

/// "Rooms of 1,024 table and 4,096 schedule entries": the largest table and the longest schedule.
pub const TABLE_ROOM: usize = 1024;
pub const SCHEDULE_ROOM: usize = 4096;

/// "The longest file has 20,648 bytes."
pub const FILE: usize = 20_648;
