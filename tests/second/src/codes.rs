//! "Codes and their order." One name for each row of the document's table.

pub type Code = u64;

/// Not refused.
pub const DONE: Code = 0;
/// The file ends before a field does.
pub const FILE_ENDS: Code = 1;
/// States not within limits.
pub const STATES: Code = 2;
/// Operations not within limits.
pub const OPERATIONS: Code = 3;
/// The table's length isn't states × operations.
pub const TABLE_LENGTH: Code = 4;
/// An entry not below states.
pub const ENTRY: Code = 5;
/// The start not below states.
pub const START: Code = 6;
/// Looms not 2 to 8.
pub const LOOMS: Code = 7;
/// A side above 1, or an operation not fitted.
pub const SEAT: Code = 8;
/// A side without a loom.
pub const ONE_SIDED: Code = 9;
/// A piece number of 0.
pub const PIECE_NUMBER: Code = 10;
/// A label over 32 bytes, or with a byte outside 32 to 126.
pub const LABEL: Code = 11;
/// A schedule over 4,096 entries.
pub const SCHEDULE_LENGTH: Code = 12;
/// An entry naming no act or no loom of this group.
pub const ACT: Code = 13;
/// Bytes after the schedule.
pub const TAIL: Code = 14;
/// A state in both sets.
pub const SHARED_STATE: Code = 20;
/// The start in the set of A, B not one loom.
pub const START_IN_A: Code = 21;
/// The start in the set of B, A not one loom.
pub const START_IN_B: Code = 22;
/// No such loom, or a group of more than 8.
pub const NO_LOOM: Code = 30;
/// That loom has answered.
pub const ANSWERED: Code = 31;
/// Group and table don't fit.
pub const NO_FIT: Code = 32;
/// Lent room too short.
pub const ROOM: Code = 40;
/// No such catalogue cell.
pub const NO_CATALOGUE: Code = 41;

/// A refusal that says where.
#[derive(Clone, Copy, Debug, PartialEq, Eq)]
pub struct Refusal {
    pub code: Code,
    pub place: usize,
}

/// `Ok` where `fits` holds, else the code at the place.
pub fn judged(fits: bool, code: Code, place: usize) -> Result<(), Refusal> {
    if fits {
        Ok(())
    } else {
        Err(Refusal { code, place })
    }
}
