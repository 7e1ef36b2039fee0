//! "A cell table gives, for each operation and state, the next state. It is stored operation by
//! operation: the entry for operation o in state q stands at o × states + q."
//!
//! House rules. A lookup is refused if the state isn't below states, states is above the limit,
//! the operation isn't below the limit of 16, the position isn't within the table, or the entry
//! found isn't below states. The form of a table is the first of codes 2 to 5 that applies.

use crate::codes::{self, judged, Code, Refusal};
use crate::limits;
use crate::side::Side;

/// A lent table with the sizes that its owner claims for it. Nothing about it is trusted.
#[derive(Clone, Copy, Debug)]
pub struct Cell<'a> {
    pub table: &'a [u8],
    pub states: usize,
    pub operations: usize,
}

impl Cell<'_> {
    /// The state after one operation, or `None` where the lookup is refused.
    pub fn next(&self, operation: usize, state: usize) -> Option<usize> {
        let named = state < self.states
            && self.states <= *limits::STATES.end()
            && operation < *limits::OPERATIONS.end();
        if !named {
            return None;
        }
        let entry = *self.table.get(operation * self.states + state)?;
        Some(usize::from(entry)).filter(|&next| next < self.states)
    }

    /// Codes 2 to 5 in number order; for 5 the place is the lowest entry.
    pub fn form(&self) -> Result<(), Refusal> {
        judged(limits::STATES.contains(&self.states), codes::STATES, 0)?;
        judged(limits::OPERATIONS.contains(&self.operations), codes::OPERATIONS, 0)?;
        judged(self.table.len() == self.states * self.operations, codes::TABLE_LENGTH, 0)?;
        let beyond = self.table.iter().position(|&entry| usize::from(entry) >= self.states);
        judged(beyond.is_none(), codes::ENTRY, beyond.unwrap_or(0))
    }
}

/// "State r is (A, r) and state n + r is (B, r), r below n."
type Pair = (Side, usize);

fn pair_of(n: usize, state: usize) -> Pair {
    if state < n {
        (Side::A, state)
    } else {
        (Side::B, state - n)
    }
}

fn state_of(n: usize, (side, r): Pair) -> usize {
    match side {
        Side::A => r,
        Side::B => n + r,
    }
}

/// "Operation 0: from (B, 0) to (A, 0); from (A, r) to (B, 0); from (B, r) with r above 0, no
/// move."
fn operation_zero(pair: Pair) -> Pair {
    match pair {
        (Side::B, 0) => (Side::A, 0),
        (Side::A, _) => (Side::B, 0),
        stays => stays,
    }
}

/// "Operation 1: r goes up by one, and from r = n − 1 the cell goes to (B, 0)."
fn operation_one(n: usize, (side, r): Pair) -> Pair {
    if r == n - 1 {
        (Side::B, 0)
    } else {
        (side, r + 1)
    }
}

/// The table of the catalogue cell of size n, in table order.
pub fn catalogue_table(n: usize) -> Vec<u8> {
    let pairs = (0..2 * n).map(|state| pair_of(n, state));
    let zero = pairs.clone().map(operation_zero);
    let one = pairs.map(|pair| operation_one(n, pair));
    zero.chain(one).map(|pair| state_of(n, pair) as u8).collect()
}

/// "The catalogue writes 4n bytes in table order; later bytes stay." First 41, then 40.
pub fn catalogue(n: usize, room: &mut [u8]) -> Code {
    if !limits::LOOMS.contains(&n) {
        return codes::NO_CATALOGUE;
    }
    if room.len() < 4 * n {
        return codes::ROOM;
    }
    room[..4 * n].copy_from_slice(&catalogue_table(n));
    codes::DONE
}
