//! "Known certificates": the document's table of eleven.

use super::fitting::{certificate, Fitting};
use crate::recording::Verdict;

pub struct Known {
    pub name: &'static str,
    pub fitting: Fitting,
    pub verdict: Verdict,
}

const STICKY: &[u8] = &[1, 1, 2, 2, 1, 2];
const SIZE_TWO: &[u8] = &[2, 2, 0, 3, 1, 2, 3, 2];
const RETURNS: &[u8] = &[1, 1, 2, 2, 0, 2];
const LATE_RETURN: &[u8] = &[1, 1, 2, 3, 2, 3, 2, 0];
const TEST_AND_SET: &[u8] = &[1, 1];
const TOGGLE: &[u8] = &[1, 0];
const PLAIN_WRITE: &[u8] = &[1, 1, 1, 2, 2, 2];
const ONE_STATE: &[u8] = &[0];

/// A row: name, table, operations, start, looms as (side, operation), and code, place, sizes.
type Row = (
    &'static str,
    &'static [u8],
    usize,
    usize,
    &'static [(usize, usize)],
    (u64, usize, [usize; 2]),
);

const ROWS: [Row; 11] = [
    ("sticky", STICKY, 2, 0, &[(0, 0), (1, 1)], (0, 0, [1, 1])),
    ("size 2", SIZE_TWO, 2, 2, &[(0, 0), (1, 1)], (0, 0, [2, 1])),
    ("size 2, three looms", SIZE_TWO, 2, 2, &[(0, 0), (1, 1), (1, 1)], (20, 0, [3, 3])),
    ("returns", RETURNS, 2, 0, &[(0, 0), (1, 1)], (0, 0, [2, 1])),
    ("returns, sides exchanged", RETURNS, 2, 0, &[(1, 0), (0, 1)], (0, 0, [1, 2])),
    ("late return", LATE_RETURN, 2, 0, &[(0, 0), (1, 1), (1, 1)], (21, 0, [3, 1])),
    ("late return, exchanged", LATE_RETURN, 2, 0, &[(1, 0), (0, 1), (0, 1)], (22, 0, [1, 3])),
    ("test and set", TEST_AND_SET, 1, 0, &[(0, 0), (1, 0)], (20, 1, [1, 1])),
    ("toggle", TOGGLE, 1, 0, &[(0, 0), (1, 0)], (20, 0, [2, 2])),
    ("plain write", PLAIN_WRITE, 2, 0, &[(0, 0), (1, 1)], (20, 1, [2, 2])),
    ("one state", ONE_STATE, 1, 0, &[(0, 0), (1, 0)], (20, 0, [1, 1])),
];

fn known(&(name, table, operations, start, seats, (code, place, sizes)): &Row) -> Known {
    let fitting = Fitting {
        table: table.to_vec(),
        states: table.len() / operations,
        operations,
        certificate: certificate(start, seats),
    };
    Known { name, fitting, verdict: Verdict { code, place, sizes } }
}

/// All eleven, in the document's order.
pub fn certificates() -> Vec<Known> {
    ROWS.iter().map(known).collect()
}

/// The one of that name.
pub fn named(name: &str) -> Fitting {
    let row = ROWS.iter().find(|row| row.0 == name).expect("a name of the table");
    known(row).fitting
}

/// Those that the check accepts.
pub fn accepted() -> Vec<Fitting> {
    let all = certificates().into_iter();
    all.filter(|known| known.verdict.code == 0).map(|known| known.fitting).collect()
}
