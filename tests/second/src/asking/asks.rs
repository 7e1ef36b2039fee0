//! Requests put together from what the floors hold, and what lent memory is filled with before.

use crate::cell::Cell;
use crate::group::Group;
use crate::inputs::fitting::Fitting;
use crate::wire::calls;
use crate::wire::frame::Payload;
use crate::wire::numbering::{group_numbers, seat_numbers};

/// Numbers that stand at the edge of something, or far beyond everything.
pub const EDGES: [usize; 24] = [
    0,
    1,
    2,
    3,
    7,
    8,
    9,
    15,
    16,
    17,
    31,
    32,
    33,
    62,
    63,
    64,
    65,
    66,
    127,
    128,
    255,
    256,
    u32::MAX as usize,
    usize::MAX,
];

pub const FAR: [usize; 9] =
    [255, 256, 1 << 31, 1 << 32, (1 << 32) + 2, 1 << 60, 1 << 63, usize::MAX - 1, usize::MAX];

/// Every pair of one list's items with the other's.
pub fn pairs<A: Clone, B: Clone>(ones: &[A], others: &[B]) -> Vec<(A, B)> {
    let with =
        |one: &A| others.iter().map(|other| (one.clone(), other.clone())).collect::<Vec<_>>();
    ones.iter().flat_map(with).collect()
}

/// Numbers around the size of a slice: none, one, nearly all, all, one too many.
pub fn around(size: usize) -> [usize; 5] {
    [0, 1, size.saturating_sub(1), size, size + 1]
}

/// Bytes that no call writes by itself, so that whatever was touched shows.
pub fn marked_bytes(length: usize) -> Vec<u8> {
    (0..length).map(|at| 0xa0 + (at % 89) as u8).collect()
}

pub fn marked_words(count: usize) -> Vec<u64> {
    (0..count as u64).map(|at| 0xa5a5_5a5a_c3c3_3c3c ^ (at * 0x0101_0001)).collect()
}

fn with_cell(payload: Payload, cell: Cell) -> Payload {
    payload.bytes(cell.table).count(cell.states).count(cell.operations)
}

fn with_fitting(payload: Payload, fitting: &Fitting) -> Payload {
    let certificate = &fitting.certificate;
    with_cell(payload, fitting.cell())
        .count(certificate.start)
        .count(certificate.count)
        .numbers(&seat_numbers(&certificate.seats))
}

pub fn next(table: &[u8], states: usize, operation: usize, state: usize) -> Payload {
    Payload::call(calls::NEXT).bytes(table).count(states).count(operation).count(state)
}

pub fn form(cell: Cell) -> Payload {
    with_cell(Payload::call(calls::FORM), cell)
}

pub fn check(fitting: &Fitting, area: &[u64]) -> Payload {
    with_fitting(Payload::call(calls::CHECK), fitting).words(area)
}

pub fn open(fitting: &Fitting, numbers: [u32; 2], area: &[u64]) -> Payload {
    let head = with_fitting(Payload::call(calls::OPEN), fitting);
    head.numbers(&numbers.map(u64::from)).words(area)
}

/// A step, by value or with the shared memory lent, as the function says.
pub fn step(function: u8, cell: Cell, loom: usize, group: &Group) -> Payload {
    with_cell(Payload::call(function), cell).count(loom).numbers(&group_numbers(group))
}

pub fn restart(loom: usize, group: &Group) -> Payload {
    Payload::call(calls::RESTART).count(loom).numbers(&group_numbers(group))
}

pub fn restart_all(group: &Group) -> Payload {
    Payload::call(calls::RESTART_ALL).numbers(&group_numbers(group))
}

/// What a run is asked with beside its fitting.
pub struct Run<'a> {
    pub numbers: [u32; 2],
    pub schedule: &'a [u8],
    pub marks: usize,
    pub area: usize,
}

pub fn run(fitting: &Fitting, run: Run) -> Payload {
    with_fitting(Payload::call(calls::RUN), fitting)
        .numbers(&run.numbers.map(u64::from))
        .bytes(run.schedule)
        .bytes(&marked_bytes(run.marks))
        .words(&marked_words(run.area))
}

/// A reading, whole or by fields, as the function says; rooms are given by their lengths.
pub fn read(function: u8, file: &[u8], table_room: usize, schedule_room: usize) -> Payload {
    Payload::call(function)
        .bytes(file)
        .bytes(&marked_bytes(table_room))
        .bytes(&marked_bytes(schedule_room))
}

pub fn label(labels: [&[u8]; 2], side: usize) -> Payload {
    Payload::call(calls::LABEL).bytes(labels[0]).bytes(labels[1]).count(side)
}
