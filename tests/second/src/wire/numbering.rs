//! Seats and groups as numbers.
//!
//! A group is 41 numbers: count, cell, registers A and B, numbers A and B, start, the sets of A and
//! B, then for each of 8 slots its side, operation, place and step count. Places are numbered 0 to
//! 8: begin, posted, looking, ready, applied, bound to A, bound to B, answered A, answered B.

use crate::group::{Group, Loom, Place, EMPTY_SLOT};
use crate::limits;
use crate::recording::Seat;
use crate::side::Side;

/// Numbers of the eight seats.
pub const SEATS: usize = 2 * limits::SEATS;

/// Numbers of a group before its slots, of one slot, and in all.
pub const HEAD: usize = 9;
pub const SLOT: usize = 4;
pub const GROUP: usize = HEAD + SLOT * limits::SEATS;

pub const PLACES: [Place; 9] = [
    Place::Begin,
    Place::Posted,
    Place::Looking,
    Place::Ready,
    Place::Applied,
    Place::Bound(Side::A),
    Place::Bound(Side::B),
    Place::Answered(Side::A),
    Place::Answered(Side::B),
];

pub const PLACE_NAMES: [&str; 9] = [
    "begin",
    "posted",
    "looking",
    "ready",
    "applied",
    "bound to A",
    "bound to B",
    "answered A",
    "answered B",
];

pub fn place_number(place: Place) -> u64 {
    PLACES.iter().position(|&other| other == place).expect("all places are listed") as u64
}

pub fn seat_numbers(seats: &[Seat; limits::SEATS]) -> Vec<u64> {
    seats.iter().flat_map(|seat| [seat.side as u64, seat.operation as u64]).collect()
}

pub fn seats_of(numbers: &[u64]) -> [Seat; limits::SEATS] {
    std::array::from_fn(|loom| Seat {
        side: numbers[2 * loom] as usize,
        operation: numbers[2 * loom + 1] as usize,
    })
}

fn loom_numbers(loom: &Loom) -> [u64; SLOT] {
    let place = place_number(loom.place);
    [loom.side.number() as u64, loom.operation.into(), place, loom.steps.into()]
}

pub fn group_numbers(group: &Group) -> Vec<u64> {
    let [register_a, register_b] = group.registers.map(u64::from);
    let [number_a, number_b] = group.numbers.map(u64::from);
    let [set_a, set_b] = group.sets;
    let head = [
        group.count as u64,
        group.cell.into(),
        register_a,
        register_b,
        number_a,
        number_b,
        group.start.into(),
        set_a,
        set_b,
    ];
    head.into_iter().chain(group.looms.iter().flat_map(loom_numbers)).collect()
}

fn loom_of(numbers: &[u64]) -> Option<Loom> {
    Some(Loom {
        side: Side::numbered(numbers[0] as usize)?,
        operation: numbers[1].try_into().ok()?,
        place: *PLACES.get(numbers[2] as usize)?,
        steps: numbers[3].try_into().ok()?,
    })
}

/// The group of 41 numbers; `None` where one is wider than what holds it in memory.
pub fn group_of(numbers: &[u64]) -> Option<Group> {
    let narrow = |at: usize| u32::try_from(numbers[at]).ok();
    let mut looms = [EMPTY_SLOT; limits::SEATS];
    for (slot, part) in looms.iter_mut().zip(numbers[HEAD..].chunks(SLOT)) {
        *slot = loom_of(part)?;
    }
    Some(Group {
        count: numbers[0] as usize,
        cell: numbers[1].try_into().ok()?,
        registers: [narrow(2)?, narrow(3)?],
        numbers: [narrow(4)?, narrow(5)?],
        start: numbers[6].try_into().ok()?,
        sets: [numbers[7], numbers[8]],
        looms,
    })
}
