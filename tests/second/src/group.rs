//! A group of looms at one cell: opening, one loom's step, restarts.
//!
//! House rules, all so that a forged group has an answer too. "A yielding side of one loom" counts
//! sides over the group's first `count` slots. A restart of all restarts those same slots. A
//! refused step or restart leaves the group as it was given. A set has no state beyond 63.

use crate::cell::Cell;
use crate::codes::{self, Code};
use crate::limits;
use crate::recording::{self, Certificate};
use crate::sets;
use crate::side::Side;

/// "The place is one of these cases, two of which carry a side."
#[derive(Clone, Copy, Debug, PartialEq, Eq, Hash)]
pub enum Place {
    Begin,
    Posted,
    Looking,
    Ready,
    Applied,
    Bound(Side),
    Answered(Side),
}

/// "A loom is a value with its side, its operation, its step count and its place."
#[derive(Clone, Copy, Debug, PartialEq, Eq, Hash)]
pub struct Loom {
    pub side: Side,
    pub operation: u8,
    pub place: Place,
    pub steps: u8,
}

/// "Loom slots beyond a group's count are side A, operation 0, begin, count 0."
pub const EMPTY_SLOT: Loom = Loom { side: Side::A, operation: 0, place: Place::Begin, steps: 0 };

/// The shared memory is `cell` and `registers`; "table, certificate and both numbers are fixed at
/// opening". Pairs are kept as A, B.
#[derive(Clone, Copy, Debug, PartialEq, Eq, Hash)]
pub struct Group {
    pub count: usize,
    pub cell: u8,
    pub registers: [u32; 2],
    pub numbers: [u32; 2],
    pub start: u8,
    pub sets: [u64; 2],
    pub looms: [Loom; limits::SEATS],
}

/// "A refused opening or run returns zeros and no looms."
pub const NO_GROUP: Group = Group {
    count: 0,
    cell: 0,
    registers: [0, 0],
    numbers: [0, 0],
    start: 0,
    sets: [sets::EMPTY, sets::EMPTY],
    looms: [EMPTY_SLOT; limits::SEATS],
};

/// What a step says beside moving its loom.
#[derive(Clone, Copy, Debug, PartialEq, Eq)]
pub enum Said {
    Nothing,
    Applied,
    Answer(Side, u32),
}

/// "The step count in the answer is the number of this loom's steps since it opened or last
/// restarted."
#[derive(Clone, Copy, Debug, PartialEq, Eq)]
pub struct Stepped {
    pub said: Said,
    pub steps: u8,
}

/// "Opening, which like running gives no place: the check, then 10."
pub fn open(
    cell: Cell,
    certificate: &Certificate,
    numbers: [u32; 2],
    area: &mut [u64],
) -> Result<Group, Code> {
    let verdict = recording::check(cell, certificate, area);
    if verdict.code != codes::DONE {
        return Err(verdict.code);
    }
    if numbers.contains(&0) {
        return Err(codes::PIECE_NUMBER);
    }
    let start = certificate.start as u8;
    let sets = recording::sets_of(area, certificate.count);
    let mut group =
        Group { count: certificate.count, cell: start, numbers, start, sets, ..NO_GROUP };
    for (slot, seat) in group.looms.iter_mut().zip(certificate.looms()) {
        slot.side = Side::numbered(seat.side).expect("the certificate has form");
        slot.operation = seat.operation as u8;
    }
    Ok(group)
}

impl Group {
    /// "The yielding side is B, except that it is A when the start is in the set of B."
    fn yielding(&self) -> Side {
        if sets::has(self.sets[Side::B.number()], usize::from(self.start)) {
            Side::A
        } else {
            Side::B
        }
    }

    /// "'Decide by the cell' means: the leading side if the cell's state is in its set, else the
    /// yielding side."
    fn decided(&self) -> Side {
        let leading = self.yielding().other();
        if sets::has(self.sets[leading.number()], usize::from(self.cell)) {
            leading
        } else {
            self.yielding()
        }
    }

    fn looms_of(&self, side: Side) -> usize {
        self.looms[..self.count].iter().filter(|loom| loom.side == side).count()
    }

    fn looks(&self, side: Side) -> bool {
        side == self.yielding() && self.looms_of(side) == 1
    }

    /// 30: "no such loom, or a group of more than 8".
    fn has_loom(&self, loom: usize) -> Result<(), Code> {
        if self.count <= limits::SEATS && loom < self.count {
            Ok(())
        } else {
            Err(codes::NO_LOOM)
        }
    }
}

/// Row "posted": "bound to the side decided by the cell, if not the start; else looking, for a
/// yielding side of one loom; else ready".
fn after_first_reading(group: &Group, side: Side) -> Place {
    if group.cell != group.start {
        Place::Bound(group.decided())
    } else if group.looks(side) {
        Place::Looking
    } else {
        Place::Ready
    }
}

/// Row "looking": "bound to the other side if not 0, else ready".
fn after_looking(group: &Group, side: Side) -> Place {
    let other = side.other();
    if group.registers[other.number()] != 0 {
        Place::Bound(other)
    } else {
        Place::Ready
    }
}

/// The table of places: the loom's next place, and what the step says. `next` is the table's entry
/// for the loom's operation and the cell's state.
fn moved(group: &mut Group, loom: Loom, next: u8) -> (Place, Said) {
    let side = loom.side;
    match loom.place {
        Place::Begin => {
            group.registers[side.number()] = group.numbers[side.number()];
            (Place::Posted, Said::Nothing)
        }
        Place::Posted => (after_first_reading(group, side), Said::Nothing),
        Place::Looking => (after_looking(group, side), Said::Nothing),
        Place::Ready => {
            group.cell = next;
            (Place::Applied, Said::Applied)
        }
        Place::Applied => (Place::Bound(group.decided()), Said::Nothing),
        Place::Bound(to) => {
            let number = group.registers[to.number()];
            (Place::Answered(to), Said::Answer(to, number))
        }
        Place::Answered(to) => (Place::Answered(to), Said::Nothing),
    }
}

/// 32: "given exactly if states or operations are outside limits, the table's length is wrong, the
/// cell's state isn't below states, the loom's operation isn't fitted, or the table's entry for
/// them isn't below states".
fn fitted_entry(cell: Cell, group: &Group, loom: Loom) -> Result<u8, Code> {
    let (state, operation) = (usize::from(group.cell), usize::from(loom.operation));
    let fits = limits::STATES.contains(&cell.states)
        && limits::OPERATIONS.contains(&cell.operations)
        && cell.table.len() == cell.states * cell.operations
        && state < cell.states
        && operation < cell.operations;
    if !fits {
        return Err(codes::NO_FIT);
    }
    let next = cell.next(operation, state).ok_or(codes::NO_FIT)?;
    Ok(next as u8)
}

/// "Step: 30; then 32; then 31."
pub fn step(cell: Cell, loom: usize, group: &mut Group) -> Result<Stepped, Code> {
    group.has_loom(loom)?;
    let before = group.looms[loom];
    let next = fitted_entry(cell, group, before)?;
    if let Place::Answered(_) = before.place {
        return Err(codes::ANSWERED);
    }
    let (place, said) = moved(group, before, next);
    let steps = before.steps.saturating_add(1);
    group.looms[loom] = Loom { place, steps, ..before };
    Ok(Stepped { said, steps })
}

fn restarted(loom: Loom) -> Loom {
    Loom { place: Place::Begin, steps: 0, ..loom }
}

/// "A restart of a loom sets its place to begin and its step count to 0, in any place, answered
/// included."
pub fn restart(loom: usize, group: &mut Group) -> Result<(), Code> {
    group.has_loom(loom)?;
    group.looms[loom] = restarted(group.looms[loom]);
    Ok(())
}

/// "A restart of all does it to every loom." "30 only for a group of more than 8."
pub fn restart_all(group: &mut Group) -> Result<(), Code> {
    if group.count > limits::SEATS {
        return Err(codes::NO_LOOM);
    }
    for loom in &mut group.looms[..group.count] {
        *loom = restarted(*loom);
    }
    Ok(())
}
