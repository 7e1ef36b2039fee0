//! Random tables with certificates, made so that every verdict of the check is common.

use super::dice::Dice;
use super::fitting::Fitting;
use crate::cell;
use crate::limits;
use crate::recording::{Certificate, Seat};

/// A size up to the limit, small ones as often as all others.
pub(super) fn sized(dice: &mut Dice, low: usize, high: usize) -> usize {
    let small = high.min(low + 4);
    let top = dice.pick(&[small, high]);
    dice.between(low, top)
}

/// Sides for so many looms, both with a loom; often one side has just one.
fn sides(dice: &mut Dice, count: usize) -> Vec<usize> {
    let any = dice.between(1, count - 1);
    let ones = dice.pick(&[1, count - 1, any]);
    let mut sides: Vec<usize> = (0..count).map(|loom| usize::from(loom < ones)).collect();
    dice.shuffle(&mut sides);
    sides
}

/// Seats of these sides, the operation of each by its side; beyond the count anything may stand.
fn seated(
    dice: &mut Dice,
    start: usize,
    sides: &[usize],
    mut operation: impl FnMut(&mut Dice, usize) -> usize,
) -> Certificate {
    let mut certificate = Certificate { start, count: sides.len(), ..Certificate::default() };
    for (loom, seat) in certificate.seats.iter_mut().enumerate() {
        *seat = match sides.get(loom) {
            Some(&side) => Seat { side, operation: operation(dice, side) },
            None => Seat { side: dice.below(3), operation: dice.below(20) },
        };
    }
    certificate
}

/// Any table, any certificate that has form.
pub(super) fn uniform(dice: &mut Dice) -> Fitting {
    let states = sized(dice, 1, *limits::STATES.end());
    let operations = sized(dice, 1, *limits::OPERATIONS.end());
    let count = dice.between(2, limits::SEATS);
    let table = (0..states * operations).map(|_| dice.below(states) as u8).collect();
    let sides = sides(dice, count);
    let start = dice.below(states);
    let certificate = seated(dice, start, &sides, |dice, _| dice.below(operations));
    Fitting { table, states, operations, certificate }
}

/// States that remember which side came first. Operations with even numbers belong to A, odd ones
/// to B; in a state of the other side, an operation of side X leads back to the start once in
/// `returns[X]` entries.
struct Sided {
    start: usize,
    homes: [Vec<usize>; 2],
    returns: [usize; 2],
}

impl Sided {
    fn home_of(&self, state: usize) -> Option<usize> {
        self.homes.iter().position(|home| home.contains(&state))
    }

    fn entry(&self, dice: &mut Dice, operation: usize, state: usize) -> u8 {
        let side = operation % 2;
        let home = self.home_of(state).unwrap_or(side);
        let back = state != self.start && home != side && dice.once_in(self.returns[side]);
        let next = if back { self.start } else { dice.pick(&self.homes[home]) };
        next as u8
    }
}

/// Such a cell of any size, with a certificate of these sides over it.
fn sided_cell(dice: &mut Dice, sides: Vec<usize>, returns: [usize; 2]) -> Fitting {
    let states = sized(dice, 3, *limits::STATES.end());
    let operations = sized(dice, 2, *limits::OPERATIONS.end());
    let order = shuffled(dice, states);
    let cut = dice.between(2, states - 1);
    let homes = [order[1..cut].to_vec(), order[cut..].to_vec()];
    let plan = Sided { start: order[0], homes, returns };
    let table =
        (0..states * operations).map(|at| plan.entry(dice, at / states, at % states)).collect();
    let own = |dice: &mut Dice, side: usize| side + 2 * dice.below((operations - side).div_ceil(2));
    let certificate = seated(dice, plan.start, &sides, own);
    Fitting { table, states, operations, certificate }
}

/// A cell that mostly fits: accepted, unless a return to the start breaks it.
pub(super) fn sided(dice: &mut Dice) -> Fitting {
    let count = dice.between(2, limits::SEATS);
    let returns = dice.pick(&[1, 3, 10, usize::MAX]);
    let sides = sides(dice, count);
    sided_cell(dice, sides, [returns; 2])
}

/// A cell that always fits, and that one side's only loom may lead back to its start.
pub(super) fn returning(dice: &mut Dice) -> Fitting {
    let count = dice.between(2, limits::SEATS);
    let (alone, loom) = (dice.below(2), dice.below(count));
    let mut sides = vec![1 - alone; count];
    sides[loom] = alone;
    let mut returns = [usize::MAX; 2];
    returns[alone] = dice.pick(&[1, 2, 5]);
    sided_cell(dice, sides, returns)
}

/// A cell of two operations hidden in a larger one: its states and operations get other names, and
/// whatever is left of the table is filled with anything.
struct Hidden {
    table: Vec<u8>,
    states: usize,
    operations: usize,
    state_names: Vec<usize>,
    operation_names: Vec<usize>,
}

fn hidden(dice: &mut Dice, table: &[u8]) -> Hidden {
    let plain = table.len() / 2;
    let states = sized(dice, plain, *limits::STATES.end());
    let operations = sized(dice, 2, *limits::OPERATIONS.end());
    let state_names = shuffled(dice, states);
    let operation_names = shuffled(dice, operations);
    let mut larger: Vec<u8> = (0..states * operations).map(|_| dice.below(states) as u8).collect();
    for (at, &next) in table.iter().enumerate() {
        let (operation, state) = (operation_names[at / plain], state_names[at % plain]);
        larger[operation * states + state] = state_names[usize::from(next)] as u8;
    }
    Hidden { table: larger, states, operations, state_names, operation_names }
}

pub(super) fn shuffled(dice: &mut Dice, count: usize) -> Vec<usize> {
    let mut names: Vec<usize> = (0..count).collect();
    dice.shuffle(&mut names);
    names
}

impl Hidden {
    /// Looms of the leading side have operation 0, the others operation 1; either side may be A.
    fn fitting(self, dice: &mut Dice, start: usize, leading: usize, others: usize) -> Fitting {
        let lead = dice.below(2);
        let mut sides = vec![lead; leading];
        sides.resize(leading + others, 1 - lead);
        dice.shuffle(&mut sides);
        let operation = |_: &mut Dice, side| self.operation_names[usize::from(side != lead)];
        let certificate = seated(dice, self.state_names[start], &sides, operation);
        let Hidden { table, states, operations, .. } = self;
        Fitting { table, states, operations, certificate }
    }
}

/// A catalogue cell, with looms up to one more than it carries.
fn catalogued(dice: &mut Dice) -> Fitting {
    let n = dice.between(2, limits::SEATS);
    let others = dice.between(1, n.min(limits::SEATS - 1));
    hidden(dice, &cell::catalogue_table(n)).fitting(dice, n, 1, others)
}

/// A cell that goes back to its start once the leading side was first and so many others followed:
/// state 0 is the start, state 1 + j says that j others followed, and the last state that one of
/// the others was first. With two or more others that is code 21 or 22.
fn late_table(others: usize) -> Vec<u8> {
    let last = others as u8 + 1;
    let stays = 1..=last;
    let follows = (1..=last).map(|state| if state == last { last } else { (state + 1) % last });
    [1].into_iter().chain(stays).chain([last]).chain(follows).collect()
}

/// Such a cell with just as many others, one more or one less.
fn late(dice: &mut Dice) -> Fitting {
    let others = dice.between(1, limits::SEATS - 2);
    let table = late_table(others);
    let seated = dice.pick(&[others, others, others, others + 1, others.max(2) - 1]);
    let leading = dice.between(1, limits::SEATS - seated);
    hidden(dice, &table).fitting(dice, 0, leading, seated)
}

/// One entry changed to another state.
pub fn altered(dice: &mut Dice, mut fitting: Fitting) -> Fitting {
    let at = dice.below(fitting.table.len());
    fitting.table[at] = dice.below(fitting.states) as u8;
    fitting
}

/// A table and certificate that have form.
pub fn formed(dice: &mut Dice) -> Fitting {
    let made = match dice.below(6) {
        0 => uniform(dice),
        1 => catalogued(dice),
        2 => late(dice),
        _ => sided(dice),
    };
    if dice.once_in(4) {
        altered(dice, made)
    } else {
        made
    }
}

/// A table and certificate that the check accepts.
pub fn accepted(dice: &mut Dice) -> Fitting {
    loop {
        let made = formed(dice);
        if made.accepted() {
            return made;
        }
    }
}

/// A number that is wrong for most fields.
fn wild(dice: &mut Dice) -> usize {
    let edges = [0, 1, 2, 7, 8, 9, 15, 16, 17, 63, 64, 65, 255, 256, 1 << 31, 1 << 32, usize::MAX];
    dice.pick(&edges)
}

/// One thing about it made wrong, or at least other.
pub fn damaged(dice: &mut Dice, mut fitting: Fitting) -> Fitting {
    let seat = dice.below(limits::SEATS);
    match dice.below(9) {
        0 => fitting.states = wild(dice),
        1 => fitting.operations = wild(dice),
        2 => fitting.table.truncate(fitting.table.len().saturating_sub(1)),
        3 => fitting.table.push(dice.byte()),
        4 => fitting = entry_damaged(dice, fitting),
        5 => fitting.certificate.start = wild(dice),
        6 => fitting.certificate.count = wild(dice),
        7 => fitting.certificate.seats[seat].side = wild(dice),
        _ => fitting.certificate.seats[seat].operation = wild(dice),
    }
    fitting
}

/// An entry at, just beyond or far beyond the number of states.
fn entry_damaged(dice: &mut Dice, mut fitting: Fitting) -> Fitting {
    let beyond = [fitting.states as u8, (fitting.states as u8).wrapping_add(1), 64, 128, 255];
    if !fitting.table.is_empty() {
        let at = dice.below(fitting.table.len());
        fitting.table[at] = dice.pick(&beyond);
    }
    fitting
}

/// A schedule over these looms, with restarts once in so many entries and stretches of one loom.
pub fn schedule(dice: &mut Dice, looms: usize, length: usize) -> Vec<u8> {
    let restarts = dice.pick(&[2, 5, 9, 40, usize::MAX]);
    let stretch = dice.pick(&[1, 2, 7]);
    let mut loom = 0;
    (0..length)
        .map(|_| {
            if dice.once_in(stretch) {
                loom = dice.below(looms);
            }
            entry(dice, loom, restarts)
        })
        .collect()
}

fn entry(dice: &mut Dice, loom: usize, restarts: usize) -> u8 {
    if !dice.once_in(restarts) {
        loom as u8
    } else if dice.once_in(4) {
        32
    } else {
        16 + loom as u8
    }
}
