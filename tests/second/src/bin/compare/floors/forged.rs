//! Groups that no opening gives: any values that fit in memory, sides and places valid.

use second::group::{Group, Loom, NO_GROUP};
use second::inputs::dice::Dice;
use second::inputs::fitting::Fitting;
use second::inputs::makers;
use second::side::BOTH;
use second::wire::numbering::PLACES;

/// A state or operation: mostly below the bound, else at or beyond it.
fn byte(dice: &mut Dice, bound: usize) -> u8 {
    let inside = dice.below(bound.clamp(1, 256)) as u8;
    let any = dice.byte();
    let edge = dice.pick(&[bound as u8, 15, 16, 63, 64, 255, any]);
    if dice.once_in(12) {
        edge
    } else {
        inside
    }
}

fn register(dice: &mut Dice) -> u32 {
    let any = dice.word() as u32;
    dice.pick(&[0, 0, 1, any, any, u32::MAX])
}

/// Any set; often one in which the start and the cell are or are not.
fn set(dice: &mut Dice, state: u8) -> u64 {
    let (any, bit) = (dice.word(), 1 << (state % 64));
    dice.pick(&[0, u64::MAX, any, any | bit, any & !bit, bit])
}

fn loom(dice: &mut Dice, operations: usize) -> Loom {
    let steps = dice.byte();
    Loom {
        side: dice.pick(&BOTH),
        operation: byte(dice, operations),
        place: dice.pick(&PLACES),
        steps: dice.pick(&[0, 1, 5, 6, 253, 254, 255, steps]),
    }
}

fn count(dice: &mut Dice) -> usize {
    let beyond = dice.pick(&[0, 9, 10, 255, 256, 264, 1 << 32, usize::MAX]);
    if dice.once_in(8) {
        beyond
    } else {
        dice.between(1, 8)
    }
}

/// A group that a table of these sizes may or may not fit.
pub fn group(dice: &mut Dice, states: usize, operations: usize) -> Group {
    let start = byte(dice, states);
    let other = byte(dice, states);
    let cell = dice.pick(&[start, other]);
    let mut group = Group {
        count: count(dice),
        cell,
        registers: [register(dice), register(dice)],
        numbers: [register(dice), register(dice)],
        start,
        sets: [set(dice, cell), set(dice, start)],
        ..NO_GROUP
    };
    for slot in &mut group.looms {
        *slot = loom(dice, operations);
    }
    group
}

/// A table for it, now and then damaged, or with a wrong entry just where the loom would look.
pub fn table(dice: &mut Dice) -> Fitting {
    let formed = makers::formed(dice);
    if dice.once_in(6) {
        makers::damaged(dice, formed)
    } else {
        formed
    }
}

/// Makes the entry that this loom would use one beyond the states, or far beyond.
pub fn spoil_entry(dice: &mut Dice, fitting: &mut Fitting, group: &Group, loom: usize) {
    let operation = usize::from(group.looms[loom % 8].operation);
    let at = operation.saturating_mul(fitting.states).saturating_add(group.cell.into());
    let beyond = dice.pick(&[fitting.states as u8, 255]);
    if let Some(entry) = fitting.table.get_mut(at) {
        *entry = beyond;
    }
}

/// A loom of the group, now and then one beyond it.
pub fn loom_number(dice: &mut Dice, group: &Group) -> usize {
    let near = dice.below(group.count.clamp(1, 8));
    let beyond = dice.pick(&[group.count, 7, 8, 9, 255, 1 << 32, usize::MAX]);
    if dice.once_in(12) {
        beyond
    } else {
        near
    }
}
