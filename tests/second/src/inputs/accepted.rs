//! Random certificates that the check accepts, up to the limits: catalogue cells, cells made to
//! fit, certificates searched over random tables, and cells that wandered off from any of these.

use super::dice::Dice;
use super::fitting::{self, Fitting};
use super::makers;
use crate::limits;
use crate::recording::Seat;
use crate::side;

/// A way to make a certificate; whatever it makes is accepted.
pub struct Kind {
    pub name: &'static str,
    made: fn(&mut Dice) -> Fitting,
}

pub const KINDS: [Kind; 5] = [
    Kind { name: "looms, catalogue", made: catalogue },
    Kind { name: "looms, sided", made: sided },
    Kind { name: "looms, returning", made: makers::returning },
    Kind { name: "looms, searched", made: searched },
    Kind { name: "looms, wandered", made: wandered },
];

impl Kind {
    /// A certificate of the kind, its states, operations and looms under other names in a cell as
    /// large or larger.
    pub fn certificate(&self, dice: &mut Dice) -> Fitting {
        let plain = (self.made)(dice);
        let states = larger(dice, plain.states, *limits::STATES.end());
        let operations = larger(dice, plain.operations, *limits::OPERATIONS.end());
        padded(dice, &plain, states, operations)
    }
}

/// As many as there are, any number more, or the limit.
fn larger(dice: &mut Dice, size: usize, limit: usize) -> usize {
    let any = makers::sized(dice, size, limit);
    dice.pick(&[size, any, limit])
}

/// The same certificate under other names; what the larger table has more holds anything.
fn padded(dice: &mut Dice, plain: &Fitting, states: usize, operations: usize) -> Fitting {
    let state_names = makers::shuffled(dice, states);
    let operation_names = makers::shuffled(dice, operations);
    let mut table: Vec<u8> = (0..states * operations).map(|_| dice.below(states) as u8).collect();
    for (at, &next) in plain.table.iter().enumerate() {
        let (operation, state) = (at / plain.states, at % plain.states);
        table[operation_names[operation] * states + state_names[state]] =
            state_names[usize::from(next)] as u8;
    }
    let mut certificate = plain.certificate;
    certificate.start = state_names[certificate.start];
    let looms = &mut certificate.seats[..plain.certificate.count];
    looms.iter_mut().for_each(|seat| seat.operation = operation_names[seat.operation]);
    dice.shuffle(looms);
    Fitting { table, states, operations, certificate }
}

/// A catalogue cell with its certificate, some looms of the larger side left off now and then.
fn catalogue(dice: &mut Dice) -> Fitting {
    let n = dice.between(*limits::LOOMS.start(), *limits::LOOMS.end());
    let mut fitting = fitting::catalogue(n);
    if dice.once_in(3) {
        fitting.certificate.count = dice.between(2, n);
    }
    if dice.once_in(2) {
        fitting.certificate.seats.iter_mut().for_each(|seat| seat.side = 1 - seat.side);
    }
    fitting
}

fn until_accepted(dice: &mut Dice, made: fn(&mut Dice) -> Fitting) -> Fitting {
    loop {
        let fitting = made(dice);
        if fitting.accepted() {
            return fitting;
        }
    }
}

fn sided(dice: &mut Dice) -> Fitting {
    until_accepted(dice, makers::sided)
}

/// Any table with any certificate that is accepted, and then as many looms more as it carries.
fn searched(dice: &mut Dice) -> Fitting {
    let mut found = until_accepted(dice, makers::uniform);
    while found.certificate.count < limits::SEATS {
        match one_more(dice, &found) {
            Some(more) => found = more,
            None => break,
        }
    }
    found
}

/// The certificate with a loom more, on any side and with any operation that leaves it accepted.
fn one_more(dice: &mut Dice, found: &Fitting) -> Option<Fitting> {
    let seat = |choice: usize| Seat { side: choice % 2, operation: choice / 2 };
    let choices = makers::shuffled(dice, side::BOTH.len() * found.operations);
    let with = |choice: usize| {
        let mut more = found.clone();
        more.certificate.seats[more.certificate.count] = seat(choice);
        more.certificate.count += 1;
        more
    };
    choices.into_iter().map(with).find(Fitting::accepted)
}

/// How often an entry is changed at random, and the change kept where the cell still fits.
const CHANGES: usize = 12;

fn wandered(dice: &mut Dice) -> Fitting {
    let from = dice.below(KINDS.len() - 1);
    let mut fitting = (KINDS[from].made)(dice);
    for _ in 0..CHANGES {
        let changed = makers::altered(dice, fitting.clone());
        if changed.accepted() {
            fitting = changed;
        }
    }
    fitting
}
