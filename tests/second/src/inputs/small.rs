//! Everything small: every table of a size, and over it every certificate.

use super::fitting::{certificate, Fitting};
use crate::recording::Certificate;

/// Sizes of cells, as states and operations.
pub type Sizes = &'static [(usize, usize)];

pub const UP_TO_THREE_STATES: Sizes = &[(1, 1), (1, 2), (2, 1), (2, 2), (3, 1), (3, 2)];
pub const UP_TO_TWO_STATES: Sizes = &[(1, 1), (1, 2), (2, 1), (2, 2)];

/// The digits of a number in a base, the lowest first.
fn digits(mut number: usize, base: usize, count: usize) -> Vec<usize> {
    (0..count)
        .map(|_| {
            let digit = number % base;
            number /= base;
            digit
        })
        .collect()
}

/// Every table of so many states and operations.
pub fn tables(states: usize, operations: usize) -> impl Iterator<Item = Vec<u8>> {
    let entries = states * operations;
    (0..states.pow(entries as u32))
        .map(move |number| digits(number, states, entries).iter().map(|&it| it as u8).collect())
}

/// Every start with every choice of sides (those that leave a side without a loom included) and of
/// operations for so many looms.
pub fn certificates(states: usize, operations: usize, looms: usize) -> Vec<Certificate> {
    let choices = 2 * operations;
    let seatings = choices.pow(looms as u32);
    let numbered = |number: usize| {
        let seats = digits(number % seatings, choices, looms);
        let seats: Vec<_> = seats.into_iter().map(|choice| (choice % 2, choice / 2)).collect();
        certificate(number / seatings, &seats)
    };
    (0..states * seatings).map(numbered).collect()
}

/// Each of the certificates over every table of a size.
fn fitted(
    (states, operations): (usize, usize),
    certificates: Vec<Certificate>,
) -> impl Iterator<Item = Fitting> {
    tables(states, operations).flat_map(move |table| {
        let over = |&certificate| Fitting { table: table.clone(), states, operations, certificate };
        certificates.iter().map(over).collect::<Vec<_>>()
    })
}

/// Every table of these sizes with every certificate of so many looms. Up to three states there are
/// 778 tables: 35,880 certificates with two looms, 142,800 with three.
pub fn fittings(sizes: Sizes, looms: usize) -> impl Iterator<Item = Fitting> {
    let every = move |&size: &(usize, usize)| fitted(size, certificates(size.0, size.1, looms));
    sizes.iter().flat_map(every)
}

/// Every table of three states and three operations, with every certificate that starts in state 0
/// and gives loom k operation k: up to the names of states and operations, all in which three
/// looms share no operation.
pub fn three_operations() -> impl Iterator<Item = Fitting> {
    let own = |certificate: &Certificate| {
        let mut looms = certificate.looms().iter().enumerate();
        certificate.start == 0 && looms.all(|(loom, seat)| seat.operation == loom)
    };
    fitted((3, 3), certificates(3, 3, 3).into_iter().filter(own).collect())
}
