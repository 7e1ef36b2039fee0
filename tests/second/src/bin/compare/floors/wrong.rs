//! Ways to have a check refuse. Applied in pairs they show which refusal comes first.

use second::inputs::fitting::Fitting;
use second::inputs::known;

/// A fitting together with the number of words lent to its check.
#[derive(Clone)]
pub struct Lent {
    pub fitting: Fitting,
    pub area: usize,
}

pub type Change = fn(&mut Lent);

/// None, and then at least one for each of codes 2 to 9 and 40.
pub const CHANGES: [Change; 22] = [
    |_| (),
    |lent| lent.fitting.states = 0,
    |lent| lent.fitting.states = 65,
    |lent| lent.fitting.states = usize::MAX,
    |lent| lent.fitting.operations = 0,
    |lent| lent.fitting.operations = 17,
    |lent| lent.fitting.operations = usize::MAX / 4 + 2,
    |lent| lent.fitting.table.truncate(7),
    |lent| lent.fitting.table.push(0),
    |lent| lent.fitting.table[3] = 4,
    |lent| lent.fitting.table[1] = 255,
    |lent| lent.fitting.certificate.start = 4,
    |lent| lent.fitting.certificate.start = usize::MAX,
    |lent| lent.fitting.certificate.count = 0,
    |lent| lent.fitting.certificate.count = 1,
    |lent| lent.fitting.certificate.count = 9,
    |lent| lent.fitting.certificate.seats[1].side = 2,
    |lent| lent.fitting.certificate.seats[1].operation = 2,
    |lent| {
        lent.fitting.certificate.seats[0].side = 1 - lent.fitting.certificate.seats[0].side.min(1)
    },
    |lent| lent.fitting.certificate.seats[2].side = usize::MAX,
    |lent| lent.area = lent.fitting.area_words() - 1,
    |lent| lent.area = 0,
];

/// One that is accepted, and one for each refusal by the sets: all have four states.
pub fn bases() -> Vec<Lent> {
    ["size 2", "size 2, three looms", "late return", "late return, exchanged"]
        .map(known::named)
        .into_iter()
        .map(|fitting| Lent { area: fitting.area_words() + 1, fitting })
        .collect()
}

/// The base with one change.
pub fn singles(base: &Lent) -> impl Iterator<Item = Lent> + '_ {
    CHANGES.iter().map(|change| {
        let mut lent = base.clone();
        change(&mut lent);
        lent
    })
}

/// The base with each pair of changes.
pub fn pairs(base: &Lent) -> impl Iterator<Item = Lent> + '_ {
    singles(base).flat_map(|single| singles(&single).collect::<Vec<_>>())
}
