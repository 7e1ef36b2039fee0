//! "A certificate is a start state and, for each loom, a side (0 for A, 1 for B) and an operation."
//! The check says whether it is recording.
//!
//! House rule: a refused check gives zeros beside its code and place.

use crate::cell::Cell;
use crate::codes::{self, judged, Code, Refusal};
use crate::limits;
use crate::sets;
use crate::side::{self, Side};

/// A loom's side and operation as plain numbers, since wrong ones must be refusable.
#[derive(Clone, Copy, Debug, Default, PartialEq, Eq)]
pub struct Seat {
    pub side: usize,
    pub operation: usize,
}

/// Seats beyond the count mean nothing.
#[derive(Clone, Copy, Debug, Default, PartialEq, Eq)]
pub struct Certificate {
    pub start: usize,
    pub count: usize,
    pub seats: [Seat; limits::SEATS],
}

impl Certificate {
    /// The seats of the looms that there are. The count must be within limits.
    pub fn looms(&self) -> &[Seat] {
        &self.seats[..self.count]
    }

    fn looms_of(&self, side: Side) -> usize {
        self.looms().iter().filter(|seat| seat.side == side.number()).count()
    }
}

/// "The check's answer is a code, a place and the number of states in each set."
#[derive(Clone, Copy, Debug, Default, PartialEq, Eq)]
pub struct Verdict {
    pub code: Code,
    pub place: usize,
    pub sizes: [usize; 2],
}

/// Codes 2 to 9 in number order. The place is the lowest entry for 5, the lowest loom for 8, else
/// 0.
pub fn form(cell: Cell, certificate: &Certificate) -> Result<(), Refusal> {
    cell.form()?;
    judged(certificate.start < cell.states, codes::START, 0)?;
    judged(limits::LOOMS.contains(&certificate.count), codes::LOOMS, 0)?;
    let wrong = certificate
        .looms()
        .iter()
        .position(|seat| seat.side > 1 || seat.operation >= cell.operations);
    judged(wrong.is_none(), codes::SEAT, wrong.unwrap_or(0))?;
    let sided = side::BOTH.iter().all(|&side| certificate.looms_of(side) > 0);
    judged(sided, codes::ONE_SIDED, 0)
}

/// Words that the check fills for so many looms: 2 × 2^n.
pub fn area_words(count: usize) -> usize {
    2 << count
}

/// The area's word for the side of the first loom and the looms applied, one bit a loom.
fn word_at(count: usize, first: usize, looms: usize) -> usize {
    (first << count) + looms
}

/// A cell and a certificate that have form.
struct Fitted<'a> {
    cell: Cell<'a>,
    certificate: &'a Certificate,
}

impl Fitted<'_> {
    fn count(&self) -> usize {
        self.certificate.count
    }

    fn applied(&self, loom: usize, state: usize) -> usize {
        let operation = self.certificate.seats[loom].operation;
        self.cell.next(operation, state).expect("the table has form")
    }

    /// The looms that are not among those used, so that none is applied twice.
    fn unused(&self, used: usize) -> impl Iterator<Item = usize> {
        (0..self.count()).filter(move |&loom| (used >> loom) & 1 == 0)
    }

    /// Every order that goes on from the looms used so far, each tried in turn.
    fn try_orders(&self, used: usize, state: usize, first: Option<usize>, area: &mut [u64]) {
        for loom in self.unused(used) {
            let first = first.unwrap_or(self.certificate.seats[loom].side);
            let looms = used + (1 << loom);
            let reached = self.applied(loom, state);
            let word = &mut area[word_at(self.count(), first, looms)];
            *word = sets::inserted(*word, reached);
            self.try_orders(looms, reached, Some(first), area);
        }
    }

    /// The pairs of looms used and state reached that are one loom further.
    fn further(&self, used: usize, state: usize) -> impl Iterator<Item = (usize, usize)> + '_ {
        self.unused(used).map(move |loom| (used + (1 << loom), self.applied(loom, state)))
    }

    /// Every pair of looms used and state reached, once, for one side of the first loom.
    fn walk_pairs(&self, first: usize, area: &mut [u64]) {
        let start = self.certificate.start;
        let firsts = self.unused(0).filter(|&loom| self.certificate.seats[loom].side == first);
        let mut waiting: std::collections::VecDeque<_> =
            firsts.map(|loom| (1 << loom, self.applied(loom, start))).collect();
        while let Some((looms, state)) = waiting.pop_front() {
            let word = &mut area[word_at(self.count(), first, looms)];
            if !sets::has(*word, state) {
                *word = sets::inserted(*word, state);
                waiting.extend(self.further(looms, state));
            }
        }
    }
}

/// "Word m of the first 2^n words afterwards holds the states reached by applying exactly the looms
/// whose bits are in m, each once, an A loom first; word 2^n + m the same for B." Found by trying
/// every order of distinct looms.
pub fn area_by_orders(cell: Cell, certificate: &Certificate) -> Vec<u64> {
    let mut area = vec![sets::EMPTY; area_words(certificate.count)];
    Fitted { cell, certificate }.try_orders(0, certificate.start, None, &mut area);
    area
}

/// The same area by breadth first over pairs of looms used and state reached. Eight looms have
/// 109,600 orders, but at most 256 × 64 such pairs.
pub fn area_by_pairs(cell: Cell, certificate: &Certificate) -> Vec<u64> {
    let mut area = vec![sets::EMPTY; area_words(certificate.count)];
    let fitted = Fitted { cell, certificate };
    fitted.walk_pairs(0, &mut area);
    fitted.walk_pairs(1, &mut area);
    area
}

/// Up to so many looms every order is tried.
const ORDERS_TRIED: usize = 5;

fn area_of(cell: Cell, certificate: &Certificate) -> Vec<u64> {
    if certificate.count <= ORDERS_TRIED {
        area_by_orders(cell, certificate)
    } else {
        area_by_pairs(cell, certificate)
    }
}

/// "For side X, the set of X is every state reached from the start by applying the operations of
/// one or more distinct looms, each once, in some order, the first of them a loom of X": the two
/// sets out of a filled area.
pub fn sets_of(area: &[u64], count: usize) -> [u64; 2] {
    let words = 1 << count;
    let all = |half: &[u64]| half.iter().fold(sets::EMPTY, |set, &word| sets::union(set, word));
    [all(&area[..words]), all(&area[words..2 * words])]
}

/// The certificate is recording when "no state is in both sets; the start isn't in the set of A, or
/// B has one loom; the start isn't in the set of B, or A has one loom".
fn recording(certificate: &Certificate, [a, b]: [u64; 2]) -> Result<(), Refusal> {
    let start = certificate.start;
    let shared = sets::shared(a, b);
    judged(shared == sets::EMPTY, codes::SHARED_STATE, sets::lowest(shared))?;
    let a_fits = !sets::has(a, start) || certificate.looms_of(Side::B) == 1;
    judged(a_fits, codes::START_IN_A, start)?;
    let b_fits = !sets::has(b, start) || certificate.looms_of(Side::A) == 1;
    judged(b_fits, codes::START_IN_B, start)
}

/// "Check: 2 to 9 in number order, then 40 (2 × 2^n words), then 20, 21, 22." A check that gets
/// past 40 has filled the area, refused or not; later words stay.
pub fn check(cell: Cell, certificate: &Certificate, area: &mut [u64]) -> Verdict {
    let no_sizes =
        |refusal: Refusal| Verdict { code: refusal.code, place: refusal.place, sizes: [0, 0] };
    if let Err(refusal) = form(cell, certificate) {
        return no_sizes(refusal);
    }
    let words = area_words(certificate.count);
    if area.len() < words {
        return no_sizes(Refusal { code: codes::ROOM, place: 0 });
    }
    area[..words].copy_from_slice(&area_of(cell, certificate));
    let sets = sets_of(area, certificate.count);
    let refusal = recording(certificate, sets).err();
    Verdict {
        code: refusal.map_or(codes::DONE, |refusal| refusal.code),
        place: refusal.map_or(0, |refusal| refusal.place),
        sizes: sets.map(sets::size),
    }
}
