//! A table with a certificate, as the comparison hands them about.

use crate::cell::{self, Cell};
use crate::codes;
use crate::limits;
use crate::recording::{self, Certificate, Seat};

#[derive(Clone, Debug)]
pub struct Fitting {
    pub table: Vec<u8>,
    pub states: usize,
    pub operations: usize,
    pub certificate: Certificate,
}

/// The certificate of these seats; those beyond are 0, 0.
pub fn certificate(start: usize, seats: &[(usize, usize)]) -> Certificate {
    let mut certificate = Certificate { start, count: seats.len(), ..Certificate::default() };
    for (seat, &(side, operation)) in certificate.seats.iter_mut().zip(seats) {
        *seat = Seat { side, operation };
    }
    certificate
}

impl Fitting {
    pub fn cell(&self) -> Cell<'_> {
        Cell { table: &self.table, states: self.states, operations: self.operations }
    }

    pub fn area_words(&self) -> usize {
        recording::area_words(self.certificate.count)
    }

    /// The check's code with room enough.
    pub fn code(&self) -> codes::Code {
        let mut area = [0; recording_room()];
        recording::check(self.cell(), &self.certificate, &mut area).code
    }

    pub fn accepted(&self) -> bool {
        self.code() == codes::DONE
    }
}

/// Words enough for the most looms.
pub const fn recording_room() -> usize {
    2 << limits::SEATS
}

/// The catalogue cell of size n with "its certificate for n looms: start n, loom 0 on side A with
/// operation 0, all others on side B with operation 1".
pub fn catalogue(n: usize) -> Fitting {
    let seats: Vec<_> = (0..n).map(|loom| if loom == 0 { (0, 0) } else { (1, 1) }).collect();
    Fitting {
        table: cell::catalogue_table(n),
        states: 2 * n,
        operations: 2,
        certificate: certificate(n, &seats),
    }
}
