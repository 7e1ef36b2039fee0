//! Order files for test inputs. What is written need not read back: a draft may hold anything.

use super::fitting::Fitting;
use crate::limits;

#[derive(Clone, Debug)]
pub struct Draft {
    pub states: u32,
    pub operations: u32,
    pub table: Vec<u32>,
    pub start: u32,
    pub seats: Vec<(u32, u32)>,
    pub numbers: [u32; 2],
    pub labels: [Vec<u8>; 2],
    /// What stands in the pad bytes.
    pub pad: u8,
    pub schedule: Vec<u32>,
}

impl Draft {
    /// The order of a fitting whose certificate has form.
    pub fn of(fitting: &Fitting, numbers: [u32; 2], labels: [&[u8]; 2], schedule: &[u8]) -> Draft {
        let seats = fitting.certificate.looms().iter();
        Draft {
            states: fitting.states as u32,
            operations: fitting.operations as u32,
            table: fitting.table.iter().map(|&entry| u32::from(entry)).collect(),
            start: fitting.certificate.start as u32,
            seats: seats.map(|seat| (seat.side as u32, seat.operation as u32)).collect(),
            numbers,
            labels: labels.map(|label| label.to_vec()),
            pad: 0,
            schedule: schedule.iter().map(|&entry| u32::from(entry)).collect(),
        }
    }

    /// The file, each count that of its items.
    pub fn file(&self) -> Vec<u8> {
        let mut file = Vec::with_capacity(limits::FILE);
        put_words(&mut file, &[self.states, self.operations]);
        put_array(&mut file, &self.table);
        put_words(&mut file, &[self.start, self.seats.len() as u32]);
        for &(side, operation) in &self.seats {
            put_words(&mut file, &[side, operation]);
        }
        put_words(&mut file, &self.numbers);
        put_label(&mut file, &self.labels[0], self.pad);
        put_label(&mut file, &self.labels[1], self.pad);
        put_array(&mut file, &self.schedule);
        file
    }
}

fn put_words(file: &mut Vec<u8>, words: &[u32]) {
    file.extend(words.iter().flat_map(|word| word.to_be_bytes()));
}

fn put_array(file: &mut Vec<u8>, items: &[u32]) {
    put_words(file, &[items.len() as u32]);
    put_words(file, items);
}

fn put_label(file: &mut Vec<u8>, label: &[u8], pad: u8) {
    put_words(file, &[label.len() as u32]);
    file.extend(label);
    file.resize(file.len().next_multiple_of(4), pad);
}
