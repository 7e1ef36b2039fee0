//! Sample orders: the document's worked one, one for each code that a file or check can give, and
//! those at the edges of the printer.

use super::fitting::{self, Fitting};
use super::known;
use super::writer::Draft;

pub struct Sample {
    pub name: &'static str,
    pub file: Vec<u8>,
}

/// "For 'size 2' with numbers 501 and 733, labels `W501` and `W733` plus one space, and schedule
/// 1 1 1 0 0 1 17 0 0 0 1 1 1 (a file of 152 bytes)."
pub fn worked() -> Draft {
    let schedule = [1, 1, 1, 0, 0, 1, 17, 0, 0, 0, 1, 1, 1];
    Draft::of(&known::named("size 2"), [501, 733], [b"W501", b"W733 "], &schedule)
}

/// "The longest file has 20,648 bytes": every field at its limit, and still recording. Sixteen
/// operations: the first takes state 0 to the states below 32, all others to those from 32 on.
pub fn longest() -> Draft {
    let entry = |at: usize| match (at / 64, at % 64) {
        (0, 0) => 1,
        (_, 0) => 32,
        (_, state) => state as u8,
    };
    let seats: Vec<_> = (0..8).map(|loom| if loom == 0 { (0, 0) } else { (1, 8 + loom) }).collect();
    let fitting = Fitting {
        table: (0..1024).map(entry).collect(),
        states: 64,
        operations: 16,
        certificate: fitting::certificate(0, &seats),
    };
    let schedule: Vec<u8> = (0..4096).map(long_entry).collect();
    let labels: [&[u8]; 2] =
        [b"a label of thirty-two bytes: abc", b"another with spaces at its end  "];
    Draft::of(&fitting, [u32::MAX, 1], labels, &schedule)
}

/// Every loom in turn, with a restart of one now and then and of all less often.
fn long_entry(k: usize) -> u8 {
    match k {
        _ if k % 1000 == 999 => 32,
        _ if k % 50 == 49 => 16 + (k / 50 % 8) as u8,
        _ => (k % 8) as u8,
    }
}

/// The worked order with something changed.
fn changed(name: &'static str, change: impl FnOnce(&mut Draft)) -> Sample {
    let mut draft = worked();
    change(&mut draft);
    Sample { name, file: draft.file() }
}

/// The worked order's schedule for another certificate.
fn certified(name: &'static str, certificate: &str) -> Sample {
    let schedule = [0, 1, 0, 1];
    let draft = Draft::of(&known::named(certificate), [501, 733], [b"W501", b"W733"], &schedule);
    Sample { name, file: draft.file() }
}

fn cut_short() -> Sample {
    let mut file = worked().file();
    file.truncate(150);
    Sample { name: "cut-short", file }
}

fn long_tail() -> Sample {
    let mut file = worked().file();
    file.push(0);
    Sample { name: "tail", file }
}

/// One sample for each of codes 1 to 14, in that order.
fn refused_files() -> Vec<Sample> {
    vec![
        cut_short(),
        changed("states", |draft| draft.states = 65),
        changed("operations", |draft| draft.operations = 17),
        changed("table-length", |draft| draft.table.truncate(7)),
        changed("entry", |draft| draft.table[5] = 4),
        changed("start", |draft| draft.start = 4),
        changed("looms", |draft| draft.seats.truncate(1)),
        changed("seat", |draft| draft.seats[1].1 = 2),
        changed("one-sided", |draft| draft.seats[0].0 = 1),
        changed("piece-number", |draft| draft.numbers[1] = 0),
        changed("label", |draft| draft.labels[1][2] = 127),
        changed("schedule-length", |draft| draft.schedule = vec![0; 4097]),
        changed("act", |draft| draft.schedule[6] = 18),
        long_tail(),
    ]
}

/// One sample for each of codes 20, 21 and 22, in that order.
fn refused_checks() -> Vec<Sample> {
    vec![
        certified("shared-state", "plain write"),
        certified("start-in-a", "late return"),
        certified("start-in-b", "late return, exchanged"),
    ]
}

fn accepted_files() -> Vec<Sample> {
    vec![
        Sample { name: "worked", file: worked().file() },
        Sample { name: "longest", file: longest().file() },
        changed("no-schedule", |draft| draft.schedule.clear()),
        changed("blank-label", |draft| draft.labels[1] = b"   ".to_vec()),
        changed("pads", |draft| draft.pad = 0xff),
    ]
}

/// All samples; every name is its file's.
pub fn all() -> Vec<Sample> {
    let mut samples = accepted_files();
    samples.extend(refused_files());
    samples.extend(refused_checks());
    samples
}
