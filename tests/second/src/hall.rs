//! The hall printer: an order file in, lines out.

use crate::cell::Cell;
use crate::codes;
use crate::label;
use crate::limits;
use crate::order::{self, Order};
use crate::recording;
use crate::schedule::{self, Job, Ran};

/// A line's word and what follows it; "an empty schedule prints `MARKS` alone, and a label trimmed
/// to nothing prints `PIECE` alone".
fn line(word: &str, rest: &str) -> String {
    if rest.is_empty() {
        format!("{word}\n")
    } else {
        format!("{word} {rest}\n")
    }
}

/// "With no answer the last line is `NONE`." All answers of a run name one side.
fn piece_line(file: &[u8], order: &Order, answers: [usize; 2]) -> String {
    let Some(side) = answers.iter().position(|&count| count > 0) else {
        return line("NONE", "");
    };
    let piece = label::piece(order.labels.map(|label| label.of(file)), side);
    let bytes = piece.part.of(order.labels[side].of(file));
    line("PIECE", &String::from_utf8_lossy(bytes))
}

/// "RUN: code, entries, answers A, answers B, operations applied, longest run, cell."
fn run_line(ran: &Ran) -> String {
    let Ran { group, entries, answers: [a, b], applied, longest } = ran;
    let cell = group.cell;
    line("RUN", &format!("0 {entries} {a} {b} {applied} {longest} {cell}"))
}

fn run_lines(file: &[u8], order: &Order, cell: Cell) -> String {
    let mut marks = [0; limits::SCHEDULE];
    let mut area = [0; 512];
    let job = Job {
        cell,
        certificate: &order.certificate,
        numbers: order.numbers,
        schedule: &order.schedule,
    };
    let ran = schedule::run(job, &mut marks, &mut area).expect("file and check were accepted");
    let marks: String = marks[..ran.entries].iter().map(|mark| mark.to_string()).collect();
    run_line(&ran) + &line("MARKS", &marks) + &piece_line(file, order, ran.answers)
}

/// All that is printed for a file. "A refused file gives only `FILE code place`; a refused check
/// only its CHECK line."
pub fn printed(file: &[u8]) -> String {
    let mut table = [0; limits::TABLE_ROOM];
    let mut entries = [0; limits::SCHEDULE_ROOM];
    let order = match order::read(file, &mut table, &mut entries) {
        Ok(order) => order,
        Err(refusal) => return line("FILE", &format!("{} {}", refusal.code, refusal.place)),
    };
    let cell = Cell { table: &order.table, states: order.states, operations: order.operations };
    let verdict = recording::check(cell, &order.certificate, &mut [0; 512]);
    let [a, b] = verdict.sizes;
    let check = line("CHECK", &format!("{} {} {a} {b}", verdict.code, verdict.place));
    if verdict.code != codes::DONE {
        return check;
    }
    check + &run_lines(file, &order, cell)
}
