//! The second program behind the wire: the answer to a request.
//!
//! House rules: whatever is refused gives zeros beside its code (and place); a refused step says
//! nothing, with side, number and step count 0.

use super::calls;
use super::frame::{Cursor, Payload};
use super::numbering::{self, group_numbers, group_of, seat_numbers, seats_of};
use crate::cell::{self, Cell};
use crate::codes::{self, Code};
use crate::group::{self, Group, Said, Stepped, NO_GROUP};
use crate::label;
use crate::order::{self, Order};
use crate::recording::{self, Certificate};
use crate::schedule::{self, Job, Ran};
use crate::sets;

/// The arguments of a request, in order.
struct Asked<'a>(Cursor<'a>);

impl<'a> Asked<'a> {
    fn number(&mut self) -> Option<u64> {
        self.0.number()
    }

    fn count(&mut self) -> Option<usize> {
        self.number().map(|number| number as usize)
    }

    fn bytes(&mut self) -> Option<&'a [u8]> {
        self.0.bytes()
    }

    fn lent_bytes(&mut self) -> Option<Vec<u8>> {
        self.bytes().map(<[u8]>::to_vec)
    }

    fn lent_words(&mut self) -> Option<Vec<u64>> {
        self.0.words()
    }

    fn cell(&mut self) -> Option<Cell<'a>> {
        Some(Cell { table: self.bytes()?, states: self.count()?, operations: self.count()? })
    }

    fn certificate(&mut self) -> Option<Certificate> {
        let (start, count) = (self.count()?, self.count()?);
        let seats = seats_of(&self.0.numbers(numbering::SEATS)?);
        Some(Certificate { start, count, seats })
    }

    fn piece_numbers(&mut self) -> Option<[u32; 2]> {
        Some([self.number()?.try_into().ok()?, self.number()?.try_into().ok()?])
    }

    fn group(&mut self) -> Option<Group> {
        group_of(&self.0.numbers(numbering::GROUP)?)
    }
}

fn code_of<T>(answer: &Result<T, Code>) -> Code {
    answer.as_ref().err().copied().unwrap_or(codes::DONE)
}

fn catalogue(mut asked: Asked) -> Option<Payload> {
    let (n, mut room) = (asked.count()?, asked.lent_bytes()?);
    let code = cell::catalogue(n, &mut room);
    Some(Payload::new().number(code).bytes(&room))
}

fn next(mut asked: Asked) -> Option<Payload> {
    let (table, states) = (asked.bytes()?, asked.count()?);
    let (operation, state) = (asked.count()?, asked.count()?);
    let next = Cell { table, states, operations: 0 }.next(operation, state);
    Some(Payload::new().number(next.is_some().into()).count(next.unwrap_or(0)))
}

fn form(mut asked: Asked) -> Option<Payload> {
    let refusal = asked.cell()?.form().err();
    let code = refusal.map_or(codes::DONE, |refusal| refusal.code);
    Some(Payload::new().number(code).count(refusal.map_or(0, |refusal| refusal.place)))
}

fn check(mut asked: Asked) -> Option<Payload> {
    let (cell, certificate) = (asked.cell()?, asked.certificate()?);
    let mut area = asked.lent_words()?;
    let verdict = recording::check(cell, &certificate, &mut area);
    let [size_a, size_b] = verdict.sizes;
    let head = Payload::new().number(verdict.code).count(verdict.place);
    Some(head.count(size_a).count(size_b).words(&area))
}

fn open(mut asked: Asked) -> Option<Payload> {
    let (cell, certificate) = (asked.cell()?, asked.certificate()?);
    let (numbers, mut area) = (asked.piece_numbers()?, asked.lent_words()?);
    let opened = group::open(cell, &certificate, numbers, &mut area);
    let group = group_numbers(opened.as_ref().unwrap_or(&NO_GROUP));
    Some(Payload::new().number(code_of(&opened)).numbers(&group).words(&area))
}

fn step(mut asked: Asked) -> Option<Payload> {
    let (cell, loom, mut group) = (asked.cell()?, asked.count()?, asked.group()?);
    let answer = group::step(cell, loom, &mut group);
    let stepped = answer.unwrap_or(Stepped { said: Said::Nothing, steps: 0 });
    let said = match stepped.said {
        Said::Nothing => [0, 0, 0],
        Said::Applied => [1, 0, 0],
        Said::Answer(side, number) => [2, side.number() as u64, number.into()],
    };
    let head = Payload::new().number(code_of(&answer)).numbers(&said);
    Some(head.number(stepped.steps.into()).numbers(&group_numbers(&group)))
}

fn restart(mut asked: Asked) -> Option<Payload> {
    let (loom, mut group) = (asked.count()?, asked.group()?);
    let code = code_of(&group::restart(loom, &mut group));
    Some(Payload::new().number(code).numbers(&group_numbers(&group)))
}

fn restart_all(mut asked: Asked) -> Option<Payload> {
    let mut group = asked.group()?;
    let code = code_of(&group::restart_all(&mut group));
    Some(Payload::new().number(code).numbers(&group_numbers(&group)))
}

const NOT_RUN: Ran = Ran { group: NO_GROUP, entries: 0, answers: [0, 0], applied: 0, longest: 0 };

fn run(mut asked: Asked) -> Option<Payload> {
    let (cell, certificate) = (asked.cell()?, asked.certificate()?);
    let (numbers, schedule) = (asked.piece_numbers()?, asked.bytes()?);
    let (mut marks, mut area) = (asked.lent_bytes()?, asked.lent_words()?);
    let job = Job { cell, certificate: &certificate, numbers, schedule };
    let answer = schedule::run(job, &mut marks, &mut area);
    let ran = answer.unwrap_or(NOT_RUN);
    let [answers_a, answers_b] = ran.answers;
    let head = Payload::new().number(code_of(&answer)).count(ran.entries);
    let counts = head.count(answers_a).count(answers_b).count(ran.applied);
    let group = counts.number(ran.longest.into()).numbers(&group_numbers(&ran.group));
    Some(group.bytes(&marks).words(&area))
}

fn order_numbers(payload: Payload, order: &Order) -> Payload {
    let certificate = &order.certificate;
    let [label_a, label_b] = order.labels;
    payload
        .count(order.states)
        .count(order.operations)
        .count(order.table.len())
        .count(certificate.start)
        .count(certificate.count)
        .numbers(&seat_numbers(&certificate.seats))
        .numbers(&order.numbers.map(u64::from))
        .count(label_a.offset)
        .count(label_a.length)
        .count(label_b.offset)
        .count(label_b.length)
        .count(order.schedule.len())
}

fn read(mut asked: Asked) -> Option<Payload> {
    let file = asked.bytes()?;
    let (mut table, mut schedule) = (asked.lent_bytes()?, asked.lent_bytes()?);
    let answer = order::read(file, &mut table, &mut schedule);
    let refusal = answer.as_ref().err();
    let head = Payload::new()
        .number(refusal.map_or(codes::DONE, |refusal| refusal.code))
        .count(refusal.map_or(0, |refusal| refusal.place));
    let order = answer.unwrap_or_default();
    Some(order_numbers(head, &order).bytes(&table).bytes(&schedule))
}

fn label(mut asked: Asked) -> Option<Payload> {
    let labels = [asked.bytes()?, asked.bytes()?];
    let piece = label::piece(labels, asked.count()?);
    let head = Payload::new().count(piece.label.number());
    Some(head.count(piece.part.offset).count(piece.part.length))
}

fn set(function: u8, mut asked: Asked) -> Option<Payload> {
    let word = asked.number()?;
    let answer = match function {
        calls::HAS => sets::has(word, asked.count()?).into(),
        calls::UNION => sets::union(word, asked.number()?),
        calls::INSERT => sets::inserted(word, asked.count()?),
        calls::SIZE => sets::size(word) as u64,
        calls::LOWEST => sets::lowest(word) as u64,
        calls::SHARED => sets::shared(word, asked.number()?),
        _ => return None,
    };
    Some(Payload::new().number(answer))
}

/// The answer's payload; `None` for a request that doesn't follow the protocol.
pub fn answer(request: &[u8]) -> Option<Vec<u8>> {
    let mut cursor = Cursor(request);
    let function = cursor.byte()?;
    let asked = Asked(cursor);
    let payload = match function {
        calls::PING => Some(Payload::new().number(1)),
        calls::CATALOGUE => catalogue(asked),
        calls::NEXT => next(asked),
        calls::FORM => form(asked),
        calls::CHECK => check(asked),
        calls::OPEN => open(asked),
        calls::STEP | calls::STEP_LENT => step(asked),
        calls::RESTART => restart(asked),
        calls::RESTART_ALL => restart_all(asked),
        calls::RUN => run(asked),
        calls::READ | calls::READ_BY_FIELDS => read(asked),
        calls::LABEL => label(asked),
        _ => set(function, asked),
    };
    payload.map(|payload| payload.0)
}
