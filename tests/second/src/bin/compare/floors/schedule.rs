//! Runs: counts, the final group, marks and the working area.

use super::wrong::{self, Lent};
use second::asking::asks;
use second::asking::session::{Go, Needs, Session};
use second::inputs::dice::Dice;
use second::inputs::fitting::{self, Fitting};
use second::inputs::{known, makers};
use second::limits;
use second::wire::calls;
use second::wire::record::Record;

pub const NEEDS: Needs = &[
    ("run", &[0, 2, 3, 4, 5, 6, 7, 8, 9, 10, 12, 13, 20, 21, 22, 40]),
    ("mark", &[0, 1, 2, 3]),
    ("longest run", &[0, 1, 2, 3, 4, 5, 6]),
];

/// Entries of the schedules that are all tried.
const SHORT: u32 = 5;

const NUMBERS: [u32; 2] = [501, 733];

pub fn trials(session: &mut Session) -> Go {
    session.trial("every schedule of up to five entries", short_schedules)?;
    session.trial("looms one after the other", one_by_one)?;
    session.trial("every entry a byte can hold", every_entry)?;
    session.trial("marks buffers short, exact and longer", marks)?;
    session.trial("every refusal before every other", refusals)?;
    session.trial("random schedules", random_schedules)?;
    session.trial("runs of certificates that may be refused", random_runs)
}

fn ask(session: &mut Session, fitting: &Fitting, run: asks::Run) -> Go {
    let entries = run.schedule.len();
    let ours = session.ask(asks::run(fitting, run))?;
    let call = calls::numbered(calls::RUN).expect("a run is a call");
    let mut told = Record::told(&call, &ours).expect("a run's answer has its form");
    if *told.number("code") == 0 {
        session.saw("longest run", *told.number("longest"));
        told.bytes("marks")[..entries].iter().for_each(|&mark| session.saw("mark", mark.into()));
    }
    Ok(())
}

/// The acts of a group of so many looms, as entries.
fn entries(looms: usize) -> Vec<u8> {
    let looms = looms as u8;
    (0..looms).chain((0..looms).map(|loom| 16 + loom)).chain([32]).collect()
}

/// The accepted certificates of the document's table, and a catalogue cell with a side of two.
fn short_schedules(session: &mut Session, _: &mut Dice) -> Go {
    for fitting in known::accepted().into_iter().chain([fitting::catalogue(3)]) {
        for length in 0..=SHORT {
            schedules_of(session, &fitting, length)?;
        }
    }
    Ok(())
}

fn schedules_of(session: &mut Session, fitting: &Fitting, length: u32) -> Go {
    let entries = entries(fitting.certificate.count);
    for number in 0..entries.len().pow(length) {
        let digit = |at| entries[number / entries.len().pow(at) % entries.len()];
        let schedule: Vec<u8> = (0..length).map(digit).collect();
        let (marks, area) = (schedule.len() + 1, fitting.area_words());
        let run = asks::Run { numbers: NUMBERS, schedule: &schedule, marks, area };
        ask(session, fitting, run)?;
    }
    Ok(())
}

/// Each loom, behind any other or none, takes all its steps and one too many; then all again after
/// restarts of one and of all.
fn one_by_one(session: &mut Session, _: &mut Dice) -> Go {
    let catalogued = (2..=8).map(fitting::catalogue);
    for fitting in known::accepted().into_iter().chain(catalogued) {
        let looms: Vec<u8> = (0..fitting.certificate.count as u8).collect();
        for (before, loom) in asks::pairs(&looms, &looms) {
            (0..=7).try_for_each(|steps| one_behind(session, &fitting, before, steps, loom))?;
        }
    }
    Ok(())
}

fn one_behind(session: &mut Session, fitting: &Fitting, before: u8, steps: usize, loom: u8) -> Go {
    let turn = |steps| [vec![before; steps], vec![loom; 7]].concat();
    let schedule = [turn(steps), vec![16 + loom], turn(7), vec![32], turn(1)].concat();
    let (marks, area) = (schedule.len() + 1, fitting.area_words());
    ask(session, fitting, asks::Run { numbers: NUMBERS, schedule: &schedule, marks, area })
}

/// Alone and behind an entry that is right, for each number of looms.
fn every_entry(session: &mut Session, _: &mut Dice) -> Go {
    let bytes: Vec<u8> = (0..=255).collect();
    for (looms, entry) in asks::pairs(&[2, 3, 4, 5, 6, 7, 8], &bytes) {
        let fitting = fitting::catalogue(looms);
        for schedule in [vec![entry], vec![32, entry]] {
            let area = fitting.area_words();
            ask(
                session,
                &fitting,
                asks::Run { numbers: NUMBERS, schedule: &schedule, marks: 3, area },
            )?;
        }
    }
    Ok(())
}

fn marks(session: &mut Session, dice: &mut Dice) -> Go {
    for entries in [0, 1, 2, 7, 100, 4095, 4096] {
        let fitting = makers::accepted(dice);
        let schedule = makers::schedule(dice, fitting.certificate.count, entries);
        for marks in [0, 1, entries.saturating_sub(1), entries, entries + 1, entries + 50] {
            let area = fitting.area_words() + 1;
            ask(
                session,
                &fitting,
                asks::Run { numbers: NUMBERS, schedule: &schedule, marks, area },
            )?;
        }
    }
    Ok(())
}

/// What a run is asked with beside its fitting and area.
#[derive(Clone)]
struct Asked {
    numbers: [u32; 2],
    schedule: Vec<u8>,
    marks: usize,
}

type Change = fn(&mut Asked);

/// None, and then at least one for each of codes 10, 12, 13 and 40.
const CHANGES: [Change; 10] = [
    |_| (),
    |asked| asked.numbers[0] = 0,
    |asked| asked.numbers[1] = 0,
    |asked| asked.schedule.resize(4096, 0),
    |asked| asked.schedule.resize(4097, 0),
    |asked| asked.schedule.resize(4097, 200),
    |asked| asked.schedule[2] = 3,
    |asked| asked.schedule[0] = 33,
    |asked| asked.marks = 3,
    |asked| asked.marks = 4096,
];

/// Each way to refuse the check with each pair of ways to refuse the rest.
fn refusals(session: &mut Session, _: &mut Dice) -> Go {
    let plain = Asked { numbers: NUMBERS, schedule: vec![0, 1, 0, 1], marks: 4 };
    for lent in wrong::bases().iter().flat_map(wrong::singles) {
        for change in CHANGES {
            let mut asked = plain.clone();
            change(&mut asked);
            refusals_after(session, &lent, &asked)?;
        }
    }
    Ok(())
}

fn refusals_after(session: &mut Session, lent: &Lent, base: &Asked) -> Go {
    for change in CHANGES {
        let mut asked = base.clone();
        change(&mut asked);
        let Asked { numbers, schedule, marks } = asked;
        let run = asks::Run { numbers, schedule: &schedule, marks, area: lent.area };
        ask(session, &lent.fitting, run)?;
    }
    Ok(())
}

/// A length from 0 to the limit, small ones as often as all others.
fn length(dice: &mut Dice) -> usize {
    let top = dice.pick(&[20, 200, limits::SCHEDULE]);
    dice.below(top + 1)
}

fn random_schedules(session: &mut Session, dice: &mut Dice) -> Go {
    for _ in 0..session.cases.div_ceil(2) {
        let fitting = makers::accepted(dice);
        let length = length(dice);
        let schedule = makers::schedule(dice, fitting.certificate.count, length);
        let numbers = [dice.pick(&[1, 501, u32::MAX]), 1 + dice.below(900) as u32];
        let (marks, area) = (length + dice.below(4), fitting.area_words() + dice.below(2));
        ask(session, &fitting, asks::Run { numbers, schedule: &schedule, marks, area })?;
    }
    Ok(())
}

/// Anything may be wrong: table, certificate, numbers, an entry, the buffer.
fn random_runs(session: &mut Session, dice: &mut Dice) -> Go {
    for _ in 0..session.cases.div_ceil(2) {
        let mut fitting = makers::formed(dice);
        let area = fitting.area_words();
        let looms = fitting.certificate.count;
        if dice.once_in(4) {
            fitting = makers::damaged(dice, fitting);
        }
        let length = dice.below(30);
        let mut schedule = makers::schedule(dice, looms, length);
        if dice.once_in(6) {
            schedule.push(dice.byte());
        }
        let numbers = [dice.below(9) as u32, dice.below(9) as u32];
        let marks = schedule.len() + 3 - dice.below(5).min(schedule.len() + 3);
        ask(session, &fitting, asks::Run { numbers, schedule: &schedule, marks, area })?;
    }
    Ok(())
}
