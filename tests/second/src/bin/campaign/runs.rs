//! Random accepted certificates up to the limits, each with a long schedule and with short ones from
//! a fresh opening: step by step, and as one run.

use crate::done::Done;
use crate::refusals;
use crate::round::{Opening, Round};
use crate::schedules;
use second::asking::asks::{self, marked_words};
use second::asking::session::{Go, Needs, Session};
use second::inputs::accepted::KINDS;
use second::inputs::dice::Dice;
use second::inputs::fitting::Fitting;

pub const NEEDS: Needs = &[
    ("check", &[0]),
    ("open", &[0, 10, 40]),
    ("step", &[0, 30, 31, 32]),
    ("restart", &[0, 30]),
    ("restart_all", &[0, 30]),
    ("run", &[0, 10, 12, 13, 40]),
];

/// Short schedules to a certificate.
const SHORT: usize = 40;

pub fn trials(session: &mut Session, done: &mut Done) -> Go {
    session.trial("random accepted certificates", |session, dice| {
        (0..session.cases).try_for_each(|number| certificate(session, dice, done, number))
    })
}

fn certificate(session: &mut Session, dice: &mut Dice, done: &mut Done, number: usize) -> Go {
    session.show(&format!("certificate {} of {}", number + 1, session.cases));
    let kind = &KINDS[number % KINDS.len()];
    let fitting = kind.certificate(dice);
    done.certificates += 1;
    session.saw(kind.name, fitting.certificate.count as u64);
    session.ask(asks::check(&fitting, &marked_words(fitting.area_words() + 1)))?;
    let length = schedules::long(dice);
    schedule(session, dice, done, &fitting, length)?;
    for _ in 0..SHORT {
        let length = schedules::short(dice, fitting.certificate.count);
        schedule(session, dice, done, &fitting, length)?;
    }
    Ok(())
}

/// At the edges, equal, or any.
fn numbers(dice: &mut Dice) -> [u32; 2] {
    let any = [1 + dice.below(u32::MAX as usize) as u32, 1 + dice.below(u32::MAX as usize) as u32];
    dice.pick(&[[1, u32::MAX], [u32::MAX, 1], [7, 7], any, any])
}

fn schedule(
    session: &mut Session,
    dice: &mut Dice,
    done: &mut Done,
    fitting: &Fitting,
    length: usize,
) -> Go {
    let opening = Opening { fitting, numbers: numbers(dice) };
    let schedule = schedules::schedule(dice, fitting.certificate.count, length);
    let fault = dice.below(20 * length.max(1));
    let mut round = Round::open(session, &opening)?;
    for (at, &entry) in schedule.iter().enumerate() {
        if at == fault {
            refusals::ask(session, dice, &opening, &round.group)?;
        }
        round.take(session, done, entry)?;
    }
    round.run(session, &schedule)
}
