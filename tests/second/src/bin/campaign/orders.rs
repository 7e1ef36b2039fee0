//! Order files of random accepted certificates, sound and damaged by cuts, bytes and words; and the
//! labels of those that read.

use crate::done::Done;
use crate::schedules;
use second::asking::asks;
use second::asking::session::{Go, Needs, Session};
use second::inputs::accepted::KINDS;
use second::inputs::dice::Dice;
use second::inputs::writer::Draft;
use second::limits::{LABEL, LABEL_BYTES, SCHEDULE_ROOM, TABLE_ROOM};
use second::wire::calls;

pub const NEEDS: Needs = &[("read", &[0, 1, 14, 40]), ("label", &[0, 1])];

/// Damaged files to one that is sound.
const DAMAGED: usize = 24;

pub fn trials(session: &mut Session, done: &mut Done) -> Go {
    session.trial("orders of random accepted certificates, sound and damaged", |session, dice| {
        (0..session.cases).try_for_each(|number| order(session, dice, done, number))
    })
}

fn order(session: &mut Session, dice: &mut Dice, done: &mut Done, number: usize) -> Go {
    session.show(&format!("order {} of {}", number + 1, session.cases));
    let fitting = KINDS[number % KINDS.len()].certificate(dice);
    let length = if dice.once_in(4) { schedules::long(dice) } else { dice.below(60) };
    let schedule = schedules::schedule(dice, fitting.certificate.count, length);
    let labels = [label(dice), label(dice)];
    for side in 0..3 {
        session.ask(asks::label([&labels[0], &labels[1]], side))?;
    }
    let file = Draft::of(&fitting, [501, 733], [&labels[0], &labels[1]], &schedule).file();
    ask(session, done, &file)?;
    session.ask(asks::read(calls::READ, &file, TABLE_ROOM, SCHEDULE_ROOM - 1))?;
    (0..DAMAGED).try_for_each(|_| ask(session, done, &damaged(dice, file.clone())))
}

fn ask(session: &mut Session, done: &mut Done, file: &[u8]) -> Go {
    done.files += 1;
    session.ask(asks::read(calls::READ, file, TABLE_ROOM + 1, SCHEDULE_ROOM + 1)).map(drop)
}

fn label(dice: &mut Dice) -> Vec<u8> {
    let (low, high) = (usize::from(*LABEL_BYTES.start()), usize::from(*LABEL_BYTES.end()));
    let length = dice.below(LABEL + 1);
    (0..length)
        .map(|_| {
            let any = dice.between(low, high) as u8;
            dice.pick(&[any, any, b' '])
        })
        .collect()
}

/// Cut, lengthened, or with bytes or a word other than they were; the head, where most fields
/// are, as often as the rest.
fn damaged(dice: &mut Dice, mut file: Vec<u8>) -> Vec<u8> {
    let reach = dice.pick(&[file.len(), file.len().min(200)]);
    let at = dice.below(reach);
    match dice.below(5) {
        0 => file.truncate(at),
        1 => file.push(dice.byte()),
        2 => file[at] = dice.byte(),
        3 => file[at] ^= 1 << dice.below(8),
        _ => {
            let word = dice.pick(&[0, 1, 9, 17, 33, 65, 4097, u32::MAX]);
            let at = (at / 4 * 4).min(file.len() - 4);
            file[at..at + 4].copy_from_slice(&word.to_be_bytes());
        }
    }
    file
}
