//! Opening, steps and restarts, on opened groups and on forged ones.

use super::{forged, steps, wrong};
use second::asking::asks::{self, marked_words, pairs, FAR};
use second::asking::session::{Go, Needs, Session};
use second::inputs::dice::Dice;
use second::inputs::fitting::{self, Fitting};
use second::inputs::{known, makers};
use second::wire::calls;
use second::wire::numbering::PLACES;

pub const NEEDS: Needs = &[
    ("open", &[0, 2, 3, 4, 5, 6, 7, 8, 9, 10, 20, 21, 22, 40]),
    ("step", &[0, 30, 31, 32]),
    ("restart", &[0, 30]),
    ("restart_all", &[0, 30]),
    ("place before a step", &[0, 1, 2, 3, 4, 5, 6, 7, 8]),
    ("place after a step", &[1, 2, 3, 4, 5, 6, 7, 8]),
];

pub fn trials(session: &mut Session) -> Go {
    session.trial("opening with numbers at their edges", openings)?;
    session.trial("every refusal of an opening before every other", refused_openings)?;
    session.trial("opening random certificates", random_openings)?;
    steps::trials(session, calls::STEP)?;
    session.trial("restarts with every count and loom", restarts)?;
    session.trial("restarts of forged groups", forged_restarts)
}

fn ask_open(session: &mut Session, fitting: &Fitting, numbers: [u32; 2], area: usize) -> Go {
    session.ask(asks::open(fitting, numbers, &marked_words(area))).map(drop)
}

/// Accepted or refused by the check, with every pair of numbers at its edges, and areas too short.
fn openings(session: &mut Session, _: &mut Dice) -> Go {
    let edges = [0, 1, 2, 501, 1 << 31, u32::MAX];
    let catalogued = (2..=8).map(fitting::catalogue);
    let all = known::certificates().into_iter().map(|known| known.fitting).chain(catalogued);
    for (fitting, (a, b)) in pairs(&all.collect::<Vec<_>>(), &pairs(&edges, &edges)) {
        ask_open(session, &fitting, [a, b], fitting.area_words())?;
        ask_open(session, &fitting, [a, b], fitting.area_words() - 1)?;
    }
    Ok(())
}

fn refused_openings(session: &mut Session, _: &mut Dice) -> Go {
    for lent in wrong::bases().iter().flat_map(wrong::singles) {
        for numbers in [[501, 733], [0, 733], [501, 0], [0, 0]] {
            ask_open(session, &lent.fitting, numbers, lent.area)?;
        }
    }
    Ok(())
}

fn piece_number(dice: &mut Dice) -> u32 {
    let any = dice.word() as u32;
    dice.pick(&[0, 1, any, any, any, u32::MAX])
}

fn random_openings(session: &mut Session, dice: &mut Dice) -> Go {
    for _ in 0..session.cases {
        let formed = makers::formed(dice);
        let area = formed.area_words() + dice.below(3);
        let damaged = dice.once_in(4);
        let fitting = if damaged { makers::damaged(dice, formed) } else { formed };
        let numbers = [piece_number(dice), piece_number(dice)];
        ask_open(session, &fitting, numbers, area)?;
    }
    Ok(())
}

/// Every slot is away from its beginning, so that each restart shows.
fn restarts(session: &mut Session, dice: &mut Dice) -> Go {
    let mut group = forged::group(dice, 64, 16);
    for (slot, place) in group.looms.iter_mut().zip(&PLACES[1..]) {
        slot.place = *place;
        slot.steps = 3;
    }
    let numbers: Vec<usize> = (0..=10).chain(FAR).collect();
    for (count, loom) in pairs(&numbers, &numbers) {
        group.count = count;
        session.ask(asks::restart_all(&group))?;
        session.ask(asks::restart(loom, &group))?;
    }
    Ok(())
}

fn forged_restarts(session: &mut Session, dice: &mut Dice) -> Go {
    for _ in 0..session.cases {
        let group = forged::group(dice, 64, 16);
        let loom = forged::loom_number(dice, &group);
        session.ask(asks::restart(loom, &group))?;
        session.ask(asks::restart_all(&group))?;
    }
    Ok(())
}
