//! Calls that are refused, put in among the others: nothing of the group or of lent memory moves.

use second::asking::asks::{self, marked_words};
use second::asking::session::{Go, Session};
use second::group::Group;
use second::inputs::dice::Dice;
use second::inputs::fitting::Fitting;
use second::inputs::makers;
use second::wire::calls;

use crate::round::Opening;

/// All of them, on a group as it stands.
pub fn ask(session: &mut Session, dice: &mut Dice, opening: &Opening, group: &Group) -> Go {
    steps(session, dice, opening.fitting, group)?;
    restarts(session, group)?;
    openings(session, dice, opening)?;
    runs(session, opening)
}

/// What a step is asked with, but for its loom.
type Change = fn(&mut Fitting, &mut Group);

const CHANGES: [Change; 12] = [
    |fitting, _| fitting.table.truncate(fitting.table.len() - 1),
    |fitting, _| fitting.table.push(0),
    |fitting, _| fitting.table.fill(255),
    |fitting, _| fitting.states = 0,
    |fitting, _| fitting.states = 65,
    |fitting, _| fitting.operations = 0,
    |fitting, _| fitting.operations = 17,
    |fitting, group| group.cell = fitting.states as u8,
    |_, group| group.cell = 255,
    |fitting, group| {
        group.looms.iter_mut().for_each(|loom| loom.operation = fitting.operations as u8)
    },
    |_, group| group.count = 9,
    |_, group| group.count = 0,
];

fn steps(session: &mut Session, dice: &mut Dice, fitting: &Fitting, group: &Group) -> Go {
    for loom in [group.count, 8, 16, usize::MAX] {
        session.ask(asks::step(calls::STEP, fitting.cell(), loom, group))?;
    }
    for change in CHANGES {
        let (mut fitting, mut group) = (fitting.clone(), *group);
        let loom = dice.below(group.count);
        change(&mut fitting, &mut group);
        session.ask(asks::step(calls::STEP, fitting.cell(), loom, &group))?;
    }
    Ok(())
}

fn restarts(session: &mut Session, group: &Group) -> Go {
    let more = Group { count: 9, ..*group };
    session.ask(asks::restart(group.count, group))?;
    session.ask(asks::restart(0, &more))?;
    session.ask(asks::restart_all(&more)).map(drop)
}

/// How many damaged certificates are tried to one that is sound.
const DAMAGED: usize = 12;

fn openings(session: &mut Session, dice: &mut Dice, opening: &Opening) -> Go {
    let Opening { fitting, numbers } = *opening;
    let area = marked_words(fitting.area_words());
    for numbers in [[0, numbers[1]], [numbers[0], 0]] {
        session.ask(asks::open(fitting, numbers, &area))?;
    }
    session.ask(asks::open(fitting, numbers, &area[1..]))?;
    for _ in 0..DAMAGED {
        let damaged = makers::damaged(dice, fitting.clone());
        let altered = makers::altered(dice, fitting.clone());
        session.ask(asks::check(&damaged, &area))?;
        session.ask(asks::open(&damaged, numbers, &area))?;
        session.ask(asks::open(&altered, numbers, &area))?;
    }
    Ok(())
}

fn runs(session: &mut Session, opening: &Opening) -> Go {
    let Opening { fitting, numbers } = *opening;
    let looms = fitting.certificate.count as u8;
    let full = fitting.area_words();
    let asked: [(&[u8], usize, usize); 6] = [
        (&[0, looms], 2, full),
        (&[0, 16 + looms], 2, full),
        (&[0, 33], 2, full),
        (&[0; 4097], 4097, full),
        (&[0; 40], 39, full),
        (&[0; 40], 40, full - 1),
    ];
    for (schedule, marks, area) in asked {
        session.ask(asks::run(fitting, asks::Run { numbers, schedule, marks, area }))?;
    }
    let none = asks::Run { numbers: [numbers[0], 0], schedule: &[0], marks: 1, area: full };
    session.ask(asks::run(fitting, none)).map(drop)
}
