//! Steps of one loom, by value or with the shared memory lent, as the function says.

use super::forged;
use second::asking::asks::{self, pairs};
use second::asking::session::{Go, Needs, Session, Stopped};
use second::group::{self, Group, Place, NO_GROUP};
use second::inputs::dice::Dice;
use second::inputs::fitting::Fitting;
use second::inputs::{known, makers};
use second::recording::Certificate;
use second::side::{self, Side};
use second::wire::calls;
use second::wire::frame::Cursor;
use second::wire::numbering::{group_of, place_number, GROUP, PLACES};

pub const LENT_NEEDS: Needs = &[
    ("step_lent", &[0, 30, 31, 32]),
    ("place before a step", &[0, 1, 2, 3, 4, 5, 6, 7, 8]),
    ("place after a step", &[1, 2, 3, 4, 5, 6, 7, 8]),
];

/// Acts taken on one opened group.
const ACTS: usize = 100;

pub fn lent_trials(session: &mut Session) -> Go {
    trials(session, calls::STEP_LENT)
}

pub fn trials(session: &mut Session, function: u8) -> Go {
    session.trial("every place, side and reading of a small group", |session, _| {
        small_groups(session, function)
    })?;
    session.trial("states and sets at the edges of a word", |session, _| {
        word_edges(session, function)
    })?;
    session.trial("every refusal of a step before every other", |session, _| {
        refusals(session, function)
    })?;
    session.trial("random acts on opened groups", |session, dice| acts(session, dice, function))?;
    session.trial("steps of forged groups", |session, dice| forged_steps(session, dice, function))
}

/// Asks for a step; hands back the group after it, by the second program.
fn ask_step(
    session: &mut Session,
    function: u8,
    fitting: &Fitting,
    loom: usize,
    group: &Group,
) -> Result<Group, Stopped> {
    let ours = session.ask(asks::step(function, fitting.cell(), loom, group))?;
    let mut cursor = Cursor(&ours);
    let head = cursor.numbers(5).expect("a step gives five numbers");
    let after = group_of(&cursor.numbers(GROUP).expect("and a group")).expect("of right widths");
    if let Some(slot) = group.looms.get(loom) {
        if matches!(head[0], 0 | 31) {
            session.saw("place before a step", place_number(slot.place));
        }
        if head[0] == 0 {
            session.saw("place after a step", place_number(after.looms[loom].place));
        }
    }
    Ok(after)
}

/// Groups of one to three looms over "returns", with every side, place, cell, register and set that
/// a row of the table of places looks at.
fn small_groups(session: &mut Session, function: u8) -> Go {
    let fitting = known::named("returns");
    for ((place, side), cell) in pairs(&pairs(&PLACES, &side::BOTH), &[0, 1, 2]) {
        let mut group = Group { numbers: [501, 733], cell, ..NO_GROUP };
        group.looms[0].place = place;
        group.looms[0].side = side;
        small_memories(session, function, &fitting, group)?;
    }
    Ok(())
}

/// The other looms' sides, the sets and the registers.
fn small_memories(session: &mut Session, function: u8, fitting: &Fitting, group: Group) -> Go {
    let others: [&[Side]; 5] = [&[], &[Side::A], &[Side::B], &[Side::A, Side::B], &[Side::B; 2]];
    let words: Vec<u64> = (0..8).collect();
    let registers = pairs(&[0, 501], &[0, 733]);
    for (sides, (sets, registers)) in pairs(&others, &pairs(&pairs(&words, &words), &registers)) {
        let mut group = group;
        group.count = 1 + sides.len();
        let slots = group.looms[1..].iter_mut().zip(sides);
        slots.for_each(|(slot, &side)| slot.side = side);
        group.sets = sets.into();
        group.registers = registers.into();
        ask_step(session, function, fitting, 0, &group)?;
    }
    Ok(())
}

/// None, all, and those of one state at an edge of the word.
const EDGE_SETS: [u64; 6] = [0, u64::MAX, 1, 2, 1 << 62, 1 << 63];

/// A start beyond the word is in no set, also where its low bits name a state that is.
fn word_edges(session: &mut Session, function: u8) -> Go {
    let certificate = Certificate::default();
    let fitting = Fitting { table: (0..64).collect(), states: 64, operations: 1, certificate };
    let starts = [0, 1, 62, 63, 64, 65, 126, 127, 128, 191, 192, 254, 255];
    let memories = pairs(&pairs(&[0, 1, 62, 63], &starts), &pairs(&EDGE_SETS, &EDGE_SETS));
    for (((cell, start), sets), place) in pairs(&memories, &[Place::Posted, Place::Applied]) {
        let mut group = Group { count: 2, cell, start, sets: sets.into(), ..NO_GROUP };
        group.looms[0].place = place;
        group.looms[1].side = Side::B;
        ask_step(session, function, &fitting, 0, &group)?;
    }
    Ok(())
}

/// What a step is asked with.
#[derive(Clone)]
struct Asked {
    fitting: Fitting,
    loom: usize,
    group: Group,
}

type Change = fn(&mut Asked);

/// One change for each reason to refuse; applied in pairs they show which comes first.
const CHANGES: [Change; 22] = [
    |_| (),
    |asked| asked.loom = 2,
    |asked| asked.loom = 8,
    |asked| asked.loom = usize::MAX,
    |asked| asked.group.count = 1,
    |asked| asked.group.count = 0,
    |asked| asked.group.count = 9,
    |asked| asked.group.count = usize::MAX,
    |asked| asked.fitting.states = 0,
    |asked| asked.fitting.states = 65,
    |asked| asked.fitting.states = usize::MAX,
    |asked| asked.fitting.operations = 0,
    |asked| asked.fitting.operations = 17,
    |asked| asked.fitting.operations = usize::MAX / 4 + 2,
    |asked| asked.fitting.table.truncate(7),
    |asked| asked.fitting.table.push(0),
    |asked| asked.group.cell = 4,
    |asked| asked.group.cell = 255,
    |asked| asked.group.looms[1].operation = 2,
    |asked| asked.group.looms[1].operation = 255,
    |asked| asked.fitting.table[6] = 4,
    |asked| asked.fitting.table[6] = 255,
];

/// Loom 1 of "size 2" in every place: its entry stands at 6. A wrong entry elsewhere is no matter.
fn refusals(session: &mut Session, function: u8) -> Go {
    let fitting = known::named("size 2");
    let opened = group::open(fitting.cell(), &fitting.certificate, [501, 733], &mut [0; 8]);
    let mut group = opened.expect("\"size 2\" is accepted");
    for place in PLACES {
        group.looms[1].place = place;
        let base = Asked { fitting: fitting.clone(), loom: 1, group };
        refusal_pairs(session, function, &base)?;
    }
    Ok(())
}

fn refusal_pairs(session: &mut Session, function: u8, base: &Asked) -> Go {
    for (one, other) in pairs(&CHANGES, &CHANGES) {
        let mut asked = base.clone();
        one(&mut asked);
        other(&mut asked);
        ask_step(session, function, &asked.fitting, asked.loom, &asked.group)?;
        asked.fitting.table[0] = 255;
        ask_step(session, function, &asked.fitting, asked.loom, &asked.group)?;
    }
    Ok(())
}

fn acts(session: &mut Session, dice: &mut Dice, function: u8) -> Go {
    for _ in 0..session.cases.div_ceil(ACTS / 2) {
        let fitting = makers::accepted(dice);
        let numbers = [1 + dice.below(1000) as u32, dice.pick(&[1, 733, u32::MAX])];
        let opened = group::open(fitting.cell(), &fitting.certificate, numbers, &mut [0; 512]);
        let group = opened.expect("the check accepts it and no number is 0");
        let one_more = |group, _| act(session, dice, function, &fitting, group);
        (0..ACTS).try_fold(group, one_more)?;
    }
    Ok(())
}

/// One act; restarts are asked for only beside the plain step.
fn act(
    session: &mut Session,
    dice: &mut Dice,
    function: u8,
    fitting: &Fitting,
    mut group: Group,
) -> Result<Group, Stopped> {
    let beyond = usize::from(dice.once_in(10));
    let loom = dice.below(group.count + beyond);
    let (request, all) = match dice.below(20) {
        0 | 1 => (asks::restart(loom, &group), false),
        2 => (asks::restart_all(&group), true),
        _ => return ask_step(session, function, fitting, loom, &group),
    };
    if function == calls::STEP {
        session.ask(request)?;
    }
    // A refused restart leaves the group as it is.
    let _ = if all { group::restart_all(&mut group) } else { group::restart(loom, &mut group) };
    Ok(group)
}

fn forged_steps(session: &mut Session, dice: &mut Dice, function: u8) -> Go {
    for _ in 0..session.cases {
        let mut fitting = forged::table(dice);
        let group = forged::group(dice, fitting.states, fitting.operations);
        let loom = forged::loom_number(dice, &group);
        if dice.once_in(12) {
            forged::spoil_entry(dice, &mut fitting, &group, loom);
        }
        ask_step(session, function, &fitting, loom, &group)?;
    }
    Ok(())
}
