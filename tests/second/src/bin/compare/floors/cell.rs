//! The catalogue, lookups and the form of a table.

use second::asking::asks::{self, around, marked_bytes, pairs, EDGES, FAR};
use second::asking::session::{Go, Needs, Session};
use second::cell::Cell;
use second::inputs::dice::Dice;
use second::inputs::makers;
use second::wire::calls;
use second::wire::frame::Payload;

pub const NEEDS: Needs = &[
    ("catalogue", &[0, 40, 41]),
    ("next", &[0, 1]),
    ("form", &[0, 2, 3, 4, 5]),
    ("form with place", &[5]),
];

pub fn trials(session: &mut Session) -> Go {
    session.trial("the catalogue at every size and room", catalogue)?;
    session.trial("catalogue sizes far beyond", catalogue_beyond)?;
    session.trial("lookups at their edges", lookups)?;
    session.trial("lookups in random tables", random_lookups)?;
    session.trial("forms at their edges", forms)?;
    session.trial("every wrong entry of a table", wrong_entries)?;
    session.trial("forms of random tables", random_forms)
}

fn ask_catalogue(session: &mut Session, n: usize, room: usize) -> Go {
    let request = Payload::call(calls::CATALOGUE).count(n).bytes(&marked_bytes(room));
    session.ask(request).map(drop)
}

/// Every room of 0 to 4n + 3 bytes for every size of 0 to 20.
fn catalogue(session: &mut Session, _: &mut Dice) -> Go {
    for n in 0..=20 {
        (0..4 * n + 4).try_for_each(|room| ask_catalogue(session, n, room))?;
    }
    Ok(())
}

fn catalogue_beyond(session: &mut Session, _: &mut Dice) -> Go {
    let sizes_and_rooms = pairs(&FAR, &[0, 8, 32, 100]);
    sizes_and_rooms.into_iter().try_for_each(|(n, room)| ask_catalogue(session, n, room))
}

/// A table whose entries run through all that a byte can hold and mostly stay below the states.
fn stepped_table(states: usize, length: usize) -> Vec<u8> {
    let below = states.clamp(1, 256);
    (0..length).map(|at| if at % 5 == 4 { at } else { at % below } as u8).collect()
}

/// Every number of states at an edge, with tables of no, one, nearly all and too many entries.
fn lookups(session: &mut Session, _: &mut Dice) -> Go {
    for states in EDGES {
        for length in around(states.min(66) * 16) {
            lookups_in(session, &stepped_table(states, length), states)?;
        }
    }
    Ok(())
}

fn lookups_in(session: &mut Session, table: &[u8], states: usize) -> Go {
    let operations = [0, 1, 2, 14, 15, 16, 17, 1 << 32, 1 << 58, 1 << 63, usize::MAX];
    let (below, above) = (states.wrapping_sub(1), states.wrapping_add(1));
    let near = [0, 1, 2, below, states, above, 1 << 32, usize::MAX];
    for (operation, state) in pairs(&operations, &near) {
        session.ask(asks::next(table, states, operation, state))?;
    }
    Ok(())
}

fn random_lookups(session: &mut Session, dice: &mut Dice) -> Go {
    for _ in 0..session.cases {
        let mut fitting = makers::formed(dice);
        if dice.once_in(3) {
            fitting = makers::damaged(dice, fitting);
        }
        let (operation, state) = (dice.below(fitting.operations.min(20) + 1), dice.below(66));
        let near = dice.below(fitting.states.min(66) + 1);
        let state = dice.pick(&[state, near, near]);
        session.ask(asks::next(&fitting.table, fitting.states, operation, state))?;
    }
    Ok(())
}

/// Every pair of edges for states and operations, the table's length right and nearly right.
fn forms(session: &mut Session, _: &mut Dice) -> Go {
    for (states, operations) in pairs(&EDGES, &EDGES) {
        for length in around(states.min(70) * operations.min(18)) {
            let table = vec![states.min(70).saturating_sub(1) as u8; length];
            session.ask(asks::form(Cell { table: &table, states, operations }))?;
        }
    }
    Ok(())
}

/// For some sizes, each entry wrong by itself and with a later one wrong too.
fn wrong_entries(session: &mut Session, _: &mut Dice) -> Go {
    for (states, operations) in [(1, 1), (3, 2), (5, 16), (63, 4), (64, 16)] {
        let length = states * operations;
        for at in 0..length {
            let mut table = vec![(states - 1) as u8; length];
            table[length - 1] = 255;
            table[at] = states as u8;
            session.ask(asks::form(Cell { table: &table, states, operations }))?;
            table[length - 1] = 0;
            session.ask(asks::form(Cell { table: &table, states, operations }))?;
        }
    }
    Ok(())
}

fn random_forms(session: &mut Session, dice: &mut Dice) -> Go {
    for _ in 0..session.cases {
        let mut fitting = makers::formed(dice);
        while dice.once_in(2) {
            fitting = makers::damaged(dice, fitting);
        }
        session.ask(asks::form(fitting.cell()))?;
    }
    Ok(())
}
