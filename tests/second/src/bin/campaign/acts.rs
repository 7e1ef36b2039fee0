//! One act on a group: what it leaves by the second program, and how it is asked for.

use second::asking::asks;
use second::cell::Cell;
use second::codes::Code;
use second::group::{self, Group};
use second::log::Event;
use second::schedule::Act;
use second::wire::calls;
use second::wire::frame::Payload;

/// What an act leaves.
pub struct Taken {
    pub group: Group,
    pub event: Option<Event>,
    pub refused: Option<Code>,
}

/// Every act that a group of so many looms knows.
pub fn all(looms: usize) -> impl Iterator<Item = Act> {
    (0..looms).map(Act::Step).chain((0..looms).map(Act::Restart)).chain([Act::RestartAll])
}

pub fn taken(cell: Cell, before: &Group, act: Act) -> Taken {
    let mut group = *before;
    match act {
        Act::Step(loom) => match group::step(cell, loom, &mut group) {
            Ok(stepped) => {
                let event = Event::of(before, loom, &group, stepped.said);
                Taken { group, event, refused: None }
            }
            Err(code) => Taken { group, event: None, refused: Some(code) },
        },
        Act::Restart(loom) => {
            let refused = group::restart(loom, &mut group).err();
            Taken { group, event: None, refused }
        }
        Act::RestartAll => {
            let refused = group::restart_all(&mut group).err();
            Taken { group, event: None, refused }
        }
    }
}

pub fn request(cell: Cell, before: &Group, act: Act) -> Payload {
    match act {
        Act::Step(loom) => asks::step(calls::STEP, cell, loom, before),
        Act::Restart(loom) => asks::restart(loom, before),
        Act::RestartAll => asks::restart_all(before),
    }
}
