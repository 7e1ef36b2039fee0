//! The floors of the library, each with the trials that compare it.

mod cell;
mod forged;
mod group;
mod label;
mod order;
mod recording;
mod schedule;
mod sets;
mod steps;
mod wrong;

use second::asking::session::{Go, Session};
use second::wire::calls;
use second::wire::frame::Payload;

#[derive(Clone, Copy)]
pub enum Floor {
    Sets,
    Cell,
    Recording,
    Group,
    Lent,
    Schedule,
    Order,
    Reader,
    Label,
}

const NAMES: [(&str, Floor); 9] = [
    ("sets", Floor::Sets),
    ("cell", Floor::Cell),
    ("recording", Floor::Recording),
    ("group", Floor::Group),
    ("lent", Floor::Lent),
    ("schedule", Floor::Schedule),
    ("order", Floor::Order),
    ("reader", Floor::Reader),
    ("label", Floor::Label),
];

impl Floor {
    pub fn named(name: &str) -> Option<Floor> {
        NAMES.iter().find(|(known, _)| *known == name).map(|&(_, floor)| floor)
    }

    fn run(self, session: &mut Session) -> Go {
        match self {
            Floor::Sets => session.floor("sets", sets::NEEDS, sets::trials),
            Floor::Cell => session.floor("cell", cell::NEEDS, cell::trials),
            Floor::Recording => session.floor("recording", recording::NEEDS, recording::trials),
            Floor::Group => session.floor("group", group::NEEDS, group::trials),
            Floor::Lent => session.floor("lent", steps::LENT_NEEDS, steps::lent_trials),
            Floor::Schedule => session.floor("schedule", schedule::NEEDS, schedule::trials),
            Floor::Order => session.floor("order", order::NEEDS, order::trials),
            Floor::Reader => session.floor("reader", order::READER_NEEDS, order::reader_trials),
            Floor::Label => session.floor("label", label::NEEDS, label::trials),
        }
    }
}

fn ping(session: &mut Session) -> Go {
    session.trial("answers a ping", |session, _| session.ask(Payload::call(calls::PING)).map(drop))
}

pub fn run_all(session: &mut Session, floors: &[Floor]) -> Go {
    ping(session)?;
    floors.iter().try_for_each(|floor| floor.run(session))
}
