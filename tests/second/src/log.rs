//! What the steps of a group leave behind: who posted, applied and answered, and with what. On such
//! a log stands demand 3: whatever the acts, all answers name one side; each comes with that side's
//! number, which a loom of that side has posted before; and it is the side of the first loom that
//! applied its operation, if any has.
//!
//! House rule: an answer may come before the first application, where a yielding loom saw the other
//! side's number. The first application is then held to the answers given.

use crate::group::{Group, Place, Said};
use crate::side::Side;

#[derive(Clone, Copy, Debug, PartialEq, Eq)]
pub enum Event {
    Posted { loom: usize, side: Side, number: u32 },
    Applied { loom: usize, side: Side },
    Answered { loom: usize, side: Side, number: u32 },
}

impl Event {
    /// What a step that wasn't refused has done, if anything but read.
    pub fn of(before: &Group, loom: usize, after: &Group, said: Said) -> Option<Event> {
        let side = before.looms[loom].side;
        match said {
            Said::Applied => Some(Event::Applied { loom, side }),
            Said::Answer(side, number) => Some(Event::Answered { loom, side, number }),
            Said::Nothing if before.looms[loom].place == Place::Begin => {
                Some(Event::Posted { loom, side, number: after.registers[side.number()] })
            }
            Said::Nothing => None,
        }
    }
}

/// A clause of demand 3 that an event breaks.
#[derive(Clone, Copy, Debug, PartialEq, Eq)]
pub enum Breach {
    /// An answer names another side than one before it.
    TwoSides,
    /// An answer's number isn't its side's.
    NotItsNumber,
    /// No loom of that side has posted that number before.
    NeverPosted,
    /// The answers don't name the side of the first loom that applied its operation.
    NotTheFirst,
}

/// As much of a log as later answers can be at odds with. Logs of one past break demand 3 by the
/// same events.
#[derive(Clone, Copy, Debug, PartialEq, Eq, Hash)]
pub struct Past {
    posted: [bool; 2],
    first: Option<Side>,
    answered: Option<Side>,
}

/// Events in the order in which they came, and the numbers of the two sides.
#[derive(Clone, Debug)]
pub struct Log {
    numbers: [u32; 2],
    events: Vec<Event>,
}

impl Log {
    pub fn opened(numbers: [u32; 2]) -> Log {
        Log { numbers, events: Vec::new() }
    }

    pub fn events(&self) -> &[Event] {
        &self.events
    }

    /// The side of the first loom that applied its operation.
    fn first_applied(&self) -> Option<Side> {
        self.events.iter().find_map(|event| match event {
            Event::Applied { side, .. } => Some(*side),
            _ => None,
        })
    }

    /// The side that the first answer names; with demand 3 kept so far, all do.
    fn answered(&self) -> Option<Side> {
        self.events.iter().find_map(|event| match event {
            Event::Answered { side, .. } => Some(*side),
            _ => None,
        })
    }

    /// Whether a loom of the side has posted the number.
    fn posted(&self, of: Side, what: u32) -> bool {
        let same = |event: &Event| matches!(event, Event::Posted { side, number, .. } if *side == of && *number == what);
        self.events.iter().any(same)
    }

    fn judge_answer(&self, side: Side, number: u32) -> Result<(), Breach> {
        let agrees = |other: Option<Side>| other.is_none_or(|other| other == side);
        held(agrees(self.answered()), Breach::TwoSides)?;
        held(number == self.numbers[side.number()], Breach::NotItsNumber)?;
        held(self.posted(side, number), Breach::NeverPosted)?;
        held(agrees(self.first_applied()), Breach::NotTheFirst)
    }

    /// An application matters to the answers before it only as the first.
    fn judge_application(&self, side: Side) -> Result<(), Breach> {
        let first = self.first_applied().unwrap_or(side);
        held(self.answered().is_none_or(|answered| answered == first), Breach::NotTheFirst)
    }

    /// Takes up an event, or says which clause of demand 3 it breaks.
    pub fn add(&mut self, event: Event) -> Result<(), Breach> {
        match event {
            Event::Posted { .. } => Ok(()),
            Event::Applied { side, .. } => self.judge_application(side),
            Event::Answered { side, number, .. } => self.judge_answer(side, number),
        }?;
        self.events.push(event);
        Ok(())
    }

    pub fn past(&self) -> Past {
        let posted = |side: Side| self.posted(side, self.numbers[side.number()]);
        Past {
            posted: [posted(Side::A), posted(Side::B)],
            first: self.first_applied(),
            answered: self.answered(),
        }
    }
}

fn held(holds: bool, clause: Breach) -> Result<(), Breach> {
    if holds {
        Ok(())
    } else {
        Err(clause)
    }
}
