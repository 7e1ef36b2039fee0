//! One group from its opening on, step by step, with the log that it leaves; then the same schedule
//! as one run.

use crate::acts::{self, Taken};
use crate::done::Done;
use second::asking::asks::{self, marked_words};
use second::asking::session::{Go, Session, Stopped};
use second::codes;
use second::group::{self, Group};
use second::inputs::fitting::Fitting;
use second::limits;
use second::log::{Event, Log};
use second::schedule::Act;
use second::wire::calls;
use second::wire::numbering::group_numbers;
use second::wire::record::Record;

/// "A loom that isn't restarted answers by its sixth step."
pub const STEPS: u8 = 6;

/// A certificate and the two numbers that its group opens with.
pub struct Opening<'a> {
    pub fitting: &'a Fitting,
    pub numbers: [u32; 2],
}

pub struct Round<'a> {
    opening: &'a Opening<'a>,
    pub group: Group,
    log: Log,
    /// Each loom's steps since the opening or its last restart, counted here.
    steps: [u8; limits::SEATS],
    longest: u8,
    marks: Vec<u8>,
}

impl<'a> Round<'a> {
    pub fn open(session: &mut Session, opening: &'a Opening) -> Result<Round<'a>, Stopped> {
        let Opening { fitting, numbers } = *opening;
        session.ask(asks::open(fitting, numbers, &marked_words(fitting.area_words())))?;
        let opened = group::open(fitting.cell(), &fitting.certificate, numbers, &mut [0; 512]);
        Ok(Round {
            opening,
            group: opened.expect("the check accepts it and no number is 0"),
            log: Log::opened(numbers),
            steps: [0; limits::SEATS],
            longest: 0,
            marks: Vec::new(),
        })
    }

    /// One entry: asked of both programs, and what it leaves held to demand 3 and to six steps.
    pub fn take(&mut self, session: &mut Session, done: &mut Done, entry: u8) -> Go {
        let act = Act::named(entry.into(), self.group.count).expect("the entry is of this group");
        let cell = self.opening.fitting.cell();
        session.ask(acts::request(cell, &self.group, act))?;
        let taken = acts::taken(cell, &self.group, act);
        done.took(act, &taken);
        let wrong = self.counted(act, &taken).err().or(self.logged(&taken).err());
        self.group = taken.group;
        match wrong {
            Some(what) => session.wrong(&format!("{what}, {}", self.told(entry))),
            None => Ok(()),
        }
    }

    /// The steps and the mark of the act.
    fn counted(&mut self, act: Act, taken: &Taken) -> Result<(), String> {
        match act {
            Act::Restart(loom) => self.steps[loom] = 0,
            Act::RestartAll => self.steps = [0; limits::SEATS],
            Act::Step(loom) if taken.refused.is_none() => {
                self.steps[loom] += 1;
                self.longest = self.longest.max(self.steps[loom]);
                in_time(loom, self.steps[loom], taken)?;
            }
            Act::Step(_) => (),
        }
        self.marks.push(mark(taken)?);
        Ok(())
    }

    fn logged(&mut self, taken: &Taken) -> Result<(), String> {
        let Some(event) = taken.event else { return Ok(()) };
        self.log.add(event).map_err(|breach| format!("demand 3: {breach:?} by {event:?}"))
    }

    /// The same schedule as one run: both programs' answers alike, and all in it as the steps had
    /// it.
    pub fn run(&self, session: &mut Session, schedule: &[u8]) -> Go {
        let Opening { fitting, numbers } = *self.opening;
        let (marks, area) = (schedule.len() + 1, fitting.area_words());
        let ours = session.ask(asks::run(fitting, asks::Run { numbers, schedule, marks, area }))?;
        let call = calls::numbered(calls::RUN).expect("a run is a call");
        let mut told = Record::told(&call, &ours).expect("a run's answer has its form");
        if self.as_told(&mut told) {
            return Ok(());
        }
        session.wrong(&format!("the run isn't what its steps were, {}", self.told(0)))
    }

    fn as_told(&self, told: &mut Record) -> bool {
        let of = |mark: u8| self.marks.iter().filter(|&&other| other == mark).count() as u64;
        let applied = |event: &&Event| matches!(event, Event::Applied { .. });
        let applications = self.log.events().iter().filter(applied).count() as u64;
        *told.number("code") == codes::DONE
            && *told.number("entries") == self.marks.len() as u64
            && (*told.number("answers_a"), *told.number("answers_b")) == (of(1), of(2))
            && *told.number("applied") == applications
            && *told.number("longest") == u64::from(self.longest)
            && *told.numbers("group") == group_numbers(&self.group)
            && told.bytes("marks")[..self.marks.len()] == self.marks
    }

    fn told(&self, entry: u8) -> String {
        let Opening { fitting, numbers } = self.opening;
        let (at, log) = (self.marks.len(), self.log.events());
        format!("at act {at} (entry {entry}); numbers {numbers:?}, {fitting:?}, log {log:?}")
    }
}

/// A step's number against the six, and against the count that the group keeps.
pub fn in_time(loom: usize, steps: u8, taken: &Taken) -> Result<(), String> {
    let answers = matches!(taken.event, Some(Event::Answered { .. }));
    if steps > STEPS || (steps == STEPS && !answers) {
        return Err(format!("loom {loom} hasn't answered by step {steps}"));
    }
    if taken.group.looms[loom].steps != steps {
        return Err(format!("loom {loom} has taken {steps} steps, its count says otherwise"));
    }
    Ok(())
}

fn mark(taken: &Taken) -> Result<u8, String> {
    match (taken.refused, taken.event) {
        (Some(codes::ANSWERED), _) => Ok(3),
        (Some(code), _) => Err(format!("an act of an opened group is refused with {code}")),
        (None, Some(Event::Answered { side, .. })) => Ok(side.number() as u8 + 1),
        (None, _) => Ok(0),
    }
}
