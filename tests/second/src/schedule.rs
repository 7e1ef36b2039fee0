//! "Entry k is a step of loom k, 16 + k a restart of loom k, 32 a restart of all."

use crate::cell::Cell;
use crate::codes::{self, Code};
use crate::group::{self, Group, Said};
use crate::limits;
use crate::recording::Certificate;
use crate::side::Side;

#[derive(Clone, Copy, Debug, PartialEq, Eq)]
pub enum Act {
    Step(usize),
    Restart(usize),
    RestartAll,
}

impl Act {
    /// The act that an entry names in a group of so many looms; `None` is code 13.
    pub fn named(entry: usize, looms: usize) -> Option<Act> {
        match entry {
            0..=15 => Some(Act::Step(entry)).filter(|_| entry < looms),
            16..=31 => Some(Act::Restart(entry - 16)).filter(|_| entry - 16 < looms),
            32 => Some(Act::RestartAll),
            _ => None,
        }
    }
}

/// "The result gives the final group, the entries, the answers for A and for B, the operations
/// applied, and the longest run: the largest step count that any loom had at any moment."
#[derive(Clone, Copy, Debug, PartialEq, Eq)]
pub struct Ran {
    pub group: Group,
    pub entries: usize,
    pub answers: [usize; 2],
    pub applied: usize,
    pub longest: u8,
}

impl Ran {
    fn opened(group: Group) -> Ran {
        Ran { group, entries: 0, answers: [0, 0], applied: 0, longest: 0 }
    }

    /// "1 for an answer with side A, 2 with side B, 3 for a step of a loom that had already
    /// answered (nothing moves), else 0."
    fn take(&mut self, cell: Cell, act: Act) -> u8 {
        self.entries += 1;
        match act {
            Act::Step(loom) => self.step(cell, loom),
            Act::Restart(loom) => {
                group::restart(loom, &mut self.group).expect("the entry names a loom");
                0
            }
            Act::RestartAll => {
                group::restart_all(&mut self.group).expect("an opened group has at most 8");
                0
            }
        }
    }

    fn step(&mut self, cell: Cell, loom: usize) -> u8 {
        let stepped = match group::step(cell, loom, &mut self.group) {
            Ok(stepped) => stepped,
            Err(codes::ANSWERED) => return 3,
            Err(code) => unreachable!("an opened group refused a step with {code}"),
        };
        self.longest = self.longest.max(stepped.steps);
        match stepped.said {
            Said::Nothing => 0,
            Said::Applied => {
                self.applied += 1;
                0
            }
            Said::Answer(side, _) => self.answered(side),
        }
    }

    fn answered(&mut self, side: Side) -> u8 {
        self.answers[side.number()] += 1;
        side.number() as u8 + 1
    }
}

/// What a run takes beside the memory lent to it.
#[derive(Clone, Copy, Debug)]
pub struct Job<'a> {
    pub cell: Cell<'a>,
    pub certificate: &'a Certificate,
    pub numbers: [u32; 2],
    pub schedule: &'a [u8],
}

/// "A run opens the group afresh, takes each entry in order and writes one byte an entry to a lent
/// buffer. Later bytes stay." "Running: opening, 12, 13, then 40 for the buffer."
pub fn run(job: Job, marks: &mut [u8], area: &mut [u64]) -> Result<Ran, Code> {
    let group = group::open(job.cell, job.certificate, job.numbers, area)?;
    if job.schedule.len() > limits::SCHEDULE {
        return Err(codes::SCHEDULE_LENGTH);
    }
    let named = |&entry: &u8| Act::named(usize::from(entry), group.count);
    let acts: Option<Vec<Act>> = job.schedule.iter().map(named).collect();
    let acts = acts.ok_or(codes::ACT)?;
    if marks.len() < acts.len() {
        return Err(codes::ROOM);
    }
    let mut ran = Ran::opened(group);
    for (mark, act) in marks.iter_mut().zip(acts) {
        *mark = ran.take(job.cell, act);
    }
    Ok(ran)
}
