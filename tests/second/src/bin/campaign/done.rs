//! What the campaign did, counted.

use second::log::Event;
use second::schedule::Act;

use crate::acts::Taken;

#[derive(Default)]
pub struct Done {
    pub certificates: usize,
    pub configurations: usize,
    pub files: usize,
    steps: usize,
    refused_steps: usize,
    restarts: usize,
    restarts_of_all: usize,
    applied: usize,
    answers: [usize; 2],
    longest: u8,
}

impl Done {
    pub fn took(&mut self, act: Act, taken: &Taken) {
        match act {
            Act::Step(loom) => self.stepped(loom, taken),
            Act::Restart(_) => self.restarts += 1,
            Act::RestartAll => self.restarts_of_all += 1,
        }
    }

    fn stepped(&mut self, loom: usize, taken: &Taken) {
        self.steps += 1;
        self.refused_steps += usize::from(taken.refused.is_some());
        self.longest = self.longest.max(taken.group.looms[loom].steps);
        match taken.event {
            Some(Event::Applied { .. }) => self.applied += 1,
            Some(Event::Answered { side, .. }) => self.answers[side.number()] += 1,
            _ => (),
        }
    }

    pub fn line(&self) -> String {
        let Done { certificates, configurations, files, steps, refused_steps, .. } = self;
        let Done { restarts, restarts_of_all, applied, answers: [a, b], longest, .. } = self;
        let acts = steps + restarts + restarts_of_all;
        format!(
            "{certificates} certificates, {configurations} configurations, {files} files; \
             {acts} acts: {steps} steps ({refused_steps} of looms that had answered), \
             {restarts} restarts, {restarts_of_all} restarts of all; {applied} operations applied, \
             {} answers (A {a}, B {b}), the longest run {longest}",
            a + b
        )
    }
}
