//! Every configuration that any schedule reaches, for every accepted certificate of up to three
//! looms and three states, breadth first. In each configuration every act is asked of both
//! programs, and every answer is held to demand 3 by the log of the way there.
//!
//! A configuration is the whole group: cell, registers, places and step counts. Two ways to it are
//! told apart as far as demand 3 can: by who has posted, who applied first, and what was answered.

use crate::acts;
use crate::done::Done;
use crate::round::in_time;
use second::asking::asks::{self, marked_words};
use second::asking::session::{Go, Needs, Session};
use second::group::{self, Group};
use second::inputs::fitting::Fitting;
use second::inputs::small;
use second::log::{Log, Past};
use second::schedule::Act;
use std::collections::{HashSet, VecDeque};

pub const NEEDS: Needs = &[
    ("open", &[0]),
    ("step", &[0, 31]),
    ("restart", &[0]),
    ("restart_all", &[0]),
    ("looms walked", &[2, 3]),
];

const NUMBERS: [u32; 2] = [501, 733];

pub fn trials(session: &mut Session, done: &mut Done) -> Go {
    session.trial("two looms, up to three states and two operations", |session, _| {
        walk_all(session, done, small::fittings(small::UP_TO_THREE_STATES, 2))
    })?;
    session.trial("three looms, up to three states and two operations", |session, _| {
        walk_all(session, done, small::fittings(small::UP_TO_THREE_STATES, 3))
    })?;
    session.trial("three looms, three states, an operation each", |session, _| {
        walk_all(session, done, small::three_operations())
    })
}

fn walk_all(session: &mut Session, done: &mut Done, from: impl Iterator<Item = Fitting>) -> Go {
    let accepted: Vec<Fitting> = from.filter(Fitting::accepted).collect();
    for (number, fitting) in accepted.iter().enumerate() {
        session.show(&format!("certificate {} of {}", number + 1, accepted.len()));
        session.saw("looms walked", fitting.certificate.count as u64);
        done.certificates += 1;
        walk(session, done, fitting)?;
    }
    Ok(())
}

/// Where a walk is, and where it has been.
struct Walk<'a> {
    fitting: &'a Fitting,
    asked: HashSet<Group>,
    seen: HashSet<(Group, Past)>,
    waiting: VecDeque<(Group, Log)>,
}

fn walk(session: &mut Session, done: &mut Done, fitting: &Fitting) -> Go {
    session.ask(asks::open(fitting, NUMBERS, &marked_words(fitting.area_words())))?;
    let opened = group::open(fitting.cell(), &fitting.certificate, NUMBERS, &mut [0; 512]);
    let group = opened.expect("the check accepts it and no number is 0");
    let log = Log::opened(NUMBERS);
    let mut walk = Walk {
        fitting,
        asked: HashSet::new(),
        seen: HashSet::from([(group, log.past())]),
        waiting: VecDeque::from([(group, log)]),
    };
    while let Some((group, log)) = walk.waiting.pop_front() {
        let fresh = walk.asked.insert(group);
        done.configurations += usize::from(fresh);
        acts::all(group.count)
            .try_for_each(|act| walk.take(session, done, (&group, &log), act, fresh))?;
    }
    Ok(())
}

impl Walk<'_> {
    /// One act from here; the programs are asked for it once in each configuration.
    fn take(
        &mut self,
        session: &mut Session,
        done: &mut Done,
        (group, log): (&Group, &Log),
        act: Act,
        fresh: bool,
    ) -> Go {
        let cell = self.fitting.cell();
        let taken = acts::taken(cell, group, act);
        if fresh {
            session.ask(acts::request(cell, group, act))?;
            done.took(act, &taken);
        }
        let mut log = log.clone();
        let broken = taken.event.and_then(|event| log.add(event).err());
        if let Some(breach) = broken {
            let fitting = self.fitting;
            return session.wrong(&format!("demand 3: {breach:?}, {log:?}, {fitting:?}"));
        }
        if let (Act::Step(loom), None) = (act, taken.refused) {
            if let Err(late) = in_time(loom, group.looms[loom].steps + 1, &taken) {
                return session.wrong(&format!("{late}, {log:?}, {:?}", self.fitting));
            }
        }
        if self.seen.insert((taken.group, log.past())) {
            self.waiting.push_back((taken.group, log));
        }
        Ok(())
    }
}
