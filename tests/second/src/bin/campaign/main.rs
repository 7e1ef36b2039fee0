//! Faults and load: runs random accepted certificates for long, and walks every configuration of
//! the small ones, on a driver and on the second program side by side; and holds every answer to
//! demand 3 by the second program's log.
//!
//! `campaign [--count N] [--seed S] PART.. -- DRIVER [ARGS..]`, where PART is one of `walk runs
//! orders`. N is the number of random certificates; the walk is complete and doesn't change with
//! it.

mod acts;
mod done;
mod orders;
mod refusals;
mod round;
mod runs;
mod schedules;
mod walk;

use done::Done;
use second::asking::call::{ended, Call};
use second::asking::session::{Go, Session};
use std::process::ExitCode;

#[derive(Clone, Copy)]
enum Part {
    Walk,
    Runs,
    Orders,
}

impl Part {
    fn named(name: &str) -> Option<Part> {
        match name {
            "walk" => Some(Part::Walk),
            "runs" => Some(Part::Runs),
            "orders" => Some(Part::Orders),
            _ => None,
        }
    }
}

const CALL: Call<Part> = Call {
    usage: "campaign [--count N] [--seed S] PART.. -- DRIVER [ARGS..]
PART: walk runs orders",
    cases: ("--count", 200),
    part: ("part", Part::named),
};

fn run_all(session: &mut Session, parts: &[Part], done: &mut Done) -> Go {
    parts.iter().try_for_each(|part| match part {
        Part::Walk => session.floor("walk", walk::NEEDS, |session| walk::trials(session, done)),
        Part::Runs => session.floor("runs", runs::NEEDS, |session| runs::trials(session, done)),
        Part::Orders => {
            session.floor("orders", orders::NEEDS, |session| orders::trials(session, done))
        }
    })
}

fn main() -> ExitCode {
    let (options, mut session) = match CALL.begin() {
        Ok(begun) => begun,
        Err(code) => return code,
    };
    let mut done = Done::default();
    // A stop has left its reason in the session, which reports it.
    let _ = run_all(&mut session, &options.parts, &mut done);
    println!("{}; {} differences; seed {}", done.line(), session.differences(), options.seed);
    ended(session.finish())
}
