//! Compares a driver, the library behind the wire, with the second program.
//!
//! `compare [--cases N] [--seed S] FLOOR.. -- DRIVER [ARGS..]`, where FLOOR is one of `sets cell
//! recording group lent schedule order reader label`. `lent` takes the group's steps by the lent
//! step, `reader` the order's files by the reader's fields. N is the number of cases in a random
//! trial.

mod floors;

use floors::Floor;
use second::asking::call::{ended, Call};
use std::process::ExitCode;

const CALL: Call<Floor> = Call {
    usage: "compare [--cases N] [--seed S] FLOOR.. -- DRIVER [ARGS..]
FLOOR: sets cell recording group lent schedule order reader label",
    cases: ("--cases", 10_000),
    part: ("floor", Floor::named),
};

fn main() -> ExitCode {
    let (options, mut session) = match CALL.begin() {
        Ok(begun) => begun,
        Err(code) => return code,
    };
    // A stop has left its reason in the session, which reports it.
    let _ = floors::run_all(&mut session, &options.parts);
    ended(session.finish())
}
