//! Small wrong answers, each of which the comparison must notice.

use second::wire::calls;
use second::wire::numbering::{HEAD, SLOT};
use second::wire::record::Record;

pub struct Fault {
    pub name: &'static str,
    /// A floor whose comparison must notice.
    pub floor: &'static str,
    function: u8,
    spoil: fn(&mut Record, &mut Record) -> Goes,
}

/// Whether the driver goes on after this answer.
type Goes = bool;

const ON: Goes = true;
const ENDS: Goes = false;

impl Fault {
    /// The answer made wrong, if this request is one for it; `None` where the driver ends instead.
    pub fn spoilt(&self, request: &[u8], answer: Vec<u8>) -> Option<Vec<u8>> {
        if request[0] != self.function {
            return Some(answer);
        }
        let call = calls::numbered(self.function)?;
        let mut asked = Record::asked(&call, request)?;
        let mut told = Record::told(&call, &answer)?;
        (self.spoil)(&mut asked, &mut told).then(|| told.payload().0)
    }
}

pub fn named(name: &str) -> Option<&'static Fault> {
    ALL.iter().find(|fault| fault.name == name)
}

const fn fault(
    name: &'static str,
    floor: &'static str,
    function: u8,
    spoil: fn(&mut Record, &mut Record) -> Goes,
) -> Fault {
    Fault { name, floor, function, spoil }
}

pub static ALL: [Fault; 31] = [
    fault("size-of-top-state", "sets", calls::SIZE, size_of_top_state),
    fault("lowest-of-none", "sets", calls::LOWEST, lowest_of_none),
    fault("has-wraps", "sets", calls::HAS, has_wraps),
    fault("insert-wraps", "sets", calls::INSERT, insert_wraps),
    fault("catalogue-open-move", "cell", calls::CATALOGUE, catalogue_open_move),
    fault("catalogue-writes-on", "cell", calls::CATALOGUE, catalogue_writes_on),
    fault("next-trusts-entry", "cell", calls::NEXT, next_trusts_entry),
    fault("form-highest-entry", "cell", calls::FORM, form_highest_entry),
    fault("area-word", "recording", calls::CHECK, area_word),
    fault("area-tail", "recording", calls::CHECK, area_tail),
    fault("area-not-filled", "recording", calls::CHECK, area_not_filled),
    fault("no-sizes-with-21", "recording", calls::CHECK, no_sizes_with_start),
    fault("start-not-tested", "recording", calls::CHECK, start_not_tested),
    fault("place-of-20", "recording", calls::CHECK, place_of_shared),
    fault("refused-open-keeps-start", "group", calls::OPEN, refused_open_keeps_start),
    fault("yields-with-two", "group", calls::STEP, yields_with_two),
    fault("yields-with-two-lent", "lent", calls::STEP_LENT, yields_with_two),
    fault("steps-wrap", "group", calls::STEP, steps_wrap),
    fault("answered-before-fit", "group", calls::STEP, answered_before_fit),
    fault("restart-keeps-answered", "group", calls::RESTART, restart_keeps_answered),
    fault("restart-all-misses-last", "group", calls::RESTART_ALL, restart_all_misses_last),
    fault("mark-of-answered", "schedule", calls::RUN, mark_of_answered),
    fault("marks-tail", "schedule", calls::RUN, marks_tail),
    fault("longest", "schedule", calls::RUN, longest),
    fault("place-of-9", "order", calls::READ, place_of_one_sided),
    fault("place-of-9-by-fields", "reader", calls::READ_BY_FIELDS, place_of_one_sided),
    fault("pads-looked-at", "order", calls::READ, pads_looked_at),
    fault("refused-room-written", "order", calls::READ, refused_room_written),
    fault("label-trims-tabs", "label", calls::LABEL, label_trims_tabs),
    fault("answer-too-short", "label", calls::LABEL, answer_too_short),
    fault("driver-ends", "label", calls::LABEL, driver_ends),
];

fn size_of_top_state(asked: &mut Record, told: &mut Record) -> Goes {
    if asked.number("word").leading_zeros() == 0 {
        *told.number("states") -= 1;
    }
    ON
}

fn lowest_of_none(asked: &mut Record, told: &mut Record) -> Goes {
    if *asked.number("word") == 0 {
        *told.number("state") = 0;
    }
    ON
}

fn has_wraps(asked: &mut Record, told: &mut Record) -> Goes {
    *told.number("is") = *asked.number("word") >> (*asked.number("state") % 64) & 1;
    ON
}

fn insert_wraps(asked: &mut Record, told: &mut Record) -> Goes {
    *told.number("word") |= 1 << (*asked.number("state") % 64);
    ON
}

/// Lets operation 0 move (B, n − 1), which 003 leaves open.
fn catalogue_open_move(asked: &mut Record, told: &mut Record) -> Goes {
    let n = *asked.number("n") as usize;
    if *told.number("code") == 0 {
        told.bytes("room")[2 * n - 1] = 0;
    }
    ON
}

fn catalogue_writes_on(asked: &mut Record, told: &mut Record) -> Goes {
    let n = *asked.number("n") as usize;
    if *told.number("code") == 0 && told.bytes("room").len() > 4 * n {
        told.bytes("room")[4 * n] = 0;
    }
    ON
}

fn next_trusts_entry(asked: &mut Record, told: &mut Record) -> Goes {
    let (states, state) = (*asked.number("states"), *asked.number("state"));
    let operation = *asked.number("operation");
    if *told.number("tag") == 0 && state < states && states <= 64 && operation < 16 {
        let entry = asked.bytes("table").get((operation * states + state) as usize).copied();
        *told.number("tag") = entry.is_some().into();
        *told.number("state") = entry.unwrap_or(0).into();
    }
    ON
}

fn form_highest_entry(asked: &mut Record, told: &mut Record) -> Goes {
    let states = *asked.number("states");
    if *told.number("code") == 5 {
        let highest = asked.bytes("table").iter().rposition(|&entry| u64::from(entry) >= states);
        *told.number("place") = highest.unwrap_or(0) as u64;
    }
    ON
}

/// The last word of eight looms, an A loom first.
fn area_word(asked: &mut Record, told: &mut Record) -> Goes {
    if *asked.number("count") == 8 && *told.number("code") == 0 {
        told.numbers("area")[255] ^= 1;
    }
    ON
}

fn area_tail(asked: &mut Record, told: &mut Record) -> Goes {
    let words = 2 << *asked.number("count").min(&mut 8);
    if *told.number("code") == 0 && told.numbers("area").len() > words {
        told.numbers("area")[words] = 0;
    }
    ON
}

fn area_not_filled(asked: &mut Record, told: &mut Record) -> Goes {
    if *told.number("code") == 22 {
        *told.numbers("area") = asked.numbers("area").clone();
    }
    ON
}

fn no_sizes_with_start(_: &mut Record, told: &mut Record) -> Goes {
    if *told.number("code") == 21 {
        *told.number("size_a") = 0;
        *told.number("size_b") = 0;
    }
    ON
}

/// "Testing only the two sets and not the start."
fn start_not_tested(_: &mut Record, told: &mut Record) -> Goes {
    if matches!(*told.number("code"), 21 | 22) {
        *told.number("code") = 0;
        *told.number("place") = 0;
    }
    ON
}

fn place_of_shared(_: &mut Record, told: &mut Record) -> Goes {
    if *told.number("code") == 20 {
        *told.number("place") = 0;
    }
    ON
}

fn refused_open_keeps_start(asked: &mut Record, told: &mut Record) -> Goes {
    if *told.number("code") == 10 {
        told.numbers("group")[6] = *asked.number("start");
    }
    ON
}

/// Where in a group's numbers a loom's slot begins.
fn slot(loom: u64) -> usize {
    HEAD + SLOT * loom as usize
}

/// "Yielding on a side of two looms." Only side B yields here.
fn yields_with_two(asked: &mut Record, told: &mut Record) -> Goes {
    if *told.number("code") != 0 {
        return ON;
    }
    let at = slot(*asked.number("loom"));
    let (before, group) = (asked.numbers("group").clone(), told.numbers("group"));
    let start_in_b = before[6] < 64 && before[8] >> before[6] & 1 == 1;
    if before[at] == 1 && before[at + 2] == 1 && group[at + 2] == 3 && !start_in_b {
        group[at + 2] = 2;
    }
    ON
}

fn steps_wrap(asked: &mut Record, told: &mut Record) -> Goes {
    let at = slot(*asked.number("loom").min(&mut 7));
    if *told.number("code") == 0 && asked.numbers("group")[at + 3] == 255 {
        *told.number("steps") = 0;
        told.numbers("group")[at + 3] = 0;
    }
    ON
}

fn answered_before_fit(asked: &mut Record, told: &mut Record) -> Goes {
    if *told.number("code") == 32 {
        let at = slot(*asked.number("loom"));
        let answered = asked.numbers("group")[at + 2] > 6;
        *told.number("code") = if answered { 31 } else { 32 };
    }
    ON
}

/// "Remembering a loom's place over a restart."
fn restart_keeps_answered(asked: &mut Record, told: &mut Record) -> Goes {
    if *told.number("code") == 0 {
        let at = slot(*asked.number("loom"));
        let place = asked.numbers("group")[at + 2];
        told.numbers("group")[at + 2] = if place > 6 { place } else { 0 };
    }
    ON
}

fn restart_all_misses_last(asked: &mut Record, told: &mut Record) -> Goes {
    if *told.number("code") == 0 && asked.numbers("group")[0] == 8 {
        let at = slot(7);
        told.numbers("group")[at + 3] = asked.numbers("group")[at + 3];
    }
    ON
}

fn mark_of_answered(asked: &mut Record, told: &mut Record) -> Goes {
    let entries = asked.bytes("schedule").len();
    if *told.number("code") == 0 {
        for mark in told.bytes("marks")[..entries].iter_mut().filter(|mark| **mark == 3) {
            *mark = 0;
        }
    }
    ON
}

fn marks_tail(asked: &mut Record, told: &mut Record) -> Goes {
    let entries = asked.bytes("schedule").len();
    if *told.number("code") == 0 {
        told.bytes("marks")[entries..].iter_mut().take(1).for_each(|mark| *mark = 0);
    }
    ON
}

fn longest(_: &mut Record, told: &mut Record) -> Goes {
    if *told.number("longest") == 6 {
        *told.number("longest") = 5;
    }
    ON
}

fn place_of_one_sided(_: &mut Record, told: &mut Record) -> Goes {
    if *told.number("code") == 9 {
        *told.number("place") += 4;
    }
    ON
}

/// Refuses a label whose pad isn't zero, as a later request will.
fn pads_looked_at(asked: &mut Record, told: &mut Record) -> Goes {
    let (at, length) = (*told.number("label_b_offset"), *told.number("label_b_length"));
    let pads = (at + length) as usize..(at as usize + (length as usize).next_multiple_of(4));
    if *told.number("code") == 0 && asked.bytes("file")[pads].iter().any(|&pad| pad != 0) {
        *told.number("code") = 11;
        *told.number("place") = at;
    }
    ON
}

fn refused_room_written(_: &mut Record, told: &mut Record) -> Goes {
    if *told.number("code") == 14 {
        told.bytes("table_room")[0] = 0;
    }
    ON
}

fn label_trims_tabs(asked: &mut Record, told: &mut Record) -> Goes {
    let name = ["label_a", "label_b"][*told.number("slice") as usize];
    let length = *told.number("length") as usize;
    if length > 0 && asked.bytes(name)[length - 1] == 9 {
        *told.number("length") -= 1;
    }
    ON
}

fn answer_too_short(_: &mut Record, told: &mut Record) -> Goes {
    told.fields.pop();
    ON
}

fn driver_ends(asked: &mut Record, _: &mut Record) -> Goes {
    if *asked.number("side") == 2 {
        ENDS
    } else {
        ON
    }
}
