//! The log held to the worked run, and demand 3 on logs that break it, clause by clause.

use second::group::{self, Group, Place};
use second::inputs::dice::Dice;
use second::inputs::fitting::{self, Fitting};
use second::inputs::known;
use second::log::{Breach, Event, Log};
use second::schedule::Act;
use second::side::Side::{self, A, B};

const NUMBERS: [u32; 2] = [501, 733];

fn posted(loom: usize, side: Side, number: u32) -> Event {
    Event::Posted { loom, side, number }
}

fn applied(loom: usize, side: Side) -> Event {
    Event::Applied { loom, side }
}

fn answered(loom: usize, side: Side, number: u32) -> Event {
    Event::Answered { loom, side, number }
}

fn opened(fitting: &Fitting) -> Group {
    group::open(fitting.cell(), &fitting.certificate, NUMBERS, &mut [0; 512]).expect("accepted")
}

/// The first breach of these events, if there is one.
fn breach(numbers: [u32; 2], events: &[Event]) -> Option<Breach> {
    let mut log = Log::opened(numbers);
    events.iter().find_map(|&event| log.add(event).err())
}

#[test]
fn the_log_of_the_worked_run() {
    let size_two = known::named("size 2");
    let (mut group, mut log) = (opened(&size_two), Log::opened(NUMBERS));
    for entry in [1, 1, 1, 0, 0, 1, 17, 0, 0, 0, 1, 1, 1] {
        let before = group;
        match Act::named(entry, 2).expect("the schedule is sound") {
            Act::Step(loom) => {
                let stepped = group::step(size_two.cell(), loom, &mut group).expect("it may");
                let event = Event::of(&before, loom, &group, stepped.said);
                event.into_iter().for_each(|event| log.add(event).expect("demand 3"));
            }
            Act::Restart(loom) => group::restart(loom, &mut group).expect("it may"),
            Act::RestartAll => group::restart_all(&mut group).expect("it may"),
        }
    }
    let events = [
        posted(1, B, 733),
        posted(0, A, 501),
        applied(1, B),
        applied(0, A),
        answered(0, B, 733),
        posted(1, B, 733),
        answered(1, B, 733),
    ];
    assert_eq!(log.events(), events);
}

#[test]
fn each_clause_of_demand_3_is_judged() {
    let both = [posted(0, A, 501), posted(1, B, 733)];
    let after = |events: &[Event]| breach(NUMBERS, &[&both, events].concat());
    assert_eq!(after(&[answered(0, A, 501), answered(1, A, 501)]), None);
    assert_eq!(after(&[answered(0, A, 501), answered(1, B, 733)]), Some(Breach::TwoSides));
    assert_eq!(after(&[answered(0, A, 733)]), Some(Breach::NotItsNumber));
    assert_eq!(after(&[applied(1, B), answered(0, A, 501)]), Some(Breach::NotTheFirst));
    assert_eq!(after(&[applied(1, B), applied(0, A), answered(0, B, 733)]), None);
    assert_eq!(
        breach(NUMBERS, &[posted(1, B, 733), answered(0, A, 501)]),
        Some(Breach::NeverPosted)
    );
}

/// Equal numbers: that the other side posted it is not enough.
#[test]
fn the_number_was_posted_by_a_loom_of_that_side() {
    assert_eq!(breach([7, 7], &[posted(1, B, 7), answered(1, A, 7)]), Some(Breach::NeverPosted));
    assert_eq!(breach([7, 7], &[posted(1, B, 7), answered(1, B, 7)]), None);
}

/// A yielding loom may answer before anybody has applied; whoever then applies first is of that
/// side.
#[test]
fn the_first_application_is_held_to_earlier_answers() {
    let before = [posted(0, A, 501), posted(1, B, 733), answered(1, A, 501)];
    assert_eq!(breach(NUMBERS, &[&before[..], &[applied(0, A), applied(1, B)]].concat()), None);
    let wrong = [&before[..], &[applied(1, B)]].concat();
    assert_eq!(breach(NUMBERS, &wrong), Some(Breach::NotTheFirst));
}

/// One loom's step where a loom of side B yields whatever the number of looms on its side.
fn step_yielding_always(fitting: &Fitting, loom: usize, group: &mut Group) -> Option<Event> {
    let before = *group;
    let stepped = group::step(fitting.cell(), loom, group).ok()?;
    let slot = &mut group.looms[loom];
    if before.looms[loom].place == Place::Posted && slot.place == Place::Ready && slot.side == B {
        slot.place = Place::Looking;
    }
    Event::of(&before, loom, group, stepped.said)
}

/// "Yielding on a side of two looms: 003 shows the schedule that breaks it."
#[test]
fn a_wrong_machine_is_found_by_its_log() {
    let three = fitting::catalogue(3);
    let mut dice = Dice::named(1, "a wrong machine");
    let mut run = |_: &i32| {
        let (mut group, mut log) = (opened(&three), Log::opened(NUMBERS));
        let mut step = |loom| step_yielding_always(&three, loom, &mut group);
        let events: Vec<Event> = (0..20).filter_map(|_| step(dice.below(3))).collect();
        events.into_iter().any(|event| log.add(event).is_err())
    };
    assert!((0..10_000).any(|number| run(&number)));
}
