//! Groups and runs held to the table of places, to the codes and to the worked run.

use second::cell::Cell;
use second::codes;
use second::group::{self, Group, Place, Said, NO_GROUP};
use second::inputs::fitting::{self, Fitting};
use second::inputs::known;
use second::schedule::{self, Job, Ran};
use second::side::Side;

fn opened(fitting: &Fitting) -> Group {
    group::open(fitting.cell(), &fitting.certificate, [501, 733], &mut [0; 512]).expect("accepted")
}

fn run(fitting: &Fitting, schedule: &[u8], marks: &mut [u8]) -> Result<Ran, codes::Code> {
    let certificate = &fitting.certificate;
    let job = Job { cell: fitting.cell(), certificate, numbers: [501, 733], schedule };
    schedule::run(job, marks, &mut [0; 512])
}

#[test]
fn the_worked_run() {
    let schedule = [1, 1, 1, 0, 0, 1, 17, 0, 0, 0, 1, 1, 1];
    let mut marks = [9; 15];
    let ran = run(&known::named("size 2"), &schedule, &mut marks).expect("accepted");
    assert_eq!((ran.entries, ran.answers, ran.applied), (13, [0, 2], 2));
    assert_eq!((ran.longest, ran.group.cell), (5, 3));
    assert_eq!(marks, [0, 0, 0, 0, 0, 0, 0, 0, 0, 2, 0, 0, 2, 9, 9]);
}

/// The yielding loom alone goes through every place but those bound to the other side.
#[test]
fn the_yielding_loom_alone_takes_six_steps() {
    let size_two = known::named("size 2");
    let mut group = opened(&size_two);
    let places = [
        Place::Posted,
        Place::Looking,
        Place::Ready,
        Place::Applied,
        Place::Bound(Side::B),
        Place::Answered(Side::B),
    ];
    for (steps, place) in (1..).zip(places) {
        let stepped = group::step(size_two.cell(), 1, &mut group).expect("not yet answered");
        assert_eq!((group.looms[1].place, stepped.steps), (place, steps));
        let said = match place {
            Place::Applied => Said::Applied,
            Place::Answered(side) => Said::Answer(side, 733),
            _ => Said::Nothing,
        };
        assert_eq!(stepped.said, said);
    }
    assert_eq!(group::step(size_two.cell(), 1, &mut group), Err(codes::ANSWERED));
}

/// In "returns, sides exchanged" the start is in the set of B, so that A yields.
#[test]
fn a_yields_when_the_start_is_in_the_set_of_b() {
    let exchanged = known::named("returns, sides exchanged");
    for (loom, place) in [(0, Place::Ready), (1, Place::Looking)] {
        let mut group = opened(&exchanged);
        for _ in 0..2 {
            group::step(exchanged.cell(), loom, &mut group).expect("not yet answered");
        }
        assert_eq!(group.looms[loom].place, place);
    }
}

#[test]
fn steps_are_refused_in_order() {
    let size_two = known::named("size 2");
    let cell = size_two.cell();
    let mut group = opened(&size_two);
    group.looms[0].place = Place::Answered(Side::A);
    let given = group;
    assert_eq!(group::step(cell, 2, &mut group), Err(codes::NO_LOOM));
    assert_eq!(group::step(Cell { states: 5, ..cell }, 0, &mut group), Err(codes::NO_FIT));
    assert_eq!(group::step(cell, 0, &mut group), Err(codes::ANSWERED));
    assert_eq!(group, given);
    group.count = 9;
    assert_eq!(group::step(cell, 0, &mut group), Err(codes::NO_LOOM));
    assert_eq!(group::restart(0, &mut group), Err(codes::NO_LOOM));
    assert_eq!(group::restart_all(&mut group), Err(codes::NO_LOOM));
}

#[test]
fn a_step_count_stops_at_255() {
    let size_two = known::named("size 2");
    let mut group = opened(&size_two);
    group.looms[0].steps = 254;
    for _ in 0..2 {
        let stepped = group::step(size_two.cell(), 0, &mut group).expect("not yet answered");
        assert_eq!(stepped.steps, 255);
    }
}

#[test]
fn an_opening_fills_its_slots_and_no_more() {
    let group = opened(&fitting::catalogue(3));
    assert_eq!((group.count, group.cell, group.start), (3, 3, 3));
    assert_eq!((group.registers, group.numbers), ([0, 0], [501, 733]));
    assert_eq!(group.sets, [0b111, 0b11_0000]);
    assert_eq!(group.looms[1].side, Side::B);
    assert_eq!(group.looms[3..], NO_GROUP.looms[3..]);
}

#[test]
fn runs_are_refused_in_order() {
    let size_two = known::named("size 2");
    let refusal = |schedule: &[u8], marks: &mut [u8]| run(&size_two, schedule, marks).err();
    assert_eq!(refusal(&[99; 4097], &mut []), Some(codes::SCHEDULE_LENGTH));
    assert_eq!(refusal(&[0, 2], &mut []), Some(codes::ACT));
    assert_eq!(refusal(&[0, 18], &mut []), Some(codes::ACT));
    assert_eq!(refusal(&[0, 33], &mut []), Some(codes::ACT));
    let mut marks = [9];
    assert_eq!(refusal(&[0, 32], &mut marks), Some(codes::ROOM));
    assert_eq!(marks, [9]);
}

/// Also when the area is filled: the check comes first.
#[test]
fn a_number_of_zero_is_refused_after_the_check() {
    let size_two = known::named("size 2");
    let mut area = [7; 8];
    let opened = group::open(size_two.cell(), &size_two.certificate, [501, 0], &mut area);
    assert_eq!(opened.err(), Some(codes::PIECE_NUMBER));
    assert_eq!(area, [0, 1, 0, 2, 0, 0, 8, 8]);
}
