//! "Slips to shut out": each is tried beside the second program, breaks what the document says it
//! breaks, and isn't in the second program.

use second::group::{self, Group, Place, Said};
use second::inputs::fitting::{self, Fitting};
use second::inputs::known;
use second::recording;
use second::sets;
use second::side::Side;
use std::collections::HashSet;

/// Adds the states reached by up to so many looms more, any loom again and again.
fn reach_with_repeats(fitting: &Fitting, state: usize, more: usize, set: &mut u64) {
    *set = sets::inserted(*set, state);
    for seat in fitting.certificate.looms().iter().filter(|_| more > 0) {
        let next = fitting.cell().next(seat.operation, state).expect("it has form");
        reach_with_repeats(fitting, next, more - 1, set);
    }
}

/// The sets of A and B where a loom may appear again and again, in orders of up to five looms.
fn sets_with_repeats(fitting: &Fitting) -> [u64; 2] {
    let mut sets = [sets::EMPTY; 2];
    for seat in fitting.certificate.looms() {
        let first = fitting.cell().next(seat.operation, fitting.certificate.start);
        reach_with_repeats(fitting, first.expect("it has form"), 4, &mut sets[seat.side]);
    }
    sets
}

#[test]
fn a_loom_that_appears_twice_would_refuse_size_two() {
    let size_two = known::named("size 2");
    assert!(size_two.accepted());
    let [a, b] = sets_with_repeats(&size_two);
    assert_ne!(sets::shared(a, b), sets::EMPTY);
}

#[test]
fn the_two_sets_alone_would_pass_late_return() {
    let late = known::named("late return");
    let area = recording::area_by_orders(late.cell(), &late.certificate);
    let [a, b] = recording::sets_of(&area, 3);
    assert_eq!(sets::shared(a, b), sets::EMPTY);
    assert_eq!(late.code(), 21);
}

/// A machine: one loom's step, as said.
type Step = fn(&Fitting, usize, &mut Group) -> Option<Said>;

fn step(fitting: &Fitting, loom: usize, group: &mut Group) -> Option<Said> {
    group::step(fitting.cell(), loom, group).ok().map(|stepped| stepped.said)
}

/// The slip of yielding whatever the number of looms on the side. Side B yields here.
fn step_yielding_always(fitting: &Fitting, loom: usize, group: &mut Group) -> Option<Said> {
    let before = group.looms[loom].place;
    let said = step(fitting, loom, group);
    let slot = &mut group.looms[loom];
    if before == Place::Posted && slot.place == Place::Ready && slot.side == Side::B {
        slot.place = Place::Looking;
    }
    said
}

/// The slip of going back to ready from applied when the cell is at its start.
fn step_trying_again(fitting: &Fitting, loom: usize, group: &mut Group) -> Option<Said> {
    let before = group.looms[loom].place;
    let said = step(fitting, loom, group);
    if before == Place::Applied && group.cell == group.start {
        group.looms[loom].place = Place::Ready;
    }
    said
}

/// A group and the sides that answers have named so far.
type Seen = (Group, [bool; 2]);

/// What every schedule whatever leads to.
struct Explored {
    agreed: bool,
    longest: u8,
}

const NUMBERS: [u32; 2] = [501, 733];

fn opened(fitting: &Fitting) -> Group {
    group::open(fitting.cell(), &fitting.certificate, NUMBERS, &mut [0; 512]).expect("accepted")
}

/// The states one act further: a step or restart of each loom, a restart of all.
fn further(fitting: &Fitting, step: Step, (group, named): Seen) -> Vec<Seen> {
    let mut next = Vec::new();
    for loom in 0..group.count {
        let (mut stepped, mut named_now, mut restarted) = (group, named, group);
        if let Some(Said::Answer(side, number)) = step(fitting, loom, &mut stepped) {
            assert_eq!(number, NUMBERS[side.number()], "an answer has its side's number");
            named_now[side.number()] = true;
        }
        group::restart(loom, &mut restarted).expect("the loom is there");
        next.extend([(stepped, named_now), (restarted, named)]);
    }
    let mut all = group;
    group::restart_all(&mut all).expect("the group is small enough");
    next.push((all, named));
    next
}

fn explored(fitting: &Fitting, step: Step) -> Explored {
    let first = (opened(fitting), [false, false]);
    let (mut seen, mut waiting) = (HashSet::from([first]), vec![first]);
    while let Some(at) = waiting.pop() {
        let fresh: Vec<Seen> =
            further(fitting, step, at).into_iter().filter(|next| seen.insert(*next)).collect();
        // A machine that needs too many steps would go on for ever.
        waiting.extend(fresh.into_iter().filter(|(group, _)| longest(group) < 12));
    }
    Explored {
        agreed: seen.iter().all(|(_, named)| *named != [true, true]),
        longest: seen.iter().map(|(group, _)| longest(group)).max().unwrap_or(0),
    }
}

fn longest(group: &Group) -> u8 {
    group.looms.iter().map(|loom| loom.steps).max().unwrap_or(0)
}

#[test]
fn all_answers_name_one_side_within_six_steps() {
    for fitting in known::accepted().into_iter().chain([fitting::catalogue(3)]) {
        let explored = explored(&fitting, step);
        assert!(explored.agreed);
        assert_eq!(explored.longest, if fitting.certificate.count == 2 { 6 } else { 5 });
    }
}

#[test]
fn yielding_on_a_side_of_two_looms_would_break_it() {
    assert!(!explored(&fitting::catalogue(3), step_yielding_always).agreed);
}

#[test]
fn a_restart_forgets_the_place() {
    let size_two = known::named("size 2");
    for steps in 0..=6 {
        let mut group = opened(&size_two);
        for _ in 0..steps {
            step(&size_two, 1, &mut group);
        }
        group::restart(1, &mut group).expect("the loom is there");
        assert_eq!((group.looms[1].place, group.looms[1].steps), (Place::Begin, 0));
    }
}

#[test]
fn trying_again_would_need_a_seventh_step_in_returns() {
    let returns = known::named("returns");
    assert_eq!(explored(&returns, step).longest, 6);
    assert!(explored(&returns, step_trying_again).longest >= 7);
}
