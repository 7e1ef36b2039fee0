//! Schedules as a busy hall would have them: bursts of one loom, rounds of all, single restarts,
//! restarts one on another, and restarts of all.

use second::inputs::dice::Dice;
use second::limits;
use second::schedule::Act;

/// The entry that names an act.
fn entry(act: Act) -> u8 {
    match act {
        Act::Step(loom) => loom as u8,
        Act::Restart(loom) => 16 + loom as u8,
        Act::RestartAll => 32,
    }
}

fn shuffled(dice: &mut Dice, looms: usize) -> Vec<usize> {
    let mut order: Vec<usize> = (0..looms).collect();
    dice.shuffle(&mut order);
    order
}

/// One loom by itself, as far as its answer and a step too many.
fn burst(dice: &mut Dice, looms: usize) -> Vec<Act> {
    let loom = dice.below(looms);
    vec![Act::Step(loom); dice.between(1, 7)]
}

/// Every loom a step, in any order, some times over: all come to apply at once.
fn rounds(dice: &mut Dice, looms: usize) -> Vec<Act> {
    let times = dice.between(1, 4);
    (0..times).flat_map(|_| shuffled(dice, looms)).map(Act::Step).collect()
}

fn scattered(dice: &mut Dice, looms: usize) -> Vec<Act> {
    let steps = dice.between(looms, 6 * looms);
    (0..steps).map(|_| Act::Step(dice.below(looms))).collect()
}

/// A loom falls and comes back, perhaps to fall again before it answers.
fn fall(dice: &mut Dice, looms: usize) -> Vec<Act> {
    let loom = dice.below(looms);
    let once = |dice: &mut Dice| [vec![Act::Restart(loom)], vec![Act::Step(loom); dice.below(7)]];
    let times = dice.between(1, 3);
    (0..times).flat_map(|_| once(dice)).flatten().collect()
}

/// Several fall one on another, among steps.
fn storm(dice: &mut Dice, looms: usize) -> Vec<Act> {
    let acts = dice.between(2, 3 * looms);
    let any = |dice: &mut Dice| {
        let loom = dice.below(looms);
        dice.pick(&[Act::Restart(loom), Act::Restart(loom), Act::Step(loom)])
    };
    (0..acts).map(|_| any(dice)).collect()
}

/// The power fails: all fall, and come back in rounds.
fn outage(dice: &mut Dice, looms: usize) -> Vec<Act> {
    [vec![Act::RestartAll], rounds(dice, looms)].concat()
}

type Stretch = fn(&mut Dice, usize) -> Vec<Act>;

/// Each as often as it stands here. Without a restart a loom answers once and is done.
const STRETCHES: [Stretch; 10] =
    [burst, rounds, scattered, fall, fall, fall, fall, storm, storm, outage];

/// A schedule of that length over so many looms.
pub fn schedule(dice: &mut Dice, looms: usize, length: usize) -> Vec<u8> {
    let mut entries = Vec::with_capacity(length);
    while entries.len() < length {
        let stretch = dice.pick(&STRETCHES);
        entries.extend(stretch(dice, looms).into_iter().map(entry));
    }
    entries.truncate(length);
    entries
}

/// The limit, or any length from a quarter of it on.
pub fn long(dice: &mut Dice) -> usize {
    let any = dice.between(limits::SCHEDULE / 4, limits::SCHEDULE);
    dice.pick(&[limits::SCHEDULE, any, any])
}

/// As much as a group needs to settle, and often less.
pub fn short(dice: &mut Dice, looms: usize) -> usize {
    dice.between(0, 12 * looms)
}
