//! Reading of order files: whole, cut, changed in a field, damaged, with rooms of any length.

use second::asking::asks::{self, pairs};
use second::asking::session::{Go, Needs, Session};
use second::inputs::dice::Dice;
use second::inputs::writer::Draft;
use second::inputs::{known, makers, samples};
use second::limits::{SCHEDULE_ROOM, TABLE_ROOM};
use second::wire::calls;

const FILE_CODES: &[u64] = &[0, 1, 2, 3, 4, 5, 6, 7, 8, 9, 10, 11, 12, 13, 14, 40];
const PLACED: &[u64] = &[1, 3, 4, 5, 6, 7, 8, 9, 10, 11, 12, 13, 14];

pub const NEEDS: Needs = &[("read", FILE_CODES), ("read with place", PLACED)];
pub const READER_NEEDS: Needs = &[("read_by_fields", FILE_CODES), ("read with place", PLACED)];

pub fn trials(session: &mut Session) -> Go {
    file_trials(session, calls::READ)
}

pub fn reader_trials(session: &mut Session) -> Go {
    file_trials(session, calls::READ_BY_FIELDS)
}

fn file_trials(session: &mut Session, function: u8) -> Go {
    session.trial("sample files", |session, _| sample_files(session, function))?;
    session.trial("rooms short, exact and longer", |session, _| rooms(session, function))?;
    session.trial("every cut of several files", |session, dice| cuts(session, dice, function))?;
    session.trial("every field at its edges", |session, dice| edges(session, dice, function))?;
    session.trial("words put in and taken out", |session, dice| shifts(session, dice, function))?;
    session.trial("every label byte, length and pad", |session, _| labels(session, function))?;
    session.trial("tails", |session, dice| tails(session, dice, function))?;
    session.trial("random orders", |session, dice| random_orders(session, dice, function))?;
    session
        .trial("orders wrong in a field", |session, dice| wrong_orders(session, dice, function))?;
    session.trial("damaged bytes", |session, dice| damaged_files(session, dice, function))
}

/// Rooms one byte longer than they need be.
fn ask(session: &mut Session, function: u8, file: &[u8]) -> Go {
    session.ask(asks::read(function, file, TABLE_ROOM + 1, SCHEDULE_ROOM + 1)).map(drop)
}

fn sample_files(session: &mut Session, function: u8) -> Go {
    for file in [vec![], vec![0; 30_000], vec![1; 30_000], vec![255; 30_000]] {
        ask(session, function, &file)?;
    }
    for sample in samples::all() {
        ask(session, function, &sample.file)?;
    }
    Ok(())
}

/// Both rooms around their limits, for files that are right, wrong, cut and empty.
fn rooms(session: &mut Session, function: u8) -> Go {
    let worked = samples::worked().file();
    let mut wrong = worked.clone();
    wrong[3] = 0;
    let files = [&worked, &samples::longest().file(), &wrong, &worked[..60].to_vec(), &vec![]];
    let lengths = pairs(&[0, 1, 8, 1023, 1024, 1025, 3000], &[0, 13, 4095, 4096, 4097, 6000]);
    for (file, (table, schedule)) in pairs(&files, &lengths) {
        session.ask(asks::read(function, file, table, schedule))?;
    }
    Ok(())
}

/// A valid order of any size up to the limits.
fn draft(dice: &mut Dice, entries: usize) -> Draft {
    let fitting = makers::formed(dice);
    let schedule = makers::schedule(dice, fitting.certificate.count, entries);
    let numbers = [1 + dice.below(u32::MAX as usize) as u32, dice.pick(&[1, 733, u32::MAX])];
    let labels = [label(dice), label(dice)];
    let mut draft = Draft::of(&fitting, numbers, [&labels[0], &labels[1]], &schedule);
    draft.pad = dice.pick(&[0, 0, b' ', 127, 255]);
    draft
}

fn label(dice: &mut Dice) -> Vec<u8> {
    let length = dice.below(33);
    (0..length)
        .map(|_| {
            let any = 32 + dice.below(95) as u8;
            dice.pick(&[b' ', b'~', any])
        })
        .collect()
}

/// The worked order, one with long labels, and some of other sizes.
fn several(dice: &mut Dice) -> Vec<Vec<u8>> {
    let mut drafts = vec![samples::worked()];
    for name in ["sticky", "one state", "late return"] {
        let labels: [&[u8]; 2] = [b"a label of thirty-two bytes: abc", b""];
        drafts.push(Draft::of(&known::named(name), [1, u32::MAX], labels, &[0, 16, 32, 1]));
    }
    drafts.extend((0..6).map(|_| draft(dice, 5)).filter(|draft| draft.table.len() < 100));
    drafts.iter().map(Draft::file).collect()
}

/// Every cut of the smaller files; of the longest one, every cut near its ends and some between.
fn cuts(session: &mut Session, dice: &mut Dice, function: u8) -> Go {
    for file in several(dice) {
        (0..file.len()).try_for_each(|length| ask(session, function, &file[..length]))?;
    }
    let longest = samples::longest().file();
    let some = (0..40).chain((40..longest.len() - 40).step_by(97));
    for length in some.chain(longest.len() - 40..longest.len()) {
        ask(session, function, &longest[..length])?;
    }
    Ok(())
}

/// Values at the edge of some field, beside the one that stands there.
fn edge_values(value: u32) -> Vec<u32> {
    let mut values = vec![value.wrapping_sub(1), value.wrapping_add(1)];
    values.extend([0, 1, 2, 3, 4, 7, 8, 9, 15, 16, 17, 18, 31, 32, 33, 63, 64, 65, 127, 128]);
    values.extend([255, 256, 257, 1023, 1024, 1025, 4095, 4096, 4097, 65536, 1 << 24, 1 << 31]);
    values.extend([u32::MAX - 1, u32::MAX]);
    values
}

/// Where fields of the longest file begin: the first of each kind, and the last of all.
const LONGEST_FIELDS: [usize; 15] =
    [0, 4, 8, 12, 4108, 4112, 4116, 4120, 4180, 4184, 4188, 4224, 4260, 4264, 20_644];

/// Every word of the smaller files; label bytes are words like others here.
fn edges(session: &mut Session, dice: &mut Dice, function: u8) -> Go {
    for file in several(dice) {
        let mut words = (0..file.len()).step_by(4);
        words.try_for_each(|at| edges_at(session, function, &file, at))?;
    }
    let longest = samples::longest().file();
    let mut some = LONGEST_FIELDS.into_iter();
    some.try_for_each(|at| edges_at(session, function, &longest, at))
}

fn edges_at(session: &mut Session, function: u8, file: &[u8], at: usize) -> Go {
    let mut file = file.to_vec();
    let word: [u8; 4] = file[at..at + 4].try_into().expect("files are whole words");
    for value in edge_values(u32::from_be_bytes(word)) {
        file[at..at + 4].copy_from_slice(&value.to_be_bytes());
        ask(session, function, &file)?;
    }
    Ok(())
}

fn shifts(session: &mut Session, dice: &mut Dice, function: u8) -> Go {
    for file in several(dice) {
        let mut words = (0..file.len()).step_by(4);
        words.try_for_each(|at| shifts_at(session, function, &file, at))?;
    }
    Ok(())
}

/// This word taken out, and others put in before it.
fn shifts_at(session: &mut Session, function: u8, file: &[u8], at: usize) -> Go {
    ask(session, function, &[&file[..at], &file[at + 4..]].concat())?;
    for word in [0_u32, 1, 2, 4, u32::MAX] {
        let mut longer = file.to_vec();
        longer.splice(at..at, word.to_be_bytes());
        ask(session, function, &longer)?;
    }
    Ok(())
}

/// Every byte at the first and last position of either label, every length up to 36, any pad.
fn labels(session: &mut Session, function: u8) -> Go {
    let (lengths, bytes): (Vec<usize>, Vec<u8>) = ((0..=36).collect(), (0..=255).collect());
    for (which, (length, byte)) in pairs(&[0, 1], &pairs(&lengths, &bytes)) {
        let mut draft = samples::worked();
        draft.labels[which] = vec![b'x'; length];
        draft.pad = byte;
        let at = if byte % 2 == 0 { 0 } else { length.saturating_sub(1) };
        draft.labels[which][at.min(length)..].iter_mut().take(1).for_each(|place| *place = byte);
        ask(session, function, &draft.file())?;
    }
    Ok(())
}

fn tails(session: &mut Session, dice: &mut Dice, function: u8) -> Go {
    let mut files = several(dice);
    files.push(samples::longest().file());
    for (mut file, length) in pairs(&files, &[1, 2, 3, 4, 5, 8, 9]) {
        file.extend(dice.bytes(length));
        ask(session, function, &file)?;
    }
    Ok(())
}

/// Mostly few entries, now and then as many as there may be.
fn entries(dice: &mut Dice) -> usize {
    let any = dice.below(4097);
    let few = dice.below(20);
    dice.pick(&[few, few, few, few, few, few, few, few, few, any])
}

fn random_orders(session: &mut Session, dice: &mut Dice, function: u8) -> Go {
    for _ in 0..session.cases.div_ceil(2) {
        let entries = entries(dice);
        ask(session, function, &draft(dice, entries).file())?;
    }
    Ok(())
}

/// A number that is wrong in most fields.
fn wild(dice: &mut Dice) -> u32 {
    let any = dice.word() as u32;
    dice.pick(&[0, 2, 8, 9, 16, 17, 32, 33, 48, 64, 65, 256, 1 << 31, u32::MAX, any])
}

/// One field other than it was; the counts are those of the items.
fn wrong(dice: &mut Dice, mut draft: Draft) -> Draft {
    let (side, looms) = (dice.below(2), draft.seats.len());
    let (entry, loom) = (dice.below(draft.table.len()), dice.below(looms));
    match dice.below(14) {
        0 => draft.states = wild(dice),
        1 => draft.operations = wild(dice),
        2 => draft.table.truncate(draft.table.len() - 1),
        3 => draft.table.push(0),
        4 => draft.table[entry] = wild(dice),
        5 => draft.start = wild(dice),
        6 => draft.seats.truncate(1),
        7 => draft.seats.resize(9, (0, 0)),
        8 => draft.seats[loom].0 = wild(dice),
        9 => draft.seats[loom].1 = wild(dice),
        10 => draft.seats.iter_mut().for_each(|seat| seat.0 = side as u32),
        11 => draft.numbers[side] = 0,
        12 => draft.labels[side].push(dice.byte()),
        _ => draft.schedule.push(wild(dice)),
    }
    draft
}

fn wrong_orders(session: &mut Session, dice: &mut Dice, function: u8) -> Go {
    for _ in 0..session.cases {
        let entries = dice.below(12);
        let valid = draft(dice, entries);
        let draft = wrong(dice, valid);
        ask(session, function, &draft.file())?;
    }
    Ok(())
}

fn damaged_files(session: &mut Session, dice: &mut Dice, function: u8) -> Go {
    for _ in 0..session.cases {
        let entries = dice.below(12);
        let mut file = draft(dice, entries).file();
        for _ in 0..dice.between(1, 3) {
            let at = dice.below(file.len());
            file[at] = dice.byte();
        }
        ask(session, function, &file)?;
    }
    Ok(())
}
