//! The check of a certificate: code, place, sizes and the working area word by word.

use super::wrong;
use second::asking::asks::{self, marked_words};
use second::asking::session::{Go, Needs, Session};
use second::inputs::dice::Dice;
use second::inputs::fitting::{self, Fitting};
use second::inputs::{known, makers, small};

pub const NEEDS: Needs = &[
    ("check", &[0, 2, 3, 4, 5, 6, 7, 8, 9, 20, 21, 22, 40]),
    ("check with place", &[5, 8, 20, 21, 22]),
    ("looms accepted", &[2, 3, 4, 5, 6, 7, 8]),
];

pub fn trials(session: &mut Session) -> Go {
    session.trial("every table of up to three states, two looms", |session, _| {
        sweep(session, small::UP_TO_THREE_STATES, 2)
    })?;
    session.trial("every table of up to three states, three looms", |session, _| {
        sweep(session, small::UP_TO_THREE_STATES, 3)
    })?;
    session.trial("every table of up to two states, four looms", |session, _| {
        sweep(session, small::UP_TO_TWO_STATES, 4)
    })?;
    session.trial("the known certificates", known_certificates)?;
    session.trial("the catalogue cells and their parts", catalogue_cells)?;
    session.trial("areas short, exact and longer", areas)?;
    session.trial("every refusal before every other", refusals)?;
    session.trial("every wrong entry and seat", wrong_items)?;
    session.trial("random certificates", random_certificates)?;
    session.trial("damaged certificates", damaged_certificates)
}

fn ask(session: &mut Session, fitting: &Fitting, area: usize) -> Go {
    let ours = session.ask(asks::check(fitting, &marked_words(area)))?;
    if ours[..8] == [0; 8] {
        session.saw("looms accepted", fitting.certificate.count as u64);
    }
    Ok(())
}

/// Complete, and the area one word longer than it need be.
fn sweep(session: &mut Session, sizes: small::Sizes, looms: usize) -> Go {
    small::fittings(sizes, looms)
        .try_for_each(|fitting| ask(session, &fitting, fitting.area_words() + 1))
}

fn known_certificates(session: &mut Session, _: &mut Dice) -> Go {
    for known in known::certificates() {
        for extra in 0..4 {
            ask(session, &known.fitting, known.fitting.area_words() + extra)?;
        }
    }
    Ok(())
}

/// Every catalogue cell with every number of looms, too many included, on either side.
fn catalogue_cells(session: &mut Session, _: &mut Dice) -> Go {
    let sizes = [2, 3, 4, 5, 6, 7, 8];
    for (n, looms) in asks::pairs(&sizes, &sizes) {
        let mut fitting = fitting::catalogue(n);
        fitting.certificate = fitting::catalogue(looms).certificate;
        fitting.certificate.start = n;
        ask(session, &fitting, fitting.area_words() + 1)?;
        fitting.certificate.seats.iter_mut().for_each(|seat| seat.side = 1 - seat.side);
        ask(session, &fitting, fitting.area_words() + 1)?;
    }
    Ok(())
}

fn areas(session: &mut Session, dice: &mut Dice) -> Go {
    for fitting in (2..=8).flat_map(|looms| some_of(dice, looms)) {
        let exact = fitting.area_words();
        for area in [0, 1, exact / 2, exact - 1, exact, exact + 1, exact + 2, 2 * exact] {
            ask(session, &fitting, area)?;
        }
    }
    Ok(())
}

/// Some certificates of so many looms: the catalogue's and random ones.
fn some_of(dice: &mut Dice, looms: usize) -> Vec<Fitting> {
    let mut some = vec![fitting::catalogue(looms)];
    while some.len() < 8 {
        let made = makers::formed(dice);
        if made.certificate.count == looms {
            some.push(made);
        }
    }
    some
}

fn refusals(session: &mut Session, _: &mut Dice) -> Go {
    for base in wrong::bases() {
        wrong::pairs(&base).try_for_each(|lent| ask(session, &lent.fitting, lent.area))?;
    }
    Ok(())
}

/// Each entry of a large table and each seat of eight wrong by itself, and beyond the count too.
fn wrong_items(session: &mut Session, dice: &mut Dice) -> Go {
    let mut base = fitting::catalogue(8);
    for at in 0..base.table.len() {
        let kept = std::mem::replace(&mut base.table[at], 16 + (at % 200) as u8);
        ask(session, &base, base.area_words())?;
        base.table[at] = kept;
    }
    for count in 2..=8 {
        base.certificate.count = count;
        wrong_seats(session, dice, &base)?;
    }
    Ok(())
}

fn wrong_seats(session: &mut Session, dice: &mut Dice, base: &Fitting) -> Go {
    let looms = [0, 1, 2, 3, 4, 5, 6, 7];
    for (loom, wrong) in asks::pairs(&looms, &[2, 3, 255, 256, 1 << 32, usize::MAX]) {
        let mut fitting = base.clone();
        fitting.certificate.seats[loom].side = wrong;
        ask(session, &fitting, fitting.area_words())?;
        fitting.certificate.seats[loom].side = dice.below(2);
        fitting.certificate.seats[loom].operation = wrong;
        ask(session, &fitting, fitting.area_words())?;
    }
    Ok(())
}

fn random_certificates(session: &mut Session, dice: &mut Dice) -> Go {
    for _ in 0..session.cases {
        let fitting = makers::formed(dice);
        let area = fitting.area_words() + dice.below(3);
        ask(session, &fitting, area)?;
    }
    Ok(())
}

/// One or more things wrong; the area too may be short.
fn damaged_certificates(session: &mut Session, dice: &mut Dice) -> Go {
    for _ in 0..session.cases {
        let formed = makers::formed(dice);
        let exact = formed.area_words();
        let mut fitting = makers::damaged(dice, formed);
        while dice.once_in(3) {
            fitting = makers::damaged(dice, fitting);
        }
        let short = dice.below(exact);
        let area = dice.pick(&[exact, exact + 1, 512, 515, exact - 1, short]);
        ask(session, &fitting, area)?;
    }
    Ok(())
}
