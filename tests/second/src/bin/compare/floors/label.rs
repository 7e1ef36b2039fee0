//! Label queries: which label the part lies in, where, and how long.

use second::asking::asks::{self, FAR};
use second::asking::session::{Go, Needs, Session};
use second::inputs::dice::Dice;

pub const NEEDS: Needs = &[("label", &[0, 1]), ("side asked", &[0, 1, 2])];

pub fn trials(session: &mut Session) -> Go {
    session.trial("every length and number of trailing spaces", spaces)?;
    session.trial("sides beyond", sides)?;
    session.trial("random labels", random_labels)
}

fn ask(session: &mut Session, labels: [&[u8]; 2], side: usize) -> Go {
    session.saw("side asked", side.min(2) as u64);
    session.ask(asks::label(labels, side)).map(drop)
}

/// Up to 34 bytes, all spaces included; the other label is of another length.
fn spaces(session: &mut Session, _: &mut Dice) -> Go {
    for (length, spaces) in
        (0..35).flat_map(|length| (0..=length).map(move |spaces| (length, spaces)))
    {
        let mut label = vec![b'W'; length - spaces];
        label.resize(length, b' ');
        for side in 0..3 {
            ask(session, [&label, b" other  "], side)?;
            ask(session, [b"", &label], side)?;
        }
    }
    Ok(())
}

fn sides(session: &mut Session, _: &mut Dice) -> Go {
    for side in (0..8).chain(FAR) {
        ask(session, [b"W501 ", b"W733 "], side)?;
        ask(session, [b"", b"W733 "], side)?;
        ask(session, [b"", b""], side)?;
    }
    Ok(())
}

/// Bytes that are mostly printable, spaces anywhere; no byte but the space is trimmed.
fn label(dice: &mut Dice) -> Vec<u8> {
    let length = dice.below(33);
    let spaces = dice.below(5);
    let mut label: Vec<u8> = (0..length)
        .map(|_| {
            let any = dice.byte();
            dice.pick(&[b' ', b' ', b'W', b'~', b'!', 0, 9, 10, 31, 0xa0, any])
        })
        .collect();
    label.resize(length.max(spaces), b' ');
    label
}

fn random_labels(session: &mut Session, dice: &mut Dice) -> Go {
    for _ in 0..session.cases {
        let (one, other) = (label(dice), label(dice));
        let side = dice.pick(&[0, 0, 0, 1, 1, 1, 2, 255, 256, 1 << 32, usize::MAX]);
        ask(session, [&one, &other], side)?;
    }
    Ok(())
}
