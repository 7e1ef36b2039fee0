//! Sets of states in a word.

use second::asking::asks::{self, FAR};
use second::asking::session::{Go, Needs, Session};
use second::inputs::dice::Dice;
use second::wire::calls;
use second::wire::frame::Payload;

/// Every size and every lowest state, the empty set's included, and both answers of membership.
pub const NEEDS: Needs = &[
    ("has", &[0, 1]),
    ("size", &[0, 1, 2, 31, 32, 33, 62, 63, 64]),
    ("lowest", &[0, 1, 2, 31, 32, 33, 62, 63, 64]),
    ("union", &[0]),
    ("shared", &[0]),
    ("insert", &[0]),
];

pub fn trials(session: &mut Session) -> Go {
    session.trial("single words at their edges", single_words)?;
    session.trial("words and states at their edges", words_and_states)?;
    session.trial("pairs of words at their edges", pairs)?;
    session.trial("random words", random_words)
}

/// None, all, every single state, every one left out, every run from the lowest, two combs.
fn edge_words() -> Vec<u64> {
    let single = (0..64).map(|state| 1 << state);
    let runs = (0..64).map(|length| (1 << length) - 1);
    let mut words: Vec<u64> =
        single.clone().chain(single.map(|word: u64| !word)).chain(runs).collect();
    words.extend([u64::MAX, 0x5555_5555_5555_5555, 0xaaaa_aaaa_aaaa_aaaa]);
    words
}

fn edge_states() -> Vec<usize> {
    (0..=70).chain([127, 128, 129]).chain(FAR).collect()
}

fn ask_one(session: &mut Session, word: u64) -> Go {
    session.ask(Payload::call(calls::SIZE).number(word))?;
    session.ask(Payload::call(calls::LOWEST).number(word)).map(drop)
}

fn ask_state(session: &mut Session, word: u64, state: usize) -> Go {
    session.ask(Payload::call(calls::HAS).number(word).count(state))?;
    session.ask(Payload::call(calls::INSERT).number(word).count(state)).map(drop)
}

fn ask_pair(session: &mut Session, one: u64, other: u64) -> Go {
    session.ask(Payload::call(calls::UNION).number(one).number(other))?;
    session.ask(Payload::call(calls::SHARED).number(one).number(other)).map(drop)
}

fn single_words(session: &mut Session, _: &mut Dice) -> Go {
    edge_words().into_iter().try_for_each(|word| ask_one(session, word))
}

fn words_and_states(session: &mut Session, _: &mut Dice) -> Go {
    let all = asks::pairs(&edge_words(), &edge_states());
    all.into_iter().try_for_each(|(word, state)| ask_state(session, word, state))
}

fn pairs(session: &mut Session, _: &mut Dice) -> Go {
    let some: Vec<u64> = edge_words().into_iter().step_by(3).collect();
    let all = asks::pairs(&edge_words(), &some);
    all.into_iter().try_for_each(|(one, other)| ask_pair(session, one, other))
}

/// Sparse, even or dense.
fn word(dice: &mut Dice) -> u64 {
    let (one, two, three) = (dice.word(), dice.word(), dice.word());
    dice.pick(&[one, one & two, one & two & three, one | two, one | two | three])
}

fn random_words(session: &mut Session, dice: &mut Dice) -> Go {
    for _ in 0..session.cases {
        let (one, other) = (word(dice), word(dice));
        let (near, far) = (dice.below(71), beyond(dice));
        let state = dice.pick(&[near, near, near, far]);
        ask_one(session, one)?;
        ask_state(session, one, state)?;
        ask_pair(session, one, other)?;
    }
    Ok(())
}

/// A state far beyond, whose low bits may name one that is in the set.
fn beyond(dice: &mut Dice) -> usize {
    (dice.word() | 1 << 40) as usize
}
