//! "A set of states is kept as one 64-bit word; its size is the number of ones in it, and the
//! lowest shared state is the count of zeros below the lowest one. A number beyond the word is in
//! no set."
//!
//! Sizes and lowest states are found by walking the members, not by the machine's bit counts.
//! House rules: the lowest state of the empty set is 64; inserting a state beyond the word leaves
//! the set as it was.

/// States that a word has room for, and the "lowest state" of the empty set.
pub const WORD: usize = 64;

pub const EMPTY: u64 = 0;

/// Whether the state is in the set.
pub fn has(set: u64, state: usize) -> bool {
    state < WORD && (set >> state) % 2 == 1
}

/// The set with one state more.
pub fn inserted(set: u64, state: usize) -> u64 {
    if state < WORD && !has(set, state) {
        set + (1 << state)
    } else {
        set
    }
}

/// The states of a set, the lowest first.
pub fn members(set: u64) -> impl Iterator<Item = usize> {
    (0..WORD).filter(move |&state| has(set, state))
}

/// The states in either set.
pub fn union(one: u64, other: u64) -> u64 {
    members(one).chain(members(other)).fold(EMPTY, inserted)
}

/// The states in both sets.
pub fn shared(one: u64, other: u64) -> u64 {
    members(one).filter(|&state| has(other, state)).fold(EMPTY, inserted)
}

/// How many states the set has.
pub fn size(set: u64) -> usize {
    members(set).count()
}

/// The lowest state of the set.
pub fn lowest(set: u64) -> usize {
    members(set).next().unwrap_or(WORD)
}
