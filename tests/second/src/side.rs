//! "A side (0 for A, 1 for B)."

#[derive(Clone, Copy, Debug, PartialEq, Eq, Hash)]
pub enum Side {
    A,
    B,
}

pub const BOTH: [Side; 2] = [Side::A, Side::B];

impl Side {
    /// The side of a number, if it is 0 or 1.
    pub fn numbered(number: usize) -> Option<Side> {
        BOTH.get(number).copied()
    }

    /// 0 for A, 1 for B; pairs of things, one a side, are kept in this order.
    pub fn number(self) -> usize {
        self as usize
    }

    pub fn other(self) -> Side {
        match self {
            Side::A => Side::B,
            Side::B => Side::A,
        }
    }
}
