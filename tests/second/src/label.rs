//! "The answer to a label query, for side 0 or 1, is the part of that side's lent label without its
//! trailing spaces; the caller's own bytes and no copy. Any other side number gives the empty part
//! at the beginning of label A."

use crate::order::Part;
use crate::side::Side;

/// Which label the part lies in, and where.
#[derive(Clone, Copy, Debug, PartialEq, Eq)]
pub struct Piece {
    pub label: Side,
    pub part: Part,
}

pub fn piece(labels: [&[u8]; 2], side: usize) -> Piece {
    let Some(label) = Side::numbered(side) else {
        return Piece { label: Side::A, part: Part::default() };
    };
    let last = labels[label.number()].iter().rposition(|&byte| byte != b' ');
    let length = last.map_or(0, |at| at + 1);
    Piece { label, part: Part { offset: 0, length } }
}
