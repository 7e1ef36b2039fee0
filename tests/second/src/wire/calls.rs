//! The functions of the wire: number, name, arguments and results.

/// What a field holds. A name without a mark is one number.
#[derive(Clone, Copy, Debug, PartialEq, Eq)]
pub enum Kind {
    Number,
    /// Eight seats as side, operation: 16 numbers. Marked `name*16`.
    Seats,
    /// A group: 41 numbers. Marked `name*41`.
    Group,
    /// Marked `name:bytes`.
    Bytes,
    /// Marked `name:words`.
    Words,
}

#[derive(Clone, Copy, Debug)]
pub struct Field {
    pub name: &'static str,
    pub kind: Kind,
}

#[derive(Debug)]
pub struct Call {
    pub number: u8,
    pub name: &'static str,
    pub takes: Vec<Field>,
    pub gives: Vec<Field>,
}

pub const PING: u8 = 0;
pub const HAS: u8 = 1;
pub const UNION: u8 = 2;
pub const INSERT: u8 = 3;
pub const SIZE: u8 = 4;
pub const LOWEST: u8 = 5;
pub const SHARED: u8 = 6;
pub const CATALOGUE: u8 = 10;
pub const NEXT: u8 = 11;
pub const FORM: u8 = 12;
pub const CHECK: u8 = 20;
pub const OPEN: u8 = 30;
pub const STEP: u8 = 31;
pub const RESTART: u8 = 32;
pub const RESTART_ALL: u8 = 33;
pub const STEP_LENT: u8 = 34;
pub const RUN: u8 = 40;
pub const READ: u8 = 50;
pub const READ_BY_FIELDS: u8 = 51;
pub const LABEL: u8 = 60;

const STEP_TAKES: &str = "table:bytes states operations loom group*41";
const STEP_GIVES: &str = "code said said_side said_number steps group*41";
const READ_TAKES: &str = "file:bytes table_room:bytes schedule_room:bytes";
const READ_GIVES: &str = "code place states operations table_entries start count seats*16 \
     number_a number_b label_a_offset label_a_length label_b_offset label_b_length \
     schedule_entries table_room:bytes schedule_room:bytes";

const CALLS: [(u8, &str, &str, &str); 20] = [
    (PING, "ping", "", "one"),
    (HAS, "has", "word state", "is"),
    (UNION, "union", "one other", "word"),
    (INSERT, "insert", "word state", "word"),
    (SIZE, "size", "word", "states"),
    (LOWEST, "lowest", "word", "state"),
    (SHARED, "shared", "one other", "word"),
    (CATALOGUE, "catalogue", "n room:bytes", "code room:bytes"),
    (NEXT, "next", "table:bytes states operation state", "tag state"),
    (FORM, "form", "table:bytes states operations", "code place"),
    (
        CHECK,
        "check",
        "table:bytes states operations start count seats*16 area:words",
        "code place size_a size_b area:words",
    ),
    (
        OPEN,
        "open",
        "table:bytes states operations start count seats*16 number_a number_b area:words",
        "code group*41 area:words",
    ),
    (STEP, "step", STEP_TAKES, STEP_GIVES),
    (RESTART, "restart", "loom group*41", "code group*41"),
    (RESTART_ALL, "restart_all", "group*41", "code group*41"),
    (STEP_LENT, "step_lent", STEP_TAKES, STEP_GIVES),
    (
        RUN,
        "run",
        "table:bytes states operations start count seats*16 number_a number_b \
         schedule:bytes marks:bytes area:words",
        "code entries answers_a answers_b applied longest group*41 marks:bytes area:words",
    ),
    (READ, "read", READ_TAKES, READ_GIVES),
    (READ_BY_FIELDS, "read_by_fields", READ_TAKES, READ_GIVES),
    (LABEL, "label", "label_a:bytes label_b:bytes side", "slice offset length"),
];

fn field(text: &'static str) -> Field {
    let marks = [
        ("*16", Kind::Seats),
        ("*41", Kind::Group),
        (":bytes", Kind::Bytes),
        (":words", Kind::Words),
    ];
    let marked =
        |&(mark, kind): &(&str, Kind)| Some(Field { name: text.strip_suffix(mark)?, kind });
    marks.iter().find_map(marked).unwrap_or(Field { name: text, kind: Kind::Number })
}

fn fields(text: &'static str) -> Vec<Field> {
    text.split_whitespace().map(field).collect()
}

/// The call of that number.
pub fn numbered(number: u8) -> Option<Call> {
    let &(_, name, takes, gives) = CALLS.iter().find(|row| row.0 == number)?;
    Some(Call { number, name, takes: fields(takes), gives: fields(gives) })
}

/// The name alone, for counting.
pub fn name(number: u8) -> &'static str {
    CALLS.iter().find(|row| row.0 == number).map_or("unknown", |row| row.1)
}
