//! A difference set out for a reader: floor, function, input, theirs, ours.

use super::driver::Difference;
use crate::wire::calls::{self, Call, Field, Kind};
use crate::wire::numbering::{HEAD, PLACE_NAMES, SLOT};
use crate::wire::record::{Record, Value};

/// Items of a slice that are shown: all of a table, few of lent memory, which holds a pattern.
fn limit(field: Field) -> usize {
    match field.name {
        "area" | "marks" | "room" | "table_room" | "schedule_room" => 4,
        _ => 1024,
    }
}

fn listed<T>(field: Field, items: &[T], shown: impl Fn(&T) -> String) -> String {
    let mut texts: Vec<String> = items.iter().take(limit(field)).map(shown).collect();
    if items.len() > texts.len() {
        texts.push("…".into());
    }
    format!("({}) {}", items.len(), texts.join(" "))
}

fn number(value: u64) -> String {
    if value > u64::from(u32::MAX) {
        format!("{value:#x}")
    } else {
        value.to_string()
    }
}

const HEAD_NAMES: [&str; HEAD] = [
    "count",
    "cell",
    "register A",
    "register B",
    "number A",
    "number B",
    "start",
    "set A",
    "set B",
];
const SLOT_NAMES: [&str; SLOT] = ["side", "operation", "place", "steps"];

/// The name of the number at a position of seats or a group.
fn number_name(kind: Kind, at: usize) -> String {
    match kind {
        Kind::Seats => format!("loom {} {}", at / 2, ["side", "operation"][at % 2]),
        Kind::Group if at < HEAD => HEAD_NAMES[at].into(),
        Kind::Group => {
            let at = at - HEAD;
            format!("loom {} {}", at / SLOT, SLOT_NAMES[at % SLOT])
        }
        _ => format!("at {at}"),
    }
}

fn slot(loom: usize, numbers: &[u64]) -> String {
    let side = ["A", "B"].get(numbers[0] as usize).copied().unwrap_or("?");
    let place = PLACE_NAMES.get(numbers[2] as usize).copied().unwrap_or("?");
    format!("loom {loom} {side}{} {place} steps {}", numbers[1], numbers[3])
}

fn group(numbers: &[u64]) -> String {
    let (head, slots) = numbers.split_at(HEAD);
    let head =
        HEAD_NAMES.iter().zip(head).map(|(name, &value)| format!("{name} {}", number(value)));
    let slots = slots.chunks(SLOT).enumerate().map(|(loom, numbers)| slot(loom, numbers));
    head.chain(slots).collect::<Vec<_>>().join(", ")
}

fn shown(field: Field, value: &Value) -> String {
    match value {
        Value::Numbers(numbers) if field.kind == Kind::Group => group(numbers),
        Value::Numbers(numbers) if field.kind == Kind::Number => number(numbers[0]),
        Value::Numbers(numbers) => listed(field, numbers, |&value| number(value)),
        Value::Bytes(bytes) => listed(field, bytes, |byte| byte.to_string()),
        Value::Words(words) => listed(field, words, |word| format!("{word:#x}")),
    }
}

fn asked(call: &Call, request: &[u8]) -> String {
    let Some(record) = Record::asked(call, request) else {
        return format!("  asked {request:?}\n");
    };
    let lines = record.fields.iter();
    lines
        .map(|(field, value)| format!("  asked {}: {}\n", field.name, shown(*field, value)))
        .collect()
}

/// Where two lists first differ, and in how many places.
fn first_difference<T: PartialEq + Copy + Into<u64>>(
    theirs: &[T],
    ours: &[T],
    name: impl Fn(usize) -> String,
) -> String {
    if theirs.len() != ours.len() {
        return format!("theirs has {} items, ours {}", theirs.len(), ours.len());
    }
    let differing: Vec<usize> = (0..ours.len()).filter(|&at| theirs[at] != ours[at]).collect();
    let Some(&at) = differing.first() else {
        return "no difference".into();
    };
    let (theirs, ours) = (number(theirs[at].into()), number(ours[at].into()));
    let more = differing.len() - 1;
    format!("{}: theirs {theirs}, ours {ours}; {more} more differ", name(at))
}

fn field_difference(field: Field, theirs: &Value, ours: &Value) -> String {
    let name = |at| number_name(field.kind, at);
    let text = match (theirs, ours) {
        (Value::Bytes(theirs), Value::Bytes(ours)) => first_difference(theirs, ours, name),
        (Value::Numbers(theirs), Value::Numbers(ours))
        | (Value::Words(theirs), Value::Words(ours)) => first_difference(theirs, ours, name),
        _ => "of another kind".into(),
    };
    format!("  {}: {text}\n", field.name)
}

/// The single numbers of an answer, so that the code is seen whatever differs.
fn told(whose: &str, record: &Record) -> String {
    let single = record.fields.iter().filter(|(field, _)| field.kind == Kind::Number);
    let texts = single.map(|(field, value)| format!("{} {}", field.name, shown(*field, value)));
    format!("  {whose}: {}\n", texts.collect::<Vec<_>>().join(", "))
}

fn answers(call: &Call, theirs: &[u8], ours: &[u8]) -> String {
    let records = (Record::told(call, theirs), Record::told(call, ours));
    let (Some(theirs), Some(ours)) = records else {
        let lengths = format!("{} bytes, ours {}", theirs.len(), ours.len());
        return format!("  theirs has no right form: {lengths}\n");
    };
    let pairs = theirs.fields.iter().zip(&ours.fields);
    let longer: String = pairs
        .filter(|((field, theirs), (_, ours))| field.kind != Kind::Number && theirs != ours)
        .map(|((field, theirs), (_, ours))| field_difference(*field, theirs, ours))
        .collect();
    told("theirs", &theirs) + &told("ours", &ours) + &longer
}

pub fn difference(floor: &str, trial: &str, difference: &Difference) -> String {
    let request = &difference.case.request;
    let Some(call) = calls::numbered(request[0]) else {
        return format!("DIFFERENCE in {floor}, {trial}: function {}", request[0]);
    };
    let head = format!("DIFFERENCE in {floor}, {trial}: {} ({})\n", call.name, call.number);
    let answers = answers(&call, &difference.theirs, &difference.case.ours);
    head + &asked(&call, request) + answers.trim_end()
}
