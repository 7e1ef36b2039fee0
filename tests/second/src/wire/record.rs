//! A payload as named fields, for reports and for the faults of the echo driver.

use super::calls::{Call, Field, Kind};
use super::frame::{Cursor, Payload};
use super::numbering;

#[derive(Clone, Debug, PartialEq, Eq)]
pub enum Value {
    /// One number, or the numbers of seats or of a group.
    Numbers(Vec<u64>),
    Bytes(Vec<u8>),
    Words(Vec<u64>),
}

#[derive(Clone, Debug)]
pub struct Record {
    pub fields: Vec<(Field, Value)>,
}

fn value(kind: Kind, cursor: &mut Cursor) -> Option<Value> {
    match kind {
        Kind::Number => cursor.numbers(1).map(Value::Numbers),
        Kind::Seats => cursor.numbers(numbering::SEATS).map(Value::Numbers),
        Kind::Group => cursor.numbers(numbering::GROUP).map(Value::Numbers),
        Kind::Bytes => cursor.bytes().map(|bytes| Value::Bytes(bytes.to_vec())),
        Kind::Words => cursor.words().map(Value::Words),
    }
}

impl Record {
    /// The fields of a payload that has just this shape.
    fn shaped(shape: &[Field], payload: &[u8]) -> Option<Record> {
        let mut cursor = Cursor(payload);
        let fields: Option<Vec<_>> =
            shape.iter().map(|&field| Some((field, value(field.kind, &mut cursor)?))).collect();
        fields.filter(|_| cursor.at_end()).map(|fields| Record { fields })
    }

    /// A request without its first byte.
    pub fn asked(call: &Call, request: &[u8]) -> Option<Record> {
        Record::shaped(&call.takes, request.get(1..)?)
    }

    pub fn told(call: &Call, answer: &[u8]) -> Option<Record> {
        Record::shaped(&call.gives, answer)
    }

    pub fn payload(&self) -> Payload {
        self.fields.iter().fold(Payload::new(), |payload, (_, value)| match value {
            Value::Numbers(numbers) => payload.numbers(numbers),
            Value::Bytes(bytes) => payload.bytes(bytes),
            Value::Words(words) => payload.words(words),
        })
    }

    fn find(&mut self, name: &str) -> &mut Value {
        let found = self.fields.iter_mut().find(|(field, _)| field.name == name);
        &mut found.expect("a field of this call").1
    }

    /// The number of that name, or the numbers of seats or of a group.
    pub fn numbers(&mut self, name: &str) -> &mut Vec<u64> {
        match self.find(name) {
            Value::Numbers(numbers) | Value::Words(numbers) => numbers,
            Value::Bytes(_) => panic!("{name} is no number"),
        }
    }

    pub fn number(&mut self, name: &str) -> &mut u64 {
        &mut self.numbers(name)[0]
    }

    pub fn bytes(&mut self, name: &str) -> &mut Vec<u8> {
        match self.find(name) {
            Value::Bytes(bytes) => bytes,
            _ => panic!("{name} holds no bytes"),
        }
    }
}
