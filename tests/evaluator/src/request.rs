//! A request as it goes through the pipe.

use crate::at_once::{Asked, AtOnce};
use crate::catalogue;
use crate::follow::Follow;
use crate::reading::Reading;
use crate::rm3::Mode;
use crate::step::Step;
use crate::stored::Stored;
use crate::table::{read, records, Network, Record, Refusal};
use std::mem::size_of;

/// A lent buffer and the length of it that is said to be used.
#[derive(Clone, Debug)]
pub struct Table {
    pub used: u32,
    pub buffer: Vec<u8>,
}

impl Table {
    pub fn network(&self) -> Result<Network, Refusal> {
        read(&self.buffer, self.used, None)
    }

    /// The records that are said to be used, as far as the buffer has them.
    pub fn records(&self) -> Vec<Record> {
        records(&self.buffer[..self.buffer.len().min(self.used as usize)])
    }
}

/// What a request is about.
enum Subject<'a> {
    Table(&'a Table),
    Reading(&'a Reading),
    /// The number of a function of three inputs.
    Function(u32),
}

#[derive(Clone, Debug)]
pub enum Request {
    Check(Table),
    Evaluate(Table, u32),
    Report(Table),
    Step(Table, Step),
    Script(Table, Vec<u8>),
    /// A stored script: it is sent as it was converted, and must do what it did before that.
    Stored(Stored),
    Rm3(Mode, Table, Vec<u8>),
    ReadingEvaluate(Reading, u32),
    ReadingReport(Reading),
    AtOnce(AtOnce),
    Follow(Follow),
    Catalogue(u32, Vec<u8>),
}

/// The operations and their calls.
const CALLS: [(u8, &str); 13] = [
    (1, "check"),
    (2, "evaluate"),
    (3, "report"),
    (4, "step"),
    (5, "script"),
    (6, "RM3 table, helpers anew"),
    (7, "evaluate through a reading"),
    (8, "report through a reading"),
    (16, "RM3 table"),
    (22, "words"),
    (23, "totals"),
    (25, "the catalogue's network"),
    (28, "follow"),
];

/// One more than the highest operation's number.
pub const PAST_OPERATIONS: usize = 29;

pub fn operations() -> Vec<u8> {
    CALLS.iter().map(|call| call.0).collect()
}

/// The call of an operation.
pub fn call(operation: u8) -> &'static str {
    CALLS.iter().find(|call| call.0 == operation).map_or("none", |call| call.1)
}

/// A named piece of a request, as its bytes.
pub type Part = (&'static str, Vec<u8>);

fn number(name: &'static str, value: u32) -> Part {
    (name, value.to_le_bytes().to_vec())
}

fn lent(name: &'static str, bytes: &[u8]) -> [Part; 2] {
    [number("length", bytes.len() as u32), (name, bytes.to_vec())]
}

/// Places as they are sent, and come back: those of gates have 16 bits, those of outputs 64.
pub fn place_bytes<P: Copy + Into<u64>>(places: &[P]) -> Vec<u8> {
    places.iter().flat_map(|&place| place.into().to_le_bytes().into_iter().take(size_of::<P>())).collect()
}

impl Request {
    pub fn operation(&self) -> u8 {
        match self {
            Request::Check(..) => 1,
            Request::Evaluate(..) => 2,
            Request::Report(..) => 3,
            Request::Step(..) => 4,
            Request::Script(..) | Request::Stored(_) => 5,
            Request::Rm3(Mode::Anew, ..) => 6,
            Request::ReadingEvaluate(..) => 7,
            Request::ReadingReport(..) => 8,
            Request::Rm3(Mode::Once, ..) => 16,
            Request::AtOnce(AtOnce { asked: Asked::Words(_), .. }) => 22,
            Request::AtOnce(AtOnce { asked: Asked::Totals, .. }) => 23,
            Request::Catalogue(..) => 25,
            Request::Follow(_) => 28,
        }
    }

    fn subject(&self) -> Subject<'_> {
        match self {
            Request::Check(table)
            | Request::Report(table)
            | Request::Evaluate(table, _)
            | Request::Step(table, _)
            | Request::Script(table, _)
            | Request::Stored(Stored { table, .. })
            | Request::AtOnce(AtOnce { table, .. })
            | Request::Follow(Follow { table, .. })
            | Request::Rm3(_, table, _) => Subject::Table(table),
            Request::ReadingEvaluate(reading, _) | Request::ReadingReport(reading) => Subject::Reading(reading),
            Request::Catalogue(number, _) => Subject::Function(*number),
        }
    }

    /// The network that the request is about, or why there is none.
    pub fn network(&self) -> Result<Network, Refusal> {
        match self.subject() {
            Subject::Table(table) => table.network(),
            Subject::Reading(reading) => reading.network(),
            Subject::Function(number) => catalogue::network(number).cloned(),
        }
    }

    /// The records that the request is about, as far as the buffer has them.
    pub fn records(&self) -> Vec<Record> {
        match self.subject() {
            Subject::Table(table) => table.records(),
            Subject::Reading(reading) => records(&reading.records),
            Subject::Function(_) => vec![],
        }
    }

    /// Everything after the operation's byte, in the order it is sent.
    pub fn parts(&self) -> Vec<Part> {
        let mut parts = Vec::new();
        match self.subject() {
            Subject::Table(table) => {
                parts.push(number("used", table.used));
                parts.extend(lent("table", &table.buffer));
            }
            Subject::Reading(reading) => {
                let names = ["inputs", "gates", "outputs"];
                let counts = names.into_iter().zip(reading.counts);
                parts.extend(counts.map(|(name, count)| number(name, count)));
                parts.extend(lent("records", &reading.records));
            }
            Subject::Function(function) => parts.push(number("number", function)),
        }
        match self {
            Request::Evaluate(_, assignment) | Request::ReadingEvaluate(_, assignment) => {
                parts.push(number("assignment", *assignment));
            }
            Request::Step(_, step) => {
                let fields = ["rule", "gate", "a", "b"].into_iter().zip(step.fields());
                parts.extend(fields.map(|(name, field)| (name, field.to_le_bytes().to_vec())));
            }
            Request::Script(_, script) => parts.extend(lent("script", script)),
            Request::Stored(stored) => parts.extend(lent("script", &stored.converted)),
            Request::Follow(Follow { script, places, .. }) => {
                parts.extend(lent("script", script));
                parts.push(number("count", places.len() as u32));
                parts.push(("places", place_bytes(places)));
            }
            Request::AtOnce(AtOnce { asked, places, .. }) => {
                if let Asked::Words(first) = asked {
                    parts.push(number("first", *first));
                }
                parts.push(number("count", places.len() as u32));
                parts.push(("places", place_bytes(places)));
            }
            Request::Rm3(_, _, out) | Request::Catalogue(_, out) => parts.extend(lent("out", out)),
            Request::Check(_) | Request::Report(_) | Request::ReadingReport(_) => {}
        }
        parts
    }

    pub fn bytes(&self) -> Vec<u8> {
        let parts = self.parts().into_iter().flat_map(|part| part.1);
        [self.operation()].into_iter().chain(parts).collect()
    }
}
