//! What a run met of the catalogue.

use crate::cases::LENGTHS;
use crate::catalogue::{network, FUNCTIONS};
use crate::request::Request;
use std::collections::{BTreeMap, BTreeSet};

/// From so many requests on, every number and every length must have been met, and not only each sort.
const ENOUGH_FOR_ALL: usize = 1200;

/// How the buffer stands to the network of a number.
const ROOMS: [&str; 3] = ["an out buffer exactly full", "a longer out buffer", "an out buffer one byte short"];

#[derive(Default)]
pub struct CatalogueCounts {
    asked: usize,
    /// What there is to meet, and how often it was met.
    met: BTreeMap<String, usize>,
    /// The numbers that were met with each such room.
    numbers: [BTreeSet<u32>; ROOMS.len()],
    /// The lengths of out that were met with a number of the catalogue.
    lengths: BTreeSet<usize>,
}

/// What is met by a number and a length of out.
fn sorts(number: u32, length: usize) -> Vec<(String, bool)> {
    let known = network(number).ok();
    let gates = (0..=4).flat_map(|gates| {
        let own = known.filter(|network| network.gates.len() == gates).map(|network| network.used());
        let room = |place: usize, is: bool| (format!("{}, a network of {gates} gates", ROOMS[place]), is);
        [room(0, own == Some(length)), room(1, own.is_some_and(|own| own < length)), room(2, own == Some(length + 1))]
    });
    let numbers = [0, 255, 256, 65_535, u32::MAX].map(|wanted| (format!("number {wanted}"), number == wanted));
    let others = [
        ("a function's number in the low 16 bits of another", number > 65_535 && number % 65_536 < 256),
        ("a function's number in the low byte of another", number > 255 && number % 256 == 150),
        ("no number of the catalogue, and out too short for any network", known.is_none() && length < 32),
        ("no number of the catalogue, and out long enough for all", known.is_none() && length >= 88),
        ("an out buffer of no byte", known.is_some() && length == 0),
        ("an out buffer of 65,536 bytes", length == 65_536),
    ];
    gates.chain(numbers).chain(others.map(|(name, met)| (name.to_string(), met))).collect()
}

impl CatalogueCounts {
    pub fn note(&mut self, request: &Request) {
        let Request::Catalogue(number, out) = request else {
            return;
        };
        let length = out.len();
        self.asked += 1;
        for (name, met) in sorts(*number, length) {
            *self.met.entry(name).or_default() += usize::from(met);
        }
        if let Ok(network) = network(*number) {
            let own = network.used();
            let rooms = [length == own, length > own, length + 1 == own];
            self.numbers.iter_mut().zip(rooms).filter(|(_, met)| *met).for_each(|(met, _)| _ = met.insert(*number));
            self.lengths.insert(length);
        }
    }

    pub fn never_met(&self) -> Vec<String> {
        let never = self.met.iter().filter(|(_, &count)| count == 0);
        let mut lines: Vec<String> = never.map(|(name, _)| format!("never met: {name}, by operation 25")).collect();
        if self.asked >= ENOUGH_FOR_ALL {
            for (room, met) in ROOMS.iter().zip(&self.numbers) {
                let never = (0..FUNCTIONS as u32).filter(|number| !met.contains(number));
                lines.extend(never.map(|number| format!("never met: {room} with number {number}, by operation 25")));
            }
            let never = (0..LENGTHS).filter(|length| !self.lengths.contains(length));
            lines.extend(never.map(|length| format!("never met: an out buffer of {length} bytes, by operation 25")));
        }
        lines
    }

    pub fn report(&self) -> Vec<String> {
        let met = self.met.iter().map(|(name, count)| format!("  {name}: {count} times"));
        let numbers = ROOMS.iter().zip(&self.numbers).map(|(room, met)| format!("{room} with {} numbers", met.len()));
        let lengths = self.lengths.range(..LENGTHS).count();
        let all = format!("catalogue: {}; {lengths} of {LENGTHS} lengths", numbers.collect::<Vec<_>>().join(", "));
        [all].into_iter().chain(met).collect()
    }
}
