//! Bad edges: in every place of a gate's record, alone and with others; in an output, alone and with a field that is not
//! zero; and in several records of one table.

use super::damage::{field_not_zero, of_kind};
use super::networks;
use crate::random::Random;
use crate::table::{Record, MOST_GATES};

/// An edge of a record that may name the nodes below `bound`: to one of them, the highest as a rule; to `bound`, the lowest
/// that it may not name; or to a higher one.
fn edge(random: &mut Random, bound: usize, way: usize) -> u16 {
    let lower = random.below(bound);
    let node = match way {
        0 => random.pick(&[bound - 1, bound - 1, lower]),
        1 => bound,
        _ => random.pick(&[bound + 1, bound + 2, 2 * bound, 32_767]),
    };
    (2 * node + random.below(2)) as u16
}

/// The place of a record of this kind, the first and the last among them often.
fn some_place(random: &mut Random, records: &[Record], kind: u8) -> usize {
    let places = of_kind(records, kind);
    let any = random.pick(&places);
    random.pick(&[places[0], places[places.len() - 1], any])
}

/// Gives a gate edges of each of the 27 mixtures in turn; the third edge changes fastest.
fn spoil_gate(random: &mut Random, turn: usize, records: &mut [Record]) {
    let place = some_place(random, records, 2);
    let [first, second, third] = [turn / 9, turn / 3, turn].map(|turn| edge(random, place + 1, turn % 3));
    records[place] = [records[place][0], first, second, third];
}

/// Gives an output an edge of each way in turn, with fields that are zero every other time; if not, 4 wins over 5.
fn spoil_output(random: &mut Random, turn: usize, records: &mut [Record]) {
    let place = some_place(random, records, 3);
    let bound = 1 + of_kind(records, 1).len() + of_kind(records, 2).len();
    let field = random.pick(&[1, 2, 256, 65_535]);
    let [second, third] = [[0, 0], [field, 0], [0, 0], [0, field], [0, 0], [field, field]][turn / 3 % 6];
    records[place] = [3, edge(random, bound, turn % 3), second, third];
}

/// The records of a network with some gates at least, now and then of a large one.
fn some_records(random: &mut Random, least: usize) -> Vec<Record> {
    let most = if random.once_in(8) { MOST_GATES } else { 6 };
    let (inputs, gates, outputs) = (random.below(6), random.between(least, most), random.between(1, 4));
    networks::sized(random, inputs, gates, outputs).records()
}

pub fn gate(random: &mut Random, turn: usize) -> Vec<Record> {
    let mut records = some_records(random, 1);
    spoil_gate(random, turn, &mut records);
    records
}

pub fn output(random: &mut Random, turn: usize) -> Vec<Record> {
    let mut records = some_records(random, turn % 2);
    spoil_output(random, turn, &mut records);
    records
}

/// Two or three bad records, of which the first decides. Of two gates in three the first edge is sound, so that the second
/// and the third are told as often.
pub fn several(random: &mut Random, _turn: usize) -> Vec<Record> {
    let mut records = some_records(random, 3);
    for _ in 0..random.between(2, 3) {
        let (third, second, any) = (random.between(1, 2), random.between(3, 8), random.between(1, 26));
        let turn = random.pick(&[third, second, any]);
        match random.below(6) {
            0 => field_not_zero(random, turn, &mut records),
            1 => spoil_output(random, turn, &mut records),
            _ => spoil_gate(random, turn, &mut records),
        }
    }
    records
}
