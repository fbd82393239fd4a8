//! Damage to a table's records, each in the ways that the refusals list.

use crate::random::Random;
use crate::table::{kind_of, of_kind_and_block, Record};

pub type Damage = fn(&mut Random, usize, &mut [Record]);

/// The place of one record, the first and the last among them often.
fn some_place(random: &mut Random, records: &[Record]) -> usize {
    let last = records.len() - 1;
    let any = random.between(0, last);
    random.pick(&[0, last, any, any])
}

/// No kind, with any block: sound kinds stand in the high byte as well, and low bytes that have a sound kind's lowest bits.
pub fn bad_kind(random: &mut Random, turn: usize, records: &mut [Record]) {
    let place = some_place(random, records);
    let kinds =
        [0x0100, 4, 0x0104, 0, 0x0200, 5, 65535, 0x0300, 0xFF00, 0x0205, 0x8006, 0x0181, 0xFF82, 0x0043, 0x8000];
    records[place][0] = kinds[turn % kinds.len()];
}

/// Sound kinds in a wrong order: a later kind in front, an earlier one behind, or two records exchanged. Every other time the
/// record has a block, which does not count in the order; the last record has one always where it becomes an input.
pub fn disorder(random: &mut Random, turn: usize, records: &mut [Record]) {
    let (place, other) = (some_place(random, records), some_place(random, records));
    let block = random.pick(&[0, 0, 1, 255]);
    match turn % 5 {
        0 => records[place][0] = of_kind_and_block(3, block),
        1 => records[place][0] = of_kind_and_block(1, block),
        2 => records[place][0] = of_kind_and_block(2, block),
        3 => records[records.len() - 1][0] = of_kind_and_block(1, 255),
        _ => records.swap(place, other),
    }
}

/// Places of the records of one kind.
pub fn of_kind(records: &[Record], kind: u8) -> Vec<usize> {
    (0..records.len()).filter(|&place| kind_of(&records[place]) == kind).collect()
}

/// A block number on an input or on an output; by turns another field is not zero either, or an output's edge is wrong.
pub fn block_not_zero(random: &mut Random, turn: usize, records: &mut [Record]) {
    let kind = [1, 3][turn % 2];
    let places = of_kind(records, kind);
    if !places.is_empty() {
        let place = random.pick(&places);
        let any = random.between(1, 255) as u8;
        records[place][0] = of_kind_and_block(kind, random.pick(&[1, 255, 128, any]));
        match turn / 2 % 4 {
            1 => records[place][2] = 1,
            3 if kind == 3 => records[place][1] = 60000,
            _ => {}
        }
    }
}

/// One of the five edge fields that must be zero is not; at times an output's edge is wrong as well.
pub fn field_not_zero(random: &mut Random, turn: usize, records: &mut [Record]) {
    let (kind, field) = [(1, 1), (1, 2), (1, 3), (3, 2), (3, 3)][turn % 5];
    let places = of_kind(records, kind);
    if !places.is_empty() {
        let place = random.pick(&places);
        records[place][field] = random.pick(&[1, 2, 256, 32768, 65535]);
        if kind == 3 && random.once_in(2) {
            records[place][1] = 60000;
        }
    }
}

/// An edge of a gate or an output just inside or just outside what it may name.
pub fn edge_at_border(random: &mut Random, turn: usize, records: &mut [Record]) {
    let past = 1 + of_kind(records, 1).len() + of_kind(records, 2).len();
    let kind = if turn % 3 == 2 { 3 } else { 2 };
    let places = of_kind(records, kind);
    if places.is_empty() {
        return;
    }
    let place = random.pick(&places);
    let own = place + 1;
    let (nodes, field) = match kind {
        2 => ([own, own - 1, own + 1, past - 1, past, 32767], 1 + random.below(3)),
        _ => ([past, past - 1, past + 1, past + 2, own, 32767], 1),
    };
    let node = nodes[turn / 3 % nodes.len()];
    records[place][field] = (2 * node + random.below(2)) as u16;
}
