//! Tables for every operation: sound ones, ones damaged in each listed way, and used lengths of all sorts.

use super::damage::{bad_kind, block_not_zero, disorder, edge_at_border, field_not_zero, Damage};
use super::{edges, lent, networks};
use crate::random::Random;
use crate::request::Table;
use crate::table::{record_bytes, Record};

type Make = fn(&mut Random, usize) -> Table;

/// Each kind of table: its name, its weight (0: rare) and its maker.
pub const KINDS: &[(&str, usize, Make)] = &[
    ("small table", 6, small),
    ("table of any size", 3, any_size),
    ("deep chain", 1, deep_chain),
    ("table at exact limits", 2, at_limits),
    ("count past its limit", 3, past_limit),
    ("no output", 1, no_output),
    ("bad kind", 6, |random, turn| damaged(random, turn, bad_kind)),
    ("kind out of order", 4, |random, turn| damaged(random, turn, disorder)),
    ("field not zero", 3, |random, turn| damaged(random, turn, field_not_zero)),
    ("block of an input or an output", 8, |random, turn| damaged(random, turn, block_not_zero)),
    ("edge at the border", 5, |random, turn| damaged(random, turn, edge_at_border)),
    ("bad edges of a gate", 9, |random, turn| bad_edges(random, turn, edges::gate)),
    ("bad edge of an output", 5, |random, turn| bad_edges(random, turn, edges::output)),
    ("bad edges of several records", 6, |random, turn| bad_edges(random, turn, edges::several)),
    ("several faults", 7, several_faults),
    ("bad kind after a count past its limit", 1, bad_kind_past_limit),
    ("used length", 7, used_length),
    ("part of 65,536 bytes", 0, longest_part),
];

/// The records in a buffer with some garbage behind them, of any length.
fn lend(random: &mut Random, records: &[Record]) -> Table {
    let mut buffer = record_bytes(records);
    let used = buffer.len() as u32;
    let behind = random.pick(&[0, 0, 1, 5, 8, 13, 16, 40]);
    buffer.extend(random.bytes(behind));
    Table { used, buffer }
}

fn small(random: &mut Random, _turn: usize) -> Table {
    let network = networks::small(random);
    lend(random, &network.records())
}

fn any_size(random: &mut Random, _turn: usize) -> Table {
    let network = networks::any(random);
    lend(random, &network.records())
}

fn deep_chain(random: &mut Random, turn: usize) -> Table {
    let gates = [1024, 100, 300][turn % 3];
    let network = networks::chain(random, 4, gates, 5);
    lend(random, &network.records())
}

fn at_limits(random: &mut Random, turn: usize) -> Table {
    let sizes = [(32, 1024, 32), (32, 0, 1), (0, 1024, 1), (0, 0, 1), (0, 0, 32), (32, 5, 32), (1, 1023, 2)];
    let (inputs, gates, outputs) = sizes[turn % sizes.len()];
    let network = networks::sized(random, inputs, gates, outputs);
    lend(random, &network.records())
}

/// Counts of which one or more are past their limit, by one or so far that their low bits are small again.
const PAST: [(usize, usize, usize); 9] = [
    (33, 3, 2),
    (2, 1025, 2),
    (2, 3, 33),
    (256, 3, 2),
    (288, 3, 1),
    (3, 2048, 1),
    (2, 2, 257),
    (33, 1025, 33),
    (40, 0, 40),
];

fn past_limit(random: &mut Random, turn: usize) -> Table {
    let (inputs, gates, outputs) = PAST[turn % PAST.len()];
    let mut records = networks::sized(random, inputs, gates, outputs).records();
    if random.once_in(4) {
        field_not_zero(random, turn, &mut records);
    }
    lend(random, &records)
}

fn no_output(random: &mut Random, turn: usize) -> Table {
    let (inputs, gates) = [(0, 0), (2, 3), (3, 0), (0, 4)][turn % 4];
    let mut records = networks::sized(random, inputs, gates, 0).records();
    if turn % 8 == 5 {
        records[inputs][1] = 9999;
    }
    lend(random, &records)
}

/// A small table with damage of one sort.
pub fn damaged(random: &mut Random, turn: usize, damage: Damage) -> Table {
    let (inputs, gates, outputs) = (random.between(1, 5), random.between(1, 6), random.between(1, 4));
    let mut records = networks::sized(random, inputs, gates, outputs).records();
    damage(random, turn, &mut records);
    lend(random, &records)
}

/// A table of records that one of the makers of bad edges makes.
pub fn bad_edges(random: &mut Random, turn: usize, make: fn(&mut Random, usize) -> Vec<Record>) -> Table {
    let records = make(random, turn);
    lend(random, &records)
}

/// Two to four faults on one table, so that the order of refusals decides.
fn several_faults(random: &mut Random, _turn: usize) -> Table {
    let mut counts = [random.between(1, 4), random.between(1, 4), random.between(1, 3)];
    match random.below(8) {
        0 => counts[2] = 0,
        1 => counts[2] = 33,
        2 => counts[0] = 33,
        _ => {}
    }
    let mut records = networks::sized(random, counts[0], counts[1], counts[2]).records();
    let damages: [Damage; 7] =
        [field_not_zero, edge_at_border, block_not_zero, field_not_zero, edge_at_border, disorder, bad_kind];
    let kinds = if random.once_in(2) { 5 } else { damages.len() };
    for _ in 0..random.between(2, 4) {
        let (damage, turn) = (random.below(kinds), random.below(60));
        damages[damage](random, turn, &mut records);
    }
    let mut table = lend(random, &records);
    if random.once_in(12) {
        table.used += random.between(1, 7) as u32;
    }
    table
}

fn bad_kind_past_limit(random: &mut Random, turn: usize) -> Table {
    let (inputs, gates, outputs) = PAST[turn % PAST.len()];
    let mut records = networks::sized(random, inputs, gates, outputs).records();
    records
        .push([[9, 1, 0, 0], [1, 0, 0, 0], [2, 0, 0, 0], [0, 0, 0, 0], [0x0102, 0, 0, 0], [0x0300, 0, 0, 0]][turn % 6]);
    lend(random, &records)
}

/// A sound table whose used length is exact, cut, stretched, past the buffer or absurd.
fn used_length(random: &mut Random, turn: usize) -> Table {
    let outputs = random.between(1, 4);
    let (inputs, gates) = (random.below(4), random.below(5));
    let network = networks::sized(random, inputs, gates, outputs);
    let mut table = lent(random, &network, 24);
    let exact = table.used;
    let some = random.between(1, 7) as u32;
    let (used, length) = match turn % 16 {
        0 => (exact, exact as usize),
        1 => (exact - some, table.buffer.len()),
        2 => (exact + some, table.buffer.len()),
        3 => (exact, exact as usize - some as usize),
        4 => (exact, exact as usize - 1),
        5 => (exact + 8, exact as usize + 7),
        6 => (exact + 8, exact as usize),
        7 => (exact + some, exact as usize),
        8 => (exact - 8 * random.between(1, outputs) as u32, table.buffer.len()),
        9 => (0, table.buffer.len()),
        10 => (random.pick(&[0, 1, 8, 0xFFFF_FFF8]), 0),
        11 => (random.pick(&[0xFFFF_FFF8, 0xFFFF_FFFF, 0x8000_0000, 0xFFFF_FFF0]), table.buffer.len()),
        12 => (exact.wrapping_sub(8 * exact), table.buffer.len()),
        13 => (exact + 65_536, table.buffer.len()),
        14 => (exact + 24, table.buffer.len()),
        _ => (exact, exact as usize + some as usize),
    };
    if turn % 3 == 0 {
        let again = table.buffer[exact as usize - 8..exact as usize].repeat(3);
        table.buffer[exact as usize..].copy_from_slice(&again);
    }
    table.buffer.truncate(length);
    Table { used, buffer: table.buffer }
}

/// A buffer as long as the protocol allows, used whole or for the most part garbage.
fn longest_part(random: &mut Random, turn: usize) -> Table {
    const LONGEST: usize = 65_536;
    let mut records = networks::any(random).records();
    if turn % 3 == 0 {
        let mut buffer = record_bytes(&records);
        let used = buffer.len() as u32;
        let behind = LONGEST - buffer.len();
        buffer.extend(random.bytes(behind));
        return Table { used, buffer };
    }
    records.resize(LONGEST / 8, [3, 0, 0, 0]);
    if turn % 3 == 1 {
        let place = random.pick(&[LONGEST / 8 - 1, 5000, 8000]);
        records[place][0] = random.pick(&[0, 1, 2, 4, 0x0100, 0x0102, 65535]);
    }
    Table { used: LONGEST as u32, buffer: record_bytes(&records) }
}
