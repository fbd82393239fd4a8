//! Readings: right counts, on sound records, on bad edges and on blocks; each count wrong in each way; and wrong counts on records
//! that are wrong themselves.

use super::damage::block_not_zero;
use super::deck::{kind, Kind};
use super::tables::{bad_edges, damaged};
use super::{assignments, edges, lent, networks};
use crate::random::Random;
use crate::reading::Reading;
use crate::request::{Request, Table};
use crate::table::{census, records, Network};

/// A reading of the table's used bytes, as far as there are any, with the counts of its records.
fn right(table: Table) -> Reading {
    let used = table.buffer.len().min(table.used as usize);
    let lent = table.buffer[..used].to_vec();
    Reading { counts: census(&records(&lent)).map(|count| count as u32), records: lent }
}

/// A reading of any table, with counts that are mostly right.
pub fn any(random: &mut Random, table: Table) -> Reading {
    let mut reading = right(table);
    if random.once_in(4) {
        reading.counts[random.below(3)] ^= 1 << random.below(12);
    }
    reading
}

fn small(random: &mut Random) -> Reading {
    let network = networks::small(random);
    right(lent(random, &network, 0))
}

/// Changes one count in one of nine ways, or exchanges two of them.
fn wrong_count(turn: usize, reading: &mut Reading) {
    let place = turn % 3;
    let count = reading.counts[place];
    match turn / 3 % 10 {
        0 => reading.counts[place] = count + 1,
        1 => reading.counts[place] = count.wrapping_sub(1),
        2 => reading.counts[place] = 0,
        3 => reading.counts[place] = count + 256,
        4 => reading.counts[place] = count + 65_536,
        5 => reading.counts[place] = u32::MAX,
        6 => reading.counts[place] = count | 1 << 31,
        7 => reading.counts[place] = 33,
        8 => reading.counts.swap(place, (place + 1) % 3),
        _ => {
            reading.counts[place] = count + 1;
            reading.counts[(place + 1) % 3] = reading.counts[(place + 1) % 3].wrapping_sub(1);
        }
    }
}

fn wrong_counts(random: &mut Random, turn: usize) -> Reading {
    let mut reading = small(random);
    wrong_count(turn, &mut reading);
    reading
}

/// Damages the last record: a bad kind, a field not zero, a bad edge, a block, or fewer than 8 bytes.
fn damage(random: &mut Random, turn: usize, mut reading: Reading) -> Reading {
    let last = reading.records.len() - 8;
    match turn % 5 {
        0 => reading.records[last] = 7,
        1 => reading.records[last + 6] = 1,
        2 => reading.records[last + 3] = 0xEE,
        3 => reading.records[last + 1] = random.pick(&[1, 255]),
        _ => reading.records.truncate(last + random.between(1, 7)),
    }
    reading
}

fn wrong_records(random: &mut Random, turn: usize) -> Reading {
    let reading = small(random);
    damage(random, turn, reading)
}

/// Wrong counts on damaged records: 1 and 2 win over 3, and 3 over 4 and 5.
fn wrong_counts_and_records(random: &mut Random, turn: usize) -> Reading {
    let reading = wrong_counts(random, turn / 5);
    damage(random, turn, reading)
}

fn gate_edges(random: &mut Random, turn: usize) -> Reading {
    right(bad_edges(random, turn, edges::gate))
}

fn output_edge(random: &mut Random, turn: usize) -> Reading {
    right(bad_edges(random, turn, edges::output))
}

fn several_edges(random: &mut Random, turn: usize) -> Reading {
    right(bad_edges(random, turn, edges::several))
}

fn block(random: &mut Random, turn: usize) -> Reading {
    right(damaged(random, turn, block_not_zero))
}

fn cut_record(random: &mut Random, turn: usize) -> Reading {
    let mut reading = small(random);
    match turn % 3 {
        0 => reading.records.truncate(reading.records.len() - 1),
        1 => reading.records.push(0),
        _ => reading.records.truncate(random.between(1, 7)),
    }
    reading
}

fn no_records(_random: &mut Random, turn: usize) -> Reading {
    Reading { counts: [[0, 0, 0], [0, 0, 1], [1, 0, 0]][turn % 3], records: vec![] }
}

/// The kinds that ask both questions, each with what the operation makes of a reading.
fn kinds(request: fn(&mut Random, Reading) -> Request) -> Vec<Kind> {
    let ask = move |make: fn(&mut Random, usize) -> Reading| {
        move |random: &mut Random, turn: usize| {
            let reading = make(random, turn);
            request(random, reading)
        }
    };
    vec![
        kind("reading with right counts", 6, ask(|random, _| small(random))),
        kind("reading with wrong counts", 12, ask(wrong_counts)),
        kind("reading with right counts and wrong records", 5, ask(wrong_records)),
        kind("reading with wrong counts and records", 8, ask(wrong_counts_and_records)),
        kind("reading of bad edges of a gate", 11, ask(gate_edges)),
        kind("reading of a bad edge of an output", 7, ask(output_edge)),
        kind("reading of bad edges of several records", 3, ask(several_edges)),
        kind("reading of a block of an input or an output", 6, ask(block)),
        kind("reading of a cut record", 3, ask(cut_record)),
        kind("reading of no records", 1, ask(no_records)),
    ]
}

pub fn report(random: &mut Random, network: &Network) -> Request {
    Request::ReadingReport(right(lent(random, network, 0)))
}

pub fn report_kinds() -> Vec<Kind> {
    kinds(|_, reading| Request::ReadingReport(reading))
}

pub fn evaluate_kinds() -> Vec<Kind> {
    let mut kinds = kinds(|random, reading| {
        let bits = random.bits() as u32;
        let assignment = random.pick(&[0, bits & 1, bits]);
        Request::ReadingEvaluate(reading, assignment)
    });
    kinds.extend(assignments::kinds(|table, assignment| Request::ReadingEvaluate(right(table), assignment)));
    kinds
}
