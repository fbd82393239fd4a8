//! Stored scripts: made as scripts of today, with 10 written as 2, so that rule 2 meets equal edges and opposite ones.

use super::deck::{kind, Kind};
use super::first_two::{planted, Shape};
use super::scripts::{grow_until_refused, long, sweep_and_grow, Draft};
use super::{lent, networks};
use crate::random::Random;
use crate::request::{Request, Table};
use crate::step::FirstTwo;
use crate::stored::Stored;
use crate::table::{record_bytes, Network, MOST_GATES};

/// The rules of stored scripts: often 2 and 10, which both are 2 then.
const RULES: [u16; 14] = [2, 2, 2, 2, 10, 10, 10, 10, 1, 3, 4, 6, 7, 8];

/// The script of today as a stored one.
pub fn request(table: Table, mut script: Vec<u8>) -> Request {
    for bytes in script.chunks_exact_mut(8).filter(|bytes| bytes[..2] == [10, 0]) {
        bytes[0] = 2;
    }
    Request::Stored(Stored::new(table, script))
}

fn stored(request_of_today: Request) -> Request {
    match request_of_today {
        Request::Script(table, script) => request(table, script),
        other => other,
    }
}

/// A network with many equal and opposite edges.
fn network(random: &mut Random) -> Network {
    let (gates, outputs) = (random.between(2, 14), random.between(1, 6));
    networks::paired(random, 4, gates, outputs)
}

fn started(random: &mut Random) -> Draft {
    let (network, behind) = (network(random), random.below(120));
    Draft::new(random, network, behind)
}

fn grow_some(draft: &mut Draft, random: &mut Random, steps: usize) {
    for _ in 0..steps {
        draft.grow(random, &RULES);
    }
}

fn all_taken(random: &mut Random, _turn: usize) -> Request {
    let mut draft = started(random);
    let steps = random.between(1, 30);
    grow_some(&mut draft, random, steps);
    stored(draft.request())
}

/// Any edges of a gate, by one step 2 and sweep.
fn two_edges(random: &mut Random, turn: usize) -> Request {
    let plant = planted(random, Shape::of(turn));
    let behind = random.below(20);
    let table = lent(random, &plant.network, behind);
    request(table, record_bytes(&[[2, plant.step.gate, 0, 0], [8, 0, 0, 0]]))
}

/// Adds a step that is refused, by 9, 8, 7, or, where there is no room, 11 or 10.
fn stop(draft: &mut Draft, random: &mut Random, turn: usize) {
    let (inputs, past) = (draft.network.inputs as u16, draft.network.nodes() as u16);
    let other =
        (inputs + 1..past).zip(&draft.network.gates).find(|(_, gate)| FirstTwo::of(gate.edges) == FirstTwo::Neither);
    let rule = random.pick(&[2, 10]);
    let taken = draft.fitting(random, rule).map_or(past - 1, |step| step.gate);
    draft.script.push(match turn % 12 {
        0 | 1 => [2, other.map_or(inputs, |(node, _)| node), 0, 0],
        2 => [2, taken, 1, 0],
        3 => [2, taken, 0, 1],
        4 => [2, random.pick(&[0, inputs, past]), 0, 0],
        5 => [11, taken, 0, 0],
        6 => [[256 + 10, 0, 256 + 2, 65535][turn / 12 % 4], taken, 0, 0],
        7 | 8 | 9 => match [4, 3].into_iter().find_map(|rule| draft.fitting(random, rule)) {
            Some(step) => step.fields(),
            None => [0; 4],
        },
        _ => return draft.refuse(random, turn),
    });
}

/// Stopped after some steps, with others after the stop; where the room is asked for, there is none.
fn stopped(random: &mut Random, turn: usize) -> Request {
    let network = network(random);
    let behind = if turn % 12 >= 7 { random.below(8) } else { random.below(120) };
    let mut draft = Draft::new(random, network, behind);
    let before = random.below(12);
    grow_some(&mut draft, random, before);
    stop(&mut draft, random, turn);
    grow_some(&mut draft, random, 6);
    stored(draft.request())
}

/// The same at 1,024 gates, where an insertion is refused by 10.
fn stopped_at_most_gates(random: &mut Random, turn: usize) -> Request {
    let network = networks::paired(random, 4, MOST_GATES, 3);
    let behind = random.pick(&[0, 8, 40]);
    let mut draft = Draft::new(random, network, behind);
    for _ in 0..random.below(6) {
        draft.grow(random, &[2, 10, 1, 6]);
    }
    stop(&mut draft, random, [7, 7, turn][turn % 3]);
    draft.grow(random, &[2, 10]);
    stored(draft.request())
}

fn uneven(random: &mut Random, turn: usize) -> Request {
    let mut draft = started(random);
    grow_some(&mut draft, random, 1 + turn % 5);
    let more = 1 + turn % 7;
    let mut script = record_bytes(&draft.script);
    script.extend(random.bytes(more));
    request(draft.table, script)
}

/// A script made for one table and run on another, in which some gates have an inverted second edge: what was equal is opposite
/// there, and the other way round.
fn another_table(random: &mut Random, turn: usize) -> Request {
    let (mut network, behind) = (network(random), random.below(60));
    let mut draft = Draft::new(random, network.clone(), behind);
    let steps = random.between(1, 16);
    grow_some(&mut draft, random, steps);
    for gate in network.gates.iter_mut().filter(|_| turn % 3 == 0 || random.once_in(3)) {
        gate.edges[1] = gate.edges[1].inverted_if(true);
    }
    draft.table = lent(random, &network, behind);
    stored(draft.request())
}

/// A very long script, every other time a stored one.
fn thousands(random: &mut Random, turn: usize) -> Request {
    let wanted = random.between(5000, 8192);
    let script = long(random, wanted, MOST_GATES);
    match turn % 2 {
        0 => script,
        _ => stored(script),
    }
}

pub fn kinds() -> Vec<Kind> {
    vec![
        kind("stored script all taken", 18, all_taken),
        kind("stored script on two edges", 12, two_edges),
        kind("stored script stopped", 20, stopped),
        kind("stored script stopped at 1,024 gates", 2, stopped_at_most_gates),
        kind("stored script of uneven length", 5, uneven),
        kind("stored script on another table", 14, another_table),
        kind("stored script that sweeps and grows again", 4, |random, turn| stored(sweep_and_grow(random, turn))),
        kind("stored script that grows until refused", 2, |random, turn| stored(grow_until_refused(random, turn))),
        kind("stored script of hundreds of steps", 1, |random, _| {
            let (wanted, most_gates) = (random.between(100, 700), random.between(100, 300));
            stored(long(random, wanted, most_gates))
        }),
        kind("script of thousands of steps", 0, thousands),
    ]
}
