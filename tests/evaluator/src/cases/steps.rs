//! Steps: every rule where it is accepted, next to its form, with fields at every border, and short of room.

use super::deck::{kind, Kind};
use super::plant::{plant, Plant};
use super::{lent, networks};
use crate::random::Random;
use crate::request::Request;
use crate::step::{Step, LAST_RULE};
use crate::table::{Edge, Network, MOST_GATES};

/// The rules that insert one gate or two.
const GROWING: [u16; 3] = [3, 4, 5];

pub const RULES: usize = LAST_RULE as usize;

/// The rules in turn.
pub fn any_rule(turn: usize) -> u16 {
    1 + (turn % RULES) as u16
}

pub fn some_behind(random: &mut Random) -> usize {
    random.pick(&[0, 3, 8, 16, 21, 40])
}

fn accepted(random: &mut Random, turn: usize, rule: u16) -> Request {
    let gates = (turn % 24 == 7).then_some(random.between(100, MOST_GATES - 2));
    let behind = 16 + some_behind(random);
    plant(random, rule, gates).request(random, behind)
}

fn near_miss(random: &mut Random, turn: usize, rule: u16) -> Request {
    let mut plant = plant(random, rule, None);
    plant.spoil(random, turn);
    let behind = 16 + some_behind(random);
    plant.request(random, behind)
}

/// Rule 1 with a from 0 to 3 and beyond.
fn exchange_a(random: &mut Random, turn: usize) -> Request {
    let mut plant = plant(random, 1, None);
    plant.step.a = [0, 1, 2, 3, 257, 65535][turn % 6];
    plant.request(random, 0)
}

/// Rule 7 with a = g, a copy of g above it, an input, the constant, no node, or another gate below.
fn share_a(random: &mut Random, turn: usize) -> Request {
    let mut plant = plant(random, 7, None);
    let g = plant.g();
    let above = plant.network.nodes();
    let copy = *plant.gate_mut(g);
    plant.network.gates.push(copy);
    let first_gate = plant.network.inputs + 1;
    let a = [g, above, first_gate - 1, 0, above + 1, first_gate, g - 1, 65535][turn % 8];
    plant.step.a = a as u16;
    plant.request(random, 8)
}

/// The gate field just inside and just outside the gates, for every rule.
fn gate_border(random: &mut Random, turn: usize) -> Request {
    let mut plant = plant(random, any_rule(turn), None);
    let (inputs, past) = (plant.network.inputs, plant.network.nodes());
    let gates = [0, 1, inputs, inputs + 1, past - 1, past, past + 1, 65535, plant.g() + 256, 2 * plant.g()];
    plant.step.gate = gates[turn / RULES % gates.len()] as u16;
    let behind = plant.growth().max(16);
    plant.request(random, behind)
}

/// Makes one field of an accepted step wrong, or at least another.
fn spoil_field(random: &mut Random, plant: &mut Plant, field: usize) {
    let (inputs, past, g) = (plant.network.inputs, plant.network.nodes(), plant.g());
    let any = random.below(past);
    match field {
        0 => plant.step.rule = random.pick(&[0, 11, 12, 255, 256 + plant.step.rule, 65535]),
        1 => plant.step.gate = random.pick(&[0, 1, inputs, past, past + 1, any, 65535]) as u16,
        2 => plant.step.a = random.pick(&[0, 1, 2, 3, inputs, g - 1, g, g + 1, past, any, 65535]) as u16,
        _ => plant.step.b = random.pick(&[1, 2, 256, 65535]),
    }
}

fn one_field(random: &mut Random, turn: usize) -> Request {
    let mut plant = plant(random, any_rule(turn), None);
    spoil_field(random, &mut plant, turn / RULES % 4);
    let behind = plant.growth().max(16);
    plant.request(random, behind)
}

/// Several faults at once, of the fields, the form, the number of gates and the room.
fn several(random: &mut Random, turn: usize) -> Request {
    let rule = if turn % 3 == 0 { any_rule(random.below(RULES)) } else { random.pick(&GROWING) };
    let gates = random.once_in(3).then_some(MOST_GATES);
    let mut plant = plant(random, rule, gates);
    for field in 0..4 {
        if random.once_in(4) {
            spoil_field(random, &mut plant, field);
        }
    }
    if random.once_in(2) {
        let variant = random.below(45);
        plant.spoil(random, variant);
    }
    let behind = random.pick(&[0, 0, 7, 8, 16]);
    plant.request(random, behind)
}

/// Rules 3, 4 and 5 on 1,022 to 1,024 gates with no room, too little or enough: 10 and 11 compete, and at times 9
/// or 8 comes before them.
fn full_table(random: &mut Random, turn: usize) -> Request {
    let gates = MOST_GATES - turn / 3 % 3;
    let mut plant = plant(random, GROWING[turn % 3], Some(gates));
    match turn % 8 {
        3 => plant.gate_mut(plant.g()).edges = [Edge::plain(0); 3],
        7 => plant.step.b = 1,
        _ => {}
    }
    plant.request(random, [16, 0, 8, 7, 15, 24][turn / 9 % 6])
}

/// Rules 3, 4 and 5 on a small table with room for the result to the byte, or one byte less, or more.
fn room(random: &mut Random, turn: usize) -> Request {
    let plant = plant(random, GROWING[turn % 3], None);
    plant.request(random, [0, 1, 7, 8, 9, 15, 16, 17, 23, 24][turn / 3 % 10])
}

pub fn sweep(random: &mut Random, network: &Network) -> Request {
    let behind = some_behind(random);
    Request::Step(lent(random, network, behind), Step { rule: 8, gate: 0, a: 0, b: 0 })
}

fn sweep_all_reached(random: &mut Random, turn: usize) -> Request {
    let gates = if turn % 6 == 3 { MOST_GATES } else { random.between(1, 12) };
    let outputs = random.between(1, 3);
    let network = networks::chain(random, 3, gates, outputs);
    sweep(random, &network)
}

fn sweep_none_reached(random: &mut Random, turn: usize) -> Request {
    let gates = if turn % 6 == 3 { MOST_GATES } else { random.between(1, 12) };
    let (inputs, outputs) = (random.below(4), random.between(1, 3));
    let mut network = networks::sized(random, inputs, gates, outputs);
    network.outputs = (0..outputs).map(|_| networks::edge(random, inputs + 1)).collect();
    sweep(random, &network)
}

fn sweep_some_reached(random: &mut Random, turn: usize) -> Request {
    let network = if turn % 4 == 3 { networks::any(random) } else { networks::small(random) };
    sweep(random, &network)
}

fn sweep_no_gates(random: &mut Random, _turn: usize) -> Request {
    let (inputs, outputs) = (random.below(4), random.between(1, 3));
    let network = networks::sized(random, inputs, 0, outputs);
    sweep(random, &network)
}

pub fn kinds() -> Vec<Kind> {
    let rule = |make: fn(&mut Random, usize, u16) -> Request, rule: u16| {
        move |random: &mut Random, turn: usize| make(random, turn, rule)
    };
    vec![
        kind("rule 1 accepted", 4, rule(accepted, 1)),
        kind("rule 2 accepted", 5, rule(accepted, 2)),
        kind("rule 3 accepted", 5, rule(accepted, 3)),
        kind("rule 4 accepted", 5, rule(accepted, 4)),
        kind("rule 5 accepted", 5, rule(accepted, 5)),
        kind("rule 6 accepted", 5, rule(accepted, 6)),
        kind("rule 7 accepted", 5, rule(accepted, 7)),
        kind("rule 8 accepted", 2, rule(accepted, 8)),
        kind("rule 10 accepted", 5, rule(accepted, 10)),
        kind("rule 2 near its form", 8, rule(near_miss, 2)),
        kind("rule 3 near its form", 10, rule(near_miss, 3)),
        kind("rule 4 near its form", 8, rule(near_miss, 4)),
        kind("rule 5 near its form", 18, rule(near_miss, 5)),
        kind("rule 7 near its form", 8, rule(near_miss, 7)),
        kind("rule 10 near its form", 8, rule(near_miss, 10)),
        kind("rule 1 and its a", 2, exchange_a),
        kind("rule 7 and its a", 5, share_a),
        kind("gate field at the border", 14, gate_border),
        kind("one step field", 18, one_field),
        kind("several step faults", 16, several),
        kind("1,022 to 1,024 gates", 14, full_table),
        kind("room for the result", 12, room),
        kind("sweep, all reached", 3, sweep_all_reached),
        kind("sweep, none reached", 3, sweep_none_reached),
        kind("sweep, some reached", 3, sweep_some_reached),
        kind("sweep, no gates", 1, sweep_no_gates),
    ]
}
