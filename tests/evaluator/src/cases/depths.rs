//! Depth: deep gates that no output reaches, outputs on inputs and constants alone, and outputs of differing levels in
//! each order.

use super::deck::{kind, Kind};
use super::networks;
use crate::random::Random;
use crate::request::Request;
use crate::table::{Edge, Gate, Network, MOST_GATES, MOST_OUTPUTS};

/// Adds gates that read inputs and constants, and from the second on the one before: gate k of them stands on level k.
fn add_ladder(random: &mut Random, network: &mut Network, height: usize) -> Vec<usize> {
    let first = network.nodes();
    for node in first..first + height {
        let mut gate = networks::gate(random, network.inputs + 1);
        if node > first {
            gate[random.below(3)].node = node - 1;
        }
        network.gates.push(Gate::of(gate));
    }
    (first..first + height).collect()
}

/// A network of up to four inputs and nothing else.
fn begun(random: &mut Random) -> Network {
    let inputs = random.below(5);
    networks::sized(random, inputs, 0, 0)
}

fn some_outputs(random: &mut Random) -> usize {
    random.pick(&[1, 2, 3, 4, 5, MOST_OUTPUTS])
}

fn plain_or_inverted(random: &mut Random, node: usize) -> Edge {
    Edge { node, inverted: random.once_in(2) }
}

/// Names nodes in outputs: the highest, by an edge that is given, in the place that is given; in all others lower ones.
fn name(random: &mut Random, network: &mut Network, highest: Edge, place: usize, lower: &[usize], outputs: usize) {
    network.outputs = (0..outputs)
        .map(|at| match at == place {
            true => highest,
            false => {
                let node = random.pick(lower);
                plain_or_inverted(random, node)
            }
        })
        .collect();
}

/// The constant, the inputs and these gates.
fn with_inputs(network: &Network, gates: &[usize]) -> Vec<usize> {
    (0..=network.inputs).chain(gates.iter().copied()).collect()
}

/// Gates higher than each node that outputs name, by one level or many: above those nodes, before them in the table, or
/// behind them.
fn unreached(random: &mut Random, turn: usize) -> Network {
    let mut network = begun(random);
    let named = random.between(1, 6);
    let many = random.between(2, 9);
    let deep = if turn % 16 == 5 { MOST_GATES - named } else { named + random.pick(&[1, many]) };
    let gates = match turn % 3 {
        0 => add_ladder(random, &mut network, deep)[..named].to_vec(),
        1 => {
            add_ladder(random, &mut network, deep);
            add_ladder(random, &mut network, named)
        }
        _ => {
            let gates = add_ladder(random, &mut network, named);
            add_ladder(random, &mut network, deep);
            gates
        }
    };
    let outputs = some_outputs(random);
    let (place, highest) = (random.below(outputs), plain_or_inverted(random, gates[named - 1]));
    let lower = with_inputs(&network, &gates[..named - 1]);
    name(random, &mut network, highest, place, &lower, outputs);
    network
}

/// Gates, and outputs on constants alone, on inputs alone, or on both.
fn no_gate_named(random: &mut Random, turn: usize) -> Network {
    let inputs = if turn % 3 == 0 { random.below(5) } else { random.between(1, 5) };
    let gates = random.pick(&[1, 2, 3, 9, 40]);
    let mut network = networks::sized(random, inputs, gates, 0);
    let nodes: Vec<usize> = [0..1, 1..inputs + 1, 0..inputs + 1][turn % 3].clone().collect();
    network.outputs = (0..some_outputs(random))
        .map(|_| {
            let node = random.pick(&nodes);
            plain_or_inverted(random, node)
        })
        .collect();
    network
}

/// The highest node that outputs name stands in the first output, the last or one between, plain or inverted; every other
/// time a lower gate that is named as well stands behind it in the table, or gates that no output reaches stand above it.
fn orders(random: &mut Random, turn: usize) -> Network {
    let mut network = begun(random);
    let height = if turn % 24 == 17 { MOST_GATES - 3 } else { random.between(2, 10) };
    let mut gates = add_ladder(random, &mut network, height);
    let top = if turn / 6 % 2 == 1 { random.between(1, height - 1) } else { height - 1 };
    let highest = Edge { node: gates[top], inverted: turn / 3 % 2 == 1 };
    gates.truncate(top);
    if turn / 12 % 2 == 1 {
        gates.extend(add_ladder(random, &mut network, top.min(3)));
    }
    let outputs = random.pick(&[3, 5, MOST_OUTPUTS, MOST_OUTPUTS]);
    let place = [0, outputs - 1, random.between(1, outputs - 2)][turn % 3];
    let lower = with_inputs(&network, &gates);
    name(random, &mut network, highest, place, &lower, outputs);
    network
}

/// A network whose RM3 table is as deep as it may be: each gate has a helper for the gate before it, and an inverted output
/// has one too.
pub fn deepest_rm3(random: &mut Random, turn: usize) -> Network {
    let inputs = random.between(1, 4);
    let mut network = networks::sized(random, inputs, 0, 0);
    for _ in 0..[1, 2, 5, 30, MOST_GATES][turn % 5] {
        let [first, third] = [0; 2].map(|_| Edge::plain(random.between(1, inputs)));
        network.gates.push(Gate::of([first, Edge::plain(network.nodes() - 1), third]));
    }
    network.outputs = vec![Edge { node: network.nodes() - 1, inverted: true }];
    networks::deal_blocks(random, &mut network);
    network
}

/// The kinds of networks, with what an operation asks of them.
pub fn kinds(request: fn(&mut Random, &Network) -> Request) -> Vec<Kind> {
    let ask = move |make: fn(&mut Random, usize) -> Network| {
        move |random: &mut Random, turn: usize| {
            let mut network = make(random, turn);
            networks::deal_blocks(random, &mut network);
            request(random, &network)
        }
    };
    vec![
        kind("deep gates that no output reaches", 5, ask(unreached)),
        kind("outputs on inputs and constants alone", 4, ask(no_gate_named)),
        kind("outputs of differing levels", 9, ask(orders)),
    ]
}
