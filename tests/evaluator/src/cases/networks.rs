//! Sound networks of every size and shape.

use crate::random::Random;
use crate::table::{Edge, Edges, Gate, Network, MOST_GATES, MOST_INPUTS, MOST_OUTPUTS};

/// An edge to a node below `bound`: a constant, a recent node or any, and often inverted.
pub fn edge(random: &mut Random, bound: usize) -> Edge {
    let node = match random.below(8) {
        0 => 0,
        1 | 2 => bound - 1 - random.below(bound.min(4)),
        _ => random.below(bound),
    };
    Edge { node, inverted: random.once_in(3) }
}

/// The edges of a gate that reads nodes below `bound`, now and then one node twice.
pub fn gate(random: &mut Random, bound: usize) -> Edges {
    let mut gate = [0; 3].map(|_| edge(random, bound));
    if random.once_in(6) {
        let place = random.below(3);
        gate[place] = gate[(place + 1) % 3].inverted_if(random.once_in(2));
    }
    gate
}

/// Random gates after those that are there, up to the given number.
pub fn fill(random: &mut Random, network: &mut Network, gates: usize) {
    while network.gates.len() < gates {
        let bound = network.nodes();
        network.gates.push(Gate::of(gate(random, bound)));
    }
}

/// Gives the gates their blocks anew: 0 to all of them, one other to all, those of members one after the other, or any.
pub fn deal_blocks(random: &mut Random, network: &mut Network) {
    let way = random.below(8);
    let mut block = 0;
    for gate in &mut network.gates {
        let any = random.bits() as u8;
        block = match way {
            0..=2 => 0,
            3 => 1,
            4 => 255,
            5 if random.once_in(3) => any,
            5 => block,
            _ => random.pick(&[0, 1, 255, any]),
        };
        gate.block = block;
    }
}

/// A network with these three counts.
pub fn sized(random: &mut Random, inputs: usize, gates: usize, outputs: usize) -> Network {
    let mut network = Network { inputs, gates: Vec::new(), outputs: Vec::new() };
    fill(random, &mut network, gates);
    network.outputs = (0..outputs).map(|_| edge(random, 1 + inputs + gates)).collect();
    deal_blocks(random, &mut network);
    network
}

pub fn small(random: &mut Random) -> Network {
    let (inputs, gates, outputs) = (random.below(7), random.below(9), random.between(1, 6));
    sized(random, inputs, gates, outputs)
}

/// Any counts within the limits, most of them far below.
pub fn any(random: &mut Random) -> Network {
    let most_gates = random.pick(&[5, 20, 20, 60, 60, 200, MOST_GATES]);
    let inputs = random.below(MOST_INPUTS + 1);
    let gates = random.below(most_gates + 1);
    let outputs = random.between(1, MOST_OUTPUTS);
    sized(random, inputs, gates, outputs)
}

/// A chain in which most gates have equal or opposite first edges, or get them when an earlier gate is redirected.
pub fn paired(random: &mut Random, inputs: usize, gates: usize, outputs: usize) -> Network {
    let mut network = chain(random, inputs, gates, outputs);
    for at in 0..gates {
        let inverted = [0; 2].map(|_| random.once_in(2));
        let earlier = random.below(at.max(1));
        let [first, second] = match random.below(4) {
            0 => continue,
            1 if at > 0 => [Edge::plain(inputs + 1 + earlier), network.gates[earlier].edges[random.pick(&[0, 2])]],
            _ => [network.gates[at].edges[0]; 2],
        };
        network.gates[at].edges[0] = first.inverted_if(inverted[0]);
        network.gates[at].edges[1] = second.inverted_if(inverted[1]);
    }
    network
}

/// A network in which each gate reads the one before it, in one place or in changing places, and the first output
/// reads the last: all are reached.
pub fn chain(random: &mut Random, inputs: usize, gates: usize, outputs: usize) -> Network {
    let mut network = sized(random, inputs, gates, outputs);
    let (steady, always) = (random.once_in(2), random.below(3));
    for at in 1..gates {
        let place = if steady { always } else { random.below(3) };
        network.gates[at].edges[place].node = inputs + at;
    }
    network.outputs[0].node = inputs + gates;
    network
}
