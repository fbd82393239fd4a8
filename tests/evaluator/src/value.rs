//! What a network is worth: values and levels by recursion with memory, size and depth.

use crate::random::Random;
use crate::table::{Edge, Network, Refusal};

struct Values<'a> {
    network: &'a Network,
    assignment: u32,
    known: Vec<Option<bool>>,
}

impl Values<'_> {
    fn edge(&mut self, edge: Edge) -> bool {
        self.node(edge.node) != edge.inverted
    }

    fn node(&mut self, node: usize) -> bool {
        if let Some(value) = self.known[node] {
            return value;
        }
        let value = match self.network.edges(node) {
            Some(edges) => edges.map(|edge| self.edge(edge)).iter().filter(|&&value| value).count() >= 2,
            None => node > 0 && (self.assignment >> (node - 1)) & 1 == 1,
        };
        self.known[node] = Some(value);
        value
    }
}

/// All assignments of so many inputs, or, where they are many, some.
pub fn some_assignments(random: &mut Random, inputs: usize) -> Vec<u32> {
    let every = 1u64 << inputs;
    match inputs {
        0..=10 => (0..every as u32).collect(),
        _ => (0..24).map(|_| (random.bits() % every) as u32).collect(),
    }
}

/// The value of each node under an assignment that has no bit above the inputs.
pub fn values(network: &Network, assignment: u32) -> Vec<bool> {
    let mut values = Values { network, assignment, known: vec![None; network.nodes()] };
    (0..network.nodes()).map(|node| values.node(node)).collect()
}

/// The outputs' number under such an assignment.
pub fn outputs(network: &Network, assignment: u32) -> u32 {
    let mut values = Values { network, assignment, known: vec![None; network.nodes()] };
    let bits = network.outputs.iter().enumerate();
    bits.map(|(place, &edge)| u32::from(values.edge(edge)) << place).sum()
}

pub fn evaluate(network: &Network, assignment: u32) -> Result<u32, Refusal> {
    if u64::from(assignment) >> network.inputs != 0 {
        return Err(Refusal::plain(6));
    }
    Ok(outputs(network, assignment))
}

fn level(network: &Network, known: &mut [Option<u32>], node: usize) -> u32 {
    if let Some(level) = known[node] {
        return level;
    }
    let level = match network.edges(node) {
        Some(edges) => 1 + edges.map(|edge| level(network, known, edge.node)).into_iter().max().unwrap_or(0),
        None => 0,
    };
    known[node] = Some(level);
    level
}

/// The level of one node.
pub fn level_of(network: &Network, node: usize) -> u32 {
    level(network, &mut vec![None; network.nodes()], node)
}

pub fn size(network: &Network) -> u32 {
    network.gates.len() as u32
}

/// The level of the node that each output names; inversion does not count.
pub fn output_levels(network: &Network) -> Vec<u32> {
    let mut known = vec![None; network.nodes()];
    network.outputs.iter().map(|edge| level(network, &mut known, edge.node)).collect()
}

/// The highest level among the nodes that outputs name.
pub fn depth(network: &Network) -> u32 {
    output_levels(network).into_iter().max().unwrap_or(0)
}

/// The highest level of any gate, reached by an output or not.
pub fn highest_level(network: &Network) -> u32 {
    let mut known = vec![None; network.nodes()];
    (0..network.nodes()).map(|node| level(network, &mut known, node)).max().unwrap_or(0)
}
