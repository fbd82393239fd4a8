//! What of a network needs the inverse of a node in RM3, told apart from its translation.

use crate::rm3::{class, middle, Class, Mode};
use crate::table::Network;
use std::collections::hash_map::{Entry, HashMap};
use std::collections::HashSet;

/// What needs an inverse: a gate for its plain middle, a gate for another inverted edge than its middle, or an output.
#[derive(Clone, Copy, PartialEq, Eq, Debug)]
pub enum By {
    Middle,
    Edge,
    Output,
}

/// A need: of this node, by the gate or the output at this place among the gates or the outputs, in this block.
#[derive(Clone, Copy, Debug)]
pub struct Need {
    pub node: usize,
    pub by: By,
    pub at: usize,
    pub block: u8,
}

impl Need {
    /// Whether both are needs of one gate.
    pub fn within(&self, other: &Need) -> bool {
        self.by != By::Output && other.by != By::Output && self.at == other.at
    }
}

/// All needs, in the order in which they are met.
pub fn needs(network: &Network) -> Vec<Need> {
    let mut needs = Vec::new();
    for (at, gate) in network.gates.iter().enumerate() {
        for (place, &edge) in gate.edges.iter().enumerate() {
            let by = match (class(edge), place == middle(gate)) {
                (Class::Plain, true) => By::Middle,
                (Class::Inverted, false) => By::Edge,
                _ => continue,
            };
            needs.push(Need { node: edge.node, by, at, block: gate.block });
        }
    }
    let inverted = network.outputs.iter().enumerate().filter(|(_, &edge)| class(edge) == Class::Inverted);
    needs.extend(inverted.map(|(at, edge)| Need { node: edge.node, by: By::Output, at, block: 0 }));
    needs
}

/// Each need of a node that was needed before, behind the first need of that node.
pub fn again(needs: &[Need]) -> Vec<[Need; 2]> {
    let mut first = HashMap::new();
    let pairs = needs.iter().filter_map(|need| match first.entry(need.node) {
        Entry::Occupied(first) => Some([*first.get(), *need]),
        Entry::Vacant(place) => {
            place.insert(*need);
            None
        }
    });
    pairs.collect()
}

/// The needs for which a helper is made.
pub fn made(network: &Network, mode: Mode) -> Vec<Need> {
    let mut nodes = HashSet::new();
    let needs = needs(network).into_iter();
    needs.filter(|need| nodes.insert(need.node) || mode == Mode::Anew).collect()
}
