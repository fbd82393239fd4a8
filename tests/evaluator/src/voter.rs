//! Rule 9, error voters: three copies of the gates up to g, an error in each, and g their majority.
//!
//! A copy is a thing of its own: it begins as a faithful copy whose gates have names of their own, and its error is
//! then made in it alone.

use crate::step::Plan;
use crate::table::{Edge, Edges, Network};
use crate::value::level_of;

/// A copy of all gates from the first up to g.
struct Copy {
    /// What each node up to g is called here: a gate by the copy's own name for it, any other node as everywhere.
    names: Vec<usize>,
    gates: Vec<Edges>,
}

impl Copy {
    /// A faithful copy, its gates named from `first` on.
    fn new(network: &Network, g: usize, first: usize) -> Copy {
        let copied = &network.gates[..g - network.inputs];
        let names = (0..=network.inputs).chain(first..first + copied.len()).collect();
        let mut copy = Copy { names, gates: Vec::new() };
        copy.gates = copied.iter().map(|gate| gate.edges.map(|edge| copy.own(edge))).collect();
        copy
    }

    /// An edge of the network as it stands in this copy.
    fn own(&self, edge: Edge) -> Edge {
        Edge { node: self.names[edge.node], ..edge }
    }

    /// The error: each edge that names the node becomes the other edge, and its polarity is carried on.
    fn replace(&mut self, node: usize, by: Edge) {
        let (name, by) = (self.names[node], self.own(by));
        for edge in self.gates.iter_mut().flatten().filter(|edge| edge.node == name) {
            *edge = by.inverted_if(edge.inverted);
        }
    }
}

/// The gate's edges to a and to b, where it has both in the same polarity.
pub fn pair(gate: Edges, a: usize, b: usize) -> Option<[Edge; 2]> {
    let same = [false, true].map(|inverted| [a, b].map(|node| Edge { node, inverted }));
    same.into_iter().find(|pair| pair.iter().all(|edge| gate.contains(edge)))
}

/// What the step does, or none where no gate up to g has the pair or a stands higher than b.
pub fn plan(network: &Network, g: usize, a: usize, b: usize) -> Option<Plan> {
    let mut gates = network.inputs + 1..=g;
    let (c, [to_a, to_b]) = gates.find_map(|node| Some((node, pair(network.edges(node)?, a, b)?)))?;
    if level_of(network, a) > level_of(network, b) {
        return None;
    }
    let copied = g - network.inputs;
    let mut copies = [0, 1, 2].map(|before| Copy::new(network, g, network.nodes() + before * copied));
    let [first, second, third] = &mut copies;
    first.replace(b, Edge { node: a, inverted: true });
    second.replace(c, to_a);
    third.replace(c, to_b);
    let to_g = Edge::plain(g);
    let roots = match c == g {
        true => [first.own(to_g), second.own(to_a), third.own(to_b)],
        false => [first.own(to_g), second.own(to_g), third.own(to_g)],
    };
    Some(Plan::Insert(copies.into_iter().flat_map(|copy| copy.gates).collect(), roots))
}
