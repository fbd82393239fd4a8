//! A network as objects. A gate keeps the name that it was given first, whatever steps are taken, and every edge names its node by that
//! name. No name is given twice. A node's number is nothing but the place at which it stands, counted when it is asked for.

use crate::step::Plan;
use crate::table::{Edge, Edges, Gate, Network};

/// A gate: its edges name nodes by name.
#[derive(Clone)]
struct Object {
    name: usize,
    block: u8,
    edges: Edges,
    /// The numbers by which inversion steps named it, one after another.
    inversions: Vec<usize>,
}

impl Object {
    fn new(name: usize, gate: Gate) -> Object {
        Object { name, block: gate.block, edges: gate.edges, inversions: Vec::new() }
    }
}

#[derive(Clone)]
pub struct Graph {
    inputs: usize,
    /// The gates that are there, in record order.
    gates: Vec<Object>,
    outputs: Vec<Edge>,
    /// The name of the next new gate.
    fresh: usize,
}

/// A gate as it stands: its node number, and the numbers by which inversion steps named it until now.
#[derive(Clone, PartialEq, Eq, Debug)]
pub struct Probe {
    pub node: usize,
    pub inversions: Vec<usize>,
}

impl Graph {
    /// The network's nodes, whose first numbers are their names.
    pub fn of(network: &Network) -> Graph {
        let gates = (network.inputs + 1..).zip(&network.gates);
        let gates = gates.map(|(name, &gate)| Object::new(name, gate)).collect();
        Graph { inputs: network.inputs, gates, outputs: network.outputs.clone(), fresh: network.nodes() }
    }

    /// What became of the gate of this name; none where it was swept away.
    pub fn probe(&self, name: usize) -> Option<Probe> {
        let at = self.gates.iter().position(|gate| gate.name == name)?;
        Some(Probe { node: self.inputs + 1 + at, inversions: self.gates[at].inversions.clone() })
    }

    /// Carries out what was planned for gate g, which for a sweep is 0; g and the plan name nodes by number.
    pub fn carry_out(&mut self, plan: Plan, g: usize) {
        let at = g.saturating_sub(self.inputs + 1);
        let name = self.name(g);
        match plan {
            Plan::Become(edges) => self.gates[at].edges = self.by_name(edges),
            Plan::Redirect(to) => {
                let [to] = self.by_name([to]);
                self.each_edge_naming(name, |edge| *edge = to.inverted_if(edge.inverted));
            }
            Plan::Insert(new, edges) => {
                let block = self.gates[at].block;
                let new = new.into_iter().map(|edges| Gate { block, edges: self.by_name(edges) });
                let new: Vec<Object> = (self.fresh..).zip(new).map(|(name, gate)| Object::new(name, gate)).collect();
                self.gates[at].edges = self.by_name(edges);
                self.fresh += new.len();
                self.gates.splice(at..at, new);
            }
            Plan::Invert => {
                let gate = &mut self.gates[at];
                gate.edges = gate.edges.map(|edge| edge.inverted_if(true));
                gate.inversions.push(g);
                self.each_edge_naming(name, |edge| *edge = edge.inverted_if(true));
            }
            Plan::Sweep => self.sweep(),
        }
    }

    /// The name of a node by its number; those after the last are the new gates of a plan.
    fn name(&self, number: usize) -> usize {
        match number.checked_sub(self.inputs + 1) {
            None => number,
            Some(at) if at < self.gates.len() => self.gates[at].name,
            Some(at) => self.fresh + (at - self.gates.len()),
        }
    }

    fn by_name<const N: usize>(&self, edges: [Edge; N]) -> [Edge; N] {
        edges.map(|edge| Edge { node: self.name(edge.node), ..edge })
    }

    fn each_edge_naming(&mut self, name: usize, change: impl Fn(&mut Edge)) {
        let edges = self.gates.iter_mut().flat_map(|gate| &mut gate.edges).chain(&mut self.outputs);
        edges.filter(|edge| edge.node == name).for_each(change);
    }

    /// Each name's number, and no number for a gate that is gone.
    fn numbers(&self) -> Vec<usize> {
        let mut numbers = vec![usize::MAX; self.fresh];
        let names = (0..=self.inputs).chain(self.gates.iter().map(|gate| gate.name));
        names.enumerate().for_each(|(number, name)| numbers[name] = number);
        numbers
    }

    /// Keeps the gates that some output reaches: a search from the outputs, gate by gate.
    fn sweep(&mut self) {
        let numbers = self.numbers();
        let mut reached = vec![false; self.fresh];
        let mut waiting: Vec<usize> = self.outputs.iter().map(|edge| edge.node).collect();
        while let Some(name) = waiting.pop() {
            if !std::mem::replace(&mut reached[name], true) && name > self.inputs {
                waiting.extend(self.gates[numbers[name] - self.inputs - 1].edges.map(|edge| edge.node));
            }
        }
        self.gates.retain(|gate| reached[gate.name]);
    }

    /// The network, in which nodes are named by number.
    pub fn network(&self) -> Network {
        let numbers = self.numbers();
        let by_number = |edge: Edge| Edge { node: numbers[edge.node], ..edge };
        Network {
            inputs: self.inputs,
            gates: self.gates.iter().map(|gate| Gate { block: gate.block, edges: gate.edges.map(by_number) }).collect(),
            outputs: self.outputs.iter().map(|&edge| by_number(edge)).collect(),
        }
    }
}
