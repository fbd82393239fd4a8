//! Networks in which one rule finds its form, and changes that make it a near miss.

use super::voters::{self, Shape};
use super::{lent, networks};
use crate::random::Random;
use crate::request::Request;
use crate::step::Step;
use crate::table::{Edge, Edges, Gate, Network};

/// A network with a place for one rule: the step that is accepted there, and the nodes of the gates that make the
/// rule's form, g last.
pub struct Plant {
    pub network: Network,
    pub step: Step,
    form: Vec<usize>,
}

impl Plant {
    /// A plant whose form and outputs are still to be added: fewer than `most` gates, and at times a pad.
    pub fn begun(random: &mut Random, rule: u16, most: usize) -> Plant {
        let inputs = random.between(if rule == 9 { 2 } else { 1 }, 5);
        let before = random.below(most);
        let network = networks::sized(random, inputs, before, 0);
        let step = Step { rule, gate: 0, a: 0, b: 0 };
        let mut plant = Plant { network, step, form: Vec::new() };
        plant.pad(random);
        plant
    }

    /// Names g in the step, adds its readers, so many gates, and outputs, and deals the blocks.
    pub fn finish(&mut self, random: &mut Random, readers: usize) {
        if self.step.rule != 8 {
            self.step.gate = self.g() as u16;
        }
        self.add_readers(random, readers);
        networks::deal_blocks(random, &mut self.network);
        if self.step.rule == 7 {
            let block = self.gate_mut(self.g()).block;
            self.gate_mut(usize::from(self.step.a)).block = block;
        }
    }

    pub fn gate_mut(&mut self, node: usize) -> &mut Gate {
        &mut self.network.gates[node - self.network.inputs - 1]
    }

    /// Any edge that the next gate may have.
    pub fn edge(&self, random: &mut Random) -> Edge {
        networks::edge(random, self.network.nodes())
    }

    /// Adds a gate of the form and gives it as an edge.
    pub fn add(&mut self, edges: Edges) -> Edge {
        let node = self.network.nodes();
        self.network.gates.push(Gate::of(edges));
        self.form.push(node);
        Edge::plain(node)
    }

    /// Adds at times a gate or two that read anything.
    pub fn pad(&mut self, random: &mut Random) {
        let gates = self.network.gates.len() + random.pick(&[0, 0, 1, 2]);
        networks::fill(random, &mut self.network, gates);
    }

    /// Adds the gates of the rule's form, g last.
    fn add_form(&mut self, random: &mut Random, rule: u16) {
        let [x, y, u, v] = [0; 4].map(|_| self.edge(random));
        match rule {
            2 => {
                self.add([x, x, y]);
            }
            3 => {
                let h = self.add([y, u, v]);
                self.pad(random);
                let x = self.edge(random);
                self.add([x, u, h]);
            }
            4 => {
                let h = self.add([u, v, y]);
                self.pad(random);
                let [x, y] = [0; 2].map(|_| self.edge(random));
                self.add([x, y, h]);
            }
            5 => {
                let p = self.add([x, y, u]);
                self.pad(random);
                let q = if random.once_in(4) { p } else { self.add([x, y, v]) };
                self.pad(random);
                let z = self.edge(random);
                self.add([p, q, z]);
            }
            7 => {
                let a = self.add([x, y, u]);
                self.pad(random);
                self.add([x, y, u]);
                self.step.a = a.node as u16;
            }
            9 => {
                let shape = Shape::of(random.below(Shape::COUNT));
                voters::add_form(self, random, shape);
            }
            10 => {
                self.add([x, x.inverted_if(true), y]);
            }
            _ => {
                self.add([x, y, u]);
            }
        }
    }

    pub fn g(&self) -> usize {
        self.form[self.form.len() - 1]
    }

    /// By how many bytes the step, as it was planted, makes the table longer.
    pub fn growth(&self) -> usize {
        let inserted = match self.step.rule {
            3 | 5 => 1,
            4 => 2,
            9 => 3 * (self.g() - self.network.inputs),
            _ => 0,
        };
        8 * inserted
    }

    /// Adds gates and outputs of which about half the edges name g, in both ways.
    fn add_readers(&mut self, random: &mut Random, gates: usize) {
        let g = self.g();
        let reading = |random: &mut Random, edge: Edge| match random.once_in(2) {
            true => Edge { node: g, inverted: random.once_in(2) },
            false => edge,
        };
        for _ in 0..gates {
            let gate = networks::gate(random, self.network.nodes());
            self.network.gates.push(Gate::of(gate.map(|edge| reading(random, edge))));
        }
        for _ in 0..random.between(1, 4) {
            let edge = self.edge(random);
            self.network.outputs.push(reading(random, edge));
        }
    }

    /// Has those who read g read the constant instead.
    pub fn leave_unread(&mut self) {
        let g = self.g();
        self.network.edges_mut().filter(|edge| edge.node == g).for_each(|edge| edge.node = 0);
    }

    pub fn request(self, random: &mut Random, behind: usize) -> Request {
        Request::Step(lent(random, &self.network, behind), self.step)
    }

    /// Changes one edge of one gate of the form, by the variant's number: a near miss.
    pub fn spoil(&mut self, random: &mut Random, variant: usize) {
        let node = self.form[variant % self.form.len()];
        let (place, way) = (variant / self.form.len() % 3, variant / self.form.len() / 3 % 5);
        let any = networks::edge(random, node);
        let input = random.between(1, self.network.inputs);
        let gate = &mut self.gate_mut(node).edges;
        match way {
            0 => gate[place].inverted = !gate[place].inverted,
            1 => gate.swap(place, (place + 1) % 3),
            2 => gate[place].node = input,
            3 => gate[place].node = 0,
            _ => gate[place] = any,
        }
    }
}

/// A plant for the rule with exactly `gates` gates, or, where none are asked for, a few.
pub fn plant(random: &mut Random, rule: u16, gates: Option<usize>) -> Plant {
    let mut plant = Plant::begun(random, rule, gates.map_or(5, |gates| gates - 32));
    plant.add_form(random, rule);
    if rule == 1 {
        plant.step.a = random.between(1, 2) as u16;
    }
    let readers = random.below(4);
    plant.finish(random, readers);
    networks::fill(random, &mut plant.network, gates.unwrap_or(0));
    plant
}
