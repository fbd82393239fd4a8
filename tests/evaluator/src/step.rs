//! One step: the ten rules on the network, with refusals 7 to 11.
//!
//! A rule first says what it plans, by node numbers; the gates that it would insert are numbered on from the last node. The plan is
//! then carried out on the graph, in which gates have names and no numbers.

use crate::graph::Graph;
use crate::table::{Edge, Edges, Network, Refusal, MOST_GATES};
use crate::voter;

/// The rules are numbered from 1 up to this.
pub const LAST_RULE: u16 = 10;

#[derive(Clone, Copy, PartialEq, Eq, Debug)]
pub struct Step {
    pub rule: u16,
    pub gate: u16,
    pub a: u16,
    pub b: u16,
}

impl Step {
    pub fn of([rule, gate, a, b]: [u16; 4]) -> Step {
        Step { rule, gate, a, b }
    }

    pub fn fields(self) -> [u16; 4] {
        [self.rule, self.gate, self.a, self.b]
    }
}

/// How the first two edges of a gate stand to each other.
#[derive(Clone, Copy, PartialEq, Eq, Debug)]
pub enum FirstTwo {
    Equal,
    Opposite,
    Neither,
}

impl FirstTwo {
    pub fn of([first, second, _]: Edges) -> FirstTwo {
        match (first.node == second.node, first.inverted == second.inverted) {
            (true, true) => FirstTwo::Equal,
            (true, false) => FirstTwo::Opposite,
            (false, _) => FirstTwo::Neither,
        }
    }
}

/// What a step does to its gate g and to the edges that name g. Gates that are inserted belong to g's block.
pub enum Plan {
    Become(Edges),
    Redirect(Edge),
    Insert(Vec<Edges>, Edges),
    Invert,
    Sweep,
}

/// Whether gate, a and b are allowed for the rule (else refusal 8).
pub fn fields_allowed(network: &Network, step: Step) -> bool {
    let is_gate = |node: u16| network.gate(usize::from(node)).is_some();
    let gate_fits = if step.rule == 8 { step.gate == 0 } else { is_gate(step.gate) };
    let a_fits = match step.rule {
        1 => step.a == 1 || step.a == 2,
        7 => is_gate(step.a) && step.a < step.gate,
        9 => 0 < step.a && step.a < step.b,
        _ => step.a == 0,
    };
    let b_fits = if step.rule == 9 { step.b < step.gate } else { step.b == 0 };
    gate_fits && a_fits && b_fits
}

/// What the step would do, or none where its gate lacks the rule's form; the fields must be allowed.
pub fn plan(network: &Network, step: Step) -> Option<Plan> {
    if step.rule == 8 {
        return Some(Plan::Sweep);
    }
    let gate = network.gate(usize::from(step.gate))?;
    let [first, second, third] = gate.edges;
    let uninverted_gate = |edge: Edge| network.edges(edge.node).filter(|_| !edge.inverted);
    let new = Edge::plain(network.nodes());
    let next_new = Edge::plain(network.nodes() + 1);
    match step.rule {
        1 if step.a == 1 => Some(Plan::Become([second, first, third])),
        1 => Some(Plan::Become([third, second, first])),
        2 => (FirstTwo::of(gate.edges) == FirstTwo::Equal).then_some(Plan::Redirect(first)),
        3 => {
            let [y, u, z] = uninverted_gate(third)?;
            (u == second).then(|| Plan::Insert(vec![[y, u, first]], [z, u, new]))
        }
        4 => {
            let [u, v, z] = uninverted_gate(third)?;
            Some(Plan::Insert(vec![[first, second, u], [first, second, v]], [new, next_new, z]))
        }
        5 => {
            let [x, y, u] = uninverted_gate(first)?;
            let [also_x, also_y, v] = uninverted_gate(second)?;
            let shared = (x, y) == (also_x, also_y);
            shared.then(|| Plan::Insert(vec![[u, v, third]], [x, y, new]))
        }
        6 => Some(Plan::Invert),
        7 => {
            let below = usize::from(step.a);
            (network.gate(below)? == gate).then(|| Plan::Redirect(Edge::plain(below)))
        }
        9 => voter::plan(network, usize::from(step.gate), usize::from(step.a), usize::from(step.b)),
        10 => (FirstTwo::of(gate.edges) == FirstTwo::Opposite).then_some(Plan::Redirect(third)),
        _ => None,
    }
}

/// The network after one step, in a buffer of `room` bytes.
pub fn apply(network: &Network, step: Step, room: usize) -> Result<Network, Refusal> {
    take(&mut Graph::of(network), network, step, room)
}

/// Takes one step on a graph, which is that of the network, and gives the network then; a refused step leaves the graph as it is.
pub fn take(graph: &mut Graph, network: &Network, step: Step, room: usize) -> Result<Network, Refusal> {
    if !(1..=LAST_RULE).contains(&step.rule) {
        return Err(Refusal::plain(7));
    }
    if !fields_allowed(network, step) {
        return Err(Refusal::plain(8));
    }
    let plan = plan(network, step).ok_or(Refusal::plain(9))?;
    carry_out(graph, usize::from(step.gate), plan, room)
}

/// The network after what was planned for its gate g, unless that has too many gates or does not fit the buffer.
pub fn carried_out(network: &Network, g: usize, plan: Plan, room: usize) -> Result<Network, Refusal> {
    carry_out(&mut Graph::of(network), g, plan, room)
}

/// Carries out on a graph what was planned for its gate g, and gives the network then, unless there is no place for it.
fn carry_out(graph: &mut Graph, g: usize, plan: Plan, room: usize) -> Result<Network, Refusal> {
    let mut after = graph.clone();
    after.carry_out(plan, g);
    let network = after.network();
    if network.gates.len() > MOST_GATES {
        return Err(Refusal::plain(10));
    }
    if network.used() > room {
        return Err(Refusal::plain(11));
    }
    *graph = after;
    Ok(network)
}

/// Lays an accepted result over the buffer, clears what the table no longer uses, and gives the new used length.
pub fn lay(buffer: &mut [u8], old_used: u32, result: &Network) -> u32 {
    let bytes = result.bytes();
    let new_used = bytes.len();
    buffer[..new_used].copy_from_slice(&bytes);
    buffer[new_used..(old_used as usize).max(new_used)].fill(0);
    new_used as u32
}
