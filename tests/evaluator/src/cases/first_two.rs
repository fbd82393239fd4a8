//! Rules 2 and 10: the first two edges of a gate equal, opposite or neither, on nodes of every sort; fields and numbers that
//! just miss theirs; and full tables, in which both are taken.

use super::deck::{kind, Kind};
use super::networks;
use super::plant::Plant;
use super::steps::some_behind;
use crate::random::Random;
use crate::request::Request;
use crate::step::FirstTwo;
use crate::table::{Edge, MOST_GATES};

/// What the first edge names.
#[derive(Clone, Copy)]
enum Named {
    Constant,
    Input,
    Gate,
}

/// A rule and the three edges of the gate that it is asked of.
#[derive(Clone, Copy)]
pub struct Shape {
    rule: u16,
    first_two: FirstTwo,
    named: Named,
    /// Whether the first edge is inverted.
    inverted: bool,
    /// The third edge: the first, the second, the opposite of one of them, a constant, or anything.
    third: usize,
}

impl Shape {
    pub const COUNT: usize = 252;

    /// The shapes in turn.
    pub fn of(turn: usize) -> Shape {
        Shape {
            rule: [2, 10][turn % 2],
            first_two: [FirstTwo::Equal, FirstTwo::Opposite, FirstTwo::Neither][turn / 2 % 3],
            named: [Named::Constant, Named::Input, Named::Gate][turn / 6 % 3],
            inverted: turn / 18 % 2 == 1,
            third: turn % 7,
        }
    }

    /// The shape with first two edges that its rule takes.
    fn taken(self) -> Shape {
        let first_two = if self.rule == 2 { FirstTwo::Equal } else { FirstTwo::Opposite };
        Shape { first_two, ..self }
    }
}

/// An edge to another of the nodes, which the rule may take for what it asks for: among many nodes one whose number has the same low
/// byte, else one whose number is next to the first's; where there is none, and at times, any.
fn other(random: &mut Random, rule: u16, first: Edge, nodes: usize) -> Edge {
    let any = Edge { node: (first.node + random.between(1, nodes - 1)) % nodes, inverted: random.once_in(2) };
    let number = first.number();
    let next = if first.inverted { number + 1 } else { number.wrapping_sub(1) };
    let far = if rule == 2 { number ^ 256 } else { number ^ 257 };
    let near = Edge::of(if nodes > 128 { far } else { random.pick(&[next, any.number()]) });
    match near.node < nodes {
        true => near,
        false => any,
    }
}

/// A plant of the shape, among a few gates or, at times, where the first two edges name other nodes, among more than a hundred;
/// at times read by nobody.
pub fn planted(random: &mut Random, shape: Shape) -> Plant {
    let mut plant = Plant::begun(random, shape.rule, 5);
    let many = shape.first_two == FirstTwo::Neither && random.once_in(2);
    networks::fill(random, &mut plant.network, if many { 130 } else { 1 });
    let (inputs, nodes) = (plant.network.inputs, plant.network.nodes());
    let node = match shape.named {
        Named::Constant => 0,
        Named::Input => random.between(1, inputs),
        Named::Gate => random.between(inputs + 1, nodes - 1),
    };
    let first = Edge { node, inverted: shape.inverted };
    let second = match shape.first_two {
        FirstTwo::Equal => first,
        FirstTwo::Opposite => first.inverted_if(true),
        FirstTwo::Neither => other(random, shape.rule, first, nodes),
    };
    let (constant, any) = (Edge { node: 0, inverted: random.once_in(2) }, plant.edge(random));
    let [not_first, not_second] = [first, second].map(|edge| edge.inverted_if(true));
    let third = [first, second, not_first, not_second, constant, any, any][shape.third];
    plant.add([first, second, third]);
    let readers = random.below(4);
    plant.finish(random, readers);
    if random.once_in(10) {
        plant.leave_unread();
    }
    plant
}

fn two_edges(random: &mut Random, turn: usize) -> Request {
    let behind = some_behind(random);
    planted(random, Shape::of(turn)).request(random, behind)
}

/// One field, or both a and b, outside what the rules allow; the gate has the form every other time.
fn fields(random: &mut Random, turn: usize) -> Request {
    let shape = Shape::of(2 * random.below(Shape::COUNT / 2) + turn / 2 % 2);
    let mut plant = planted(random, if turn % 2 == 0 { shape.taken() } else { shape });
    let (inputs, past, g) = (plant.network.inputs as u16, plant.network.nodes() as u16, plant.step.gate);
    let fields = [
        (g, 1, 0),
        (g, 0, 1),
        (g, 2, 0),
        (g, 0, 2),
        (g, 256, 0),
        (g, 0, 256),
        (g, 65535, 0),
        (g, 0, 65535),
        (g, 1, 2),
        (g, g - 1, 0),
        (0, 0, 0),
        (inputs, 0, 0),
        (past, 0, 0),
        (65535, 0, 0),
        (g + 256, 0, 0),
    ];
    (plant.step.gate, plant.step.a, plant.step.b) = fields[turn % fields.len()];
    plant.request(random, 8)
}

/// A gate that the rule takes, under a number that is no rule's.
fn other_number(random: &mut Random, turn: usize) -> Request {
    let mut plant = planted(random, Shape::of(turn).taken());
    let rule = plant.step.rule;
    plant.step.rule = [11, 256 + rule, 0, 12, 256 * rule, 512 + rule, 65535][turn % 7];
    plant.request(random, 8)
}

/// 1,024 gates in a full buffer: nothing is inserted, so there is room.
fn full_table(random: &mut Random, turn: usize) -> Request {
    let mut plant = planted(random, Shape::of(turn));
    networks::fill(random, &mut plant.network, MOST_GATES);
    plant.request(random, 0)
}

pub fn kinds() -> Vec<Kind> {
    vec![
        kind("rules 2 and 10 on two edges", 44, two_edges),
        kind("rules 2 and 10 and their fields", 13, fields),
        kind("rules 2 and 10 under another number", 10, other_number),
        kind("rules 2 and 10 on a full table", 3, full_table),
    ]
}
