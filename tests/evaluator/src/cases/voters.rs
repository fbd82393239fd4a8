//! Voters, rule 9: every shape of its form, fields and forms that just miss it, and its room to the gate and the byte.

use super::deck::{kind, Kind};
use super::networks;
use super::plant::Plant;
use super::steps::some_behind;
use crate::random::Random;
use crate::request::Request;
use crate::table::{Edge, Gate, MOST_GATES};
use crate::voter::pair;

/// How c stands to g.
#[derive(Clone, Copy, PartialEq)]
enum Seat {
    IsG,
    ReadByG,
    Unread,
}

/// What a and b are; of two deep gates a stands above b, by one level or a few, so that the step is refused.
#[derive(Clone, Copy)]
enum Nodes {
    Inputs,
    InputAndGate,
    Gates,
    DeepGates,
}

/// A shape of the form.
#[derive(Clone, Copy)]
pub struct Shape {
    seat: Seat,
    nodes: Nodes,
    /// The third edge of c: a or b once more, in the same polarity or the other, or anything.
    third: usize,
    /// The polarity of a and b in c.
    inverted: bool,
    /// Whether another gate has the pair as well, between c and g or above g.
    twice: bool,
    /// How many gates stand below g at least.
    below: usize,
}

impl Shape {
    pub const COUNT: usize = 180;

    /// The shapes in turn.
    pub fn of(turn: usize) -> Shape {
        Shape {
            seat: [Seat::IsG, Seat::ReadByG, Seat::Unread][turn % 3],
            nodes: [Nodes::Inputs, Nodes::InputAndGate, Nodes::Gates][turn / 3 % 3],
            third: turn % 5,
            inverted: turn % 2 == 1,
            twice: turn / 2 % 2 == 1,
            below: 0,
        }
    }
}

/// Breaks the pair of a and b wherever one of the gates has it in one polarity.
fn part(gates: &mut [Gate], a: usize, b: usize) {
    for gate in gates.iter_mut().filter(|gate| pair(gate.edges, a, b).is_some()) {
        gate.edges.iter_mut().filter(|edge| edge.node == a).for_each(|edge| edge.node = 0);
    }
}

/// The nodes a and b, the gates among them added.
fn add_nodes(plant: &mut Plant, random: &mut Random, nodes: Nodes) -> [usize; 2] {
    let inputs = plant.network.inputs;
    let [x, y, z] = [0; 3].map(|_| plant.edge(random));
    match nodes {
        Nodes::Inputs => {
            let b = random.between(2, inputs);
            [random.between(1, b - 1), b]
        }
        Nodes::InputAndGate => [random.between(1, inputs), plant.add([x, y, z]).node],
        Nodes::Gates => {
            let a = plant.add([x, y, z]);
            plant.pad(random);
            let first = random.pick(&[a, a.inverted_if(true), x]);
            [a.node, plant.add([first, y, z]).node]
        }
        Nodes::DeepGates => {
            let mut below = plant.add([x, y, z]);
            for _ in 0..random.below(3) {
                below = plant.add([y, z, below]);
            }
            let a = plant.add([x, below, y]);
            plant.pad(random);
            [a.node, plant.add([z, y, x]).node]
        }
    }
}

/// Adds up to three gates whose edges often name one of the nodes, in both polarities.
fn add_readers(plant: &mut Plant, random: &mut Random, nodes: &[usize]) {
    for _ in 0..random.below(4) {
        let gate = networks::gate(random, plant.network.nodes());
        plant.network.gates.push(Gate::of(gate.map(|edge| match random.once_in(2) {
            true => Edge { node: random.pick(nodes), inverted: random.once_in(2) },
            false => edge,
        })));
    }
}

/// Adds the form of the shape to the plant, g last, and the fields a and b to its step.
pub fn add_form(plant: &mut Plant, random: &mut Random, shape: Shape) {
    let [a, b] = add_nodes(plant, random, shape.nodes);
    (plant.step.a, plant.step.b) = (a as u16, b as u16);
    add_readers(plant, random, &[a, b]);
    if shape.seat == Seat::IsG {
        networks::fill(random, &mut plant.network, shape.below);
    }
    part(&mut plant.network.gates, a, b);

    let [to_a, to_b] = [a, b].map(|node| Edge { node, inverted: shape.inverted });
    let any = plant.edge(random);
    let third = [to_a, to_a.inverted_if(true), to_b, to_b.inverted_if(true), any][shape.third];
    let mut edges = [to_a, to_b, third];
    random.shuffle(&mut edges);
    let c = plant.add(edges);
    let other_polarity = shape.third % 2 == 0;
    let second = [to_b, any, to_a].map(|edge| edge.inverted_if(other_polarity));
    if shape.seat == Seat::IsG {
        if shape.twice {
            plant.network.gates.push(Gate::of(second));
        }
        return;
    }

    add_readers(plant, random, &[a, b, c.node, c.node]);
    let beside = if shape.twice { plant.add(second) } else { to_b };
    networks::fill(random, &mut plant.network, shape.below);
    let mut edges = match shape.seat {
        Seat::Unread => networks::gate(random, c.node),
        _ => [c, beside, plant.edge(random)].map(|edge| edge.inverted_if(random.once_in(2))),
    };
    random.shuffle(&mut edges);
    plant.add(edges);
}

/// A plant of the shape, in a small table.
fn voter(random: &mut Random, shape: Shape) -> Plant {
    let mut plant = Plant::begun(random, 9, 4);
    add_form(&mut plant, random, shape);
    let readers = random.below(4);
    plant.finish(random, readers);
    plant
}

fn any_voter(random: &mut Random) -> Plant {
    let shape = Shape::of(random.below(Shape::COUNT));
    voter(random, shape)
}

fn accepted(random: &mut Random, turn: usize) -> Request {
    let below = if turn % 24 == 7 { random.between(20, 200) } else { 0 };
    let plant = voter(random, Shape { below, ..Shape::of(turn) });
    let behind = plant.growth() + some_behind(random);
    plant.request(random, behind)
}

/// No pair, pairs of mixed polarity, a pair only above g, a above b, or any one edge of the form changed.
fn near_miss(random: &mut Random, turn: usize) -> Request {
    let mut shape = Shape::of(turn / 5);
    if turn % 5 == 3 {
        shape.nodes = Nodes::DeepGates;
    }
    let mut plant = voter(random, shape);
    let [a, b] = [plant.step.a, plant.step.b].map(usize::from);
    let copied = plant.g() - plant.network.inputs;
    let gates = &mut plant.network.gates;
    match turn % 5 {
        0 => part(&mut gates[..copied], a, b),
        1 => {
            let edges = gates[..copied].iter_mut().map(|gate| &mut gate.edges);
            for gate in edges.filter(|gate| pair(**gate, a, b).is_some()) {
                gate.iter_mut().filter(|edge| edge.node == a).for_each(|edge| edge.inverted = shape.inverted);
                gate.iter_mut().filter(|edge| edge.node == b).for_each(|edge| edge.inverted = !shape.inverted);
            }
        }
        2 => {
            part(&mut gates[..copied], a, b);
            gates.push(Gate::of([b, 0, a].map(|node| Edge { node, inverted: shape.inverted })));
        }
        3 => {}
        _ => plant.spoil(random, turn / 5),
    }
    let behind = plant.growth() + some_behind(random);
    plant.request(random, behind)
}

/// One field just outside its range, and the others as they were.
fn fields(random: &mut Random, turn: usize) -> Request {
    let mut plant = any_voter(random);
    let (inputs, past, g) = (plant.network.inputs as u16, plant.network.nodes() as u16, plant.step.gate);
    let (a, b) = (plant.step.a, plant.step.b);
    let fields = [
        (g, 0, b),
        (g, a, a),
        (g, b, b),
        (g, b, a),
        (g, a, g),
        (b, a, b),
        (g, a, g + 1),
        (g, a, 65535),
        (g, g, g + 1),
        (g, a, 0),
        (inputs, inputs - 2, inputs - 1),
        (past, a, b),
        (65535, a, b),
        (0, a, b),
    ];
    (plant.step.gate, plant.step.a, plant.step.b) = fields[turn % fields.len()];
    let behind = 8 * plant.network.gates.len() * 3;
    plant.request(random, behind)
}

/// A voter's fields under a number that is no rule's, or a rule's whose b is 0.
fn other_number(random: &mut Random, turn: usize) -> Request {
    let mut plant = any_voter(random);
    plant.step.rule = [0, 10, 11, 256 + 9, 65535, 8, 7][turn % 7];
    let behind = plant.growth();
    plant.request(random, behind)
}

/// A step that gives 1,024 gates, or one or two more, and a buffer that is full then, longer, or too short: 10 and 11
/// compete, and at times 9 or 8 comes before them.
fn full_table(random: &mut Random, turn: usize) -> Request {
    let below = random.pick(&[0, 0, 3, 40, 100, 170, 200, 254, 255]);
    let mut plant = Plant::begun(random, 9, 4);
    add_form(&mut plant, random, Shape { below, ..Shape::of(turn) });
    let gates = MOST_GATES + [0, 1, 0, 2][turn % 4] - plant.growth() / 8;
    let more = gates.saturating_sub(plant.network.gates.len());
    let readers = random.below(4).min(more);
    plant.finish(random, readers);
    networks::fill(random, &mut plant.network, gates);
    match turn % 9 {
        5 => part(&mut plant.network.gates, usize::from(plant.step.a), usize::from(plant.step.b)),
        7 => plant.step.a = 0,
        _ => {}
    }
    let growth = plant.growth();
    plant.request(random, [growth, growth, growth - 1, growth + 9, 0][turn / 2 % 5])
}

/// Room for the result to the byte, one to eight bytes too little, much too little, and a little more than enough.
fn room(random: &mut Random, turn: usize) -> Request {
    let plant = any_voter(random);
    let growth = plant.growth();
    let lengths = [growth, growth + 1, growth + 8, 0, growth / 3, growth - 16, growth - 8];
    let behind = if turn % 2 == 0 { growth - turn / 2 % 9 } else { lengths[turn / 2 % lengths.len()] };
    plant.request(random, behind)
}

pub fn kinds() -> Vec<Kind> {
    vec![
        kind("rule 9 accepted", 34, accepted),
        kind("rule 9 near its form", 15, near_miss),
        kind("rule 9 and its fields", 10, fields),
        kind("rule 9 under another number", 3, other_number),
        kind("rule 9 up to 1,024 gates", 8, full_table),
        kind("rule 9 and its room", 11, room),
    ]
}
