//! RM3: all 27 patterns, out buffers to the byte, and the largest translations.

use super::deck::{kind, Kind};
use super::{depths, helpers, lent, networks};
use crate::random::Random;
use crate::request::Request;
use crate::rm3::{translate, Mode};
use crate::table::{Edge, Gate, Network, MOST_GATES, MOST_INPUTS, MOST_OUTPUTS};

/// The network's RM3 request in a mode, with an out buffer of `room` bytes more (or fewer) than its RM3 table in that mode.
fn request(random: &mut Random, mode: Mode, network: &Network, room: isize) -> Request {
    let length = translate(network, mode).bytes().len() as isize + room;
    with_length(random, mode, network, length.max(0) as usize)
}

/// The same with an out buffer of this length.
pub fn with_length(random: &mut Random, mode: Mode, network: &Network, length: usize) -> Request {
    let behind = random.below(20);
    let table = lent(random, network, behind);
    Request::Rm3(mode, table, random.bytes(length))
}

pub fn with_some_room(random: &mut Random, mode: Mode, network: &Network) -> Request {
    let room = random.pick(&[0, 0, 1, 9, 40]);
    request(random, mode, network, room)
}

/// Adds a gate whose edges have the classes of this pattern (0 to 26), on any nodes.
fn add_pattern(random: &mut Random, network: &mut Network, pattern: usize) {
    let bound = network.nodes();
    let gate = [pattern / 9, pattern / 3, pattern].map(|class| match class % 3 {
        0 => Edge { node: 0, inverted: random.once_in(2) },
        class => Edge { node: random.between(1, bound - 1), inverted: class == 2 },
    });
    network.gates.push(Gate::of(gate));
}

fn one_pattern(random: &mut Random, turn: usize) -> Network {
    let (inputs, gates) = (random.between(1, 4), random.below(3));
    let mut network = networks::sized(random, inputs, gates, 0);
    add_pattern(random, &mut network, turn % 27);
    let last = network.nodes() - 1;
    network.outputs = vec![Edge { node: last, inverted: random.once_in(3) }];
    networks::deal_blocks(random, &mut network);
    network
}

/// Each pattern once, in a mixed order, with an output on each gate.
fn all_patterns(random: &mut Random, _turn: usize) -> Network {
    let inputs = random.between(1, 6);
    let mut network = networks::sized(random, inputs, 0, 0);
    let mut patterns: Vec<usize> = (0..27).collect();
    random.shuffle(&mut patterns);
    patterns.into_iter().for_each(|pattern| add_pattern(random, &mut network, pattern));
    let nodes = inputs + 1..network.nodes();
    network.outputs = nodes.map(|node| Edge { node, inverted: random.once_in(4) }).collect();
    networks::deal_blocks(random, &mut network);
    network
}

/// Out buffers exactly full, one byte or one record short, empty, and larger.
fn room(random: &mut Random, mode: Mode, turn: usize) -> Request {
    let network = networks::small(random);
    request(random, mode, &network, [0, -1, 1, -8, 7, -9, 8, -100_000, 300][turn % 9])
}

/// Outputs on the same few nodes, constants among them, plain and inverted.
fn outputs(random: &mut Random, _turn: usize) -> Network {
    let inputs = random.between(0, 2);
    let mut network = networks::sized(random, inputs, 2, 0);
    let count = random.between(2, MOST_OUTPUTS);
    let nodes = network.nodes();
    network.outputs = (0..count).map(|_| Edge { node: random.below(nodes), inverted: random.once_in(2) }).collect();
    network
}

/// 1,024 gates of three inverted edges and 32 inverted outputs: three operations a gate and one an output.
fn largest(random: &mut Random, mode: Mode, turn: usize) -> Request {
    let mut network = networks::sized(random, MOST_INPUTS, 0, 0);
    (0..MOST_GATES).for_each(|_| add_pattern(random, &mut network, 26));
    let nodes = network.nodes();
    let inverted = |node| Edge { node, inverted: true };
    network.outputs = (0..MOST_OUTPUTS).map(|_| inverted(random.between(1, nodes - 1))).collect();
    networks::deal_blocks(random, &mut network);
    request(random, mode, &network, [0, -1, 500][turn % 3])
}

/// As many operations as there can be where helpers are reused: a gate needs the inverse of a node that no gate below it needs,
/// and the outputs need those that are left.
fn every_inverse(random: &mut Random, mode: Mode, turn: usize) -> Request {
    let mut network = networks::sized(random, MOST_INPUTS, 0, 0);
    for node in 1..=MOST_GATES {
        let bound = network.nodes();
        let [first, third] = [0; 2].map(|_| Edge::plain(random.between(1, bound - 1)));
        network.gates.push(Gate::of([first, Edge::plain(node), third]));
    }
    network.outputs = (MOST_GATES + 1..network.nodes()).map(|node| Edge { node, inverted: true }).collect();
    networks::deal_blocks(random, &mut network);
    request(random, mode, &network, [0, -1, 500][turn % 3])
}

/// The kinds of one mode.
pub fn kinds(mode: Mode) -> Vec<Kind> {
    let ask = move |make: fn(&mut Random, usize) -> Network| {
        move |random: &mut Random, turn: usize| {
            let network = make(random, turn);
            with_some_room(random, mode, &network)
        }
    };
    let sized = move |make: fn(&mut Random, Mode, usize) -> Request| {
        move |random: &mut Random, turn: usize| make(random, mode, turn)
    };
    vec![
        kind("one RM3 pattern", 14, ask(one_pattern)),
        kind("all RM3 patterns", 5, ask(all_patterns)),
        kind("RM3 table and its room", 12, sized(room)),
        kind("RM3 outputs", 5, ask(outputs)),
        kind("largest RM3 table", 1, sized(largest)),
        kind("RM3 table with every inverse", 1, sized(every_inverse)),
        kind("RM3 of any table", 4, ask(|random, _| networks::any(random))),
        kind("deepest RM3 table", 3, ask(depths::deepest_rm3)),
        kind("an inverse that is needed again", 16, ask(helpers::needed_again)),
        kind("an inverse and what is no helper of it", 6, ask(helpers::no_helper)),
        kind("RM3 room between the modes", 12, sized(helpers::room_between)),
    ]
}
