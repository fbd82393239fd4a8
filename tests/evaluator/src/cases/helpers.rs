//! Helpers: inverses that are needed again in every way, what is no helper of a node, and out buffers that hold the table of one
//! mode alone.

use super::blocks::two_blocks;
use super::networks;
use super::translations::with_length;
use crate::random::Random;
use crate::request::Request;
use crate::rm3::{translate, Mode};
use crate::table::{Edge, Gate, Network, MOST_OUTPUTS};

/// Where the inverse of a node is needed.
#[derive(Clone, Copy)]
enum Place {
    /// In the plain middle of a gate.
    Middle,
    /// In the second or the third of a gate's edges, behind another inverted one.
    Edge,
    /// In the second and the third, behind another inverted one.
    Twice,
    /// In the second and the third, behind the same.
    Thrice,
    /// By an output.
    Output,
}

/// A first need and a later one.
const PLACES: [[Place; 2]; 12] = [
    [Place::Middle, Place::Middle],
    [Place::Edge, Place::Edge],
    [Place::Middle, Place::Edge],
    [Place::Edge, Place::Middle],
    [Place::Twice, Place::Thrice],
    [Place::Middle, Place::Output],
    [Place::Edge, Place::Output],
    [Place::Output, Place::Output],
    [Place::Thrice, Place::Middle],
    [Place::Middle, Place::Twice],
    [Place::Edge, Place::Thrice],
    [Place::Twice, Place::Output],
];

fn inverted(node: usize) -> Edge {
    Edge { node, inverted: true }
}

/// A gate, of nodes below `bound`, that needs the inverse of the node in that place; none where it is an output's.
fn needing(random: &mut Random, bound: usize, node: usize, place: Place) -> Option<Gate> {
    let [one, other] = [0; 2].map(|_| random.between(1, bound - 1));
    let any = networks::edge(random, bound);
    let not_inverted = Edge { inverted: any.node == 0 && any.inverted, ..any };
    Some(Gate::of(match place {
        Place::Middle => [Edge::plain(one), Edge::plain(node), Edge::plain(other)],
        Place::Edge => random.pick(&[
            [inverted(one), inverted(node), any],
            [inverted(one), any, inverted(node)],
            [not_inverted, inverted(one), inverted(node)],
        ]),
        Place::Twice => [inverted(one), inverted(node), inverted(node)],
        Place::Thrice => [inverted(node); 3],
        Place::Output => return None,
    }))
}

/// Adds random gates, some or none.
fn pad(random: &mut Random, network: &mut Network) {
    let more = random.pick(&[0, 0, 1, 3]);
    let gates = network.gates.len() + more;
    networks::fill(random, network, gates);
}

/// A network with some inputs and gates, whose blocks are dealt, and a node of it.
fn begun(random: &mut Random) -> (Network, usize) {
    let (inputs, gates) = (random.between(1, 4), random.below(4));
    let network = networks::sized(random, inputs, gates, 0);
    let node = random.between(1, network.nodes() - 1);
    (network, node)
}

/// Outputs of any edges, with these edges among them in this order.
fn name(random: &mut Random, network: &mut Network, edges: &[Edge]) {
    let bound = network.nodes();
    let most = random.pick(&[4, 6, MOST_OUTPUTS]);
    let wanted = random.between(edges.len().max(1), most);
    let mut places: Vec<usize> = (0..wanted).collect();
    random.shuffle(&mut places);
    places.truncate(edges.len());
    places.sort_unstable();
    network.outputs = (0..wanted).map(|_| networks::edge(random, bound)).collect();
    places.into_iter().zip(edges).for_each(|(place, &edge)| network.outputs[place] = edge);
}

/// A network that needs the inverse of a node in two places, in gates of one block or of two; every other time with other gates
/// around them.
pub fn needed_again(random: &mut Random, turn: usize) -> Network {
    let (mut network, node) = begun(random);
    let places = PLACES[turn % PLACES.len()];
    let blocks = match turn / PLACES.len() % 3 {
        0 => [random.pick(&[0, 1, 255]); 2],
        _ => two_blocks(random, turn / PLACES.len()),
    };
    let mut outputs = Vec::new();
    for (place, block) in places.into_iter().zip(blocks) {
        if turn % 2 == 1 {
            pad(random, &mut network);
        }
        let bound = network.nodes();
        match needing(random, bound, node, place) {
            Some(gate) => network.gates.push(Gate { block, ..gate }),
            None => outputs.push(inverted(node)),
        }
    }
    if turn % 2 == 1 {
        pad(random, &mut network);
    }
    name(random, &mut network, &outputs);
    network
}

/// What may be taken for a helper and is none, before the first need of a node's inverse or behind it: a gate whose own operation is
/// (0, node, 1), and a gate that has the node inverted in its middle, beside the inverse of another.
pub fn no_helper(random: &mut Random, turn: usize) -> Network {
    let (mut network, node) = begun(random);
    let [no, yes] = [Edge::of(0), Edge::of(1)];
    let place = [Place::Middle, Place::Edge, Place::Output][turn / 4 % 3];
    let other = random.between(1, network.nodes() - 1);
    let like = match turn % 2 {
        0 => [[inverted(node), no, yes], [no, inverted(node), yes], [no, yes, inverted(node)]][random.below(3)],
        _ => [inverted(node), inverted(other), networks::edge(random, other + 1)],
    };
    if turn / 2 % 2 == 0 {
        network.gates.push(Gate::of(like));
    }
    let bound = network.nodes();
    network.gates.extend(needing(random, bound, node, place));
    if turn / 2 % 2 == 1 {
        network.gates.push(Gate::of(like));
    }
    networks::deal_blocks(random, &mut network);
    name(random, &mut network, &[inverted(node)]);
    network
}

/// An out buffer that is exactly full, one byte short or one too long in one of the modes.
pub fn room_between(random: &mut Random, mode: Mode, turn: usize) -> Request {
    let network = needed_again(random, turn / 6);
    let [once, anew] = [Mode::Once, Mode::Anew].map(|mode| translate(&network, mode).bytes().len());
    let length = [once, once - 1, anew - 1, anew, once + 1, anew + 1][turn % 6];
    with_length(random, mode, &network, length)
}
