//! Words and totals: every number of inputs, first assignments and places at their borders, and outputs that are true past 2^n.

use super::damage::{block_not_zero, disorder, edge_at_border, field_not_zero, Damage};
use super::deck::{kind, Kind};
use super::{lent, networks};
use crate::at_once::{Asked, AtOnce, MOST_AT_ONCE, WORD};
use crate::random::Random;
use crate::request::{Request, Table};
use crate::table::{census, record_bytes, Edge, Gate, Network, MOST_GATES, MOST_OUTPUTS};

/// The most places that a request may lend.
const MOST_PLACES: usize = 8192;

/// The request with so many places, in which stands anything.
fn request(random: &mut Random, table: Table, asked: Asked, count: usize) -> Request {
    let places = (0..count).map(|_| random.bits()).collect();
    Request::AtOnce(AtOnce { table, asked, places })
}

/// The request on a network's table, with so many places more than there are outputs.
fn with_more(random: &mut Random, network: &Network, asked: Asked, more: usize) -> Request {
    let behind = random.below(20);
    let table = lent(random, network, behind);
    request(random, table, asked, network.outputs.len() + more)
}

/// The same with a place for each output, or some more.
fn enough(random: &mut Random, network: &Network, asked: Asked) -> Request {
    let more = random.pick(&[0, 0, 1, 9, 40]);
    with_more(random, network, asked, more)
}

/// A request on any table, sound or not, and places that may be too few.
pub fn any_places(random: &mut Random, table: Table, asked: Asked) -> Request {
    let [_, _, outputs] = census(&table.records());
    let count = random.pick(&[outputs, outputs, outputs + 1, outputs + 9, outputs.saturating_sub(1), 0]);
    request(random, table, asked, count.min(MOST_PLACES))
}

/// A first assignment that is often one of a small table.
pub fn any_first(random: &mut Random) -> u32 {
    let bits = random.bits() as u32;
    random.pick(&[0, 0, 0, WORD, bits & 0x7FC0, bits & 0xFF, bits])
}

/// A first assignment of so many inputs: 0, the last one, or any.
fn some_first(random: &mut Random, inputs: usize) -> u32 {
    let words = (1 << inputs) / WORD as usize;
    let any = random.below(words.max(1));
    random.pick(&[0, words.saturating_sub(1), any, any]) as u32 * WORD
}

/// A network of so many inputs, most of which some output hangs on.
fn network(random: &mut Random, inputs: usize) -> Network {
    let (gates, outputs) = (random.below(14), random.between(1, 7));
    let mut network = networks::sized(random, inputs, gates, outputs);
    for place in 0..outputs.min(inputs) {
        if random.once_in(3) {
            network.outputs[place] = Edge { node: random.between(1, inputs), inverted: random.once_in(2) };
        }
    }
    if random.once_in(6) {
        let more = random.between(1, MOST_OUTPUTS - outputs);
        let nodes = network.nodes();
        network.outputs.extend((0..more).map(|_| networks::edge(random, nodes)));
    }
    network
}

fn of_each_number(random: &mut Random, turn: usize) -> Network {
    network(random, turn % (MOST_AT_ONCE + 1))
}

fn words_of_each_number(random: &mut Random, turn: usize) -> Request {
    let network = of_each_number(random, turn);
    let first = some_first(random, network.inputs);
    enough(random, &network, Asked::Words(first))
}

fn totals_of_each_number(random: &mut Random, turn: usize) -> Request {
    let network = of_each_number(random, turn);
    enough(random, &network, Asked::Totals)
}

/// The words of one table one after another: so many tables, and all words of each.
fn words_in_turn(random: &mut Random, turn: usize) -> Request {
    const INPUTS: usize = 9;
    let words = (1 << INPUTS) / WORD as usize;
    let network = network(&mut Random::new((turn / words) as u64), INPUTS);
    enough(random, &network, Asked::Words((turn % words) as u32 * WORD))
}

/// Numbers of inputs with first assignments: 64 and 2^n, and what stands beside them.
const BORDERS: [(usize, u32); 24] = [
    (0, 1),
    (0, 64),
    (1, 2),
    (4, 16),
    (5, 0),
    (5, 31),
    (5, 32),
    (5, 64),
    (6, 0),
    (6, 32),
    (6, 63),
    (6, 64),
    (7, 63),
    (7, 64),
    (7, 65),
    (7, 128),
    (8, 192),
    (15, 1 << 15),
    (16, 65_472),
    (16, 65_535),
    (16, 1 << 16),
    (16, 1 << 31),
    (16, u32::MAX - 63),
    (11, 1 << 16),
];

/// First assignments at the borders, and by turns others of which only some bits are right.
fn first_at_the_border(random: &mut Random, turn: usize) -> Request {
    let (mut inputs, mut first) = BORDERS[turn % BORDERS.len()];
    if turn / BORDERS.len() % 2 == 1 {
        inputs = random.below(MOST_AT_ONCE + 1);
        let (past, bits) = (1 << inputs, random.bits() as u32);
        let low = bits % past;
        first =
            random.pick(&[low, past + WORD, low / WORD * WORD + past, past / 2, bits, bits / WORD * WORD, u32::MAX]);
    }
    let network = network(random, inputs);
    enough(random, &network, Asked::Words(first))
}

/// A first assignment with a certain input among the true ones, and outputs that hang on that input: by itself and through a gate.
fn first_with_each_bit(random: &mut Random, turn: usize) -> Request {
    let input = 7 + turn % (MOST_AT_ONCE - 6);
    let inputs = random.between(input, MOST_AT_ONCE);
    let mut network = network(random, inputs);
    let named = Edge { node: input, inverted: random.once_in(2) };
    let others = [0; 2].map(|_| networks::edge(random, inputs + 1));
    network.gates.push(Gate::of([others[0], named, others[1]]));
    network.outputs.push(Edge::plain(network.nodes() - 1));
    network.outputs.truncate(MOST_OUTPUTS);
    network.outputs[0] = named;
    let rest = some_first(random, inputs);
    let first = if random.once_in(2) { 0 } else { rest };
    enough(random, &network, Asked::Words(first | 1 << (input - 1)))
}

/// An assignment that is a first one of 17 inputs and more, or by turns one that is none.
fn of_many(turn: usize) -> u32 {
    let firsts = [0, 1, WORD, WORD - 1, 1 << 16, u32::MAX, 0, WORD + 1];
    firsts[turn % firsts.len()]
}

/// Too many inputs, by turns with too few places.
fn too_many_inputs(random: &mut Random, turn: usize, asked: Asked) -> Request {
    let inputs = [17, 18, 32, 17, 24][turn % 5];
    let network = network(random, inputs);
    let table = lent(random, &network, 8);
    let outputs = network.outputs.len();
    request(random, table, asked, [outputs, outputs + 3, outputs - 1, 0][turn / 2 % 4])
}

/// Tables that are refused by 2, 4 or 5, or have too few inputs for it, and everything else is wrong as well.
fn refused_and_more(random: &mut Random, turn: usize, asked: Asked) -> Request {
    let inputs = [17, 32, 3, 18, 16][turn % 5];
    let outputs = random.between(1, 6);
    let mut records = networks::sized(random, inputs, 4, outputs).records();
    let damages: [Damage; 4] = [field_not_zero, edge_at_border, block_not_zero, disorder];
    damages[turn % 4](random, turn / 4, &mut records);
    let buffer = record_bytes(&records);
    let table = Table { used: buffer.len() as u32, buffer };
    request(random, table, asked, [0, outputs, outputs - 1][turn % 3])
}

/// Places exactly full, one too few, none, and more: of 32 outputs and of fewer, but two.
fn places(random: &mut Random, turn: usize, asked: fn(&mut Random, usize, usize) -> Asked) -> Request {
    let inputs = [3, 6, 0, 9, 5, 12][turn / 6 % 6];
    let mut network = network(random, inputs);
    let wanted = if turn % 5 == 0 { MOST_OUTPUTS } else { 2 };
    let nodes = network.nodes();
    while network.outputs.len() < wanted {
        network.outputs.push(networks::edge(random, nodes));
    }
    let outputs = network.outputs.len();
    let count = [outputs, outputs - 1, 0, outputs + 1, outputs - 1, outputs + 30][turn % 6];
    let table = lent(random, &network, 3);
    let asked = asked(random, turn, inputs);
    request(random, table, asked, count)
}

/// A first assignment, or by turns, where there is a place too few as well, none.
fn good_or_bad(random: &mut Random, turn: usize, inputs: usize) -> Asked {
    let first = some_first(random, inputs);
    let bad = random.pick(&[first + 1, 1 << inputs, 63]);
    Asked::Words(if turn % 6 == 4 || turn % 12 == 9 { bad } else { first })
}

/// Fewer than six inputs and outputs that are true where all inputs are false: an inverted output on an input, a gate or the
/// constant, or a plain one on a gate with inverted edges, which may stand on others.
fn true_of_none(random: &mut Random, turn: usize) -> Network {
    let inputs = turn % 6;
    let mut network = network(random, inputs);
    let inverted = |node| Edge { node, inverted: true };
    let bound = inputs + 1;
    let edges = [0; 3].map(|_| inverted(random.below(bound)));
    network.gates.push(Gate::of(edges));
    let above = network.nodes() - 1;
    let any = networks::edge(random, above);
    network.gates.push(Gate::of([Edge::plain(above), any, inverted(0)]));
    let first = match turn / 6 % 4 {
        0 => inverted(random.below(bound)),
        1 => Edge::plain(above),
        2 => Edge::plain(above + 1),
        _ => inverted(0),
    };
    let place = random.below(network.outputs.len());
    network.outputs[place] = first;
    network
}

/// Outputs of which most are always true, never true or as often true as not.
fn at_the_ends(random: &mut Random, turn: usize) -> Network {
    let inputs = [16, 6, 0, 5, 10, 1, 7][turn % 7];
    let mut network = network(random, inputs);
    network.outputs = vec![Edge::of(1), Edge::of(0), Edge::plain(inputs), Edge { node: inputs, inverted: true }];
    random.shuffle(&mut network.outputs);
    network
}

/// Many gates, each of which some output may hang on.
fn large(random: &mut Random, inputs: usize, gates: usize) -> Network {
    networks::chain(random, inputs, gates, MOST_OUTPUTS)
}

fn large_words(random: &mut Random, turn: usize) -> Request {
    let inputs = [16, 5, 11][turn % 3];
    let network = large(random, inputs, [MOST_GATES, 300][turn % 2]);
    let first = some_first(random, inputs);
    enough(random, &network, Asked::Words(first))
}

fn large_totals(random: &mut Random, turn: usize) -> Request {
    let (inputs, gates) = [(10, MOST_GATES), (16, 200), (5, 500)][turn % 3];
    let network = large(random, inputs, gates);
    enough(random, &network, Asked::Totals)
}

fn most_places(random: &mut Random, turn: usize, asked: Asked) -> Request {
    let network = network(random, turn % 7);
    let more = MOST_PLACES - network.outputs.len();
    with_more(random, &network, asked, more)
}

pub fn word_kinds() -> Vec<Kind> {
    let of_first = |make: fn(&mut Random, usize, Asked) -> Request| {
        move |random: &mut Random, turn: usize| make(random, turn, Asked::Words(of_many(turn)))
    };
    let past = |random: &mut Random, turn: usize| {
        let network = true_of_none(random, turn);
        enough(random, &network, Asked::Words(0))
    };
    vec![
        kind("words of each number of inputs", 17, words_of_each_number),
        kind("words of a table one after another", 8, words_in_turn),
        kind("first assignment at the border", 24, first_at_the_border),
        kind("first assignment with each bit", 12, first_with_each_bit),
        kind("words of too many inputs", 8, of_first(too_many_inputs)),
        kind("words of a refused table", 8, of_first(refused_and_more)),
        kind("words and their places", 14, |random, turn| places(random, turn, good_or_bad)),
        kind("words that are true past 2^n", 12, past),
        kind("words of a large table", 2, large_words),
        kind("8,192 places of words", 0, |random, turn| most_places(random, turn, Asked::Words(0))),
    ]
}

pub fn total_kinds() -> Vec<Kind> {
    let of_network = |make: fn(&mut Random, usize) -> Network| {
        move |random: &mut Random, turn: usize| {
            let network = make(random, turn);
            enough(random, &network, Asked::Totals)
        }
    };
    let totals = |make: fn(&mut Random, usize, Asked) -> Request| {
        move |random: &mut Random, turn: usize| make(random, turn, Asked::Totals)
    };
    vec![
        kind("totals of each number of inputs", 17, totals_of_each_number),
        kind("totals at their ends", 7, of_network(at_the_ends)),
        kind("totals of too many inputs", 8, totals(too_many_inputs)),
        kind("totals of a refused table", 8, totals(refused_and_more)),
        kind("totals and their places", 12, |random, turn| places(random, turn, |_, _, _| Asked::Totals)),
        kind("totals that are true past 2^n", 12, of_network(true_of_none)),
        kind("totals of a large table", 0, large_totals),
        kind("8,192 places of totals", 0, totals(most_places)),
    ]
}
