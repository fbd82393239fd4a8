//! The catalogue of the functions of three inputs. Which network it has for a function is left to it; so the evaluator finds by itself
//! how few gates each function needs, and judges the networks that come back by what is said of them.

use crate::answer::Answer;
use crate::request::Request;
use crate::step::{apply, Step};
use crate::table::{read, Edge, Gate, Network, Refusal};
use crate::value::outputs;
use std::collections::HashMap;
use std::sync::OnceLock;

/// How many functions there are. Bit k of a function's number is its value under assignment k.
pub const FUNCTIONS: usize = 256;

/// The most gates that a network of the catalogue may have.
const MOST_GATES: usize = 7;

/// Node 0 and the three inputs, as the numbers of their functions.
const FIRST_NODES: [u8; 4] = [0x00, 0xaa, 0xcc, 0xf0];

/// The search for the smallest networks: gates one after another, and what was found.
struct Search {
    nodes: Vec<u8>,
    gates: Vec<Gate>,
    found: Vec<Option<Network>>,
}

impl Search {
    /// The network whose output names the node, and the one whose output is its inverse, where there was none of that function.
    fn note(&mut self, node: usize) {
        for inverted in [false, true] {
            let function = if inverted { !self.nodes[node] } else { self.nodes[node] };
            let gates = &self.gates;
            self.found[usize::from(function)].get_or_insert_with(|| Network {
                inputs: 3,
                gates: gates.clone(),
                outputs: vec![Edge { node, inverted }],
            });
        }
    }

    /// Adds so many gates in every way, and notes the last of them. A gate that reads one node twice is worth an edge, and one whose
    /// three edges are inverted is the inverse of one whose edges are not; neither makes a network smaller.
    fn add(&mut self, more: usize) {
        let new = self.nodes.len();
        if more == 0 {
            return self.note(new - 1);
        }
        for (a, b, c) in (2..new).flat_map(|c| (1..c).flat_map(move |b| (0..b).map(move |a| (a, b, c)))) {
            for inverted in [[false, false], [false, true], [true, false], [true, true]] {
                let edges =
                    [Edge::plain(a), Edge::plain(b).inverted_if(inverted[0]), Edge::plain(c).inverted_if(inverted[1])];
                let [x, y, z] = edges.map(|edge| self.nodes[edge.node] ^ if edge.inverted { 0xff } else { 0 });
                self.nodes.push(x & y | x & z | y & z);
                self.gates.push(Gate::of(edges));
                self.add(more - 1);
                self.nodes.pop();
                self.gates.pop();
            }
        }
    }
}

/// A network with as few gates as there can be, for each function: all networks of no gate are tried, then all of one gate, and so on.
fn smallest() -> &'static [Network] {
    static FOUND: OnceLock<Vec<Network>> = OnceLock::new();
    FOUND.get_or_init(|| {
        let mut search = Search { nodes: FIRST_NODES.to_vec(), gates: Vec::new(), found: vec![None; FUNCTIONS] };
        (0..FIRST_NODES.len()).for_each(|node| search.note(node));
        for gates in 1..=MOST_GATES {
            if search.found.contains(&None) {
                search.add(gates);
            }
        }
        search.found.into_iter().flatten().collect()
    })
}

/// The evaluator's own network of a function, or the refusal of a number that is no function's.
pub fn network(number: u32) -> Result<&'static Network, Refusal> {
    smallest().get(number as usize).ok_or(Refusal::plain(17))
}

/// What is wrong with these bytes as the network of the function of this number.
pub fn fault(number: u32, bytes: &[u8]) -> Option<String> {
    let network = match read(bytes, bytes.len() as u32, None) {
        Ok(network) => network,
        Err(Refusal { number, record, edge }) => return Some(format!("is refused {number} at {record} {edge}")),
    };
    let [inputs, gates, outputs] = network.counts();
    if [inputs, outputs] != [3, 1] {
        return Some(format!("has {inputs} inputs and {outputs} outputs"));
    }
    if gates as usize > MOST_GATES {
        return Some(format!("has {gates} gates"));
    }
    if network.gates.iter().any(|gate| gate.block != 0) {
        return Some("has a gate of another block than 0".to_string());
    }
    if apply(&network, Step::of([8, 0, 0, 0]), bytes.len()).as_ref() != Ok(&network) {
        return Some("has a gate that its output does not reach".to_string());
    }
    let worth = function(&network);
    (worth != number).then(|| format!("computes {worth}"))
}

/// The number of the function that the first output of a network of three inputs computes.
pub fn function(network: &Network) -> u32 {
    (0..8).map(|assignment| (outputs(network, assignment) & 1) << assignment).sum()
}

/// The networks that a program has given, by number: it must give the same one always.
#[derive(Default)]
pub struct Given(HashMap<u32, Vec<u8>>);

impl Given {
    /// What a reply must be, told from the own answer, in which stands a network as small as any. In its place a program may give
    /// another one of that function and size, and has then to give it whenever it is asked. What is wrong with one that it gives is
    /// told beside.
    pub fn expected(&mut self, request: &Request, mut own: Answer, reply: &[u8]) -> (Answer, Option<String>) {
        let Request::Catalogue(number, out) = request else {
            return (own, None);
        };
        let head = reply.len() - out.len();
        if own.refusal.is_some() || own.bytes()[..head] != reply[..head] {
            return (own, None);
        }
        let length = own.numbers[0] as usize;
        let network = &reply[head..head + length];
        if let Some(fault) = fault(*number, network) {
            return (own, Some(format!("the network of {number} {fault}")));
        }
        let given = self.0.entry(*number).or_insert_with(|| network.to_vec());
        own.bytes[..length].copy_from_slice(given);
        (own, None)
    }
}
