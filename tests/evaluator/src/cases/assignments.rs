//! Assignments at the border of a table's inputs.

use super::deck::{kind, Kind};
use super::{lent, networks};
use crate::random::Random;
use crate::request::{Request, Table};
use crate::table::Network;

/// The bits that an assignment of a table with `inputs` inputs may have.
fn allowed(inputs: usize) -> u32 {
    ((1u64 << inputs) - 1) as u32
}

/// A network whose number of inputs is among the given ones.
fn network(random: &mut Random, inputs: &[usize]) -> Network {
    let (inputs, gates) = (random.pick(inputs), random.below(40));
    let outputs = random.between(1, 32);
    networks::sized(random, inputs, gates, outputs)
}

/// Five kinds, for the plain call or for the one through a reading.
pub fn kinds(request: fn(Table, u32) -> Request) -> Vec<Kind> {
    let on = move |inputs: &'static [usize], choose: fn(&mut Random, usize) -> u32| {
        move |random: &mut Random, _turn: usize| {
            let network = network(random, inputs);
            let behind = random.below(20);
            let table = lent(random, &network, behind);
            request(table, choose(random, network.inputs))
        }
    };
    let inside = |random: &mut Random, inputs: usize| random.bits() as u32 & allowed(inputs);
    let at_n = |random: &mut Random, inputs: usize| {
        let low = random.bits() as u32 & allowed(inputs);
        low | 1 << inputs
    };
    let above = |random: &mut Random, inputs: usize| {
        let low = random.bits() as u32 & allowed(inputs);
        low | 1 << random.between(inputs, 31)
    };
    vec![
        kind("assignment inside", 8, on(&[1, 2, 3, 4, 5, 6, 8, 15, 16, 17, 31, 32], inside)),
        kind("assignment bit at position n", 4, on(&[0, 1, 2, 7, 8, 15, 16, 30, 31], at_n)),
        kind("assignment bit above position n", 4, on(&[0, 1, 2, 7, 8, 15, 16, 30, 31], above)),
        kind("32 inputs, many bits", 3, on(&[32], |random, _| random.pick(&[u32::MAX, 1 << 31, 0x8000_0001]))),
        kind("no inputs", 2, on(&[0], |random, _| random.pick(&[0, 0, 1, 1 << 31, u32::MAX]))),
    ]
}
