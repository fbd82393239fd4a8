//! Blocks: shares within a block and across two, steps at a gate that has a block for itself, and numbers of rules with a high
//! byte.

use super::deck::{kind, Kind};
use super::plant::{plant, Plant};
use super::scripts::{started, Draft};
use super::steps::{any_rule, some_behind, RULES};
use crate::random::Random;
use crate::request::Request;

/// Two unlike blocks: of 0, 1 and 255 each beside each, or two that differ in one bit.
pub fn two_blocks(random: &mut Random, turn: usize) -> [u8; 2] {
    let any = random.bits() as u8;
    let pairs = [[0, 1], [1, 0], [any, any ^ 1 << (turn / 7 % 8)], [0, 255], [255, 0], [1, 255], [255, 1]];
    pairs[turn % pairs.len()]
}

/// Share of three gates with the same edges: the lowest is in another block than g while the next is in g's; or the lowest is in
/// g's block and the next, which is named every other time then, in another.
fn share(random: &mut Random, turn: usize) -> Request {
    let mut plant = Plant::begun(random, 7, 5);
    let edges = [0; 3].map(|_| plant.edge(random));
    let nodes = [0; 3].map(|_| {
        plant.pad(random);
        plant.add(edges).node
    });
    let [low, next, g] = nodes;
    plant.step.a = if turn % 3 == 2 { next } else { low } as u16;
    let readers = random.below(4);
    plant.finish(random, readers);
    let [one, other] = two_blocks(random, turn / 3);
    let blocks = if turn % 3 == 0 { [other, one, one] } else { [one, other, one] };
    [low, next, g].into_iter().zip(blocks).for_each(|(node, block)| plant.gate_mut(node).block = block);
    let behind = some_behind(random);
    plant.request(random, behind)
}

/// Every rule at a gate whose block no other gate has, save the one with which it is shared.
fn alone(random: &mut Random, turn: usize) -> Request {
    let mut plant = plant(random, any_rule(turn), None);
    let [own, other] = two_blocks(random, turn / RULES);
    for gate in &mut plant.network.gates {
        gate.block = random.pick(&[other, !own]);
    }
    plant.gate_mut(plant.g()).block = own;
    if plant.step.rule == 7 {
        plant.gate_mut(usize::from(plant.step.a)).block = own;
    }
    let behind = plant.growth() + some_behind(random);
    plant.request(random, behind)
}

/// A step that is accepted, with a high byte in its rule's number: rules have no blocks.
fn high_byte(random: &mut Random, turn: usize) -> Request {
    let mut plant = plant(random, any_rule(turn), None);
    plant.step.rule += 256 * [1, 255, 2, 128][turn / RULES % 4];
    let behind = plant.growth();
    plant.request(random, behind)
}

/// A script that is stopped by share across two blocks, or, in one, is not: first edges are exchanged, and twins stay twins.
fn script_of_share(random: &mut Random, turn: usize) -> Request {
    let mut plant = plant(random, 7, None);
    let [one, other] = two_blocks(random, turn / 2);
    let (g, a) = (plant.step.gate, plant.step.a);
    plant.gate_mut(usize::from(a)).block = one;
    plant.gate_mut(usize::from(g)).block = if turn % 2 == 0 { other } else { one };
    let behind = random.below(20);
    let mut draft = Draft::new(random, plant.network, behind);
    draft.script = vec![[1, g, 2, 0], [1, a, 2, 0], [7, g, a, 0], [8, 0, 0, 0]];
    draft.request()
}

/// A script with steps of which one has a high byte in its rule's number.
fn script_of_high_byte(random: &mut Random, turn: usize) -> Request {
    let mut draft = started(random);
    draft.grow_some(random, 5);
    if let Some(step) = draft.fitting(random, any_rule(turn)) {
        let mut fields = step.fields();
        fields[0] += 256 * random.pick(&[1, 255]);
        draft.script.push(fields);
    }
    draft.grow_some(random, 3);
    draft.request()
}

pub fn step_kinds() -> Vec<Kind> {
    vec![
        kind("share and blocks", 12, share),
        kind("a gate that has a block for itself", 14, alone),
        kind("a rule's number with a high byte", 12, high_byte),
    ]
}

pub fn script_kinds() -> Vec<Kind> {
    vec![
        kind("script that shares across blocks", 4, script_of_share),
        kind("script with a high byte in a rule's number", 3, script_of_high_byte),
    ]
}
