//! What probes inside a network show, told from a request and its reply alone.

use crate::answer::Answer;
use crate::random::Random;
use crate::request::Request;
use crate::step::Step;
use crate::table::{read, Edge, Network};
use crate::value::{some_assignments, values};

/// What is wrong with the gates below that of a step, in a reply that was as expected: every step but sweep leaves them as they were.
pub fn lower_fault(request: &Request, answer: &Answer) -> Option<String> {
    let Request::Step(table, Step { rule, gate, .. }) = request else {
        return None;
    };
    let below = 8 * usize::from(*gate).saturating_sub(1);
    let asked = answer.refusal.is_none() && *rule != 8;
    (asked && table.buffer[..below] != answer.bytes[..below])
        .then(|| format!("rule {rule} changes what stood below {gate}"))
}

/// What is wrong with the places in a reply that was as expected: each that is not 0 is an edge to a gate of the table that is left
/// there, with the block that the place's gate had in the first table, and with its value under every assignment that is tried.
pub fn probe_fault(request: &Request, answer: &Answer, random: &mut Random) -> Option<String> {
    let Request::Follow(follow) = request else {
        return None;
    };
    let first = follow.first().ok()?;
    let (buffer, places) = answer.bytes.split_at(follow.table.buffer.len());
    let Ok(left) = read(buffer, answer.numbers[1], None) else {
        return Some("the steps leave no table".to_string());
    };
    let edges = places.chunks_exact(2).map(|place| Edge::of(u16::from_le_bytes([place[0], place[1]])));
    let probes: Vec<(usize, Edge)> =
        (first.inputs + 1..first.nodes()).zip(edges).filter(|probe| probe.1 != Edge::of(0)).collect();
    if let Some((gate, edge)) = probes.iter().find(|(_, edge)| left.gate(edge.node).is_none()) {
        return Some(format!("the place of gate {gate} names node {}, which is no gate", edge.node));
    }
    let block = |network: &Network, gate| network.gate(gate).map(|gate| gate.block);
    if let Some((gate, _)) = probes.iter().find(|(gate, edge)| block(&first, *gate) != block(&left, edge.node)) {
        return Some(format!("the place of gate {gate} names a gate of another block"));
    }
    some_assignments(random, first.inputs).into_iter().find_map(|assignment| {
        let [before, after] = [&first, &left].map(|network| values(network, assignment));
        let wrong = |(gate, edge): &&(usize, Edge)| before[*gate] != (after[edge.node] != edge.inverted);
        let (gate, _) = probes.iter().find(wrong)?;
        Some(format!("the place of gate {gate} has another value under assignment {assignment:#x}"))
    })
}
