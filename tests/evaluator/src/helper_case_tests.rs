//! That a program with another opinion of helpers is found out, in both modes of the translation.

use crate::answer::{answer, Answer};
use crate::helper_tests::merged;
use crate::needs::{made, needs, By, Need};
use crate::request::Request;
use crate::rm3::{class, translate, Class, Mode, Operation, Rm3};
use crate::table::{Network, Refusal};
use crate::tests::against;

/// The answer of a program that makes this RM3 network of an accepted table, in the mode that is given.
fn made_so(request: &Request, own: Answer, wanted: Mode, make: impl Fn(&Network) -> Rm3) -> Answer {
    let Request::Rm3(mode, table, out) = request else {
        return own;
    };
    let (true, Ok(network)) = (*mode == wanted, table.network()) else {
        return own;
    };
    let (bytes, mut out) = (make(&network).bytes(), out.clone());
    match out.get_mut(..bytes.len()) {
        Some(place) => {
            place.copy_from_slice(&bytes);
            Answer { refusal: None, numbers: vec![bytes.len() as u32], bytes: out }
        }
        None => Answer { refusal: Some(Refusal::plain(11)), numbers: vec![0], bytes: out },
    }
}

/// The translation that makes helpers once, with other blocks for them, told from the needs that they are made for.
fn with_blocks(network: &Network, block: fn(&Network, &Need) -> u8) -> Rm3 {
    let mut rm3 = translate(network, Mode::Once);
    let made = made(network, Mode::Once);
    let (mut left, mut gates) = (made.iter().peekable(), 0);
    for operation in &mut rm3.operations {
        let own = |need: &&Need| if need.by == By::Output { gates == network.gates.len() } else { gates == need.at };
        match left.next_if(own) {
            Some(need) => operation.block = block(network, need),
            None => gates += 1,
        }
    }
    rm3
}

/// The translation that makes helpers once, with one operation for all that read as the same helper, gates' own among them.
fn one_for_all_alike(network: &Network) -> Rm3 {
    let once = translate(network, Mode::Once);
    let mut operand: Vec<usize> = (0..network.inputs + 2).collect();
    let mut rm3 = Rm3 { operations: Vec::new(), ..once.clone() };
    for &Operation { block, operands } in &once.operations {
        let operands = operands.map(|old| operand[old]);
        let like = rm3.operations.iter().position(|other| other.operands == operands && matches!(operands, [0, _, 1]));
        if like.is_none() {
            rm3.operations.push(Operation { block, operands });
        }
        operand.push(network.inputs + 2 + like.unwrap_or(rm3.operations.len() - 1));
    }
    rm3.outputs = once.outputs.iter().map(|&old| operand[old]).collect();
    rm3
}

/// The same of a program that would rather have an inverted edge without a helper for the middle of a gate.
fn middles_without_helper(network: &Network) -> Rm3 {
    let mut network = network.clone();
    for at in 0..network.gates.len() {
        let below = Network { gates: network.gates[..at].to_vec(), outputs: vec![], ..network };
        let helped: Vec<usize> = made(&below, Mode::Once).iter().map(|need| need.node).collect();
        let edges = &mut network.gates[at].edges;
        let inverted: Vec<usize> = (0..3).filter(|&place| class(edges[place]) == Class::Inverted).collect();
        let without = inverted.iter().find(|&&place| !helped.contains(&edges[place].node));
        if let (Some(&first), Some(&without)) = (inverted.first(), without) {
            edges.swap(first, without);
        }
    }
    translate(&network, Mode::Once)
}

#[test]
fn another_opinion_of_helpers_is_found_out() {
    let slips: [fn(&Request, Answer) -> Answer; 19] = [
        // Helpers are made anew where they are to be reused, and reused where they are to be made anew.
        |request, own| made_so(request, own, Mode::Once, |network| translate(network, Mode::Anew)),
        |request, own| made_so(request, own, Mode::Anew, |network| translate(network, Mode::Once)),
        // A helper is reused in its own gate only, or only in others.
        |request, own| made_so(request, own, Mode::Once, |network| merged(network, |first, need| first.within(need))),
        |request, own| made_so(request, own, Mode::Once, |network| merged(network, |first, need| !first.within(need))),
        // It is not reused in a plain middle, or not after one, or only in the like of its first place.
        |request, own| made_so(request, own, Mode::Once, |network| merged(network, |_, need| need.by != By::Middle)),
        |request, own| made_so(request, own, Mode::Once, |network| merged(network, |first, _| first.by != By::Middle)),
        |request, own| made_so(request, own, Mode::Once, |network| merged(network, |first, need| first.by == need.by)),
        // It is not reused in another inverted edge.
        |request, own| made_so(request, own, Mode::Once, |network| merged(network, |_, need| need.by != By::Edge)),
        // It is not reused by an output, or not after one.
        |request, own| made_so(request, own, Mode::Once, |network| merged(network, |_, need| need.by != By::Output)),
        |request, own| made_so(request, own, Mode::Once, |network| merged(network, |first, _| first.by != By::Output)),
        // It is reused in its own block alone.
        |request, own| {
            made_so(request, own, Mode::Once, |network| merged(network, |first, need| first.block == need.block))
        },
        // Outputs reuse helpers where these are to be made anew.
        |request, own| made_so(request, own, Mode::Anew, |network| merged(network, |_, need| need.by == By::Output)),
        // The room is asked for as if each helper were made anew.
        |request, own| match request {
            Request::Rm3(Mode::Once, table, out) if own.refusal.is_none() => {
                answer(&Request::Rm3(Mode::Anew, table.clone(), out.clone())).refusal.map_or(own, |refusal| Answer {
                    refusal: Some(refusal),
                    numbers: vec![0],
                    bytes: out.clone(),
                })
            }
            _ => own,
        },
        // A gate's own operation that reads as a helper is one.
        |request, own| made_so(request, own, Mode::Once, one_for_all_alike),
        // The middle of a gate is chosen by the helpers that are there.
        |request, own| made_so(request, own, Mode::Once, middles_without_helper),
        // A helper has the block of the gate that needs it last, or 0 where an output needs it at all.
        |request, own| {
            let last = |network: &Network, made: &Need| {
                let needs = needs(network);
                needs.iter().rfind(|need| need.node == made.node && need.by != By::Output).map_or(0, |need| need.block)
            };
            made_so(request, own, Mode::Once, move |network| with_blocks(network, last))
        },
        |request, own| {
            let zero = |network: &Network, made: &Need| {
                let by_output = |need: &Need| need.node == made.node && need.by == By::Output;
                if needs(network).iter().any(by_output) {
                    0
                } else {
                    made.block
                }
            };
            made_so(request, own, Mode::Once, move |network| with_blocks(network, zero))
        },
        // An output's helper has the block of the gate that it inverts; a gate's has 0.
        |request, own| {
            let inverted = |network: &Network, made: &Need| match (made.by, network.gate(made.node)) {
                (By::Output, Some(gate)) => gate.block,
                _ => made.block,
            };
            made_so(request, own, Mode::Once, move |network| with_blocks(network, inverted))
        },
        |request, own| made_so(request, own, Mode::Once, |network| with_blocks(network, |_, _| 0)),
    ];
    for (number, slip) in slips.into_iter().enumerate() {
        let text = against(slip).err().unwrap_or_else(|| panic!("slip {number} was not found out"));
        assert!(text.contains("expected") && text.contains("RM3 table"), "slip {number}: {text}");
    }
}
