//! What a run met of inverses that are needed again, for which one mode of the translation reuses a helper and the other makes one anew.

use crate::answer::Answer;
use crate::counts::add;
use crate::needs::{again, made, needs, By, Need};
use crate::request::{Request, PAST_OPERATIONS};
use crate::rm3::{class, middle, translate, Class, Mode};
use crate::table::{Gate, Network};

/// What accepted tables need, and what might be taken for a helper or done by one.
const NEEDS: [&str; 15] = [
    "an inverse needed again in a plain middle",
    "an inverse needed again in another inverted edge",
    "an inverse needed again by an output, first by a gate",
    "an inverse needed by two outputs",
    "an inverse needed first in a plain middle, again in an inverted edge",
    "an inverse needed first in an inverted edge, again in a plain middle",
    "an inverse needed again in another gate",
    "an inverse needed again within one gate",
    "the inverse of a gate's own middle needed twice by the gate",
    "an inverse needed again in a gate of another block",
    "an inverse needed again by an output, first in another block than 0",
    "the inverse of a gate needed again",
    "an inverse first needed behind a gate whose own operation reads as its helper",
    "an inverse first needed before such a gate",
    "an inverse first needed before a gate that has its node inverted in the middle",
];

/// The out buffers of tables that are longer where helpers are made anew.
const ROOMS: [&str; 4] = [
    "an out buffer exactly full where helpers are reused",
    "an out buffer one byte short where helpers are reused",
    "an out buffer exactly full where helpers are made anew",
    "an out buffer one byte short where helpers are made anew",
];

#[derive(Default)]
pub struct HelperCounts {
    needs: [[usize; NEEDS.len()]; PAST_OPERATIONS],
    rooms: [[usize; ROOMS.len()]; PAST_OPERATIONS],
    /// Accepted tables that both modes translate alike, though they have helpers.
    alike: [usize; PAST_OPERATIONS],
}

/// The node of which the gate's own operation reads as the helper: (0, node, 1).
fn like_a_helper(gate: &Gate) -> Option<usize> {
    let middle = middle(gate);
    let mut others = gate.edges.to_vec();
    let edge = others.remove(middle);
    let constants = others.iter().map(|edge| (class(*edge), edge.inverted));
    let like = class(edge) == Class::Inverted && constants.eq([(Class::Constant, false), (Class::Constant, true)]);
    like.then_some(edge.node)
}

/// Whether a gate behind the need, or else before it, is such a one.
fn beside(network: &Network, need: &Need, behind: bool, is: impl Fn(&Gate) -> bool) -> bool {
    let at = if need.by == By::Output { network.gates.len() } else { need.at };
    let gates = if behind { network.gates.get(at + 1..).unwrap_or(&[]) } else { &network.gates[..at] };
    gates.iter().any(is)
}

fn of_needs(network: &Network, needs: &[Need]) -> [bool; NEEDS.len()] {
    let again = again(needs);
    let met = |is: fn(&Need, &Need) -> bool| again.iter().any(|[first, need]| is(first, need));
    let inverted_middle = |gate: &Gate, need: &Need| {
        let edge = gate.edges[middle(gate)];
        class(edge) == Class::Inverted && edge.node == need.node
    };
    let own = |[first, need]: &[Need; 2]| first.within(need) && inverted_middle(&network.gates[need.at], need);
    let made = made(network, Mode::Once);
    let like = |need: &Need, behind| beside(network, need, behind, |gate| like_a_helper(gate) == Some(need.node));
    [
        met(|_, need| need.by == By::Middle),
        met(|_, need| need.by == By::Edge),
        met(|first, need| need.by == By::Output && first.by != By::Output),
        met(|first, _| first.by == By::Output),
        met(|first, need| first.by == By::Middle && need.by == By::Edge),
        met(|first, need| first.by == By::Edge && need.by == By::Middle),
        met(|first, need| need.by != By::Output && !first.within(need)),
        met(|first, need| first.within(need)),
        again.iter().any(own),
        met(|first, need| need.by != By::Output && first.block != need.block),
        met(|first, need| need.by == By::Output && first.block != 0),
        again.iter().any(|[_, need]| need.node > network.inputs),
        made.iter().any(|need| like(need, false)),
        made.iter().any(|need| like(need, true)),
        made.iter().any(|need| beside(network, need, true, |gate| inverted_middle(gate, need))),
    ]
}

fn of_room(network: &Network, room: usize) -> [bool; ROOMS.len()] {
    let [once, anew] = [Mode::Once, Mode::Anew].map(|mode| translate(network, mode).bytes().len());
    [once, once - 1, anew, anew - 1].map(|wanted| once < anew && room == wanted)
}

impl HelperCounts {
    pub fn note(&mut self, request: &Request, answer: &Answer) {
        let (Request::Rm3(_, table, out), operation) = (request, usize::from(request.operation())) else {
            return;
        };
        let Ok(network) = table.network() else {
            return;
        };
        add(&mut self.rooms[operation], of_room(&network, out.len()));
        if answer.refusal.is_none() {
            let needs = needs(&network);
            add(&mut self.needs[operation], of_needs(&network, &needs));
            self.alike[operation] += usize::from(!needs.is_empty() && again(&needs).is_empty());
        }
    }

    /// What there is to meet, and how often the operation met it.
    fn met(&self, operation: u8) -> Vec<(&'static str, usize)> {
        let place = usize::from(operation);
        let counts = self.needs[place].into_iter().chain(self.rooms[place]).chain([self.alike[place]]);
        let names = NEEDS.into_iter().chain(ROOMS).chain(["helpers, none of which is reused"]);
        names.zip(counts).collect()
    }

    pub fn never_met(&self, operation: u8) -> Vec<String> {
        let never = self.met(operation).into_iter().filter(|met| met.1 == 0);
        never.map(|(name, _)| format!("never met: {name}, by operation {operation}")).collect()
    }

    pub fn report(&self, operation: u8) -> Vec<String> {
        let met = self.met(operation).into_iter().map(|(name, count)| format!("  {name}: {count} times"));
        [format!("helpers of operation {operation}:")].into_iter().chain(met).collect()
    }
}
