//! Stored scripts: those of the time when rule 2 took opposite edges as well and 10 was no rule. What they did then, and the
//! scripts that they are converted to, which must do the same today.

use crate::request::Table;
use crate::script::{run_by, Progress};
use crate::step::{self, carried_out, fields_allowed, FirstTwo, Plan, Step};
use crate::table::{records, Edges, Network, Refusal};

/// A stored script with the table that it ran on, and what it is converted to for that table.
#[derive(Clone, Debug)]
pub struct Stored {
    pub table: Table,
    pub script: Vec<u8>,
    pub converted: Vec<u8>,
}

/// What rule 2 planned then, where the gate had its form.
fn majority(gate: Edges) -> Option<Plan> {
    let [first, _, third] = gate;
    match FirstTwo::of(gate) {
        FirstTwo::Equal => Some(Plan::Redirect(first)),
        FirstTwo::Opposite => Some(Plan::Redirect(third)),
        FirstTwo::Neither => None,
    }
}

/// The network after one step as it was then: rule 2 took both, and the rules ended with 9; else they are those of today.
fn apply(network: &Network, step: Step, room: usize) -> Result<Network, Refusal> {
    match (step.rule, network.edges(usize::from(step.gate))) {
        (2, Some(gate)) if fields_allowed(network, step) => {
            let plan = majority(gate).ok_or(Refusal::plain(9))?;
            carried_out(network, usize::from(step.gate), plan, room)
        }
        (10.., _) => Err(Refusal::plain(7)),
        _ => step::apply(network, step, room),
    }
}

/// Whether a step is one of rule 2 whose gate has opposite edges.
fn meets_opposite(network: &Network, step: Step) -> bool {
    step.rule == 2 && network.edges(usize::from(step.gate)).map(FirstTwo::of) == Some(FirstTwo::Opposite)
}

/// The script as it is to be today, along its run on the table: a step 2 that was taken and met opposite edges becomes 10. A step
/// that was refused stays as it is, and so do those after it.
fn convert(table: &Table, script: &[u8]) -> Vec<u8> {
    let mut converted = script.to_vec();
    let Ok(mut network) = table.network() else {
        return converted;
    };
    if script.len() % 8 != 0 {
        return converted;
    }
    for (fields, bytes) in records(script).into_iter().zip(converted.chunks_exact_mut(8)) {
        let step = Step::of(fields);
        let Ok(after) = apply(&network, step, table.buffer.len()) else {
            break;
        };
        if meets_opposite(&network, step) {
            bytes[..2].copy_from_slice(&10u16.to_le_bytes());
        }
        network = after;
    }
    converted
}

impl Stored {
    pub fn new(table: Table, script: Vec<u8>) -> Stored {
        let converted = convert(&table, &script);
        Stored { table, script, converted }
    }

    /// What the script did to the table in the buffer, and replied.
    pub fn run(&self, buffer: &mut [u8]) -> Progress {
        run_by(apply, buffer, self.table.used, &self.script)
    }
}
