//! What a run met of blocks.

use crate::answer::Answer;
use crate::counts::{add, reads_a_table};
use crate::needs::{made, By};
use crate::request::{Request, PAST_OPERATIONS};
use crate::rm3::Mode;
use crate::step::{Step, LAST_RULE};
use crate::table::{block_of, kind_of, Gate, Network, Record, Refusal};

/// What the gates of an accepted table have for blocks.
const BLOCKS: [&str; 5] =
    ["block 0 alone", "one block alone, not 0", "several blocks", "block 1 alone", "block 255 alone"];

/// What is wrong with the first bad record of a refused table, where it is a matter of the two bytes of its kind.
const FAULTS: [&str; 5] = [
    "4 for the block of an input",
    "4 for the block of an output",
    "2 for the low byte 0 beside a block",
    "2 for a low byte above 3 beside a block",
    "2 for a low byte that falls while the number does not",
];

/// So many of both, the first, are to be met by every operation, and the others by operation 1, which is asked of all tables.
const OF_EVERY_OPERATION: usize = 3;

/// Of steps: what share met, and what was inserted by the rules that insert.
const STEPS: [&str; 7] = [
    "share of equal edges within block 0",
    "share of equal edges within another block",
    "share of equal edges across blocks",
    "rule 3 among blocks",
    "rule 4 among blocks",
    "rule 5 among blocks",
    "rule 9 among blocks",
];

/// Of translations.
const HELPERS: [&str; 3] =
    ["a gate's helper in block 0", "a gate's helper in another block", "an output's helper among blocks"];

const RULES: usize = LAST_RULE as usize;

#[derive(Default)]
pub struct BlockCounts {
    blocks: [[usize; BLOCKS.len()]; PAST_OPERATIONS],
    faults: [[usize; FAULTS.len()]; PAST_OPERATIONS],
    steps: [usize; STEPS.len()],
    /// Single steps that were refused with 7, by the rule that the low byte of their number would be.
    high_bytes: [usize; RULES + 1],
    helpers: [[usize; HELPERS.len()]; PAST_OPERATIONS],
}

fn blocks(network: &Network) -> [bool; BLOCKS.len()] {
    let has = |wanted: fn(u8) -> bool| network.gates.iter().any(|gate| wanted(gate.block));
    let one = network.gates.windows(2).all(|two| two[0].block == two[1].block);
    [
        has(|block| block == 0) && one,
        has(|block| block != 0) && one,
        !one,
        has(|block| block == 1) && one,
        has(|block| block == 255) && one,
    ]
}

fn faults(records: &[Record], refusal: Refusal) -> [bool; FAULTS.len()] {
    let at = refusal.record as usize;
    let Some(record) = records.get(at).filter(|record| block_of(record) != 0) else {
        return [false; FAULTS.len()];
    };
    let alone =
        |kind, zeros: &[u16]| refusal.number == 4 && kind_of(record) == kind && zeros.iter().all(|&field| field == 0);
    let falls = at > 0 && kind_of(record) < kind_of(&records[at - 1]) && record[0] >= records[at - 1][0];
    [
        alone(1, &record[1..]),
        alone(3, &record[2..]),
        refusal.number == 2 && kind_of(record) == 0,
        refusal.number == 2 && kind_of(record) > 3,
        refusal.number == 2 && (1..=3).contains(&kind_of(record)) && falls,
    ]
}

/// What a step met whose gate has a form of its rule, but for the blocks.
fn steps(network: &Network, step: Step, refusal: Option<Refusal>) -> [bool; STEPS.len()] {
    let [g, a] = [step.gate, step.a].map(|node| network.gate(usize::from(node)));
    let shared = |is: fn(Gate, Gate) -> bool| match (g, a) {
        (Some(g), Some(a)) => step.rule == 7 && step.a < step.gate && step.b == 0 && g.edges == a.edges && is(g, a),
        _ => false,
    };
    let among = g.is_some_and(|g| {
        let below = &network.gates[..usize::from(step.gate) - network.inputs];
        g.block != 0 && below.iter().any(|gate| gate.block != g.block)
    });
    let inserted = |rule| step.rule == rule && among && refusal.is_none();
    [
        shared(|g, a| g.block == 0 && a.block == 0),
        shared(|g, a| g.block != 0 && g.block == a.block),
        shared(|g, a| g.block != a.block),
        inserted(3),
        inserted(4),
        inserted(5),
        inserted(9),
    ]
}

fn helpers(network: &Network, mode: Mode) -> [bool; HELPERS.len()] {
    let made = made(network, mode);
    let helped = |wanted: fn(u8) -> bool| made.iter().any(|need| need.by != By::Output && wanted(need.block));
    let blocks = network.gates.iter().any(|gate| gate.block != 0);
    let outputs = made.iter().any(|need| need.by == By::Output);
    [helped(|block| block == 0), helped(|block| block != 0), blocks && outputs]
}

impl BlockCounts {
    pub fn note(&mut self, request: &Request, answer: &Answer) {
        let operation = usize::from(request.operation());
        if !reads_a_table(request.operation()) {
            return;
        }
        let Ok(network) = request.network() else {
            if let Some(refusal) = answer.refusal {
                add(&mut self.faults[operation], faults(&request.records(), refusal));
            }
            return;
        };
        if answer.refusal.is_none() {
            add(&mut self.blocks[operation], blocks(&network));
        }
        match request {
            Request::Step(_, step) => {
                add(&mut self.steps, steps(&network, *step, answer.refusal));
                let low = usize::from(step.rule % 256);
                if step.rule > 255 && (1..=RULES).contains(&low) {
                    self.high_bytes[low] += 1;
                }
            }
            Request::Rm3(mode, ..) if answer.refusal.is_none() => {
                add(&mut self.helpers[operation], helpers(&network, *mode));
            }
            _ => {}
        }
    }

    pub fn never_met(&self, operation: u8) -> Vec<String> {
        let place = usize::from(operation);
        let each = |names: &[&str], counts: &[usize], wanted: usize| {
            let never = names.iter().zip(counts).take(wanted).filter(|(_, &count)| count == 0);
            never.map(|(name, _)| format!("never met: {name}, by operation {operation}")).collect::<Vec<_>>()
        };
        let wanted = if operation == 1 { BLOCKS.len() } else { OF_EVERY_OPERATION };
        let mut lines = each(&BLOCKS, &self.blocks[place], wanted);
        lines.extend(each(&FAULTS, &self.faults[place], wanted));
        if operation == 4 {
            lines.extend(each(&STEPS, &self.steps, STEPS.len()));
            let never = (1..=RULES).filter(|&rule| self.high_bytes[rule] == 0);
            lines.extend(never.map(|rule| format!("never met: rule {rule} with a high byte")));
        }
        if operation == 6 || operation == 16 {
            lines.extend(each(&HELPERS, &self.helpers[place], HELPERS.len()));
        }
        lines
    }

    pub fn report(&self, asked: &[u8]) -> Vec<String> {
        let listed = |names: &[&str], counts: &[usize]| {
            let each = names.iter().zip(counts).map(|(name, count)| format!("{name} {count}"));
            each.collect::<Vec<_>>().join(", ")
        };
        let summed = |counts: &[[usize; 5]; PAST_OPERATIONS]| {
            [0, 1, 2, 3, 4].map(|place| counts.iter().map(|counts| counts[place]).sum())
        };
        let mut lines = vec![
            format!("accepted with gates: {}", listed(&BLOCKS, &summed(&self.blocks))),
            format!("refused: {}", listed(&FAULTS, &summed(&self.faults))),
        ];
        if asked.contains(&4) {
            lines.push(format!("single steps: {}", listed(&STEPS, &self.steps)));
            let high: usize = self.high_bytes.iter().sum();
            lines.push(format!("single steps with a high byte in a rule's number: {high}"));
        }
        for operation in asked.iter().filter(|&&operation| operation == 6 || operation == 16) {
            let helpers = listed(&HELPERS, &self.helpers[usize::from(*operation)]);
            lines.push(format!("RM3 tables of operation {operation}: {helpers}"));
        }
        lines
    }
}
