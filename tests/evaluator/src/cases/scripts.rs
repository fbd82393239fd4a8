//! Scripts: made step by step on the running network, so that nearly all of a long one is taken.

use super::deck::{kind, Kind};
use super::plant::plant;
use super::{lent, networks};
use crate::random::Random;
use crate::request::{Request, Table};
use crate::step::{apply, plan, Step};
use crate::table::{record_bytes, Network, MOST_GATES};

/// A script in the making: the table it starts from, and the network that its steps have made so far.
pub struct Draft {
    pub table: Table,
    pub network: Network,
    pub script: Vec<[u16; 4]>,
}

impl Draft {
    pub fn new(random: &mut Random, network: Network, behind: usize) -> Draft {
        Draft { table: lent(random, &network, behind), network, script: Vec::new() }
    }

    /// A step of this rule that finds its form, looked for from a random gate on.
    pub fn fitting(&self, random: &mut Random, rule: u16) -> Option<Step> {
        let gates = self.network.gates.len();
        if rule == 8 || gates == 0 {
            return Some(Step { rule: 8, gate: 0, a: 0, b: 0 });
        }
        if rule == 9 {
            return self.fitting_voter(random);
        }
        let (start, exchange) = (random.below(gates), random.between(1, 2));
        let tries = if rule == 7 { gates.min(24) } else { gates };
        (0..tries).find_map(|more| {
            let at = (start + more) % gates;
            let first = self.network.inputs + 1;
            let a = match rule {
                1 => exchange,
                7 => first + self.network.gates[..at].iter().position(|gate| *gate == self.network.gates[at])?,
                _ => 0,
            };
            let step = Step { rule, gate: (first + at) as u16, a: a as u16, b: 0 };
            plan(&self.network, step).map(|_| step)
        })
    }

    /// A voter for two nodes that a gate reads, looked for from a random gate on, at any g that the room allows.
    fn fitting_voter(&self, random: &mut Random) -> Option<Step> {
        let gates = self.network.gates.len();
        let room = (self.table.buffer.len() - self.network.used()) / 8;
        let most_copied = gates.min(room.min(MOST_GATES - gates) / 3);
        let start = random.below(gates);
        (0..24).map(|more| (start + more) % gates).filter(|&at| at < most_copied).find_map(|at| {
            let mut edges = self.network.gates[at].edges;
            random.shuffle(&mut edges);
            let [a, b] = [edges[0].node.min(edges[1].node), edges[0].node.max(edges[1].node)];
            let g = self.network.inputs + random.between(at + 1, most_copied);
            let step = Step::of([9, g, a, b].map(|field| field as u16));
            (0 < a && a < b && plan(&self.network, step).is_some()).then_some(step)
        })
    }

    /// Adds a step of one of the rules where it is accepted, and says whether.
    pub fn grow(&mut self, random: &mut Random, rules: &[u16]) -> bool {
        let rule = random.pick(rules);
        self.fitting(random, rule).is_some_and(|step| self.take(step))
    }

    /// Adds the step where it is accepted, and says whether.
    pub fn take(&mut self, step: Step) -> bool {
        let result = apply(&self.network, step, self.table.buffer.len());
        if let Ok(network) = result {
            self.network = network;
            self.script.push(step.fields());
            return true;
        }
        false
    }

    pub fn grow_some(&mut self, random: &mut Random, steps: usize) {
        for _ in 0..steps {
            self.grow(random, &[1, 1, 2, 3, 3, 4, 4, 5, 6, 6, 7, 8, 9, 10]);
        }
    }

    /// Adds a step that is refused 7, 8 or 9 here, or that happens to be accepted.
    pub fn refuse(&mut self, random: &mut Random, turn: usize) {
        let gate = (self.network.nodes() - 1) as u16;
        let bad = match turn % 9 {
            0 => [0, gate, 1, 0],
            1 => [11, gate, 1, 2],
            2 => [6, gate + 1, 0, 0],
            3 => [8, 0, 0, 1],
            4 => [1, gate, 3, 0],
            5 => [9, gate, 2, 1],
            6 => [9, gate, 1, gate],
            7 => [9, gate, random.between(1, 4) as u16, gate.saturating_sub(1)],
            _ => {
                let fits = |&rule: &u16| plan(&self.network, Step { rule, gate, a: 0, b: 0 }).is_some();
                let rules: Vec<u16> = [2, 3, 4, 5, 10].into_iter().filter(|rule| !fits(rule)).collect();
                [if rules.is_empty() { 65535 } else { random.pick(&rules) }, gate, 0, 0]
            }
        };
        self.script.push(bad);
    }

    pub fn request(self) -> Request {
        Request::Script(self.table, record_bytes(&self.script))
    }
}

/// A draft on a network with gates that read one another, in a buffer with some room.
pub fn started(random: &mut Random) -> Draft {
    let (gates, outputs, behind) = (random.between(2, 12), random.between(1, 6), random.below(120));
    let network = networks::chain(random, 4, gates, outputs);
    Draft::new(random, network, behind)
}

fn empty(random: &mut Random, _turn: usize) -> Request {
    started(random).request()
}

fn odd_length(random: &mut Random, turn: usize) -> Request {
    let mut draft = started(random);
    draft.grow_some(random, turn % 4);
    let mut script = record_bytes(&draft.script);
    let more = 1 + turn % 7;
    script.extend(random.bytes(more));
    Request::Script(draft.table, script)
}

fn all_taken(random: &mut Random, _turn: usize) -> Request {
    let mut draft = started(random);
    let steps = random.between(1, 60);
    draft.grow_some(random, steps);
    draft.request()
}

/// Stopped after `before` steps; `after` more would be accepted.
fn stopped(random: &mut Random, turn: usize, before: usize, after: usize) -> Request {
    let mut draft = started(random);
    draft.grow_some(random, before);
    draft.refuse(random, turn);
    draft.grow_some(random, after);
    draft.request()
}

/// Stopped by rule 2 at a gate that rule 10 takes, or by rule 10 at one that rule 2 takes.
fn wrong_edges(random: &mut Random, turn: usize) -> Request {
    let (gates, behind) = (random.between(2, 12), random.below(60));
    let network = networks::paired(random, 4, gates, 3);
    let mut draft = Draft::new(random, network, behind);
    for _ in 0..random.below(8) {
        draft.grow(random, &[1, 2, 3, 6, 10]);
    }
    let (fitting, asked) = [(10, 2), (2, 10)][turn % 2];
    if let Some(step) = draft.fitting(random, fitting) {
        draft.script.push(Step { rule: asked, ..step }.fields());
    }
    draft.grow_some(random, 4);
    draft.request()
}

/// In little room: rule 8 makes room that rules 3, 4, 5 and 9 take again.
pub fn sweep_and_grow(random: &mut Random, _turn: usize) -> Request {
    let (gates, behind) = (random.between(3, 12), random.pick(&[8, 16, 24, 31, 40]));
    let network = networks::chain(random, 4, gates, 1);
    let mut draft = Draft::new(random, network, behind);
    for _ in 0..random.between(10, 60) {
        if !draft.grow(random, &[3, 4, 5, 9, 3, 4, 5, 9, 2, 6, 10]) {
            draft.grow(random, &[8, 1]);
        }
    }
    draft.request()
}

/// Rule 3 again and again on one gate, which keeps the form, until it is refused 10 or 11.
pub fn grow_until_refused(random: &mut Random, turn: usize) -> Request {
    let (gates, behind, steps) = match turn % 3 {
        0 => (Some(MOST_GATES - turn / 3 % 4), random.pick(&[8, 24, 64]), 8),
        _ => (None, random.below(64), 12),
    };
    let plant = plant(random, 3, gates);
    let gate = plant.step.gate;
    let mut draft = Draft::new(random, plant.network, behind);
    draft.script = (gate..gate + steps).map(|gate| [3, gate, 0, 0]).collect();
    draft.script.push([8, 0, 0, 0]);
    draft.request()
}

/// A voter again and again at one gate, which copies the copies of the one before, until it is refused 10 or 11.
pub fn vote_until_refused(random: &mut Random, turn: usize) -> Request {
    let mut plant = plant(random, 9, None);
    networks::fill(random, &mut plant.network, [0, 0, 30, 100][turn / 2 % 4]);
    let (inputs, step) = (plant.network.inputs, plant.step);
    let room = if turn % 2 == 0 { 8 * MOST_GATES } else { random.between(8, 8 * 300) };
    let mut draft = Draft::new(random, plant.network, room);
    let mut copied = usize::from(step.gate) - inputs;
    while copied <= 4 * MOST_GATES {
        draft.script.push([9, (inputs + copied) as u16, step.a, step.b]);
        copied *= 4;
    }
    draft.script.push([8, 0, 0, 0]);
    draft.request()
}

/// Voters after voters, wherever they fit, with now and then a step that simplifies or sweeps.
pub fn voters(random: &mut Random, _turn: usize) -> Request {
    let (gates, room) = (random.between(2, 12), random.between(20, MOST_GATES));
    let network = networks::chain(random, 4, gates, 3);
    let mut draft = Draft::new(random, network, 8 * room);
    for _ in 0..random.between(4, 40) {
        if !draft.grow(random, &[9, 9, 9, 9, 2, 6, 10]) {
            draft.grow(random, &[2, 7, 8, 8, 10]);
        }
    }
    draft.request()
}

/// A few steps of any rules, in a buffer with some room.
pub fn some_steps(random: &mut Random, network: &Network) -> Request {
    let (behind, steps) = (random.below(200), random.between(1, 12));
    let mut draft = Draft::new(random, network.clone(), behind);
    draft.grow_some(random, steps);
    draft.request()
}

/// Grows to 1,024 gates, sweeps, mixes and grows again, until the script has as many steps as wanted.
pub fn long(random: &mut Random, wanted: usize, most_gates: usize) -> Request {
    let network = networks::chain(random, 8, 60, 32);
    let behind = 8 * (most_gates - 60) + random.below(20);
    let mut draft = Draft::new(random, network, behind);
    while draft.script.len() < wanted {
        let mut failures = 0;
        while failures < 12 && draft.script.len() < wanted {
            failures += usize::from(!draft.grow(random, &[1, 3, 3, 4, 4, 4, 4, 5, 5, 6, 9]));
        }
        for _ in 0..random.between(5, 40) {
            draft.grow(random, &[1, 1, 2, 6, 7, 7, 8, 8, 9, 10]);
        }
    }
    draft.script.truncate(wanted);
    if random.once_in(2) {
        let place = random.between(wanted - 20, wanted - 1);
        draft.script[place] = random.pick(&[[0; 4], [6, 65535, 0, 0], [11, 1, 0, 0], [9, 1, 1, 2]]);
    }
    draft.request()
}

pub fn kinds() -> Vec<Kind> {
    vec![
        kind("empty script", 2, empty),
        kind("script of odd length", 4, odd_length),
        kind("script all taken", 8, all_taken),
        kind("script stopped at the first step", 4, |random, turn| stopped(random, turn, 0, 3)),
        kind("script stopped in the middle", 6, |random, turn| stopped(random, turn, 8, 5)),
        kind("script stopped at the last step", 4, |random, turn| stopped(random, turn, 6, 0)),
        kind("script stopped by the first two edges", 6, wrong_edges),
        kind("script that sweeps and grows again", 8, sweep_and_grow),
        kind("script that grows until refused", 6, grow_until_refused),
        kind("script of one voter until refused", 4, vote_until_refused),
        kind("script of voters", 4, voters),
        kind("script of hundreds of steps", 1, |random, _| {
            let (wanted, most_gates) = (random.between(100, 700), random.between(100, 300));
            long(random, wanted, most_gates)
        }),
    ]
}
