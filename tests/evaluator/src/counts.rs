//! What a run met: requests, accepted ones, rules, refusals with their edges, first two edges, stored scripts, RM3 patterns and helpers,
//! followed gates, words and totals, the catalogue's numbers.

use crate::answer::Answer;
use crate::at_once_counts::AtOnceCounts;
use crate::block_counts::BlockCounts;
use crate::catalogue_counts::CatalogueCounts;
use crate::depth_counts::DepthCounts;
use crate::follow_counts::FollowCounts;
use crate::helper_counts::HelperCounts;
use crate::request::{call, operations, Request, PAST_OPERATIONS};
use crate::rm3::class;
use crate::step::{FirstTwo, Step, LAST_RULE};
use crate::stored_counts::StoredCounts;
use crate::table::{records, Refusal};

const RULES: usize = LAST_RULE as usize;

/// One more than the highest refusal's number.
const PAST_REFUSALS: usize = 18;

/// The rules that look at the first two edges of a gate.
const BY_FIRST_TWO: [u16; 2] = [2, 10];

#[derive(Default)]
pub struct Counts {
    asked: [usize; PAST_OPERATIONS],
    accepted: [usize; PAST_OPERATIONS],
    refusals: [[usize; PAST_REFUSALS]; PAST_OPERATIONS],
    /// Refusals 5, by operation and by the edge that they carry.
    edges: [[usize; 4]; PAST_OPERATIONS],
    /// Accepted steps, by operation and rule.
    rules: [[usize; RULES + 1]; PAST_OPERATIONS],
    /// Steps that were refused, single ones and those that stopped a script, by rule and refusal.
    refused_steps: [[usize; PAST_REFUSALS]; RULES + 1],
    /// Single steps of rule 2 and of rule 10 that came to look at their gate, by its first two edges.
    first_two: [[usize; 3]; 2],
    stored: StoredCounts,
    follow: FollowCounts,
    at_once: AtOnceCounts,
    /// Gates of translated tables, by operation and the classes of their edges.
    patterns: [[usize; 27]; PAST_OPERATIONS],
    helpers: HelperCounts,
    longest: u32,
    depths: DepthCounts,
    blocks: BlockCounts,
    catalogue: CatalogueCounts,
}

/// The refusals that an operation can meet.
pub fn possible(operation: u8) -> &'static [usize] {
    match operation {
        2 | 7 => &[1, 2, 3, 4, 5, 6],
        4 => &[1, 2, 3, 4, 5, 7, 8, 9, 10, 11],
        5 | 28 => &[1, 2, 3, 4, 5, 7, 8, 9, 10, 11, 12],
        6 | 16 => &[1, 2, 3, 4, 5, 11],
        22 => &[1, 2, 3, 4, 5, 6, 11, 15],
        23 => &[1, 2, 3, 4, 5, 11, 15],
        25 => &[11, 17],
        _ => &[1, 2, 3, 4, 5],
    }
}

/// Whether an operation reads a table that the caller lends.
pub fn reads_a_table(operation: u8) -> bool {
    possible(operation).contains(&5)
}

/// The refusals of a step that a rule can meet; 7 is met by a voter under a number that is no rule's.
fn possible_of_rule(rule: usize) -> &'static [usize] {
    match rule {
        2 | 7 | 10 => &[8, 9],
        3..=5 => &[8, 9, 10, 11],
        9 => &[7, 8, 9, 10, 11],
        _ => &[8],
    }
}

/// The rule that a step is counted with: its own, 9 for a voter's fields under a number that is no rule's, else 0.
fn rule_of(step: Step) -> usize {
    match step.rule {
        1..=LAST_RULE => usize::from(step.rule),
        _ if 0 < step.a && step.a < step.b && step.b < step.gate => 9,
        _ => 0,
    }
}

/// Counts one more of each that was met.
pub fn add<const N: usize>(counts: &mut [usize; N], met: [bool; N]) {
    counts.iter_mut().zip(met).for_each(|(count, met)| *count += usize::from(met));
}

impl Counts {
    pub fn passed(&self) -> usize {
        self.asked.iter().sum()
    }

    pub fn note(&mut self, request: &Request, answer: &Answer) {
        let operation = usize::from(request.operation());
        self.asked[operation] += 1;
        match answer.refusal {
            Some(refusal) => self.refusals[operation][refusal.number as usize] += 1,
            None => self.accepted[operation] += 1,
        }
        if let Some(Refusal { number: 5, edge, .. }) = answer.refusal {
            self.edges[operation][edge as usize] += 1;
        }
        self.depths.note(request, answer);
        self.blocks.note(request, answer);
        self.helpers.note(request, answer);
        self.catalogue.note(request);
        match request {
            Request::Step(table, step) => {
                match answer.refusal {
                    Some(refusal) => self.refused_steps[rule_of(*step)][refusal.number as usize] += 1,
                    None => self.rules[operation][rule_of(*step)] += 1,
                }
                let asked = BY_FIRST_TWO.iter().position(|&rule| rule == step.rule);
                let gate = table.network().ok().and_then(|network| network.edges(usize::from(step.gate)));
                if let (Some(asked), Some(gate), None | Some(9)) =
                    (asked, gate, answer.refusal.map(|refusal| refusal.number))
                {
                    self.first_two[asked][FirstTwo::of(gate) as usize] += 1;
                }
            }
            Request::Script(_, script) => self.note_script(operation, script, answer),
            Request::Stored(stored) => {
                self.note_script(operation, &stored.converted, answer);
                self.stored.note(stored, answer);
            }
            Request::Follow(follow) => {
                if follow.first().is_ok() {
                    self.note_script(operation, &follow.script, answer);
                }
                self.follow.note(follow, answer);
            }
            Request::AtOnce(at_once) => self.at_once.note(at_once, answer),
            Request::Rm3(_, table, _) if answer.refusal.is_none() => {
                for gate in table.network().iter().flat_map(|network| &network.gates) {
                    let [first, second, third] = gate.edges.map(|edge| class(edge) as usize);
                    self.patterns[operation][9 * first + 3 * second + third] += 1;
                }
            }
            _ => {}
        }
    }

    fn note_script(&mut self, operation: usize, script: &[u8], answer: &Answer) {
        let taken = answer.numbers[0];
        self.longest = self.longest.max(taken);
        let steps: Vec<Step> = records(script).into_iter().map(Step::of).collect();
        let (taken, left) = steps.split_at(taken as usize);
        taken.iter().for_each(|&step| self.rules[operation][rule_of(step)] += 1);
        if let (Some(refusal), Some(&step)) = (answer.refusal, left.first()) {
            self.refused_steps[rule_of(step)][refusal.number as usize] += 1;
        }
    }

    /// What the listed operations should have met and did not: without it the comparison shows nothing.
    pub fn never_met(&self, operations: &[u8]) -> Vec<String> {
        let mut lines = Vec::new();
        for &operation in operations {
            let place = usize::from(operation);
            if self.accepted[place] == 0 {
                lines.push(format!("never met: operation {operation} accepted"));
            }
            let never = possible(operation).iter().filter(|&&number| self.refusals[place][number] == 0);
            lines.extend(never.map(|number| format!("never met: refusal {number} of operation {operation}")));
            if operation == 25 {
                lines.extend(self.catalogue.never_met());
            }
            if !reads_a_table(operation) {
                continue;
            }
            let edges = (1..=3).filter(|&edge| self.edges[place][edge] == 0);
            lines.extend(edges.map(|edge| format!("never met: refusal 5 with edge {edge} of operation {operation}")));
            let rules = (1..=RULES).filter(|&rule| matches!(operation, 4 | 5 | 28) && self.rules[place][rule] == 0);
            lines.extend(rules.map(|rule| format!("never met: rule {rule} accepted by operation {operation}")));
            for rule in (1..=RULES).filter(|_| operation == 4) {
                let never = possible_of_rule(rule).iter().filter(|&&number| self.refused_steps[rule][number] == 0);
                lines.extend(never.map(|number| format!("never met: refusal {number} of rule {rule}")));
            }
            if operation == 4 && self.first_two.as_flattened().contains(&0) {
                lines.push("never met: equal, opposite or other edges by rule 2 or 10".to_string());
            }
            if operation == 5 {
                lines.extend(self.stored.never_met());
            }
            if operation == 28 {
                lines.extend(self.follow.never_met());
            }
            if operation == 22 || operation == 23 {
                lines.extend(self.at_once.never_met(operation));
            }
            if operation == 6 || operation == 16 {
                if self.patterns[place].contains(&0) {
                    lines.push(format!("never met: one of the 27 RM3 patterns, by operation {operation}"));
                }
                lines.extend(self.helpers.never_met(operation));
            }
            lines.extend(self.depths.never_met(operation));
            lines.extend(self.blocks.never_met(operation));
        }
        lines
    }

    /// A few lines on what the operations that were asked met.
    pub fn report(&self) -> String {
        let asked = operations().into_iter().filter(|&operation| self.asked[usize::from(operation)] > 0);
        let asked: Vec<u8> = asked.collect();
        let mut lines = Vec::new();
        for &operation in &asked {
            let [asked, accepted] = [self.asked, self.accepted].map(|counts| counts[usize::from(operation)]);
            lines.push(format!("operation {operation} ({}): {asked} requests, {accepted} accepted", call(operation)));
        }
        if [4, 5, 28].iter().any(|operation| asked.contains(operation)) {
            lines.extend((1..=RULES).map(|rule| {
                let (single, scripted) = (self.rules[4][rule], self.rules[5][rule] + self.rules[28][rule]);
                let refused = |&number: &usize| format!(", {} refused {number}", self.refused_steps[rule][number]);
                let refused: String = possible_of_rule(rule).iter().map(refused).collect();
                format!("rule {rule}: {single} single steps and {scripted} script steps accepted{refused}")
            }));
        }
        if asked.contains(&4) {
            lines.extend(BY_FIRST_TWO.iter().zip(self.first_two).map(|(rule, [equal, opposite, neither])| {
                format!("first two edges by a single step of rule {rule}: {equal} equal, {opposite} opposite, {neither} neither")
            }));
        }
        for number in
            (1..PAST_REFUSALS).filter(|number| asked.iter().any(|&operation| possible(operation).contains(number)))
        {
            let met: usize = self.refusals.iter().map(|refusals| refusals[number]).sum();
            lines.push(format!("refusal {number}: {met} times"));
        }
        let of_tables = asked.iter().any(|&operation| reads_a_table(operation));
        if of_tables {
            let edges = [1, 2, 3].map(|edge| self.edges.iter().map(|edges| edges[edge]).sum::<usize>());
            lines.push(format!("bad edge: first {} times, second {}, third {}", edges[0], edges[1], edges[2]));
        }
        if asked.contains(&5) || asked.contains(&28) {
            lines.push(format!("longest script: {} steps taken", self.longest));
        }
        if asked.contains(&5) {
            lines.extend(self.stored.report());
        }
        if asked.contains(&28) {
            lines.extend(self.follow.report());
        }
        for &operation in asked.iter().filter(|&&operation| operation == 22 || operation == 23) {
            lines.extend(self.at_once.report(operation));
        }
        for &operation in asked.iter().filter(|&&operation| operation == 6 || operation == 16) {
            let met = self.patterns[usize::from(operation)].iter().filter(|&&count| count > 0).count();
            lines.push(format!("RM3 patterns of operation {operation}: {met} of 27"));
            lines.extend(self.helpers.report(operation));
        }
        lines.extend(self.depths.report(&asked));
        if of_tables {
            lines.extend(self.blocks.report(&asked));
        }
        if asked.contains(&25) {
            lines.extend(self.catalogue.report());
        }
        lines.join("\n")
    }
}
