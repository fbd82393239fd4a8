//! Rule 9 on its own: what a voter keeps, and that each of its shapes and each way to miss it is dealt.

use crate::cases::{networks, Dealer};
use crate::random::Random;
use crate::request::{operations, Request, Table};
use crate::step::{apply, Step};
use crate::table::{Edge, Edges, Network, MOST_GATES};
use crate::tests::GATE;
use crate::value::{level_of, output_levels, outputs, size};
use crate::voter::pair;
use std::collections::BTreeSet;

/// Every voter of a small network keeps the value of every gate under every assignment, and adds at most a level to each.
#[test]
fn voters_keep_values_and_add_at_most_a_level() {
    let mut random = Random::new(9);
    let mut accepted = 0;
    for _ in 0..600 {
        let (inputs, gates) = (random.between(1, 4), random.between(1, 8));
        let mut before = networks::sized(&mut random, inputs, gates, 0);
        before.outputs = (1..before.nodes()).map(Edge::plain).collect();
        for step in voters_of(&before) {
            let Ok(after) = apply(&before, step, 65_536) else {
                continue;
            };
            let copied = u32::from(step.gate) - inputs as u32;
            assert_eq!(size(&after), size(&before) + 3 * copied);
            let levels = output_levels(&before).into_iter().zip(output_levels(&after));
            assert!({ levels }.all(|(before, after)| after <= before + 1), "{before:?} {step:?}");
            let kept = |assignment| outputs(&before, assignment) == outputs(&after, assignment);
            assert!((0..1 << inputs).all(kept), "{before:?} {step:?}");
            accepted += 1;
        }
    }
    assert!(accepted > 2000, "{accepted}");
}

/// All steps of rule 9 whose fields are allowed.
fn voters_of(network: &Network) -> Vec<Step> {
    let (first, past) = (network.inputs as u16 + 1, network.nodes() as u16);
    let pairs = |g: u16| (1..g).flat_map(|b| (1..b).map(move |a| (a, b)));
    (first..past).flat_map(|g| pairs(g).map(move |(a, b)| Step { rule: 9, gate: g, a, b })).collect()
}

/// The gate's requests deal each shape of a voter and each way to miss it, and accept 300 single ones or more.
#[test]
fn every_shape_and_near_miss_is_dealt() {
    let mut dealer = Dealer::new(1, &operations());
    let (mut met, mut accepted) = (BTreeSet::new(), 0);
    for _ in 0..GATE {
        if let Request::Step(table, step @ Step { rule: 9, .. }) = dealer.deal().request {
            let Ok(network) = table.network() else {
                continue;
            };
            accepted += usize::from(apply(&network, step, table.buffer.len()).is_ok());
            met.extend(marks(&table, &network, step));
        }
    }
    let wanted = [
        "8: a = 0, 8: a = b, 8: a > b, 8: b = g, 8: b > g, 8: g an input, 8: g past the end",
        "9: no pair, 9: mixed polarity, 9: pair only above g, 9: a one level above b",
        "10: 1025 gates, 1024 gates, 1024 gates in a full buffer, a full buffer",
        "11: 1 short, 11: 2 short, 11: 3 short, 11: 4 short, 11: 5 short, 11: 6 short, 11: 7 short, 11: 8 short",
        "c is g, c read by g, c unread by g, polarity false, polarity true, equal levels of gates",
        "two inputs, an input and a gate, two gates, (a,a,b), (a,b,not a), (a,b,b), (a,b,not b), (a,b,x)",
        "again in the same polarity, again in the other polarity, again above g, mixed below c",
        "b read inverted, c read inverted",
    ];
    let wanted = wanted.iter().flat_map(|line| line.split(", "));
    let never: Vec<&str> = wanted.filter(|mark| !met.contains(*mark)).collect();
    assert!(never.is_empty() && accepted >= 300, "{accepted} accepted, never dealt: {never:?}");
}

/// What is particular about a step of rule 9, told from its fields and the network.
fn marks(table: &Table, network: &Network, step: Step) -> Vec<String> {
    let [g, a, b] = [step.gate, step.a, step.b].map(usize::from);
    let faults = [
        ("a = 0", a == 0),
        ("a = b", a == b && a > 0),
        ("a > b", a > b),
        ("b = g", b == g),
        ("b > g", b > g),
        ("g an input", g <= network.inputs),
        ("g past the end", g >= network.nodes()),
    ];
    match faults.iter().filter(|fault| fault.1).collect::<Vec<_>>()[..] {
        [] => Voter { network, g, a, b }.marks(table.buffer.len()),
        [(fault, _)] => vec![format!("8: {fault}")],
        _ => vec![],
    }
}

/// A voter whose fields are allowed.
struct Voter<'a> {
    network: &'a Network,
    g: usize,
    a: usize,
    b: usize,
}

impl Voter<'_> {
    /// The gates up to the last that is wanted, each with its node.
    fn gates(&self, last: usize) -> impl Iterator<Item = (usize, Edges)> + '_ {
        (self.network.inputs + 1..=last).zip(self.network.gates.iter().map(|gate| gate.edges))
    }

    /// Whether the gate names both a and b and has them in one polarity nowhere.
    fn is_mixed(&self, gate: Edges) -> bool {
        let names = |node| gate.iter().any(|edge| edge.node == node);
        names(self.a) && names(self.b) && pair(gate, self.a, self.b).is_none()
    }

    fn marks(&self, room: usize) -> Vec<String> {
        let found = |(node, gate)| Some((node, pair(gate, self.a, self.b)?[0].inverted));
        let paired: Vec<(usize, bool)> = self.gates(self.network.nodes() - 1).filter_map(found).collect();
        let levels = [self.a, self.b].map(|node| level_of(self.network, node));
        let inserted = 3 * (self.g - self.network.inputs);
        let (after, length) = (self.network.gates.len() + inserted, self.network.used() + 8 * inserted);
        let refused = match paired.first() {
            Some(c) if c.0 > self.g => "9: pair only above g".to_string(),
            None if self.gates(self.g).any(|(_, gate)| self.is_mixed(gate)) => "9: mixed polarity".to_string(),
            None => "9: no pair".to_string(),
            _ if levels[0] == levels[1] + 1 => "9: a one level above b".to_string(),
            _ if levels[0] > levels[1] => "9: a far above b".to_string(),
            _ if after > MOST_GATES => format!("10: {after} gates"),
            _ if length > room => format!("11: {} short", length - room),
            _ => {
                let mut marks = self.shape(&paired);
                let more = [
                    ("equal levels of gates", levels[0] == levels[1] && levels[0] > 0),
                    ("a full buffer", length == room),
                    ("1024 gates", after == MOST_GATES),
                    ("1024 gates in a full buffer", after == MOST_GATES && length == room),
                ];
                marks.extend(more.iter().filter(|mark| mark.1).map(|mark| mark.0));
                return marks.into_iter().map(str::to_string).collect();
            }
        };
        vec![refused]
    }

    /// How c stands to g, a and b, and what other gates read; of those with the pair c comes first.
    fn shape(&self, paired: &[(usize, bool)]) -> Vec<&'static str> {
        let Voter { network, g, a, b } = *self;
        let (c, polarity) = paired[0];
        let again = |other: &(usize, bool)| match (other.0 <= g, other.1 == polarity) {
            (true, true) => "again in the same polarity",
            (true, false) => "again in the other polarity",
            _ => "again above g",
        };
        let mut marks: Vec<&str> = paired.iter().skip(1).map(again).collect();
        marks.push(match c {
            _ if c == g => "c is g",
            _ if reads(network, g, c) => "c read by g",
            _ => "c unread by g",
        });
        marks.push(match [a, b].map(|node| node > network.inputs) {
            [false, false] => "two inputs",
            [false, true] => "an input and a gate",
            _ => "two gates",
        });
        let gate = network.edges(c).unwrap();
        let count = |node, inverted| gate.iter().filter(|&&edge| edge == Edge { node, inverted }).count();
        marks.push(match [count(a, polarity), count(b, polarity), count(a, !polarity), count(b, !polarity)] {
            [2, ..] => "(a,a,b)",
            [_, 2, ..] => "(a,b,b)",
            [_, _, 1, _] => "(a,b,not a)",
            [.., 1] => "(a,b,not b)",
            _ => "(a,b,x)",
        });
        let inverted = |node| move |(_, gate): (usize, Edges)| gate.contains(&Edge { node, inverted: true });
        let more = [
            ("polarity true", polarity),
            ("polarity false", !polarity),
            ("mixed below c", self.gates(c).any(|(_, gate)| self.is_mixed(gate))),
            ("b read inverted", self.gates(g).any(inverted(b))),
            ("c read inverted", self.gates(g).any(inverted(c))),
        ];
        marks.extend(more.iter().filter(|mark| mark.1).map(|mark| mark.0));
        marks
    }
}

/// Whether a node is among those that g reads, directly or not.
fn reads(network: &Network, g: usize, node: usize) -> bool {
    let mut read = vec![g];
    for at in (node + 1..=g).rev() {
        if let Some(gate) = network.edges(at).filter(|_| read.contains(&at)) {
            read.extend(gate.map(|edge| edge.node));
        }
    }
    read.contains(&node)
}
