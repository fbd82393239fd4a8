//! Rules 2 and 10: what each does to the first two edges of a gate, that every way of these edges is dealt to both, and that a
//! program with another opinion of them is found out.

use crate::answer::{answer, Answer};
use crate::cases::Dealer;
use crate::request::{operations, Request, Table};
use crate::sheet::{network, step};
use crate::step::{apply, lay, FirstTwo, Step};
use crate::table::{Edge, Edges, Network, Refusal, MOST_GATES};
use crate::tests::{against, GATE};
use std::collections::BTreeMap;

/// Rule 2 takes equal edges alone and redirects to the first, rule 10 opposite ones alone and redirects to the third. Constants
/// are equal or opposite as other edges are, and a reader keeps its own inversion.
#[test]
fn rules_2_and_10() {
    let read = |first, second| network(2, [[first, second, 5], [6, 7, 0]], &[6, 7, 8]);
    let after = |first, second, to| Ok(network(2, [[first, second, 5], [to, to ^ 1, 0]], &[to, to ^ 1, 8]));
    for edge in [0, 1, 2, 3, 4, 5] {
        let (equal, opposite) = (read(edge, edge), read(edge, edge ^ 1));
        assert_eq!((step(&equal, 2, 3), step(&equal, 10, 3)), (after(edge, edge, edge), Err(9)));
        assert_eq!((step(&opposite, 2, 3), step(&opposite, 10, 3)), (Err(9), after(edge, edge ^ 1, 5)));
    }
    for (first, second) in [(2, 4), (4, 2), (3, 4), (4, 3), (2, 1), (1, 2), (0, 2), (3, 5)] {
        assert_eq!((step(&read(first, second), 2, 3), step(&read(first, second), 10, 3)), (Err(9), Err(9)));
    }
}

/// Of three edges on one node rules 2 and 10 look at the first two; nobody need read the gate.
#[test]
fn rules_2_and_10_on_three_edges() {
    let three = |gate| network(1, [gate], &[5]);
    assert_eq!(step(&three([2, 2, 3]), 2, 2), Ok(network(1, [[2, 2, 3]], &[3])));
    assert_eq!(step(&three([2, 3, 2]), 10, 2), Ok(network(1, [[2, 3, 2]], &[3])));
    assert_eq!(step(&three([2, 3, 3]), 10, 2), Ok(network(1, [[2, 3, 3]], &[2])));
    assert_eq!((step(&three([2, 3, 2]), 2, 2), step(&three([2, 2, 3]), 10, 2)), (Err(9), Err(9)));
    assert_eq!((step(&three([2, 0, 2]), 2, 2), step(&three([2, 0, 3]), 10, 2)), (Err(9), Err(9)));
    let unread = network(1, [[2, 3, 0]], &[2]);
    assert_eq!(step(&unread, 10, 2), Ok(unread));
}

/// Rule 10 has the fields of rule 2, and 11 is no rule.
#[test]
fn fields_of_rules_2_and_10() {
    let (equal, opposite) = (network(2, [[2, 2, 4]], &[6]), network(2, [[2, 3, 4]], &[6]));
    for (before, rule) in [(equal, 2), (opposite, 10)] {
        let refused = |fields| apply(&before, Step::of(fields), 65_536).err().map(|refusal| refusal.number);
        assert_eq!(refused([rule, 3, 0, 0]), None);
        for (gate, a, b) in [(0, 0, 0), (2, 0, 0), (4, 0, 0), (3, 1, 0), (3, 2, 0), (3, 0, 1), (3, 1, 2), (259, 0, 0)] {
            assert_eq!(refused([rule, gate, a, b]), Some(8), "({rule}, {gate}, {a}, {b})");
        }
        for other in [0, 11, 256 + rule, 65_535] {
            assert_eq!(refused([other, 3, 0, 0]), Some(7));
        }
    }
}

/// What is particular about a step whose number is 2 or 10, or misses one of them, told from its fields and the network.
fn marks(table: &Table, network: &Network, step: Step) -> Vec<String> {
    let rule = step.rule;
    let Some(gate) = network.edges(usize::from(step.gate)).filter(|_| step.a == 0 && step.b == 0) else {
        return fault(network, step).map(|fault| format!("{rule} 8: {fault}")).into_iter().collect();
    };
    let first_two = FirstTwo::of(gate);
    if rule != 2 && rule != 10 {
        return vec![format!("{rule} 7: {first_two:?}")];
    }
    let mut marks = vec![format!("{rule} {first_two:?} {}", sort(network, gate[0])), format!("{rule} {}", third(gate))];
    let [first, second, _] = gate.map(Edge::number);
    let taken = first_two == if rule == 2 { FirstTwo::Equal } else { FirstTwo::Opposite };
    let near = [
        ("next number", first_two == FirstTwo::Neither && first.abs_diff(second) == 1),
        ("low bytes", first_two == FirstTwo::Neither && (first ^ second) % 256 == u16::from(rule == 10)),
        ("full", network.gates.len() == MOST_GATES && table.buffer.len() == network.used()),
    ];
    marks.extend(near.iter().filter(|mark| mark.1).map(|mark| format!("{rule} {}", mark.0)));
    if taken {
        marks.extend(readers(network, usize::from(step.gate)).iter().map(|reader| format!("{rule} {reader}")));
    }
    marks
}

/// The one field that is wrong, where it is one.
fn fault(network: &Network, step: Step) -> Option<&'static str> {
    let g = usize::from(step.gate);
    let faults = [
        ("gate 0", g == 0),
        ("gate an input", 0 < g && g <= network.inputs),
        ("gate past the end", g >= network.nodes()),
        ("a not 0", step.a != 0),
        ("b not 0", step.b != 0),
    ];
    match faults.iter().filter(|fault| fault.1).collect::<Vec<_>>()[..] {
        [fault] => Some(fault.0),
        _ => None,
    }
}

/// What the first edge names, and how.
fn sort(network: &Network, edge: Edge) -> &'static str {
    match (edge.node, edge.inverted) {
        (0, false) => "false",
        (0, true) => "true",
        (node, false) if node <= network.inputs => "input",
        (node, true) if node <= network.inputs => "inverted input",
        (_, false) => "gate",
        (_, true) => "inverted gate",
    }
}

/// The gate's edges, up to names and polarity.
fn third([first, second, third]: Edges) -> &'static str {
    let is = |edge: Edge| [third == edge, third == edge.inverted_if(true)];
    match (FirstTwo::of([first, second, third]), is(first), is(second)) {
        (FirstTwo::Equal, [true, _], _) => "(x,x,x)",
        (FirstTwo::Equal, [_, true], _) => "(x,x,!x)",
        (FirstTwo::Equal, ..) => "(x,x,y)",
        (FirstTwo::Opposite, [true, _], _) => "(x,!x,x)",
        (FirstTwo::Opposite, [_, true], _) => "(x,!x,!x)",
        (FirstTwo::Opposite, ..) => "(x,!x,y)",
        (FirstTwo::Neither, [true, _], _) => "(x,y,x)",
        (FirstTwo::Neither, [_, true], _) => "(x,y,!x)",
        (FirstTwo::Neither, _, [true, _]) => "(x,y,y)",
        (FirstTwo::Neither, _, [_, true]) => "(x,y,!y)",
        (FirstTwo::Neither, ..) => "(x,y,z)",
    }
}

/// Who reads the node, and how.
fn readers(network: &Network, node: usize) -> Vec<&'static str> {
    let gates = |inverted| network.gates.iter().any(|gate| gate.edges.contains(&Edge { node, inverted }));
    let outputs = |inverted| network.outputs.contains(&Edge { node, inverted });
    let all = [
        ("read by a gate", gates(false)),
        ("read by a gate, inverted", gates(true)),
        ("read by an output", outputs(false)),
        ("read by an output, inverted", outputs(true)),
    ];
    let read: Vec<_> = all.iter().filter(|reader| reader.1).map(|reader| reader.0).collect();
    if read.is_empty() {
        vec!["unread"]
    } else {
        read
    }
}

/// The gate's requests deal each way of the first two edges to both rules, each of them often enough.
#[test]
fn every_way_of_the_first_two_edges_is_dealt() {
    let mut dealer = Dealer::new(1, &operations());
    let mut met = BTreeMap::<String, usize>::new();
    for _ in 0..GATE {
        if let Request::Step(table, step) = dealer.deal().request {
            let network = table.network().ok().filter(|_| [2, 10, 11, 258, 266].contains(&step.rule));
            for mark in network.iter().flat_map(|network| marks(&table, network, step)) {
                *met.entry(mark).or_default() += 1;
            }
        }
    }
    let sorts = ["false", "true", "input", "inverted input", "gate", "inverted gate"];
    let ways = ["Equal", "Opposite", "Neither"].iter().flat_map(|two| sorts.map(|sort| format!("{two} {sort}")));
    let thirds = "(x,x,x) (x,x,!x) (x,x,y) (x,!x,x) (x,!x,!x) (x,!x,y) (x,y,x) (x,y,!x) (x,y,y) (x,y,!y) (x,y,z)";
    let more = [
        "next number",
        "low bytes",
        "full",
        "unread",
        "read by a gate",
        "read by a gate, inverted",
        "read by an output",
        "read by an output, inverted",
        "8: gate 0",
        "8: gate an input",
        "8: gate past the end",
        "8: a not 0",
        "8: b not 0",
    ];
    let wanted: Vec<String> = ways.chain(thirds.split(' ').chain(more).map(str::to_string)).collect();
    let of_rules = [2, 10].into_iter().flat_map(|rule| wanted.iter().map(move |mark| format!("{rule} {mark}")));
    let numbers = ["11 7: Equal", "11 7: Opposite", "258 7: Equal", "266 7: Opposite"].map(str::to_string);
    let few = |mark: &String| met.get(mark).is_none_or(|&count| count < 4);
    let never: Vec<String> = of_rules.chain(numbers).filter(few).collect();
    assert!(never.is_empty(), "dealt less than four times: {never:?} of {met:?}");
}

/// The answer to a step on this table that would redirect its gate to the edge.
fn redirected(table: &Table, step: Step, to: impl Fn(Edges) -> Edge) -> Answer {
    let mut network = table.network().unwrap();
    let g = usize::from(step.gate);
    let to = to(network.edges(g).unwrap());
    network.edges_mut().filter(|edge| edge.node == g).for_each(|edge| *edge = to.inverted_if(edge.inverted));
    let mut bytes = table.buffer.clone();
    let used = lay(&mut bytes, table.used, &network);
    Answer { refusal: None, numbers: vec![used], bytes }
}

/// What a program replies that also takes a step which is refused with 9.
fn also(request: &Request, own: Answer, rule: u16, taken: fn(Edges) -> Option<Edge>) -> Answer {
    match request {
        Request::Step(table, step) if step.rule == rule && own.refusal == Some(Refusal::plain(9)) => {
            let gate = table.network().unwrap().edges(usize::from(step.gate)).unwrap();
            taken(gate).map_or(own, |to| redirected(table, *step, |_| to))
        }
        _ => own,
    }
}

/// What a program replies that redirects to another edge where the rule is taken.
fn instead(request: &Request, own: Answer, rule: u16, to: fn(Edges) -> Edge) -> Answer {
    match request {
        Request::Step(table, step) if step.rule == rule && own.refusal.is_none() => redirected(table, *step, to),
        _ => own,
    }
}

#[test]
fn another_opinion_of_the_first_two_edges_is_found_out() {
    let slips: [fn(&Request, Answer) -> Answer; 14] = [
        // Rule 2 takes opposite edges as well.
        |request, own| also(request, own, 2, |[x, y, z]| (x.node == y.node).then_some(z)),
        // Rule 10 takes equal edges as well, and redirects to them or to the third.
        |request, own| also(request, own, 10, |[x, y, _]| (x == y).then_some(x)),
        |request, own| also(request, own, 10, |[x, y, z]| (x == y).then_some(z)),
        // Edges are opposite where their numbers are next to each other.
        |request, own| also(request, own, 10, |[x, y, z]| (x.number().abs_diff(y.number()) == 1).then_some(z)),
        // Low bytes alone are compared.
        |request, own| also(request, own, 2, |[x, y, _]| ((x.number() ^ y.number()) % 256 == 0).then_some(x)),
        |request, own| also(request, own, 10, |[x, y, z]| ((x.number() ^ y.number()) % 256 == 1).then_some(z)),
        // Other pairs of edges are looked at as well.
        |request, own| also(request, own, 2, |[x, _, z]| (x == z).then_some(x)),
        |request, own| also(request, own, 10, |[x, y, z]| (y == z.inverted_if(true)).then_some(x)),
        // Rule 10 redirects to the first or the second edge, or loses the inversion of the third.
        |request, own| instead(request, own, 10, |[x, _, _]| x),
        |request, own| instead(request, own, 10, |[_, y, _]| y),
        |request, own| instead(request, own, 10, |[_, _, z]| Edge::plain(z.node)),
        // Rule 2 redirects to the third edge.
        |request, own| instead(request, own, 2, |[_, _, z]| z),
        // 10 is no rule.
        |request, mut own| match request {
            Request::Step(table, Step { rule: 10, .. }) if table.network().is_ok() => {
                own.bytes = table.buffer.clone();
                Answer { refusal: Some(Refusal::plain(7)), numbers: vec![0], ..own }
            }
            _ => own,
        },
        // The high byte of a step's number is not looked at.
        |request, own| match request {
            Request::Step(table, step) if step.rule > 255 => {
                answer(&Request::Step(table.clone(), Step { rule: step.rule % 256, ..*step }))
            }
            _ => own,
        },
    ];
    for (number, slip) in slips.into_iter().enumerate() {
        let text = against(slip).err().unwrap_or_else(|| panic!("slip {number} was not found out"));
        assert!(text.contains("expected") && text.contains("seed 3"), "{text}");
    }
}
