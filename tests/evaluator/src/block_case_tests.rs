//! That every way of blocks is dealt, and that a program with another opinion of them is found out.

use crate::answer::{answer, Answer};
use crate::block_tests::blocks;
use crate::cases::Dealer;
use crate::counts::reads_a_table;
use crate::request::{operations, Request, Table};
use crate::rm3::{class, translate, Class, Mode, Operation, Rm3};
use crate::step::{apply, lay, Step};
use crate::table::{block_of, kind_of, read, record_bytes, Gate, Network, Record, Refusal};
use crate::tests::{against, GATE};
use std::collections::BTreeMap;

/// What is particular about the blocks of a request's table, and about what is asked of it.
fn marks(request: &Request) -> Vec<String> {
    let own = answer(request);
    let Ok(network) = request.network() else {
        let records = request.records();
        let refused = own.refusal.filter(|refusal| refusal.number == 2 || refusal.number == 4);
        let bad = refused.and_then(|refusal| Some((refusal, records.get(refusal.record as usize)?)));
        return bad.map(|(refusal, record)| refused_mark(refusal, record)).into_iter().collect();
    };
    let mut marks = Vec::new();
    if own.refusal.is_none() && !network.gates.is_empty() {
        let mut all = blocks(&network);
        let falls = all.windows(2).any(|two| two[0] > two[1]);
        all.sort_unstable();
        all.dedup();
        marks.push(match all[..] {
            [block @ (0 | 1 | 255)] => format!("accepted, {block} alone"),
            [_] => "accepted, another alone".to_string(),
            _ => format!("accepted, several{}", if falls { ", falling" } else { "" }),
        });
    }
    match request {
        Request::Step(_, step) => marks.extend(step_mark(&network, *step, own.refusal)),
        Request::Rm3(..) if own.refusal.is_none() => marks.extend(rm3_marks(&network)),
        _ => {}
    }
    marks
}

fn refused_mark(refusal: Refusal, record: &Record) -> String {
    let (kind, block) = (kind_of(record), block_of(record));
    match (refusal.number, kind) {
        (2, 0) => format!("2, low byte 0{}", if block == 0 { "" } else { " and a block" }),
        (2, 1..=3) => format!("2, kind {kind}{}", if block == 0 { "" } else { " and a block" }),
        (2, _) => format!("2, another low byte{}", if block == 0 { "" } else { " and a block" }),
        _ => {
            let fields = if kind == 1 { &record[1..] } else { &record[2..] };
            let fields = if fields.iter().all(|&field| field == 0) { "" } else { " and a field" };
            format!("4, kind {kind}{}{fields}", if block == 0 { "" } else { " with a block" })
        }
    }
}

fn step_mark(network: &Network, step: Step, refusal: Option<Refusal>) -> Option<String> {
    let number = refusal.map_or(0, |refusal| refusal.number);
    if step.rule > 255 {
        let low = step.rule % 256;
        return (number == 7 && (1..=10).contains(&low)).then(|| format!("7, {low} with a high byte"));
    }
    let g = network.gate(usize::from(step.gate))?;
    if step.rule == 7 && (number == 0 || number == 9) {
        let a = network.gate(usize::from(step.a))?;
        return (g.edges == a.edges).then(|| format!("{number}, share of {} and {}", part(g), part(a)));
    }
    let below = &network.gates[..usize::from(step.gate) - network.inputs - 1];
    let others = below.iter().any(|gate| gate.block != g.block);
    (number == 0).then(|| format!("rule {} at {}{}", step.rule, part(g), if others { " above others" } else { "" }))
}

/// The gate's block, where it is 0, 1 or 255.
fn part(gate: Gate) -> String {
    match gate.block {
        0 | 1 | 255 => gate.block.to_string(),
        _ => "another".to_string(),
    }
}

fn rm3_marks(network: &Network) -> Vec<String> {
    let outputs = network.outputs.iter().filter(|&&edge| class(edge) == Class::Inverted);
    let inverted = outputs.filter_map(|edge| network.gate(edge.node));
    let helped = |gate: &&Gate| gate.edges.iter().filter(|&&edge| class(edge) == Class::Inverted).count() > 1;
    let of_gates = network.gates.iter().filter(helped).map(|gate| format!("helpers of a gate of {}", part(*gate)));
    of_gates.chain(inverted.map(|gate| format!("an output's helper of a gate of {}", part(gate)))).collect()
}

/// The gate's requests deal every way of blocks to every operation.
#[test]
fn every_way_of_blocks_is_dealt() {
    let mut dealer = Dealer::new(1, &operations());
    let mut met = BTreeMap::<(u8, String), usize>::new();
    for _ in 0..GATE {
        let request = dealer.deal().request;
        for mark in marks(&request) {
            *met.entry((request.operation(), mark)).or_default() += 1;
        }
    }
    let tables =
        "accepted, 0 alone; accepted, 1 alone; accepted, 255 alone; accepted, several; accepted, several, falling; \
        2, low byte 0; 2, low byte 0 and a block; 2, kind 1; 2, kind 1 and a block; 2, kind 2; 2, another low byte; \
        2, another low byte and a block; 4, kind 1 and a field; 4, kind 3 and a field; 4, kind 1 with a block; \
        4, kind 3 with a block; 4, kind 1 with a block and a field; 4, kind 3 with a block and a field";
    let pairs = "0 and 1; 1 and 0; 0 and 255; 255 and 0; 1 and 255; 255 and 1; another and another";
    let shares = pairs.split("; ").map(|pair| format!("9, share of {pair}"));
    let within = ["0", "1", "255", "another"].map(|block| format!("0, share of {block} and {block}"));
    let high = (1..=10).map(|rule| format!("7, {rule} with a high byte"));
    let rules = [1, 2, 3, 4, 5, 6, 9, 10].into_iter();
    let alone = rules.flat_map(|rule| [0, 1, 255].map(|block| format!("rule {rule} at {block} above others")));
    let helpers = ["0", "1", "255", "another"].iter().flat_map(|block| {
        [format!("helpers of a gate of {block}"), format!("an output's helper of a gate of {block}")]
    });
    let of_tables = operations()
        .into_iter()
        .filter(|&operation| reads_a_table(operation))
        .flat_map(|operation| tables.split("; ").map(move |mark| (operation, mark.to_string())));
    let of_steps = shares.chain(within).chain(high).chain(alone).map(|mark| (4, mark));
    let of_helpers = helpers.flat_map(|mark| [(6, mark.clone()), (16, mark)]);
    let wanted = of_tables.chain(of_steps).chain(of_helpers);
    let never: Vec<_> = wanted.filter(|mark| !met.contains_key(mark)).collect();
    assert!(never.is_empty(), "never dealt: {never:?} of {met:?}");
}

/// The answer of a program that refuses an accepted table with 2, at the record that is given.
fn refused_at(request: &Request, own: Answer, bad: fn(&[Record]) -> Option<usize>) -> Answer {
    match bad(&request.records()) {
        Some(at) if own.refusal.is_none() && request.operation() < 4 => {
            let refusal = Some(Refusal { number: 2, record: at as u32, edge: 0 });
            Answer { refusal, numbers: vec![0; own.numbers.len()], ..own }
        }
        _ => own,
    }
}

/// The answer of a program whose table after an accepted step has other blocks; old is the network before it.
fn other_blocks(request: &Request, own: Answer, rules: &[u16], slip: fn(&Network, Step, &mut Network)) -> Answer {
    let Request::Step(table, step) = request else {
        return own;
    };
    if own.refusal.is_some() || !rules.contains(&step.rule) {
        return own;
    }
    let mut network = read(&own.bytes, own.numbers[0], None).unwrap();
    slip(&table.network().unwrap(), *step, &mut network);
    let mut bytes = own.bytes;
    lay(&mut bytes, own.numbers[0], &network);
    Answer { bytes, ..own }
}

/// The gates that a step has inserted, and g after them.
fn inserted<'a>(old: &Network, step: Step, network: &'a mut Network) -> &'a mut [Gate] {
    let (first, more) = (usize::from(step.gate) - old.inputs - 1, network.gates.len() - old.gates.len());
    &mut network.gates[first..=first + more]
}

/// The answer to a check, a report or an evaluation of the table with its records changed so.
fn asked_of(request: &Request, change: impl Fn(&mut Vec<Record>)) -> Answer {
    let of = |table: &Table| {
        let mut changed = request.records();
        change(&mut changed);
        let used = table.buffer.len().min(table.used as usize) / 8 * 8;
        let buffer = [&record_bytes(&changed)[..], &table.buffer[used..]].concat();
        Table { buffer, ..table.clone() }
    };
    match request {
        Request::Check(table) => answer(&Request::Check(of(table))),
        Request::Report(table) => answer(&Request::Report(of(table))),
        Request::Evaluate(table, assignment) => answer(&Request::Evaluate(of(table), *assignment)),
        _ => answer(request),
    }
}

/// The answer of a program whose RM3 table has other blocks, where helpers are made anew.
fn with_rm3(request: &Request, own: Answer, slip: fn(&Network, &mut Rm3)) -> Answer {
    match request {
        Request::Rm3(Mode::Anew, table, _) if own.refusal.is_none() => {
            let network = table.network().unwrap();
            let mut rm3 = translate(&network, Mode::Anew);
            slip(&network, &mut rm3);
            let mut bytes = own.bytes;
            bytes[..own.numbers[0] as usize].copy_from_slice(&rm3.bytes());
            Answer { bytes, ..own }
        }
        _ => own,
    }
}

/// The network with block 0 alone.
fn of_zero(network: &Network) -> Network {
    let mut network = network.clone();
    network.gates.iter_mut().for_each(|gate| gate.block = 0);
    network
}

#[test]
fn another_opinion_of_blocks_is_found_out() {
    const GROWING: [u16; 4] = [3, 4, 5, 9];
    let slips: [fn(&Request, Answer) -> Answer; 17] = [
        // A kind with a high byte is no kind.
        |request, own| refused_at(request, own, |records| records.iter().position(|record| record[0] > 255)),
        // A block on an input, or on an output, is not looked at.
        |request, own| match own.refusal {
            Some(Refusal { number: 4, .. }) => asked_of(request, |records| {
                records.iter_mut().filter(|record| kind_of(record) == 1).for_each(|record| record[0] = 1);
            }),
            _ => own,
        },
        |request, own| match own.refusal {
            Some(Refusal { number: 4, .. }) => asked_of(request, |records| {
                records.iter_mut().filter(|record| kind_of(record) == 3).for_each(|record| record[0] = 3);
            }),
            _ => own,
        },
        // The low byte 0 is a kind where the high byte is one.
        |request, own| match own.refusal {
            Some(Refusal { number: 2, .. }) => asked_of(request, |records| {
                let swapped = records.iter_mut().filter(|record| kind_of(record) == 0);
                swapped.for_each(|record| record[0] = record[0].swap_bytes());
            }),
            _ => own,
        },
        // The order of kinds counts blocks.
        |request, own| {
            refused_at(request, own, |records| {
                let falls = records.windows(2).position(|two| two[0][0] > two[1][0]);
                falls.map(|at| at + 1)
            })
        },
        // Share looks at the edges alone.
        |request, own| match request {
            Request::Step(table, step) if step.rule == 7 && own.refusal == Some(Refusal::plain(9)) => {
                let plain = of_zero(&table.network().unwrap());
                match apply(&plain, *step, table.buffer.len()) {
                    Ok(_) => Answer { refusal: None, ..own },
                    Err(_) => own,
                }
            }
            _ => own,
        },
        // What is inserted takes block 0, or that of the gate below g, or of the gate that it copies.
        |request, own| {
            other_blocks(request, own, &GROWING, |old, step, new| {
                let all = inserted(old, step, new);
                let last = all.len() - 1;
                all[..last].iter_mut().for_each(|gate| gate.block = 0);
            })
        },
        |request, own| {
            other_blocks(request, own, &GROWING, |old, step, new| {
                if let Some(below) = old.gate(usize::from(step.gate) - 1) {
                    let all = inserted(old, step, new);
                    let last = all.len() - 1;
                    all[..last].iter_mut().for_each(|gate| gate.block = below.block);
                }
            })
        },
        |request, own| {
            other_blocks(request, own, &[9], |old, step, new| {
                let copied = usize::from(step.gate) - old.inputs;
                let own = blocks(old)[..copied].repeat(3);
                inserted(old, step, new).iter_mut().zip(own).for_each(|(gate, block)| gate.block = block);
            })
        },
        // Rule 4 forgets the second of its two gates.
        |request, own| other_blocks(request, own, &[4], |old, step, new| inserted(old, step, new)[1].block = 0),
        // g loses its block.
        |request, own| {
            other_blocks(request, own, &[1, 2, 3, 4, 5, 6, 7, 9, 10], |old, step, new| {
                inserted(old, step, new).last_mut().unwrap().block = 0;
            })
        },
        // Sweep leaves the blocks where they stood, or loses them.
        |request, own| {
            other_blocks(request, own, &[8], |old, _, new| {
                new.gates.iter_mut().zip(&old.gates).for_each(|(gate, there)| gate.block = there.block);
            })
        },
        |request, own| other_blocks(request, own, &[8], |_, _, new| *new = of_zero(new)),
        // The high byte of a rule's number is not looked at.
        |request, own| match request {
            Request::Step(table, step) if step.rule > 255 => {
                answer(&Request::Step(table.clone(), Step { rule: step.rule % 256, ..*step }))
            }
            _ => own,
        },
        // A gate's helper has block 0, or an output's helper has the block of the gate that it inverts, or no operation has one.
        |request, own| {
            with_rm3(request, own, |_, rm3| {
                let helper = |operation: &&mut Operation| operation.operands[0] == 0 && operation.operands[2] == 1;
                rm3.operations.iter_mut().filter(helper).for_each(|operation| operation.block = 0);
            })
        },
        |request, own| {
            with_rm3(request, own, |network, rm3| {
                let inverted = network.outputs.iter().filter(|&&edge| class(edge) == Class::Inverted);
                let helpers = rm3.operations.iter_mut().rev().zip(inverted.rev());
                helpers.for_each(|(operation, edge)| {
                    operation.block = network.gate(edge.node).map_or(0, |gate| gate.block)
                });
            })
        },
        |request, own| with_rm3(request, own, |_, rm3| rm3.operations.iter_mut().for_each(|each| each.block = 0)),
    ];
    for (number, slip) in slips.into_iter().enumerate() {
        let text = against(slip).err().unwrap_or_else(|| panic!("slip {number} was not found out"));
        assert!(text.contains("expected") && text.contains("seed 3"), "{text}");
    }
}
