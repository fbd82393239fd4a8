//! The edge of refusal 5: every mixture of sound and bad edges is dealt to every operation, and a program that tells
//! another edge is found out.

use crate::answer::{answer, Answer};
use crate::cases::Dealer;
use crate::counts::reads_a_table;
use crate::request::{operations, Request};
use crate::table::{block_of, census, kind_of, Edge, Record, Refusal};
use crate::tests::{against, GATE};
use std::cmp::Ordering;
use std::collections::BTreeMap;

/// How each edge of a gate or an output stands to the lowest node that it may not name: below it, at it or above it.
fn standing(records: &[Record], place: usize) -> Vec<Ordering> {
    let [inputs, gates, _] = census(records);
    let ways = |edges: &[u16], bound: usize| edges.iter().map(|&edge| Edge::of(edge).node.cmp(&bound)).collect();
    let record = &records[place];
    match kind_of(record) {
        2 => ways(&record[1..], place + 1),
        3 => ways(&record[1..2], inputs + gates + 1),
        _ => vec![],
    }
}

/// The bad edges of a record, counted from 1.
fn bad_edges(records: &[Record], place: usize) -> Vec<u32> {
    (1..).zip(standing(records, place)).filter(|(_, way)| way.is_ge()).map(|(edge, _)| edge).collect()
}

/// What is particular about a table that is refused with 5, or with 4 where its edge is bad too.
fn marks(records: &[Record], refusal: Refusal) -> Vec<String> {
    let place = refusal.record as usize;
    let record = records[place];
    let ways: Vec<&str> = standing(records, place)
        .iter()
        .map(|way| match way {
            Ordering::Less => "sound",
            Ordering::Equal => "next",
            Ordering::Greater => "beyond",
        })
        .collect();
    let ways = ways.join(" ");
    if refusal.number == 4 {
        return vec![format!("4 and {ways}, {} {} {}", block_of(&record).min(1), record[2].min(1), record[3].min(1))];
    }
    let others = |at: usize| bad_edges(records, at).first().is_some_and(|&edge| edge != refusal.edge);
    let fields = |at: usize| kind_of(&records[at]) == 3 && (records[at][2] != 0 || records[at][3] != 0);
    let highest = [2 * place as u16, 2 * place as u16 + 1];
    let more = [
        ("in record 0", place == 0),
        ("in a record past 255", place > 255),
        ("before another edge", (place + 1..records.len()).any(others)),
        ("before a field", (place + 1..records.len()).any(fields)),
        ("beside the highest node", kind_of(&record) == 2 && record[1..].iter().any(|edge| highest.contains(edge))),
    ];
    let kind = if kind_of(&record) == 2 { "gate" } else { "output" };
    let more = more.iter().filter(|mark| mark.1).map(|mark| mark.0.to_string());
    more.chain([format!("{kind} {ways}")]).collect()
}

/// The gate's requests deal every mixture of sound and bad edges to every operation, each of them often enough.
#[test]
fn every_bad_edge_is_dealt() {
    let mut dealer = Dealer::new(1, &operations());
    let mut met = BTreeMap::<(u8, String), usize>::new();
    let (mut edges, mut several, mut beside) = ([0; 4], 0, 0);
    for _ in 0..GATE {
        let request = dealer.deal().request;
        let (records, refusal) = (request.records(), answer(&request).refusal);
        let Some(refusal) = refusal.filter(|refusal| refusal.number == 4 || refusal.number == 5) else {
            continue;
        };
        let bad = bad_edges(&records, refusal.record as usize);
        if refusal.number == 5 {
            edges[refusal.edge as usize] += 1;
            several += usize::from(bad.len() > 1);
        } else if bad.is_empty() {
            continue;
        } else {
            beside += 1;
        }
        for mark in marks(&records, refusal) {
            *met.entry((request.operation(), mark)).or_default() += 1;
        }
    }
    let ways = ["sound", "next", "beyond"];
    let gates = ways.iter().flat_map(|first| ways.iter().map(move |second| (first, second)));
    let gates =
        gates.flat_map(|(first, second)| ways.iter().map(move |third| format!("gate {first} {second} {third}")));
    let outputs = ["output next", "output beyond", "4 and next, 0 1 0", "4 and next, 0 0 1", "4 and beyond, 0 1 1"];
    let more =
        ["in record 0", "in a record past 255", "before another edge", "before a field", "beside the highest node"];
    let others = outputs.iter().chain(&more).map(|mark| mark.to_string());
    let wanted: Vec<String> = gates.skip(1).chain(others).collect();
    let reading = operations().into_iter().filter(|&operation| reads_a_table(operation));
    let each = reading.flat_map(|operation| wanted.iter().map(move |mark| (operation, mark.clone())));
    let never: Vec<_> = each.filter(|mark| !met.contains_key(mark)).collect();
    assert!(never.is_empty(), "never dealt: {never:?}");
    assert!(edges[1..].iter().all(|&count| count >= 200), "{edges:?}");
    assert!(several >= 500 && beside >= 100, "{several} with several bad edges, {beside} with 4 and 5");
}

/// An answer whose refusal 5 tells another edge.
fn telling(mut own: Answer, edge: impl Fn(Refusal) -> u32) -> Answer {
    if let Some(refusal) = own.refusal.as_mut().filter(|refusal| refusal.number == 5) {
        refusal.edge = edge(*refusal);
    }
    own
}

#[test]
fn another_edge_is_found_out() {
    let slips: [fn(&Request, Answer) -> Answer; 9] = [
        // No edge is told.
        |_, own| telling(own, |_| 0),
        // Edges are counted from 0.
        |_, own| telling(own, |refusal| refusal.edge - 1),
        // The last bad edge of the record is told.
        |request, own| {
            let records = request.records();
            telling(own, |refusal| *bad_edges(&records, refusal.record as usize).last().unwrap())
        },
        // The highest edge of a gate is told.
        |request, own| {
            let records = request.records();
            telling(own, |refusal| {
                let record = &records[refusal.record as usize];
                match kind_of(record) {
                    2 => (1..4).rev().max_by_key(|&place| record[place]).unwrap() as u32,
                    _ => refusal.edge,
                }
            })
        },
        // An edge that names the gate itself is passed over where another is bad.
        |request, own| {
            let records = request.records();
            telling(own, |refusal| {
                let ways = standing(&records, refusal.record as usize);
                ways.iter().position(|way| way.is_gt()).map_or(refusal.edge, |place| 1 + place as u32)
            })
        },
        // The edge is that of the last record with a bad one.
        |request, own| {
            let records = request.records();
            telling(own, |_| (0..records.len()).rev().find_map(|at| bad_edges(&records, at).first().copied()).unwrap())
        },
        // 4 tells the bad edge of its record.
        |request, mut own| {
            if let Some(refusal) = own.refusal.as_mut().filter(|refusal| refusal.number == 4) {
                let bad = bad_edges(&request.records(), refusal.record as usize);
                refusal.edge = bad.first().copied().unwrap_or(0);
            }
            own
        },
        // A script tells no edge.
        |request, own| match request {
            Request::Script(..) => telling(own, |_| 0),
            _ => own,
        },
        // A reading tells the first edge always.
        |request, own| match request {
            Request::ReadingEvaluate(..) | Request::ReadingReport(..) => telling(own, |_| 1),
            _ => own,
        },
    ];
    for (number, slip) in slips.into_iter().enumerate() {
        let text = against(slip).err().unwrap_or_else(|| panic!("slip {number} was not found out"));
        assert!(text.contains("edge: expected") && text.contains("seed 3"), "{text}");
    }
}
