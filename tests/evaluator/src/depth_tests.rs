//! Depth: what it is of small tables, that tables of every kind that it tells apart are dealt, and that a program which
//! reports another is found out.

use crate::answer::{answer, Answer};
use crate::cases::Dealer;
use crate::depth_kept_tests::swept;
use crate::request::{operations, Request, Table};
use crate::rm3::{class, translate, Class, Mode};
use crate::sheet::network;
use crate::table::Network;
use crate::tests::{against, GATE};
use crate::value::{depth, highest_level, level_of, output_levels};
use std::collections::BTreeMap;

/// The highest level among the nodes that outputs name, in whichever output it is and however its edge; size counts every
/// gate.
#[test]
fn depth_of_what_outputs_name() {
    let report = |network: &Network| {
        let buffer = network.bytes();
        answer(&Request::Report(Table { used: buffer.len() as u32, buffer })).numbers
    };
    let gates = [[2, 4, 0], [6, 2, 4], [8, 2, 4], [0, 2, 4]];
    let outputs: [(&[u16], u32); 9] = [
        (&[2], 0),
        (&[0, 1, 5], 0),
        (&[6], 1),
        (&[9], 2),
        (&[12], 1),
        (&[10, 6, 2], 3),
        (&[3, 7, 11], 3),
        (&[7, 9, 13], 2),
        (&[12, 1, 12], 1),
    ];
    for (outputs, depth) in outputs {
        assert_eq!(report(&network(2, gates, outputs)), [4, depth], "{outputs:?}");
    }
    let [before, after] = [5, 3].map(|output| network(1, [[2, 2, 0]], &[output]));
    assert_eq!((report(&before), report(&after)), (vec![1, 1], vec![1, 0]));
}

/// The same of RM3 tables: the helper of an inverted output stands one level above what it inverts. Depth is the same whether a
/// helper is reused or not.
#[test]
fn rm3_depth_of_what_outputs_name() {
    let listed = |network: Network| {
        let [once, anew] = [Mode::Once, Mode::Anew].map(|mode| translate(&network, mode));
        assert_eq!(once.depth(), anew.depth());
        ([once.operations.len(), anew.operations.len()], once.depth())
    };
    assert_eq!(listed(network(1, [[3, 3, 3]], &[3, 3])), ([2, 5], 1));
    assert_eq!(listed(network(1, [[3, 3, 3]], &[2, 1])), ([2, 3], 0));
    assert_eq!(listed(network(3, [[2, 4, 6], [8, 8, 8]], &[8])), ([4, 4], 2));
    assert_eq!(listed(network(3, [[2, 4, 6], [8, 8, 8]], &[9])), ([4, 5], 3));
    assert_eq!(listed(network(3, [[2, 4, 6], [8, 8, 8]], &[3, 10, 9])), ([5, 6], 4));
}

/// What depth is told by, of an accepted table.
fn marks(network: &Network) -> Vec<&'static str> {
    let levels = output_levels(network);
    let (depth, highest, last) = (depth(network), highest_level(network), levels.len() - 1);
    let on = |is: fn(usize, usize) -> bool| network.outputs.iter().all(|edge| is(edge.node, network.inputs));
    let places: Vec<usize> = (0..=last).filter(|&place| levels[place] == depth).collect();
    let alone = places.len() == 1 && last > 0;
    let inverted = places.iter().all(|&place| network.outputs[place].inverted);
    let nodes = network.outputs.iter().map(|edge| edge.node);
    let (lowest, top) = (nodes.clone().min().unwrap_or(0), nodes.max().unwrap_or(0));
    let deepest = (0..network.nodes()).find(|&node| level_of(network, node) == highest).unwrap_or(0);
    let above = highest > depth;
    let all = [
        ("constants alone", highest > 0 && on(|node, _| node == 0)),
        ("inputs alone", highest > 0 && on(|node, inputs| node > 0 && node <= inputs)),
        ("inputs and constants", highest > 0 && on(|node, inputs| node <= inputs) && top > 0 && lowest == 0),
        ("one level above", depth > 0 && highest == depth + 1),
        ("levels above", depth > 0 && highest > depth + 1),
        ("a thousand levels above", highest > depth + 1000),
        ("above, before what is named", above && depth > 0 && deepest < top),
        ("above, behind what is named", above && depth > 0 && deepest > top),
        ("the first alone", alone && places[0] == 0),
        ("the last alone", alone && places[0] == last),
        ("one between alone", alone && 0 < places[0] && places[0] < last),
        ("the last of 32 alone", alone && places[0] == 31),
        ("the first of 32 alone", alone && places[0] == 0 && last == 31),
        ("inverted alone", depth > 0 && inverted),
        (
            "plain alone, a lower one inverted",
            depth > 0 && alone && !inverted && network.outputs.iter().any(|e| e.inverted),
        ),
        ("a lower gate named behind it", depth > 0 && level_of(network, top) < depth),
        ("nothing above, 32 outputs", !above && depth > 0 && last == 31),
        ("depth 1000 and more", depth >= 1000),
    ];
    all.iter().filter(|mark| mark.1).map(|mark| mark.0).collect()
}

/// What the depth of an RM3 table is told by.
fn rm3_marks(network: &Network, mode: Mode) -> Vec<&'static str> {
    let rm3 = translate(network, mode);
    let (depth, deep, highest) = (depth(network), rm3.depth(), rm3.highest_level());
    let plain: Vec<_> = network.outputs.iter().copied().filter(|&edge| class(edge) != Class::Inverted).collect();
    let helped = plain.len() < network.outputs.len();
    let without_helpers = translate(&Network { outputs: plain, ..network.clone() }, mode).depth();
    let all = [
        ("operations above", deep > 0 && highest > deep),
        ("operations, and depth 0", deep == 0 && highest > 0),
        ("operations above an output's helper alone", depth == 0 && deep == 1 && highest > 1),
        ("an output's helper decides", depth > 0 && deep > without_helpers),
        ("an output's helper stands below depth", helped && deep == without_helpers),
        ("twice and one more", depth > 0 && deep == 2 * depth + 1),
        ("twice and one more, of 1,024 gates", deep == 2049),
        ("as deep as its table", depth > 0 && deep == depth),
    ];
    all.iter().filter(|mark| mark.1).map(|mark| mark.0).collect()
}

/// The gate's requests deal every kind of table that depth tells apart, to both reports and to both modes of the
/// translation.
#[test]
fn every_depth_is_dealt() {
    let mut dealer = Dealer::new(1, &operations());
    let mut met = BTreeMap::<(u8, &str), usize>::new();
    for _ in 0..GATE {
        let request = dealer.deal().request;
        let marks = match &request {
            Request::Report(table) => table.network().map(|network| marks(&network)),
            Request::ReadingReport(reading) => reading.network().map(|network| marks(&network)),
            Request::Rm3(mode, table, _) => table.network().map(|network| rm3_marks(&network, *mode)),
            _ => continue,
        };
        for mark in marks.unwrap_or_default() {
            *met.entry((request.operation(), mark)).or_default() += 1;
        }
    }
    let wanted = "constants alone; inputs alone; inputs and constants; one level above; levels above; \
        a thousand levels above; above, before what is named; above, behind what is named; the first alone; \
        the last alone; one between alone; the last of 32 alone; the first of 32 alone; inverted alone; \
        plain alone, a lower one inverted; a lower gate named behind it; nothing above, 32 outputs; depth 1000 and more";
    let of_rm3 = "operations above; operations, and depth 0; operations above an output's helper alone; \
        an output's helper decides; an output's helper stands below depth; twice and one more; \
        twice and one more, of 1,024 gates; as deep as its table";
    let wanted = [3, 8].into_iter().flat_map(|operation| wanted.split("; ").map(move |mark| (operation, mark)));
    let wanted = wanted.chain(of_rm3.split("; ").flat_map(|mark| [(6, mark), (16, mark)]));
    let rare = |mark: &str| ["1000", "thousand", "1,024", "of 32"].iter().any(|word| mark.contains(word));
    let count = |mark: &(u8, &str)| met.get(mark).copied().unwrap_or(0);
    let never: Vec<_> = wanted.filter(|mark| count(mark) < if rare(mark.1) { 1 } else { 2 }).collect();
    assert!(never.is_empty(), "too seldom dealt: {never:?} of {met:?}");
}

/// An answer to a report that tells another size or depth, of the network as the slip has it.
fn telling(request: &Request, mut own: Answer, slip: fn(&Network, &mut [u32])) -> Answer {
    let network = match request {
        Request::Report(table) => table.network(),
        Request::ReadingReport(reading) => reading.network(),
        _ => return own,
    };
    if let Ok(network) = network {
        slip(&network, &mut own.numbers);
    }
    own
}

#[test]
fn another_depth_is_found_out() {
    let slips: [fn(&Request, Answer) -> Answer; 11] = [
        // Every gate counts.
        |request, own| telling(request, own, |network, told| told[1] = highest_level(network)),
        // Every gate counts, through a reading.
        |request, own| match request {
            Request::ReadingReport(_) => telling(request, own, |network, told| told[1] = highest_level(network)),
            _ => own,
        },
        // Every gate counts where outputs name no gate.
        |request, own| {
            telling(request, own, |network, told| {
                if told[1] == 0 {
                    told[1] = highest_level(network);
                }
            })
        },
        // The first output decides.
        |request, own| telling(request, own, |network, told| told[1] = output_levels(network)[0]),
        // The last output decides.
        |request, own| telling(request, own, |network, told| told[1] = output_levels(network).pop().unwrap()),
        // The last output is left out.
        |request, own| {
            telling(request, own, |network, told| {
                let mut levels = output_levels(network);
                levels.pop();
                told[1] = levels.into_iter().max().unwrap_or(0);
            })
        },
        // An inverted output stands one level higher.
        |request, own| {
            telling(request, own, |network, told| {
                let edges = network.outputs.iter().zip(output_levels(network));
                told[1] = edges.map(|(edge, level)| level + u32::from(edge.inverted)).max().unwrap();
            })
        },
        // Inverted outputs are left out.
        |request, own| {
            telling(request, own, |network, told| {
                let edges = network.outputs.iter().zip(output_levels(network));
                told[1] = edges.filter(|(edge, _)| !edge.inverted).map(|(_, level)| level).max().unwrap_or(0);
            })
        },
        // The last node that outputs name decides.
        |request, own| {
            telling(request, own, |network, told| {
                let node = network.outputs.iter().map(|edge| edge.node).max().unwrap();
                told[1] = level_of(network, node);
            })
        },
        // The lowest level decides.
        |request, own| {
            telling(request, own, |network, told| told[1] = output_levels(network).into_iter().min().unwrap())
        },
        // Size counts the gates that outputs reach.
        |request, own| telling(request, own, |network, told| told[0] = swept(network).gates.len() as u32),
    ];
    for (number, slip) in slips.into_iter().enumerate() {
        let text = against(slip).err().unwrap_or_else(|| panic!("slip {number} was not found out"));
        assert!(text.contains("depth: expected") || text.contains("size: expected"), "{text}");
    }
}
