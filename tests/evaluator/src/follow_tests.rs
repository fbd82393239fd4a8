//! Following: the places of small scripts, the order of refusals, scripts one after another, and programs with a slip.

use crate::answer::{answer, Answer};
use crate::cases::Dealer;
use crate::follow::{Follow, Probes};
use crate::probes_kept::{lower_fault, probe_fault};
use crate::random::Random;
use crate::request::{place_bytes, Request, Table};
use crate::sheet::network;
use crate::step::Step;
use crate::table::{record_bytes, records, Edge, Network, Record, Refusal};
use crate::tests::against;

/// A script on the network's table, in a buffer with room for some gates, and so many places of 7.
fn follow(network: &Network, script: &[Record], places: usize) -> Follow {
    let mut buffer = network.bytes();
    let used = buffer.len() as u32;
    buffer.extend([0; 200]);
    Follow { table: Table { used, buffer }, script: record_bytes(script), places: vec![7; places] }
}

/// Steps taken, the refusal's number or 0, and the places.
fn followed(follow: &Follow) -> (u32, u32, Vec<u16>) {
    let (progress, probes) = follow.run(&mut follow.table.buffer.clone());
    (progress.taken, progress.refusal.map_or(0, |refusal| refusal.number), follow.written(&probes))
}

/// The places of gates alone, after a script that is taken whole.
fn places(network: &Network, script: &[Record]) -> Vec<u16> {
    let (taken, refusal, places) = followed(&follow(network, script, network.gates.len()));
    assert_eq!((taken as usize, refusal), (script.len(), 0));
    places
}

const SWEEP: Record = [8, 0, 0, 0];

fn p6() -> Network {
    network(4, [[6, 4, 8], [2, 4, 10]], &[12])
}

#[test]
fn gates_move_by_insertion_and_sweep() {
    assert_eq!(places(&p6(), &[]), [10, 12]);
    assert_eq!(places(&p6(), &[[3, 6, 0, 0]]), [10, 14]);
    assert_eq!(places(&p6(), &[[3, 6, 0, 0], SWEEP]), [0, 12]);
    let p7 = network(5, [[6, 8, 10], [2, 4, 12]], &[14]);
    assert_eq!(places(&p7, &[[4, 7, 0, 0]]), [12, 18]);
    let p12 = network(2, [[0, 2, 4], [1, 2, 4], [7, 9, 2], [11, 8, 4]], &[12, 9]);
    assert_eq!(places(&p12, &[[9, 6, 3, 4]]), [6, 8, 10, 36]);
    // A gate that is redirected stands where it stood, until it is swept.
    let p4 = network(1, [[2, 2, 0]], &[5]);
    assert_eq!(places(&p4, &[[2, 2, 0, 0]]), [4]);
    assert_eq!(places(&p4, &[[2, 2, 0, 0], SWEEP]), [0]);
    let twins = network(1, [[2, 0, 3], [2, 0, 3], [6, 7, 4]], &[7, 8]);
    assert_eq!(places(&twins, &[[7, 3, 2, 0]]), [4, 6, 8]);
    assert_eq!(places(&twins, &[[7, 3, 2, 0], SWEEP]), [4, 0, 6]);
}

/// An inversion counts for the gate that stands at its number when it is taken.
#[test]
fn gates_are_inverted_where_they_stand() {
    let invert = |gate| [6, gate, 0, 0];
    assert_eq!(places(&p6(), &[invert(5)]), [11, 12]);
    assert_eq!(places(&p6(), &[invert(5), invert(6), invert(5)]), [10, 13]);
    let moved = [3, 6, 0, 0];
    assert_eq!(places(&p6(), &[moved, invert(7)]), [10, 15]);
    assert_eq!(places(&p6(), &[moved, invert(6)]), [10, 14]);
    assert_eq!(places(&p6(), &[moved, invert(7), invert(7)]), [10, 14]);
    assert_eq!(places(&p6(), &[moved, invert(5), SWEEP, invert(5)]), [0, 12]);
    assert_eq!(places(&p6(), &[moved, invert(7), SWEEP, invert(6)]), [0, 12]);
    assert_eq!(places(&p6(), &[moved, SWEEP, invert(6)]), [0, 13]);
}

#[test]
fn a_stopped_script_says_what_was_made() {
    let script = [[3, 6, 0, 0], [6, 7, 0, 0], [11, 0, 0, 0], SWEEP];
    assert_eq!(followed(&follow(&p6(), &script, 3)), (2, 7, vec![10, 15, 7]));
    assert_eq!(followed(&follow(&p6(), &script[2..], 2)), (0, 7, vec![10, 12]));
    let mut full = follow(&p6(), &[[6, 5, 0, 0], [6, 5, 0, 0], [6, 6, 0, 0], [6, 6, 0, 0], [3, 6, 0, 0]], 2);
    full.table.buffer.truncate(56);
    assert_eq!(followed(&full), (4, 11, vec![10, 12]));
}

#[test]
fn refusals_come_in_their_order() {
    let script = [[3, 6, 0, 0]];
    for places in [0, 1] {
        assert_eq!(followed(&follow(&p6(), &script, places)), (0, 11, vec![7; places]));
        assert_eq!(followed(&follow(&p6(), &[[0; 4]], places)), (0, 11, vec![7; places]));
        assert_eq!(followed(&follow(&p6(), &[], places)), (0, 11, vec![7; places]));
        let mut uneven = follow(&p6(), &script, places);
        uneven.script.push(0);
        assert_eq!(followed(&uneven), (0, 12, vec![7; places]));
        uneven.table.buffer[34] = 10;
        assert_eq!(followed(&uneven), (0, 5, vec![7; places]));
    }
    assert_eq!(followed(&follow(&network(1, [], &[2]), &[SWEEP], 0)), (1, 0, vec![]));
    assert_eq!(followed(&follow(&network(1, [], &[2]), &[SWEEP], 2)), (1, 0, vec![7, 7]));
}

/// The reply has the table's bytes, and then each place, low byte first.
#[test]
fn the_bytes_of_a_reply() {
    let mut follow = follow(&p6(), &[[3, 6, 0, 0]], 3);
    follow.table.buffer.truncate(64);
    follow.places[2] = 0x1234;
    let request = Request::Follow(follow);
    let left = network(4, [[6, 4, 8], [6, 4, 2], [8, 4, 12]], &[14]);
    let expected = [left.bytes(), vec![10, 0, 14, 0, 0x34, 0x12]].concat();
    assert_eq!(answer(&request), Answer { refusal: None, numbers: vec![1, 64], bytes: expected });
    let bytes = request.bytes();
    assert_eq!(bytes[..9], [28, 56, 0, 0, 0, 64, 0, 0, 0]);
    assert_eq!(bytes[73..], [8, 0, 0, 0, 3, 0, 6, 0, 0, 0, 0, 0, 3, 0, 0, 0, 7, 0, 7, 0, 0x34, 0x12]);
}

/// The followed scripts among so many requests of a seed.
fn dealt(seed: u64, count: usize) -> Vec<Follow> {
    let mut dealer = Dealer::new(seed, &[28]);
    let requests = (0..count).map(|_| dealer.deal().request);
    requests.filter_map(|request| if let Request::Follow(follow) = request { Some(follow) } else { None }).collect()
}

/// Two scripts one after the other: an edge of the first leads to a gate of the second's table, and that gate's edge on from there.
#[test]
fn scripts_one_after_another() {
    for whole in dealt(2, 1500) {
        let Ok(first) = whole.first() else {
            continue;
        };
        let cut = 8 * (whole.script.len() / 16);
        let head = Follow { script: whole.script[..cut].to_vec(), ..whole.clone() };
        let mut buffer = whole.table.buffer.clone();
        let (progress, probes) = head.run(&mut buffer);
        let edges = head.written(&probes);
        if progress.refusal.is_some() {
            continue;
        }
        let table = Table { used: progress.used, buffer };
        let rest = Follow { script: whole.script[cut..].to_vec(), places: vec![0; 1024], table };
        let onward = followed(&rest).2;
        let inputs = first.inputs;
        let on = |&edge: &u16| match Edge::of(edge) {
            Edge { node: 0, .. } => 0,
            Edge { node, inverted } => match Edge::of(onward[node - inputs - 1]) {
                Edge { node: 0, .. } => 0,
                edge => edge.inverted_if(inverted).number(),
            },
        };
        let composed: Vec<u16> = edges[..first.gates.len()].iter().map(on).collect();
        assert_eq!(composed, followed(&whole).2[..first.gates.len()]);
    }
}

/// A script that is followed does what it does otherwise.
#[test]
fn a_followed_script_is_the_script() {
    for follow in dealt(3, 1500).into_iter().filter(|follow| follow.first().is_ok()) {
        let script = answer(&Request::Script(follow.table.clone(), follow.script.clone()));
        let mut own = answer(&Request::Follow(follow.clone()));
        own.bytes.truncate(follow.table.buffer.len());
        assert_eq!(own, script);
    }
}

/// What is asked of a reply beside the comparison finds a place that has another value, and a changed gate below that of a step.
#[test]
fn what_is_kept_is_asked() {
    let request = Request::Follow(follow(&p6(), &[[3, 6, 0, 0], [6, 7, 0, 0]], 2));
    let fault = |places: [u16; 2]| {
        let mut own = answer(&request);
        let at = own.bytes.len() - 4;
        own.bytes[at..].copy_from_slice(&place_bytes(&places));
        probe_fault(&request, &own, &mut Random::new(1))
    };
    assert_eq!((fault([10, 15]), fault([0, 15]), fault([10, 0])), (None, None, None));
    for places in [[11, 15], [10, 14], [10, 13], [10, 16], [8, 15], [1, 15]] {
        assert!(fault(places).is_some(), "{places:?}");
    }
    let mut buffer = p6().bytes();
    let request = Request::Step(Table { used: 56, buffer: buffer.clone() }, Step::of([6, 6, 0, 0]));
    buffer[33] ^= 1;
    let told = |bytes| lower_fault(&request, &Answer { refusal: None, numbers: vec![56], bytes });
    assert_eq!(lower_fault(&request, &answer(&request)), None);
    assert!(told(buffer).is_some());
}

/// What a program replies that writes other places where it has begun to take steps.
fn placing(request: &Request, mut own: Answer, slip: fn(&Follow, &Network, &Probes, &mut [u16])) -> Answer {
    if let Request::Follow(follow) = request {
        if let Ok(first) = follow.first() {
            let (_, probes) = follow.run(&mut follow.table.buffer.clone());
            let mut places = follow.written(&probes);
            slip(follow, &first, &probes, &mut places);
            own.bytes.truncate(follow.table.buffer.len());
            own.bytes.extend(place_bytes(&places));
        }
    }
    own
}

/// What a program replies that refuses otherwise before any step.
fn refusing(request: &Request, mut own: Answer, slip: fn(&Follow, &Network, u32) -> u32) -> Answer {
    if let (Request::Follow(follow), Some(refusal)) = (request, own.refusal) {
        if let (0, Ok(network)) = (own.numbers[0], follow.table.network()) {
            own.refusal = Some(Refusal::plain(slip(follow, &network, refusal.number)));
        }
    }
    own
}

#[test]
fn a_slip_in_following_is_found_out() {
    let slips: [fn(&Request, Answer) -> Answer; 12] = [
        // Inversions are not told.
        |request, own| {
            placing(request, own, |_, _, probes, places| {
                places.iter_mut().zip(probes).for_each(|(place, _)| *place &= !1);
            })
        },
        // An inversion counts for the gate whose first number it names.
        |request, own| {
            placing(request, own, |follow, first, probes, places| {
                let taken = follow.run(&mut follow.table.buffer.clone()).0.taken as usize;
                for ((gate, place), probe) in (first.inputs + 1..).zip(places).zip(probes) {
                    let names = |step: &&Record| step[0] == 6 && usize::from(step[1]) == gate;
                    let count = records(&follow.script)[..taken].iter().filter(names).count();
                    if let Some(probe) = probe {
                        *place = Edge::plain(probe.node).inverted_if(count % 2 == 1).number();
                    }
                }
            })
        },
        // Every inversion turns the place round, one alone.
        |request, own| {
            placing(request, own, |_, _, probes, places| {
                for (place, probe) in places.iter_mut().zip(probes) {
                    *place |= u16::from(probe.as_ref().is_some_and(|probe| !probe.inversions.is_empty()));
                }
            })
        },
        // A gate that was swept away keeps its number, or has 1.
        |request, own| {
            placing(request, own, |_, first, probes, places| {
                for ((gate, place), probe) in (first.inputs + 1..).zip(places).zip(probes) {
                    *place = if probe.is_none() { Edge::plain(gate).number() } else { *place };
                }
            })
        },
        |request, own| {
            placing(request, own, |_, _, probes, places| {
                places.iter_mut().zip(probes).for_each(|(place, probe)| *place += u16::from(probe.is_none()));
            })
        },
        // Places after the last gate's are cleared.
        |request, own| placing(request, own, |_, first, _, places| places[first.gates.len()..].fill(0)),
        // The places tell node numbers.
        |request, own| {
            placing(request, own, |_, _, probes, places| {
                places.iter_mut().zip(probes).for_each(|(place, _)| *place /= 2);
            })
        },
        // A stopped script leaves the places as they were.
        |request, own| match own.refusal {
            Some(_) => placing(request, own, |follow, _, _, places| places.copy_from_slice(&follow.places)),
            None => own,
        },
        // Only so many places are filled as there are.
        |request, mut own| {
            if let (Request::Follow(follow), Some(Refusal { number: 11, .. })) = (request, own.refusal) {
                let more = Follow { places: vec![0; 1024], ..follow.clone() };
                let all = more.written(&more.run(&mut follow.table.buffer.clone()).1);
                if follow.first().is_err() {
                    own.bytes.truncate(follow.table.buffer.len());
                    own.bytes.extend(place_bytes(&all[..follow.places.len()]));
                }
            }
            own
        },
        // As many places as gates are too few.
        |request, own| match request {
            Request::Follow(follow) if follow.first().is_ok_and(|first| first.gates.len() == follow.places.len()) => {
                let bytes = [follow.table.buffer.clone(), place_bytes(&follow.places)].concat();
                Answer { refusal: Some(Refusal::plain(11)), numbers: vec![0, follow.table.used], bytes }
            }
            _ => own,
        },
        // 11 comes before 12.
        |request, own| {
            refusing(request, own, |follow, network, number| match number {
                12 if follow.places.len() < network.gates.len() => 11,
                _ => number,
            })
        },
        // A first step of no rule is refused before the places are counted.
        |request, own| {
            refusing(request, own, |follow, _, number| match (number, records(&follow.script).first()) {
                (11, Some([0 | 11.., ..])) => 7,
                _ => number,
            })
        },
    ];
    for (number, slip) in slips.into_iter().enumerate() {
        let text = against(slip).err().unwrap_or_else(|| panic!("slip {number} was not found out"));
        assert!(text.contains("expected") && text.contains("seed 3"), "{text}");
    }
}
