//! Stored scripts: what they are converted to, that they then do what they did, and that every sort of them is dealt.

use crate::answer::{answer, Answer};
use crate::cases::Dealer;
use crate::request::{operations, Request, Table};
use crate::script::{run, run_by, Progress};
use crate::sheet::network;
use crate::step::{apply, carried_out, FirstTwo, Plan, Step};
use crate::stored::Stored;
use crate::table::{record_bytes, records, Network, Record, Refusal};
use crate::tests::{against, GATE};
use std::collections::BTreeMap;

/// The script on the network's table, in a buffer that has no more room.
fn stored(network: &Network, script: &[Record]) -> Stored {
    let buffer = network.bytes();
    Stored::new(Table { used: buffer.len() as u32, buffer }, record_bytes(script))
}

fn converted(network: &Network, script: &[Record]) -> Vec<Record> {
    records(&stored(network, script).converted)
}

/// What the script did: steps taken, the refusal's number or 0, and the table that it left.
fn did(network: &Network, script: &[Record]) -> (u32, u32, Vec<Record>) {
    let stored = stored(network, script);
    let mut buffer = stored.table.buffer.clone();
    let Progress { taken, refusal, used } = stored.run(&mut buffer);
    (taken, refusal.map_or(0, |refusal| refusal.number), records(&buffer[..used as usize]))
}

/// One script on P4 and on P5: what stays for the one is converted for the other.
#[test]
fn one_script_on_two_tables() {
    let (p4, p5) = (network(1, [[2, 2, 0]], &[5]), network(1, [[2, 3, 0]], &[5]));
    let script = [[2, 2, 0, 0], [8, 0, 0, 0]];
    assert_eq!(converted(&p4, &script), script);
    assert_eq!(converted(&p5, &script), [[10, 2, 0, 0], [8, 0, 0, 0]]);
    assert_eq!(did(&p4, &script), (2, 0, vec![[1, 0, 0, 0], [3, 3, 0, 0]]));
    assert_eq!(did(&p5, &script), (2, 0, vec![[1, 0, 0, 0], [3, 1, 0, 0]]));
}

/// What a step meets is what the steps before it have made: gate 3 is x1, and so gate 4 reads x1 and its inverse.
#[test]
fn edges_are_those_of_the_run() {
    let before = network(2, [[2, 2, 4], [6, 3, 4], [6, 2, 8]], &[10]);
    let script = [[2, 3, 0, 0], [2, 4, 0, 0], [2, 5, 0, 0], [8, 0, 0, 0]];
    assert_eq!(converted(&before, &script), [[2, 3, 0, 0], [10, 4, 0, 0], [2, 5, 0, 0], [8, 0, 0, 0]]);
    assert_eq!(did(&before, &script), (4, 0, network(2, [], &[2]).records()));
    assert_eq!(converted(&before, &script[1..]), script[1..]);
    assert_eq!(did(&before, &script[1..]), (0, 9, before.records()));
}

/// The step that was refused and those after it stay, whatever they would meet.
#[test]
fn what_was_not_taken_stays() {
    let before = network(2, [[2, 3, 4], [4, 5, 2], [2, 4, 0]], &[6, 8, 10]);
    let refused = [[2, 5, 0, 0], [2, 4, 1, 0], [2, 4, 0, 1], [2, 2, 0, 0], [11, 4, 0, 0], [10, 4, 0, 0], [0, 4, 0, 0]];
    for (step, number) in refused.into_iter().zip([9, 8, 8, 8, 7, 7, 7]) {
        let script = [[2, 3, 0, 0], step, [2, 4, 0, 0]];
        assert_eq!(converted(&before, &script), [[10, 3, 0, 0], step, [2, 4, 0, 0]]);
        let left = network(2, [[2, 3, 4], [4, 5, 2], [2, 4, 0]], &[4, 8, 10]).records();
        assert_eq!(did(&before, &script), (1, number, left));
    }
    let Stored { table, mut script, .. } = stored(&before, &[[2, 3, 0, 0]]);
    script.push(0);
    assert_eq!(Stored::new(table.clone(), script.clone()).converted, script);
    script.pop();
    let past = Table { used: table.used + 8, ..table };
    assert_eq!(Stored::new(past, script.clone()).converted, script);
}

/// The stored scripts among so many requests of a seed.
fn dealt(seed: u64, count: usize) -> Vec<Stored> {
    let mut dealer = Dealer::new(seed, &operations());
    let requests = (0..count).map(|_| dealer.deal().request);
    requests.filter_map(|request| if let Request::Stored(stored) = request { Some(stored) } else { None }).collect()
}

/// A converted script does today what the stored one did: the reply and every byte. No more than the number of a step changes.
#[test]
fn converted_scripts_do_what_they_did() {
    for stored in dealt(2, 4_000) {
        let Stored { table, script, converted } = &stored;
        assert!(records(script).iter().all(|fields| fields[0] != 10), "a step numbered 10");
        let today = answer(&Request::Script(table.clone(), converted.clone()));
        assert_eq!(today, answer(&Request::Stored(stored.clone())), "{stored:?}");
        let mut back = converted.clone();
        back.chunks_exact_mut(8).filter(|bytes| bytes[..2] == [10, 0]).for_each(|bytes| bytes[0] = 2);
        assert_eq!(back, *script);
    }
}

/// What is particular about a stored script.
fn marks(stored: &Stored) -> Vec<String> {
    let Answer { refusal, numbers, .. } = answer(&Request::Stored(stored.clone()));
    let [steps, now] = [&stored.script, &stored.converted].map(|script| records(script));
    let taken = numbers[0] as usize;
    let count = |rule| now[..taken].iter().filter(|fields| fields[0] == rule).count();
    let number = refusal.map_or(0, |refusal| refusal.number);
    let changed = count(10) > 0;
    // A conversion that forgot the run, and looked at the first table alone, would do otherwise.
    let first = stored.table.network().ok();
    let at_first = |fields: &Record| first.as_ref()?.edges(usize::from(fields[1])).map(FirstTwo::of);
    let by_run = |place: usize| (at_first(&steps[place]) == Some(FirstTwo::Opposite)) != (now[place][0] == 10);
    let opposite_if_run = |fields: &Record| fields[0] == 2 && at_first(fields) == Some(FirstTwo::Opposite);
    let all = [
        ("kept", count(2) > 0),
        ("changed", changed),
        ("both", count(2) > 0 && changed),
        ("several changed", count(10) > 2),
        ("edges of the run", (0..taken).any(|place| steps[place][0] == 2 && by_run(place))),
        ("changed and stopped", changed && (7..=11).contains(&number)),
        ("opposite after the stop", steps.iter().skip(taken + 1).any(opposite_if_run)),
        ("uneven and opposite", number == 12 && steps.iter().any(opposite_if_run)),
        ("full buffer", changed && stored.table.buffer.len() == stored.table.used as usize),
        ("thousands of steps", changed && taken > 2000),
        ("no steps", steps.is_empty()),
    ];
    let stop = steps.get(taken).filter(|_| (7..=11).contains(&number));
    let stop = stop.map(|fields| format!("{} refused {number}", fields[0]));
    let more = all.iter().filter(|mark| mark.1).map(|mark| mark.0.to_string());
    more.chain(stop).chain([format!("refused {number}")]).collect()
}

/// The gate's requests deal every sort of stored script, and at least one request in fifteen is one.
#[test]
fn every_sort_of_stored_script_is_dealt() {
    let dealt = dealt(1, GATE);
    let mut met = BTreeMap::<String, usize>::new();
    for mark in dealt.iter().flat_map(marks) {
        *met.entry(mark).or_default() += 1;
    }
    let wanted = [
        ("kept", 100),
        ("changed", 100),
        ("both", 100),
        ("several changed", 50),
        ("edges of the run", 50),
        ("changed and stopped", 50),
        ("opposite after the stop", 20),
        ("uneven and opposite", 10),
        ("full buffer", 3),
        ("thousands of steps", 1),
        ("no steps", 3),
        ("2 refused 9", 20),
        ("2 refused 8", 20),
        ("11 refused 7", 3),
        ("258 refused 7", 1),
        ("266 refused 7", 1),
        ("4 refused 11", 5),
        ("4 refused 10", 3),
    ];
    let refusals = [0, 1, 2, 3, 4, 5, 7, 8, 9, 10, 11, 12].map(|number| (format!("refused {number}"), 5));
    let wanted = wanted.into_iter().map(|(mark, least)| (mark.to_string(), least)).chain(refusals);
    let few: Vec<_> = wanted.filter(|(mark, least)| met.get(mark).is_none_or(|count| count < least)).collect();
    assert!(few.is_empty() && dealt.len() >= 667, "{} dealt, too few: {few:?} of {met:?}", dealt.len());
}

/// What takes one step, in a buffer of so many bytes.
type Apply = fn(&Network, Step, usize) -> Result<Network, Refusal>;

/// What a program with steps of its own replies to a script.
fn scripted(request: &Request, own: Answer, apply: Apply) -> Answer {
    let (table, script) = match request {
        Request::Script(table, script) => (table, script),
        Request::Stored(stored) => (&stored.table, &stored.converted),
        _ => return own,
    };
    let mut bytes = table.buffer.clone();
    let Progress { taken, refusal, used } = run_by(apply, &mut bytes, table.used, script);
    Answer { refusal, numbers: vec![taken, used], bytes }
}

#[test]
fn a_slip_in_scripts_is_found_out() {
    let slips: [fn(&Request, Answer) -> Answer; 4] = [
        // 10 is no rule yet.
        |request, own| {
            scripted(request, own, |network, step, room| match step.rule {
                10 => Err(Refusal::plain(7)),
                _ => apply(network, step, room),
            })
        },
        // Rule 2 takes opposite edges as well.
        |request, own| {
            scripted(request, own, |network, step, room| match step.rule {
                2 => apply(network, step, room).or_else(|_| apply(network, Step { rule: 10, ..step }, room)),
                _ => apply(network, step, room),
            })
        },
        // Rule 10 redirects to the first edge.
        |request, own| {
            scripted(request, own, |network, step, room| match (step.rule, apply(network, step, room)) {
                (10, Ok(_)) => {
                    let g = usize::from(step.gate);
                    carried_out(network, g, Plan::Redirect(network.edges(g).unwrap()[0]), room)
                }
                (_, result) => result,
            })
        },
        // A step 10 is not counted.
        |request, mut own| {
            if let Request::Stored(Stored { converted, .. }) = request {
                let taken = &records(converted)[..own.numbers[0] as usize];
                own.numbers[0] -= taken.iter().filter(|fields| fields[0] == 10).count() as u32;
            }
            own
        },
    ];
    for (number, slip) in slips.into_iter().enumerate() {
        let text = against(slip).err().unwrap_or_else(|| panic!("slip {number} was not found out"));
        assert!(text.contains("expected") && text.contains("seed 3"), "{text}");
    }
}

/// A run of today on the stored script itself stops at the first step that is to be converted.
#[test]
fn an_unconverted_script_stops_where_it_is_to_be_converted() {
    for stored in dealt(4, 2_000) {
        let mut buffer = stored.table.buffer.clone();
        let today = run(&mut buffer, stored.table.used, &stored.script);
        let changed = records(&stored.converted).iter().position(|fields| fields[0] == 10);
        if let Some(place) = changed {
            assert_eq!((today.taken as usize, today.refusal), (place, Some(Refusal::plain(9))));
        }
    }
}
