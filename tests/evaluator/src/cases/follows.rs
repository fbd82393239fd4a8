//! Scripts that are followed: gates that move, are inverted where they stand then, and are swept away, with lent places of every number.

use super::deck::{kind, Kind};
use super::networks;
use super::plant::plant;
use super::scripts::{grow_until_refused, long, vote_until_refused, voters, Draft};
use crate::follow::Follow;
use crate::random::Random;
use crate::request::{Request, Table};
use crate::step::Step;
use crate::table::{census, Network, MOST_GATES};

/// The most places that a request may lend.
const MOST_PLACES: usize = 8192;

/// A script to be followed, with so many places, in which stands anything.
fn request(random: &mut Random, table: Table, script: Vec<u8>, count: usize) -> Request {
    let places = (0..count).map(|_| random.bits() as u16).collect();
    Request::Follow(Follow { table, script, places })
}

/// A script, to be followed; how many places there are is told from the gates of its table.
fn followed(random: &mut Random, script: Request, count: impl Fn(usize) -> usize) -> Request {
    let Request::Script(table, script) = script else {
        return script;
    };
    let gates = table.network().map_or(0, |network| network.gates.len());
    request(random, table, script, count(gates))
}

/// The same with a place for each gate, and by turns some more.
fn enough(random: &mut Random, turn: usize, script: Request) -> Request {
    let more = [0, 1, 0, 3, 40][turn % 5];
    followed(random, script, |gates| gates + more)
}

/// A script on any table, sound or not, and places that may be too few.
pub fn any_places(random: &mut Random, table: Table, script: Vec<u8>) -> Request {
    let [_, gates, _] = census(&table.records());
    let count = random.pick(&[gates, gates, gates + 1, gates + 9, gates.saturating_sub(1), 0]);
    request(random, table, script, count.min(MOST_PLACES))
}

fn inversion(gate: usize) -> Step {
    Step { rule: 6, gate: gate as u16, a: 0, b: 0 }
}

/// Inverts some gates, the last among them, and at times one of them again.
fn invert_some(draft: &mut Draft, random: &mut Random) {
    let (first, last) = (draft.network.inputs + 1, draft.network.nodes() - 1);
    for _ in 0..random.between(1, 4) {
        let gate = if random.once_in(2) { last } else { random.between(first, last.max(first)) };
        draft.take(inversion(gate));
        if random.once_in(3) {
            draft.take(inversion(gate));
        }
    }
}

/// A network with gates that read one another, in a buffer with some room.
fn started(random: &mut Random) -> Draft {
    let (gates, outputs, behind) = (random.between(2, 12), random.between(1, 6), random.below(300));
    let network = networks::chain(random, 4, gates, outputs);
    Draft::new(random, network, behind)
}

fn all_taken(random: &mut Random, turn: usize) -> Request {
    let mut draft = started(random);
    let steps = random.between(1, 40);
    draft.grow_some(random, steps);
    enough(random, turn, draft.request())
}

/// A gate that an insertion moves is inverted before it or after it or both; so is a new gate that stands where it stood.
fn moved_and_inverted(random: &mut Random, turn: usize) -> Request {
    let plant = plant(random, [3, 4, 5, 9][turn % 4], None);
    let (step, g, moved) = (plant.step, plant.g(), plant.g() + plant.growth() / 8);
    let behind = 8 * random.between(60, 400);
    let mut draft = Draft::new(random, plant.network, behind);
    let ways: [(&[usize], &[usize]); 8] = [
        (&[], &[moved]),
        (&[g], &[]),
        (&[g], &[moved]),
        (&[], &[moved, moved]),
        (&[], &[g]),
        (&[g], &[g]),
        (&[g], &[g, moved, moved]),
        (&[], &[g, moved]),
    ];
    let (before, after) = ways[turn / 4 % 8];
    before.iter().for_each(|&gate| _ = draft.take(inversion(gate)));
    draft.take(step);
    after.iter().for_each(|&gate| _ = draft.take(inversion(gate)));
    for _ in 0..random.below(4) {
        draft.grow(random, &[3, 4, 5, 9, 1, 8]);
        invert_some(&mut draft, random);
    }
    enough(random, turn, draft.request())
}

/// A network of which a sweep drops gates, at once or after some were shared or redirected.
fn to_be_swept(random: &mut Random, turn: usize) -> Network {
    let (gates, outputs) = (random.between(2, 14), random.between(1, 3));
    match turn % 5 {
        0 => networks::sized(random, 4, gates, outputs),
        1 => networks::paired(random, 4, gates, outputs),
        2 => plant(random, 7, None).network,
        3 => networks::chain(random, 4, gates, outputs),
        _ => {
            let mut network = networks::sized(random, 4, gates, outputs);
            network.outputs = (0..outputs).map(|_| networks::edge(random, 5)).collect();
            network
        }
    }
}

/// Sweeps with steps between them: gates that nobody reads any more are dropped, and what stands at their numbers then is inverted.
fn through_sweeps(random: &mut Random, turn: usize) -> Draft {
    let (network, behind) = (to_be_swept(random, turn), random.below(400));
    let mut draft = Draft::new(random, network, behind);
    for _ in 0..random.between(1, 5) {
        for _ in 0..random.below(6) {
            draft.grow(random, &[2, 7, 10, 2, 7, 10, 3, 4, 6, 9]);
        }
        draft.grow(random, &[8]);
        invert_some(&mut draft, random);
        draft.grow(random, &[1, 3, 4, 5, 9]);
    }
    draft
}

fn swept(random: &mut Random, turn: usize) -> Request {
    let draft = through_sweeps(random, turn);
    enough(random, turn / 5, draft.request())
}

/// Stopped after gates have moved, were inverted and swept away; the steps after the stop would be accepted.
fn stopped(random: &mut Random, turn: usize) -> Request {
    let mut draft = match turn % 3 {
        0 => started(random),
        _ => through_sweeps(random, turn / 3),
    };
    let before = random.below(8);
    draft.grow_some(random, before);
    draft.refuse(random, turn / 3);
    draft.grow_some(random, 4);
    invert_some(&mut draft, random);
    enough(random, turn, draft.request())
}

/// Fewer places than gates: one, some or all of them are missing, whatever the script is.
fn too_few(random: &mut Random, turn: usize) -> Request {
    let mut draft = match turn % 12 {
        7 => {
            let network = networks::chain(random, 3, MOST_GATES, 2);
            Draft::new(random, network, 8)
        }
        _ => started(random),
    };
    match turn % 4 {
        0 => {}
        1 => draft.refuse(random, turn / 4),
        2 => draft.script.push([[0; 4], [11, 5, 0, 0]][turn / 4 % 2]),
        _ => draft.grow_some(random, 4),
    }
    let way = turn / 2 % 4;
    followed(random, draft.request(), |gates| [gates - 1, 0, gates / 2, gates - 1][way])
}

/// The same with a script of uneven length, which is refused for that.
fn too_few_and_uneven(random: &mut Random, turn: usize) -> Request {
    let Request::Follow(Follow { mut script, table, places }) = too_few(random, 12 * turn + turn % 4) else {
        unreachable!("a followed script");
    };
    let more = 1 + turn % 7;
    script.extend(random.bytes(more));
    Request::Follow(Follow { table, script, places })
}

fn no_gates(random: &mut Random, turn: usize) -> Request {
    let (inputs, outputs) = (random.below(4), random.between(1, 3));
    let network = networks::sized(random, inputs, 0, outputs);
    let mut draft = Draft::new(random, network, 16);
    draft.script = vec![[8, 0, 0, 0], [[8, 0, 0, 0], [6, 1, 0, 0]][turn / 2 % 2]];
    let more = [0, 0, 3][turn % 3];
    followed(random, draft.request(), |_| more)
}

/// Many gates, so that their numbers need two bytes: inverted, moved to the last number and swept.
fn many_gates(random: &mut Random, turn: usize) -> Request {
    let gates = MOST_GATES - [0, 1, 2, 500, 800][turn % 5];
    let network = match turn % 2 {
        0 => networks::sized(random, 32, gates, 3),
        _ => networks::chain(random, 32, gates, 3),
    };
    let mut draft = Draft::new(random, network, 64);
    for _ in 0..random.between(1, 4) {
        invert_some(&mut draft, random);
        draft.grow(random, &[3, 4, 5, 8]);
    }
    invert_some(&mut draft, random);
    enough(random, turn, draft.request())
}

fn hundreds(random: &mut Random, turn: usize) -> Request {
    let (wanted, most_gates) = (random.between(100, 700), random.between(100, 300));
    let script = long(random, wanted, most_gates);
    enough(random, turn, script)
}

fn thousands(random: &mut Random, turn: usize) -> Request {
    let wanted = random.between(5000, 8192);
    let script = long(random, wanted, MOST_GATES);
    enough(random, turn, script)
}

fn most_places(random: &mut Random, turn: usize) -> Request {
    let draft = through_sweeps(random, turn);
    followed(random, draft.request(), |_| MOST_PLACES)
}

pub fn kinds() -> Vec<Kind> {
    let script = |make: fn(&mut Random, usize) -> Request| {
        move |random: &mut Random, turn: usize| {
            let script = make(random, turn);
            enough(random, turn, script)
        }
    };
    vec![
        kind("followed script all taken", 6, all_taken),
        kind("followed gate moved and inverted", 16, moved_and_inverted),
        kind("followed gates through sweeps", 14, swept),
        kind("followed script stopped", 14, stopped),
        kind("followed script of voters", 4, script(voters)),
        kind("followed script that grows until refused", 3, script(grow_until_refused)),
        kind("followed script of one voter until refused", 3, script(vote_until_refused)),
        kind("too few places", 10, too_few),
        kind("too few places, and an uneven script", 4, too_few_and_uneven),
        kind("followed without gates", 3, no_gates),
        kind("followed gates of a large table", 2, many_gates),
        kind("followed script of hundreds of steps", 1, hundreds),
        kind("followed script of thousands of steps", 0, thousands),
        kind("8,192 places", 0, most_places),
    ]
}
