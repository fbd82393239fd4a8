//! The case makers: every edge of the specification is made on purpose, in an order that the seed mixes.

mod assignments;
mod at_once;
mod blocks;
mod catalogue;
mod damage;
mod deck;
mod depths;
mod edges;
mod first_two;
mod follows;
mod helpers;
pub mod networks;
mod plant;
mod readings;
mod scripts;
mod steps;
mod stored;
mod tables;
mod translations;
mod voters;

pub use catalogue::LENGTHS;
pub use deck::{Case, Dealer};

use crate::at_once::Asked;
use crate::random::Random;
use crate::request::{Request, Table};
use crate::rm3::Mode;
use crate::step::Step;
use crate::table::{record_bytes, Network};
use deck::{kind, Kind};

/// An operation's own kinds, and every kind of table with any other parts around it; the catalogue reads no table.
fn kinds(operation: u8) -> Vec<Kind> {
    if operation == 25 {
        return catalogue::kinds();
    }
    let mut kinds = match operation {
        2 => assignments::kinds(Request::Evaluate),
        4 => {
            [steps::kinds(), first_two::kinds(), voters::kinds(), blocks::step_kinds()].into_iter().flatten().collect()
        }
        5 => [scripts::kinds(), stored::kinds(), blocks::script_kinds()].into_iter().flatten().collect(),
        6 => translations::kinds(Mode::Anew),
        7 => readings::evaluate_kinds(),
        8 => readings::report_kinds(),
        16 => translations::kinds(Mode::Once),
        22 => at_once::word_kinds(),
        23 => at_once::total_kinds(),
        28 => follows::kinds(),
        _ => vec![],
    };
    kinds.extend(match operation {
        3 => depths::kinds(report),
        4 => depths::kinds(steps::sweep),
        5 => depths::kinds(scripts::some_steps),
        6 => depths::kinds(|random, network| translations::with_some_room(random, Mode::Anew, network)),
        8 => depths::kinds(readings::report),
        16 => depths::kinds(|random, network| translations::with_some_room(random, Mode::Once, network)),
        _ => vec![],
    });
    for &(name, weight, make) in tables::KINDS {
        let maker = move |random: &mut Random, turn| {
            let table = make(random, turn);
            around(operation, random, table)
        };
        kinds.push(kind(name, weight, maker));
    }
    kinds
}

fn report(random: &mut Random, network: &Network) -> Request {
    let behind = random.below(20);
    Request::Report(lent(random, network, behind))
}

/// A request with this table and parts that may be right or wrong: what is wrong with the table comes first.
fn around(operation: u8, random: &mut Random, table: Table) -> Request {
    match operation {
        1 => Request::Check(table),
        2 => Request::Evaluate(table, any_assignment(random)),
        3 => Request::Report(table),
        4 => Request::Step(table, any_step(random)),
        5 => {
            let script = any_script(random);
            match random.once_in(2) {
                true => stored::request(table, script),
                false => Request::Script(table, script),
            }
        }
        22 => {
            let first = at_once::any_first(random);
            at_once::any_places(random, table, Asked::Words(first))
        }
        23 => at_once::any_places(random, table, Asked::Totals),
        28 => {
            let script = any_script(random);
            follows::any_places(random, table, script)
        }
        6 | 16 => {
            let mode = if operation == 6 { Mode::Anew } else { Mode::Once };
            let length = random.pick(&[0, 8, 100, 400, 3000]);
            Request::Rm3(mode, table, random.bytes(length))
        }
        7 => {
            let assignment = any_assignment(random);
            Request::ReadingEvaluate(readings::any(random, table), assignment)
        }
        _ => Request::ReadingReport(readings::any(random, table)),
    }
}

/// No bit, a few low bits or many bits.
fn any_assignment(random: &mut Random) -> u32 {
    let bits = random.bits() as u32;
    bits.checked_shr(random.pick(&[0, 26, 29, 32])).unwrap_or(0)
}

/// A step whose fields are often allowed for a small table.
fn any_step(random: &mut Random) -> Step {
    let rule = random.pick(&[0, 1, 2, 3, 4, 5, 6, 7, 8, 8, 8, 9, 10, 11, 257, 264, 65535]);
    let gate = if rule == 8 { 0 } else { random.below(12) };
    let a = if rule == 1 || rule == 9 { random.between(1, 2) } else { 0 };
    let b = match rule == 9 {
        true => random.between(2, 5),
        false => usize::from(random.once_in(8)),
    };
    Step::of([rule, gate as u16, a as u16, b as u16])
}

/// A few steps, now and then with a part of another.
fn any_script(random: &mut Random) -> Vec<u8> {
    let steps: Vec<_> = (0..random.below(4)).map(|_| any_step(random).fields()).collect();
    let mut script = record_bytes(&steps);
    if random.once_in(4) {
        let more = random.between(1, 7);
        script.extend(random.bytes(more));
    }
    script
}

/// A network's table in a buffer with `behind` bytes of garbage after it.
fn lent(random: &mut Random, network: &Network, behind: usize) -> Table {
    let mut buffer = network.bytes();
    let used = buffer.len() as u32;
    buffer.extend(random.bytes(behind));
    Table { used, buffer }
}
