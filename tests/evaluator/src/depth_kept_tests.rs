//! What steps and the translation keep of depth, of the evaluator's own rules.

use crate::answer::Answer;
use crate::cases::{networks, Dealer};
use crate::depth_kept::{depth_fault, keeps_depth, may_raise};
use crate::random::Random;
use crate::request::{Request, Table};
use crate::rm3::{translate, Mode};
use crate::sheet::network;
use crate::step::{apply, Step};
use crate::table::{record_bytes, records, Network};
use crate::value::{depth, highest_level, output_levels};

const SWEEP: Step = Step { rule: 8, gate: 0, a: 0, b: 0 };

pub fn swept(network: &Network) -> Network {
    apply(network, SWEEP, 65_536).unwrap()
}

/// A step raises depth by one at most, and only by rules 3, 4, 5 and 9; rules 1, 6 and 8 keep it. So it is of each output
/// alone, and of the RM3 table after a sweep.
fn follow(before: &Network, step: Step, room: usize) -> Option<Network> {
    let after = apply(before, step, room).ok()?;
    let levels: Vec<_> = output_levels(before).into_iter().zip(output_levels(&after)).collect();
    assert!(levels.iter().all(|(before, after)| *after <= before + may_raise(step.rule)), "{before:?} {step:?}");
    if keeps_depth(step.rule) {
        assert!(levels.iter().all(|(before, after)| after == before), "{before:?} {step:?}");
    }
    if step.rule == 8 {
        let depths = [&after, before].map(|network| translate(network, Mode::Once).depth());
        assert_eq!(depths[0], depths[1], "{before:?}");
        assert_eq!(highest_level(&after), depth(before), "{before:?}");
    }
    Some(after)
}

/// A reply in which depth has risen too far, or has fallen where it must not, is told.
#[test]
fn a_wrong_depth_is_told() {
    let [one, two] = [4, 6].map(|output| network(1, [[2, 2, 0], [4, 0, 2]], &[output]).bytes());
    let fault = |before: &[u8], after: &[u8], rules: &[u16]| {
        let table = Table { used: before.len() as u32, buffer: before.to_vec() };
        let script = record_bytes(&rules.iter().map(|&rule| [rule, 0, 0, 0]).collect::<Vec<_>>());
        let numbers = vec![rules.len() as u32, after.len() as u32];
        let answer = Answer { refusal: None, numbers, bytes: after.to_vec() };
        depth_fault(&Request::Script(table, script), &answer)
    };
    for rules in [&[2][..], &[7, 1], &[6, 8, 8]] {
        assert!(fault(&one, &two, rules).is_some(), "{rules:?}");
    }
    assert!(fault(&two, &one, &[8]).is_some() && fault(&two, &one, &[1, 6, 8]).is_some());
    for rules in [&[3][..], &[4, 8], &[5, 2], &[9]] {
        assert_eq!((fault(&one, &two, rules), fault(&two, &one, rules)), (None, None), "{rules:?}");
    }
    assert_eq!((fault(&two, &one, &[2]), fault(&two, &two, &[8])), (None, None));
}

#[test]
fn steps_keep_depth() {
    let mut dealer = Dealer::new(6, &[4]);
    let (mut accepted, mut dropped) = (0, 0);
    for _ in 0..4000 {
        let Request::Step(table, step) = dealer.deal().request else { panic!("no step") };
        let Ok(before) = table.network() else {
            continue;
        };
        accepted += usize::from(follow(&before, step, 65_536).is_some());
        dropped += usize::from(step == SWEEP && highest_level(&before) > depth(&before));
    }
    assert!(accepted >= 1200 && dropped >= 100, "{accepted} accepted, {dropped} sweeps of gates above depth");
}

#[test]
fn scripts_keep_depth() {
    let mut dealer = Dealer::new(7, &[5]);
    let (mut steps, mut sweeps) = (0, 0);
    for _ in 0..800 {
        let Request::Script(table, script) = dealer.deal().request else {
            continue;
        };
        let Ok(mut network) = table.network() else {
            continue;
        };
        for fields in records(&script).into_iter().take(300) {
            let step = Step::of(fields);
            let above = highest_level(&network) > depth(&network);
            let Some(after) = follow(&network, step, table.buffer.len()) else {
                break;
            };
            (steps, sweeps) = (steps + 1, sweeps + usize::from(step.rule == 8 && above));
            network = after;
        }
    }
    assert!(steps >= 2000 && sweeps >= 15, "{steps} steps, {sweeps} sweeps of gates above depth");
}

/// An RM3 table is at most twice as deep as its table, and one level more; no output of it stands lower than its node.
#[test]
fn rm3_tables_keep_depth() {
    let mut random = Random::new(8);
    for _ in 0..3000 {
        let network = networks::small(&mut random);
        for mode in [Mode::Once, Mode::Anew] {
            let rm3 = translate(&network, mode);
            assert!((depth(&network)..=2 * depth(&network) + 1).contains(&rm3.depth()), "{network:?}");
            assert_eq!(translate(&swept(&network), mode).depth(), rm3.depth(), "{network:?}");
        }
    }
}
