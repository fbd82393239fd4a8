//! What steps keep of depth, told from a request and its reply alone.

use crate::answer::Answer;
use crate::follow::Follow;
use crate::request::Request;
use crate::table::{read, records};
use crate::value::depth;

/// By how much a step of the rule may raise depth.
pub fn may_raise(rule: u16) -> u32 {
    u32::from(matches!(rule, 3..=5 | 9))
}

/// Whether a step of the rule leaves depth as it is: an exchange, an inversion and a sweep move no node that an output
/// names to another level.
pub fn keeps_depth(rule: u16) -> bool {
    matches!(rule, 1 | 6 | 8)
}

/// What is wrong with the depth after the steps of a reply that was as expected.
pub fn depth_fault(request: &Request, answer: &Answer) -> Option<String> {
    let (table, rules, used) = match request {
        Request::Step(table, step) if answer.refusal.is_none() => (table, vec![step.rule], answer.numbers[0]),
        Request::Script(table, script) | Request::Follow(Follow { table, script, .. }) => {
            let taken = records(script).into_iter().take(answer.numbers[0] as usize);
            (table, taken.map(|step| step[0]).collect(), answer.numbers[1])
        }
        _ => return None,
    };
    let before = depth(&table.network().ok()?);
    let Ok(network) = read(&answer.bytes, used, None) else {
        return Some("the steps leave no table".to_string());
    };
    let (after, most) = (depth(&network), before + rules.iter().map(|&rule| may_raise(rule)).sum::<u32>());
    if after > most {
        return Some(format!("depth {after} after the steps, at most {most} allowed"));
    }
    let kept = rules.iter().all(|&rule| keeps_depth(rule));
    (kept && after != before).then(|| format!("depth {after} after steps that keep it, {before} before them"))
}
