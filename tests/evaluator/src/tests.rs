//! The evaluator against itself: its rules keep what a network is worth, its cases meet everything, and a program
//! with one slip is found out.

use crate::answer::{answer, Answer};
use crate::cases::Dealer;
use crate::counts::Counts;
use crate::request::{operations, Request};
use crate::rm3::Mode;
use crate::run::{run, Settings, ENOUGH};
use crate::step::{apply, Step};
use crate::table::{read, Refusal, MOST_GATES};
use crate::value::outputs;

/// How many requests the gate asks (the script `test`).
pub const GATE: usize = 18_450;

/// No accepted step changes an output, under any assignment.
#[test]
fn steps_keep_the_outputs() {
    let mut dealer = Dealer::new(5, &[4]);
    for _ in 0..3000 {
        let Request::Step(table, step) = dealer.deal().request else { panic!("no step") };
        let Ok(before) = table.network() else {
            continue;
        };
        let Ok(after) = apply(&before, step, 65_536) else {
            continue;
        };
        let assignments = 0..1 << before.inputs.min(6);
        assert!({ assignments }.all(|assignment| outputs(&before, assignment) == outputs(&after, assignment)));
    }
}

/// Runs against a fake program: the evaluator's own answers, changed by one slip.
fn fake(count: usize, slip: fn(&Request, Answer) -> Answer) -> Result<Counts, String> {
    let settings = Settings { seed: 3, count, operations: operations() };
    let mut counts = Counts::default();
    let ended = run(&settings, &mut counts, &mut |request, _| Ok(slip(request, answer(request)).bytes()));
    ended.map(|()| counts).map_err(|difference| difference.text)
}

/// Runs against a program with this slip for as many requests as the gate asks, or until it is found out.
pub fn against(slip: fn(&Request, Answer) -> Answer) -> Result<Counts, String> {
    fake(GATE, slip)
}

#[test]
fn a_run_against_its_own_answers_meets_everything() {
    let counts = fake(ENOUGH, |_, answer| answer).unwrap();
    assert_eq!(counts.passed(), ENOUGH);
    assert_eq!(counts.never_met(&operations()), Vec::<String>::new());
}

#[test]
fn a_slip_is_found_out() {
    let slips: [fn(&Request, Answer) -> Answer; 9] = [
        // Rule 1 takes the other edge.
        |request, own| match request {
            Request::Step(table, step) if step.rule == 1 && own.refusal.is_none() => {
                let other = Step { a: 3 - step.a, ..*step };
                answer(&Request::Step(table.clone(), other))
            }
            _ => own,
        },
        // 11 is looked for before 10.
        |request, mut own| {
            if let (Request::Step(table, _), Some(refusal)) = (request, &mut own.refusal) {
                if refusal.number == 10 && table.buffer.len() == table.used as usize {
                    refusal.number = 11;
                }
            }
            own
        },
        // Sweep leaves the old bytes behind the new used length.
        |request, mut own| {
            if let (Request::Step(table, _), None) = (request, own.refusal) {
                let freed = own.numbers[0] as usize..(table.used.max(own.numbers[0])) as usize;
                own.bytes[freed.clone()].copy_from_slice(&table.buffer[freed]);
            }
            own
        },
        // Refusal 6 from position n + 1 only.
        |request, own| match (request, own.refusal) {
            (Request::Evaluate(table, assignment), Some(refusal)) if refusal.number == 6 => {
                let bit = table.network().map_or(0, |network| 1 << network.inputs);
                answer(&Request::Evaluate(table.clone(), assignment & !bit))
            }
            _ => own,
        },
        // A voter's second and third roots are exchanged.
        |request, mut own| {
            if let (Request::Step(table, Step { rule: 9, gate, .. }), None) = (request, own.refusal) {
                let g = usize::from(*gate) + (own.numbers[0] - table.used) as usize / 8;
                own.bytes[8 * g - 4..8 * g].rotate_left(2);
            }
            own
        },
        // A voter that gives 1,024 gates is refused.
        |request, own| match request {
            Request::Step(table, Step { rule: 9, .. }) => match read(&own.bytes, own.numbers[0], None) {
                Ok(network) if network.gates.len() == MOST_GATES => {
                    Answer { refusal: Some(Refusal::plain(10)), numbers: vec![0], bytes: table.buffer.clone() }
                }
                _ => own,
            },
            _ => own,
        },
        // A voter takes a and b in either order.
        |request, own| match request {
            Request::Step(table, step @ Step { rule: 9, .. }) if step.a > step.b => {
                let other = Step { a: step.b, b: step.a, ..*step };
                answer(&Request::Step(table.clone(), other))
            }
            _ => own,
        },
        // A refused RM3 call writes a byte, in one mode or the other.
        |request, mut own| {
            if let (Request::Rm3(Mode::Anew, ..), Some(_), Some(byte)) = (request, own.refusal, own.bytes.last_mut()) {
                *byte = byte.wrapping_add(1);
            }
            own
        },
        |request, mut own| {
            if let (Request::Rm3(Mode::Once, ..), Some(_), Some(byte)) = (request, own.refusal, own.bytes.last_mut()) {
                *byte = byte.wrapping_add(1);
            }
            own
        },
    ];
    for (number, slip) in slips.into_iter().enumerate() {
        let text = against(slip).err().unwrap_or_else(|| panic!("slip {number} was not found out"));
        assert!(text.contains("expected") && text.contains("seed 3"), "{text}");
    }
}
