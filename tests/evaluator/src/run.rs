//! One run: cases dealt by the seed, each asked and compared until the first difference.

use crate::answer::answer;
use crate::cases::{Case, Dealer};
use crate::catalogue::Given;
use crate::counts::Counts;
use crate::depth_kept::depth_fault;
use crate::difference::{describe, differences, rm3_faults};
use crate::probes_kept::{lower_fault, probe_fault};
use crate::random::Random;
use crate::request::Request;

pub struct Settings {
    pub seed: u64,
    pub count: usize,
    pub operations: Vec<u8>,
}

/// The first difference of a run: its report and the request that met it.
pub struct Difference {
    pub text: String,
    pub request: Request,
}

/// From this many requests on, a run must meet every refusal, bad edge and rule that its operations can meet, gates that no
/// output reaches, and helpers that are reused.
pub const ENOUGH: usize = 3000;

/// How a run asks: the request and the length of its reply, which comes back whole or as what went wrong.
pub type Ask<'a> = &'a mut dyn FnMut(&Request, usize) -> Result<Vec<u8>, String>;

/// Asks all requests of a run until the first difference.
pub fn run(settings: &Settings, counts: &mut Counts, ask: Ask) -> Result<(), Box<Difference>> {
    let mut dealer = Dealer::new(settings.seed, &settings.operations);
    let mut random = Random::new(!settings.seed);
    let mut given = Given::default();
    for number in 1..=settings.count {
        let Case { kind, request } = dealer.deal();
        let own = answer(&request);
        let (expected, mut lines) = match ask(&request, own.bytes().len()) {
            Ok(reply) => {
                let (expected, fault) = given.expected(&request, own, &reply);
                let lines = differences(&request, &expected, &reply).into_iter().chain(fault).collect();
                (expected, lines)
            }
            Err(trouble) => (own, vec![trouble]),
        };
        if lines.is_empty() {
            lines.extend(rm3_faults(&request, &expected, &mut random));
            lines.extend(depth_fault(&request, &expected));
            lines.extend(lower_fault(&request, &expected));
            lines.extend(probe_fault(&request, &expected, &mut random));
        }
        if !lines.is_empty() {
            let place = format!("difference: seed {}, case {number}, {kind}", settings.seed);
            let text = format!("{place}\n{}{}\n", describe(&request), lines.join("\n"));
            return Err(Box::new(Difference { text, request }));
        }
        counts.note(&request, &expected);
    }
    Ok(())
}
