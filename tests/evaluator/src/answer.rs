//! The evaluator's own answer to a request, as the reply that must come back.

use crate::request::{place_bytes, Request};
use crate::rm3::translate;
use crate::script::{self, Progress};
use crate::step;
use crate::table::{Network, Refusal};
use crate::value::{depth, evaluate, size};

/// A reply: the refusal or none, the call's numbers, and the bytes of the buffer it may write, then those of the places.
#[derive(Clone, PartialEq, Eq, Debug)]
pub struct Answer {
    pub refusal: Option<Refusal>,
    pub numbers: Vec<u32>,
    pub bytes: Vec<u8>,
}

/// The names of a reply's numbers after the first three, by operation.
pub fn number_names(operation: u8) -> &'static [&'static str] {
    match operation {
        1 => &["inputs", "gates", "outputs"],
        2 | 7 => &["outputs' number"],
        3 | 8 => &["size", "depth"],
        4 => &["new used length"],
        5 | 28 => &["steps taken", "used length"],
        22 | 23 => &["places written"],
        _ => &["length"],
    }
}

impl Answer {
    /// An answer of as many numbers as the result has, all zero where it is refused.
    fn of<const N: usize>(result: Result<[u32; N], Refusal>, bytes: Vec<u8>) -> Answer {
        let numbers = result.unwrap_or([0; N]).to_vec();
        Answer { refusal: result.err(), numbers, bytes }
    }

    /// A script's answer, which has its numbers also where it is refused.
    fn of_script(progress: Progress, bytes: Vec<u8>) -> Answer {
        Answer { refusal: progress.refusal, numbers: vec![progress.taken, progress.used], bytes }
    }

    /// The answer of a call that writes these bytes to the buffer, where they fit it.
    fn written(bytes: Result<Vec<u8>, Refusal>, out: &[u8]) -> Answer {
        let mut out = out.to_vec();
        let length = bytes.and_then(|bytes| {
            let place = out.get_mut(..bytes.len()).ok_or(Refusal::plain(11))?;
            place.copy_from_slice(&bytes);
            Ok([bytes.len() as u32])
        });
        Answer::of(length, out)
    }

    pub fn bytes(&self) -> Vec<u8> {
        let refusal = self.refusal.unwrap_or(Refusal::plain(0));
        let head = [refusal.number, refusal.record, refusal.edge];
        let numbers = head.iter().chain(&self.numbers).flat_map(|number| number.to_le_bytes());
        numbers.chain(self.bytes.iter().copied()).collect()
    }
}

fn report(network: Network) -> [u32; 2] {
    [size(&network), depth(&network)]
}

pub fn answer(request: &Request) -> Answer {
    match request {
        Request::Check(table) => Answer::of(table.network().map(|network| network.counts()), vec![]),
        Request::Evaluate(table, assignment) => {
            let value = table.network().and_then(|network| evaluate(&network, *assignment));
            Answer::of(value.map(|value| [value]), vec![])
        }
        Request::Report(table) => Answer::of(table.network().map(report), vec![]),
        Request::Step(table, step) => {
            let mut buffer = table.buffer.clone();
            let network = table.network();
            let result = network.and_then(|network| step::apply(&network, *step, buffer.len()));
            let used = result.map(|result| [step::lay(&mut buffer, table.used, &result)]);
            Answer::of(used, buffer)
        }
        Request::Script(table, script) => {
            let mut buffer = table.buffer.clone();
            Answer::of_script(script::run(&mut buffer, table.used, script), buffer)
        }
        Request::Stored(stored) => {
            let mut buffer = stored.table.buffer.clone();
            Answer::of_script(stored.run(&mut buffer), buffer)
        }
        Request::Rm3(mode, table, out) => {
            Answer::written(table.network().map(|network| translate(&network, *mode).bytes()), out)
        }
        Request::ReadingEvaluate(reading, assignment) => {
            let value = reading.network().and_then(|network| evaluate(&network, *assignment));
            Answer::of(value.map(|value| [value]), vec![])
        }
        Request::ReadingReport(reading) => Answer::of(reading.network().map(report), vec![]),
        Request::AtOnce(at_once) => {
            let network = at_once.network();
            let places = network.as_ref().map_or(at_once.places.clone(), |network| at_once.written(network));
            Answer::of(network.map(|network| [network.outputs.len() as u32]), place_bytes(&places))
        }
        Request::Follow(follow) => {
            let mut bytes = follow.table.buffer.clone();
            let (progress, probes) = follow.run(&mut bytes);
            bytes.extend(place_bytes(&follow.written(&probes)));
            Answer::of_script(progress, bytes)
        }
        Request::Catalogue(_, out) => Answer::written(request.network().map(|network| network.bytes()), out),
    }
}
