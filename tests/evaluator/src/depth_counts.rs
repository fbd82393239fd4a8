//! How often a run met tables with gates above their depth, and RM3 tables with operations above theirs.

use crate::answer::Answer;
use crate::request::{Request, PAST_OPERATIONS};
use crate::rm3::translate;
use crate::value::{depth, highest_level};

/// The operations of which depth is asked, or whose results have limits of depth.
const OPERATIONS: [u8; 6] = [3, 4, 5, 6, 8, 16];

#[derive(Default)]
pub struct DepthCounts {
    /// Accepted requests on such tables, by operation.
    above: [usize; PAST_OPERATIONS],
    /// Those among them whose depth is 0.
    above_none: [usize; PAST_OPERATIONS],
}

/// The depth of the table that the request is about, or of its RM3 table, and the highest level there.
fn depths(request: &Request) -> Option<[u32; 2]> {
    let network = match request {
        Request::Report(table) | Request::Step(table, _) | Request::Script(table, _) => table.network().ok()?,
        Request::ReadingReport(reading) => reading.network().ok()?,
        Request::Rm3(mode, table, _) => {
            let rm3 = translate(&table.network().ok()?, *mode);
            return Some([rm3.depth(), rm3.highest_level()]);
        }
        _ => return None,
    };
    Some([depth(&network), highest_level(&network)])
}

impl DepthCounts {
    pub fn note(&mut self, request: &Request, answer: &Answer) {
        if let (None, Some([depth, highest])) = (answer.refusal, depths(request)) {
            let operation = usize::from(request.operation());
            self.above[operation] += usize::from(depth < highest);
            self.above_none[operation] += usize::from(depth < highest && depth == 0);
        }
    }

    pub fn never_met(&self, operation: u8) -> Option<String> {
        let never = self.above_none[usize::from(operation)] == 0 && OPERATIONS.contains(&operation);
        never.then(|| format!("never met: gates, and depth 0, by operation {operation}"))
    }

    pub fn report(&self, asked: &[u8]) -> Vec<String> {
        let line = |&operation: &u8| {
            let [above, none] = [self.above, self.above_none].map(|counts| counts[usize::from(operation)]);
            format!("gates above depth: {above} accepted by operation {operation}, {none} of them with depth 0")
        };
        asked.iter().filter(|operation| OPERATIONS.contains(operation)).map(line).collect()
    }
}
