//! What the stored scripts of a run met.

use crate::answer::Answer;
use crate::counts::possible;
use crate::stored::Stored;
use crate::table::records;

#[derive(Default)]
pub struct StoredCounts {
    asked: usize,
    /// Taken steps 2 that stayed, and those that became 10.
    kept: usize,
    changed: usize,
    /// Scripts with both.
    mixed: usize,
    /// Scripts with a step 2 among those after the one that was refused.
    left: usize,
    refusals: [usize; 13],
}

impl StoredCounts {
    pub fn note(&mut self, stored: &Stored, answer: &Answer) {
        let steps = records(&stored.converted);
        let (taken, rest) = steps.split_at(answer.numbers[0] as usize);
        let count = |rule| taken.iter().filter(|fields| fields[0] == rule).count();
        let (kept, changed) = (count(2), count(10));
        self.asked += 1;
        self.kept += kept;
        self.changed += changed;
        self.mixed += usize::from(kept > 0 && changed > 0);
        self.left += usize::from(rest.iter().skip(1).any(|fields| fields[0] == 2));
        if let Some(refusal) = answer.refusal {
            self.refusals[refusal.number as usize] += 1;
        }
    }

    pub fn never_met(&self) -> Vec<String> {
        let ways = [
            ("with a step 2 that became 10", self.changed),
            ("with a step 2 that stayed", self.kept),
            ("with both", self.mixed),
            ("with a step 2 after the one that was refused", self.left),
        ];
        let never = ways.iter().filter(|way| way.1 == 0).map(|way| format!("never met: a stored script {}", way.0));
        let refusals = possible(5).iter().filter(|&&number| self.refusals[number] == 0);
        never.chain(refusals.map(|number| format!("never met: a stored script refused {number}"))).collect()
    }

    pub fn report(&self) -> [String; 2] {
        let StoredCounts { asked, kept, changed, mixed, left, .. } = self;
        let refused = possible(5).iter().map(|&number| format!("{} by {number}", self.refusals[number]));
        let refused: Vec<String> = refused.collect();
        let changes = format!("{changed} steps 2 became 10 and {kept} stayed, {mixed} scripts have both");
        [
            format!("stored scripts: {asked} converted and compared with what they did, {changes}"),
            format!("stored scripts refused: {}; {left} have a step 2 after the refused one", refused.join(", ")),
        ]
    }
}
