//! What the requests for words and totals of a run met.

use crate::answer::Answer;
use crate::at_once::{is_first, told, Asked, AtOnce, MOST_AT_ONCE, WORD};
use crate::request::PAST_OPERATIONS;
use crate::table::{census, Edge, Network};
use crate::value::outputs;

/// What there is to meet, and whether it was met.
type Met = Vec<(String, bool)>;

#[derive(Default)]
pub struct AtOnceCounts {
    /// What an operation has to meet, and how often it did.
    met: [Vec<(String, usize)>; PAST_OPERATIONS],
}

/// A request and its end.
struct Seen {
    /// Of the records, sound or not.
    inputs: usize,
    outputs: usize,
    places: usize,
    /// The refusal's number, 0 for none.
    refusal: u32,
    /// The network, where the request is accepted.
    network: Option<Network>,
    /// What was written: a word or a total for each output.
    written: Vec<u64>,
}

impl Seen {
    fn of(at_once: &AtOnce, answer: &Answer) -> Seen {
        let [inputs, _, outputs] = census(&at_once.table.records());
        let written = answer.bytes.chunks_exact(8).take(answer.numbers[0] as usize);
        let number = |place: &[u8]| place.iter().rev().fold(0, |high, &byte| high << 8 | u64::from(byte));
        Seen {
            inputs,
            outputs,
            places: at_once.places.len(),
            refusal: answer.refusal.map_or(0, |refusal| refusal.number),
            network: at_once.network().ok(),
            written: written.map(number).collect(),
        }
    }

    fn few(&self) -> bool {
        self.places < self.outputs
    }

    fn refused_table(&self) -> bool {
        (1..=5).contains(&self.refusal)
    }
}

fn named(met: Vec<(&str, bool)>) -> Met {
    met.into_iter().map(|(name, met)| (name.to_string(), met)).collect()
}

/// The numbers of inputs, the places, and refusals of which several would be right but for their order.
fn of_both(seen: &Seen) -> Met {
    let &Seen { inputs, outputs, places, refusal, .. } = seen;
    let many = inputs > MOST_AT_ONCE;
    let of_number = |number: usize| match number <= MOST_AT_ONCE {
        true => (format!("{number} inputs, accepted"), inputs == number && refusal == 0),
        false => (format!("{number} inputs, refused with 15"), inputs == number && refusal == 15),
    };
    let mut met: Met = (0..=18).chain([32]).map(of_number).collect();
    met.extend(named(vec![
        ("as many places as outputs", places == outputs && refusal == 0),
        ("more places than outputs", places > outputs && refusal == 0),
        ("32 outputs with a place each", places == outputs && outputs == 32 && refusal == 0),
        ("one place too few", places + 1 == outputs && places > 0 && refusal == 11),
        ("no place at all", places == 0 && refusal == 11),
        ("too many inputs, and too few places", many && seen.few() && refusal == 15),
        ("a refused table of too many inputs", many && seen.refused_table()),
        ("a refused table, and too few places", seen.few() && seen.refused_table()),
    ]));
    met
}

/// Outputs of fewer than six inputs that are true where every input is false. Past 2^n there is no assignment, and these would be true.
fn of_past(seen: &Seen) -> Met {
    let network = seen.network.as_ref().filter(|network| network.inputs < 6);
    let of_none = |is: fn(&Edge) -> bool| {
        network.is_some_and(|network| {
            let values = outputs(network, 0);
            network.outputs.iter().enumerate().any(|(place, edge)| is(edge) && values >> place & 1 == 1)
        })
    };
    let always = |network: &Network| told(network, Asked::Totals).contains(&(1 << network.inputs));
    named(vec![
        ("fewer than 6 inputs, and an inverted output that is true of none", of_none(|edge| edge.inverted)),
        ("fewer than 6 inputs, and a plain output that is true of none", of_none(|edge| !edge.inverted)),
        ("fewer than 6 inputs, and an output that is always true", network.is_some_and(always)),
    ])
}

/// First assignments at every border, and what is refused before a bad one or for it.
fn of_first(seen: &Seen, first: u32) -> Met {
    let &Seen { inputs, refusal, .. } = seen;
    let (bad, few) = (!is_first(inputs, first), seen.few());
    let past = 1u64.checked_shl(inputs as u32).unwrap_or(u64::MAX);
    let (first, word) = (u64::from(first), u64::from(WORD));
    let (multiple, low) = (first % word == 0, inputs < 6);
    named(vec![
        ("first assignment 0 of 6 inputs or more", first == 0 && !low && refusal == 0),
        ("the last first assignment", first > 0 && first + word == past && refusal == 0),
        ("a first assignment between these", first > 0 && first + word < past && refusal == 0),
        ("no multiple of 64, below 2^n of 7 inputs or more", !multiple && first < past && inputs > 6 && refusal == 6),
        ("no multiple of 64, below 2^n of fewer than 6 inputs", !multiple && first < past && low && refusal == 6),
        ("63", first == 63 && refusal == 6),
        ("2^n of 6 inputs or more", first == past && !low && refusal == 6),
        ("2^n of fewer than 6 inputs", first == past && low && refusal == 6),
        ("64 of fewer than 6 inputs", first == word && low && refusal == 6),
        ("64 of 6 inputs", first == word && inputs == 6 && refusal == 6),
        ("64 of 7 inputs", first == word && inputs == 7 && refusal == 0),
        ("65,536 of 16 inputs", first == 1 << 16 && inputs == 16 && refusal == 6),
        ("a multiple of 64 above 2^16", multiple && first > 1 << 16 && refusal == 6),
        ("a bad first assignment, and too few places", few && refusal == 6),
        ("too many inputs, and a bad first assignment", bad && !few && refusal == 15),
        ("too many inputs, a bad first assignment, and too few places", bad && few && refusal == 15),
        ("a refused table, and a bad first assignment", bad && seen.refused_table()),
    ])
}

/// Inputs that the first assignment has true, and on which a word hangs; words that are not the same from both ends.
fn of_words(seen: &Seen, first: u32) -> Met {
    let hangs = |input: usize| {
        let bit = 1 << (input - 1);
        let other = |network: &Network| told(network, Asked::Words(first ^ bit)) != seen.written;
        let met = first & bit != 0 && seen.network.as_ref().is_some_and(other);
        (format!("a word that hangs on input {input}, true in the first assignment"), met)
    };
    let turned = |word: &u64| word >> 63 == 1 && word & 1 == 0;
    let turned = ("bit 63 of a word, without bit 0".to_string(), seen.written.iter().any(turned));
    (7..=MOST_AT_ONCE).map(hangs).chain([turned]).collect()
}

fn of_totals(seen: &Seen) -> Met {
    let totals = &seen.written;
    named(vec![
        ("a total of 65,536", totals.contains(&65_536)),
        ("a total of 0", totals.contains(&0)),
        ("an odd total", totals.iter().any(|total| total % 2 == 1)),
        ("two outputs of other totals", totals.iter().any(|total| *total != totals[0])),
    ])
}

impl AtOnceCounts {
    pub fn note(&mut self, at_once: &AtOnce, answer: &Answer) {
        let seen = Seen::of(at_once, answer);
        let (operation, own) = match at_once.asked {
            Asked::Words(first) => (22, [of_first(&seen, first), of_words(&seen, first)].concat()),
            Asked::Totals => (23, of_totals(&seen)),
        };
        let met = [of_both(&seen), of_past(&seen), own].concat();
        let counts = &mut self.met[operation];
        counts.resize_with(met.len(), Default::default);
        for (count, (name, met)) in counts.iter_mut().zip(met) {
            *count = (name, count.1 + usize::from(met));
        }
    }

    pub fn never_met(&self, operation: u8) -> Vec<String> {
        let never = self.met[usize::from(operation)].iter().filter(|met| met.1 == 0);
        never.map(|(name, _)| format!("never met: {name}, by operation {operation}")).collect()
    }

    pub fn report(&self, operation: u8) -> Vec<String> {
        let met = self.met[usize::from(operation)].iter().map(|(name, count)| format!("  {name}: {count} times"));
        [format!("assignments at once by operation {operation}:")].into_iter().chain(met).collect()
    }
}
