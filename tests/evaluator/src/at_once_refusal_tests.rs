//! That a program with another opinion of when words and totals are refused is found out.

use crate::answer::Answer;
use crate::at_once::{told, Asked, AtOnce};
use crate::at_once_case_tests::{cut, found_out};
use crate::request::{place_bytes, Request};
use crate::table::{Network, Refusal};

/// The answer of a program that refuses otherwise, or not at all, where the table is accepted. A first assignment that it takes is
/// taken without its low bits, and of too few places it fills those that are there.
fn refusing(request: &Request, own: Answer, why: fn(&AtOnce, &Network, u32) -> u32) -> Answer {
    let (Request::AtOnce(at_once), Ok(network)) = (request, request.network()) else {
        return own;
    };
    let number = own.refusal.map_or(0, |refusal| refusal.number);
    match why(at_once, &network, number) {
        same if same == number => own,
        0 => {
            let asked = match at_once.asked {
                Asked::Words(first) => Asked::Words(first / 64 * 64 % (1 << network.inputs.min(16))),
                Asked::Totals => Asked::Totals,
            };
            let inputs = network.inputs.min(16);
            let mut places = at_once.places.clone();
            let numbers = told(&Network { inputs, ..cut(&network, inputs) }, asked);
            places.iter_mut().zip(&numbers).for_each(|(place, number)| *place = *number);
            Answer { refusal: None, numbers: vec![numbers.len() as u32], bytes: place_bytes(&places) }
        }
        other => Answer { refusal: Some(Refusal::plain(other)), numbers: vec![0], bytes: place_bytes(&at_once.places) },
    }
}

/// Whether the first assignment is refused by itself.
fn bad_first(at_once: &AtOnce, network: &Network) -> bool {
    matches!(at_once.asked, Asked::Words(first) if first % 64 != 0 || u64::from(first) >> network.inputs != 0)
}

fn few(at_once: &AtOnce, network: &Network) -> bool {
    at_once.places.len() < network.outputs.len()
}

#[test]
fn another_opinion_of_refusals_is_found_out() {
    found_out(&[
        // 6 before 15, 11 before 15, 11 before 6.
        |request, own| {
            refusing(request, own, |at_once, network, number| match number {
                15 if bad_first(at_once, network) => 6,
                _ => number,
            })
        },
        |request, own| {
            refusing(request, own, |at_once, network, number| match number {
                15 if few(at_once, network) => 11,
                _ => number,
            })
        },
        |request, own| {
            refusing(request, own, |at_once, network, number| match number {
                6 if few(at_once, network) => 11,
                _ => number,
            })
        },
        // 15 before the table's own refusals.
        |request, own| match (request, own.refusal) {
            (Request::AtOnce(_), Some(refusal)) if refusal.number >= 4 => {
                match request.records().iter().filter(|record| record[0] & 0xff == 1).count() {
                    17.. => Answer { refusal: Some(Refusal::plain(15)), ..own },
                    _ => own,
                }
            }
            _ => own,
        },
        // 16 inputs are too many, or 17 are not.
        |request, own| refusing(request, own, |_, network, number| if network.inputs == 16 { 15 } else { number }),
        |request, own| {
            refusing(request, own, |_, network, number| match (network.inputs, number) {
                (17, 15) => 0,
                _ => number,
            })
        },
        // A first assignment of any low bits; 2^n; any multiple of 64; with few inputs any below 2^n, or 64.
        |request, own| {
            refusing(request, own, |at_once, network, number| match at_once.asked {
                Asked::Words(first) if number == 6 && u64::from(first) >> network.inputs == 0 => 0,
                _ => number,
            })
        },
        |request, own| {
            refusing(request, own, |at_once, network, number| match at_once.asked {
                Asked::Words(first) if number == 6 && first == 1 << network.inputs && network.inputs >= 6 => 0,
                _ => number,
            })
        },
        |request, own| {
            refusing(request, own, |at_once, _, number| match at_once.asked {
                Asked::Words(first) if number == 6 && first % 64 == 0 => 0,
                _ => number,
            })
        },
        |request, own| {
            refusing(request, own, |at_once, network, number| match at_once.asked {
                Asked::Words(first) if number == 6 && network.inputs < 6 && first >> network.inputs == 0 => 0,
                _ => number,
            })
        },
        |request, own| {
            refusing(request, own, |at_once, network, number| match at_once.asked {
                Asked::Words(64) if number == 6 && network.inputs < 6 => 0,
                _ => number,
            })
        },
        // The last word is refused.
        |request, own| {
            refusing(request, own, |at_once, network, number| match at_once.asked {
                Asked::Words(first) if first > 0 && first + 64 == 1 << network.inputs.min(16) => 6,
                _ => number,
            })
        },
        // As many places as outputs are too few; one too few is enough; none is.
        |request, own| {
            refusing(request, own, |at_once, network, number| match number {
                0 if at_once.places.len() == network.outputs.len() => 11,
                _ => number,
            })
        },
        |request, own| {
            refusing(request, own, |at_once, network, number| match number {
                11 if at_once.places.len() + 1 == network.outputs.len() => 0,
                _ => number,
            })
        },
        |request, own| {
            refusing(request, own, |at_once, _, number| match number {
                11 if at_once.places.is_empty() => 0,
                _ => number,
            })
        },
        // 3 where 15 is, and 12 where 11 is.
        |request, own| refusing(request, own, |_, _, number| if number == 15 { 3 } else { number }),
        |request, own| refusing(request, own, |_, _, number| if number == 11 { 12 } else { number }),
        // A refused call clears the places.
        |request, own| match (request, own.refusal) {
            (Request::AtOnce(at_once), Some(_)) => Answer { bytes: vec![0; 8 * at_once.places.len()], ..own },
            _ => own,
        },
    ]);
}
